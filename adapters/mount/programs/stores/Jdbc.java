import java.nio.file.*;
import java.sql.*;

/** HSQLDB (Jdbc-hsqldb), H2 (Jdbc-h2) and Derby (Jdbc-derby) in the process: a transaction for each key. The words are those of stores.c. */
public class Jdbc {
    public static void main(String[] words) throws Exception {
        String path = words[1], url = "jdbc:derby:" + path + "/d;create=true";
        if (words[0].endsWith("hsqldb")) url = "jdbc:hsqldb:file:" + path + "/d;hsqldb.write_delay=false;hsqldb.log_size=1";
        if (words[0].endsWith("h2")) url = "jdbc:h2:" + path + "/d;WRITE_DELAY=0";
        try (Connection db = DriverManager.getConnection(url); Statement statement = db.createStatement()) {
            try {
                statement.execute("create table t(k int primary key, v varchar(1000))");
            } catch (SQLException error) {
                if (words[2].equals("make")) throw error;
            }
            if (words[2].equals("work")) work(db, Integer.parseInt(words[3]), Integer.parseInt(words[4]), Path.of(words[5]));
            if (words[2].equals("list")) {
                ResultSet rows = statement.executeQuery("select k, v from t");
                while (rows.next()) System.out.println(rows.getInt(1) + "|" + rows.getString(2));
                System.out.println("end");
            }
            if (words[2].equals("make") && words[0].endsWith("hsqldb")) statement.execute("shutdown");
        }
    }

    static void work(Connection db, int operations, int keys, Path acknowledged) throws Exception {
        PreparedStatement update = db.prepareStatement("update t set v = ? where k = ?");
        PreparedStatement insert = db.prepareStatement("insert into t(v, k) values(?, ?)");
        db.setAutoCommit(false);
        for (int number = 1; number <= operations; number++) {
            PreparedStatement put = number <= keys ? insert : update;
            put.setString(1, number + ":" + String.valueOf((char) ('a' + number % 26)).repeat(number * 37 % 900));
            put.setInt(2, number % keys);
            put.executeUpdate();
            db.commit();
            Files.writeString(acknowledged, number + "\n", StandardOpenOption.APPEND);
        }
    }
}
