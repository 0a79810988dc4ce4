// A crash by pipe, from Java: BLOBCRASH=out/blobcrash java examples/Pipe.java
import java.io.BufferedReader;
import java.io.InputStreamReader;
import java.io.PrintWriter;
import java.util.List;

class Pipe {
    public static void main(String[] arguments) throws Exception {
        Process program = new ProcessBuilder(System.getenv("BLOBCRASH")).redirectError(ProcessBuilder.Redirect.INHERIT).start();
        PrintWriter lines = new PrintWriter(program.getOutputStream(), true);
        BufferedReader replies = new BufferedReader(new InputStreamReader(program.getInputStream()));
        lines.println("words 0 0 max"); // a preamble line has no reply
        for (String call : List.of("config write 0 1 1 2 prefix", "open p 62", "write 0 0 616263", "crash", "reopen", "open p 62", "read 1 0 2")) {
            lines.println(call);
            System.out.println(call + " => " + replies.readLine()); // each reply arrives before the next line is due
        }
        lines.close();
    }
}
