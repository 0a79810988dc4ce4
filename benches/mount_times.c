/*
 * mount_times SECONDS {DIR DAEMON}..: times calls in folders, in turn, three rounds of SECONDS for each. DAEMON is the process that serves
 * the folder, or 0. Prints a line for each workload: its name, then for each folder the microseconds of an operation in the fastest round,
 * and those of the processor in the least, of this process and the daemon.
 *
 * mount_times WORKLOAD COUNT DIR: makes a workload's operations that many times, without a time, for a count of instructions.
 */
#define _GNU_SOURCE
#include <fcntl.h>
#include <stdbool.h>
#include <stdio.h>
#include <stdlib.h>
#include <string.h>
#include <sys/types.h>
#include <time.h>
#include <unistd.h>
#ifdef WITH_SQLITE
#include <sqlite3.h>
#endif

enum { MEGABYTE = 1 << 20, PAGE = 4096, FILE_PAGES = 4096, ROUNDS = 3, DIRS = 8 };

static char bytes[MEGABYTE];
static int folder, file;

static void need(long result, const char *what) {
    if (result >= 0) return;
    perror(what);
    exit(1);
}

/* Returns the microseconds of a clock. */
static double time_of(clockid_t clock) {
    struct timespec time = {0};
    clock_gettime(clock, &time);
    return (double)time.tv_sec * 1e6 + (double)time.tv_nsec / 1e3;
}

/* Returns the microseconds of the processor that this process and a daemon have used. */
static double used_with(pid_t daemon) {
    clockid_t clock;
    double used = time_of(CLOCK_PROCESS_CPUTIME_ID);
    return daemon && clock_getcpuclockid(daemon, &clock) == 0 ? used + time_of(clock) : used;
}

static void open_file(const char *name) {
    file = openat(folder, name, O_RDWR | O_CREAT, 0644);
    need(file, name);
}

static void begin_pages(void) {
    open_file("pages");
    for (int at = 0; at < FILE_PAGES * PAGE / MEGABYTE; at++) need(pwrite(file, bytes, MEGABYTE, (off_t)at * MEGABYTE), "write");
    need(fsync(file), "fsync");
}

static void write_page(unsigned long number) {
    need(pwrite(file, bytes, PAGE, (off_t)(number * 7919 % FILE_PAGES) * PAGE), "write");
}

static void write_sync(unsigned long number) {
    write_page(number);
    need(fdatasync(file), "fdatasync");
}

static void begin_append(void) { open_file("appended"); }

static void append_sync(unsigned long number) {
    need(pwrite(file, bytes, 100, (off_t)number * 100), "write");
    need(fsync(file), "fsync");
}

static void begin_sequence(void) { open_file("sequence"); }

/* A file of 64 MB, again and again. */
static void write_megabyte(unsigned long number) {
    if (number % 64 == 0) need(ftruncate(file, 0), "ftruncate");
    need(pwrite(file, bytes, MEGABYTE, (off_t)(number % 64) * MEGABYTE), "write");
    if (number % 64 == 63) need(fsync(file), "fsync");
}

static void read_megabyte(unsigned long number) {
    off_t at = (off_t)(number % (FILE_PAGES * PAGE / MEGABYTE)) * MEGABYTE;
    need(posix_fadvise(file, at, MEGABYTE, POSIX_FADV_DONTNEED), "fadvise");
    need(pread(file, bytes, MEGABYTE, at), "read");
}

static void begin_replace(void) { file = -1; }

static void replace(unsigned long number) {
    char name[32];
    snprintf(name, sizeof name, "replaced%lu", number % 100);
    int new = openat(folder, "new", O_RDWR | O_CREAT | O_EXCL, 0644);
    need(new, "create");
    need(write(new, bytes, 1000), "write");
    need(fsync(new), "fsync");
    need(close(new), "close");
    need(renameat(folder, "new", folder, name), "rename");
    need(fsync(folder), "fsync");
}

#ifdef WITH_SQLITE
static sqlite3 *database;

static void run_sql(const char *text) {
    char *error;
    if (sqlite3_exec(database, text, NULL, NULL, &error) == SQLITE_OK) return;
    fprintf(stderr, "%s: %s\n", text, error);
    exit(1);
}

static void begin_database(void) {
    char path[64];
    snprintf(path, sizeof path, "/proc/self/fd/%d/database", folder);
    file = -1;
    if (sqlite3_open(path, &database) != SQLITE_OK) exit(1);
    run_sql("pragma journal_mode = wal; pragma synchronous = full; create table if not exists t(n integer primary key, x)");
}

static void insert(unsigned long number) {
    (void)number;
    run_sql("insert into t(x) values(hex(randomblob(200)))");
}
#endif

static const struct workload {
    const char *name;
    void (*begin)(void);
    void (*run)(unsigned long number);
} workloads[] = {
    {"4 KB write, fdatasync", begin_pages, write_sync},
    {"4 KB write", begin_pages, write_page},
    {"100 bytes appended, fsync", begin_append, append_sync},
    {"1 MB write, in sequence", begin_sequence, write_megabyte},
    {"1 MB read, not cached", begin_pages, read_megabyte},
    {"create, write, fsync, rename, fsync of the folder", begin_replace, replace},
#ifdef WITH_SQLITE
    {"a transaction of SQLite in WAL, FULL", begin_database, insert},
#endif
};
enum { WORKLOADS = sizeof workloads / sizeof *workloads };

static void begin(const struct workload *workload, const char *at) {
    folder = open(at, O_RDONLY | O_DIRECTORY);
    need(folder, at);
    workload->begin();
}

static void end(void) {
#ifdef WITH_SQLITE
    sqlite3_close(database);
    database = NULL;
#endif
    if (file >= 0) close(file);
    close(folder);
}

/* The microseconds of an operation, and those of the processor. */
struct measured {
    double time, used;
};

static struct measured measure(const struct workload *workload, char **folder_and_daemon, double seconds) {
    pid_t daemon = (pid_t)atol(folder_and_daemon[1]);
    unsigned long count = 0;
    begin(workload, folder_and_daemon[0]);
    double used = used_with(daemon), start = time_of(CLOCK_MONOTONIC), until = start + seconds * 1e6, time;
    do workload->run(count++);
    while ((time = time_of(CLOCK_MONOTONIC)) < until);
    used = used_with(daemon) - used;
    end();
    return (struct measured){(time - start) / (double)count, used / (double)count};
}

static void measure_all(const struct workload *workload, char **folders, int count, double seconds) {
    struct measured least[DIRS];
    for (int round = 0; round < ROUNDS; round++) {
        for (int at = 0; at < count; at++) {
            struct measured found = measure(workload, folders + 2 * at, seconds);
            if (round == 0 || found.time < least[at].time) least[at].time = found.time;
            if (round == 0 || found.used < least[at].used) least[at].used = found.used;
        }
    }
    printf("%s", workload->name);
    for (int at = 0; at < count; at++) printf("\t%.1f\t%.1f", least[at].time, least[at].used);
    putchar('\n');
    fflush(stdout);
}

int main(int count, char **words) {
    memset(bytes, 'x', sizeof bytes);
    for (int at = 0; at < WORKLOADS; at++) {
        if (count == 4 && strcmp(words[1], workloads[at].name) == 0) {
            begin(&workloads[at], words[3]);
            for (unsigned long number = 0; number < strtoul(words[2], NULL, 10); number++) workloads[at].run(number);
            end();
            return 0;
        }
    }
    if (count < 4 || count % 2 || (count - 2) / 2 > DIRS || atof(words[1]) <= 0) return 2;
    for (int at = 0; at < WORKLOADS; at++) measure_all(&workloads[at], words + 2, (count - 2) / 2, atof(words[1]));
    return 0;
}
