#define _DEFAULT_SOURCE
#include "pool.h"

#include <inttypes.h>
#include <stdatomic.h>
#include <stdio.h>
#include <stdlib.h>
#include <string.h>
#include <sys/mman.h>
#include <sys/wait.h>
#include <unistd.h>

/* One life, as a process reports it. It is shorter than PIPE_BUF, so that reports of different processes don't mix. */
struct report {
    uint64_t outcome, seed, counts[DRIVER_COUNTS];
};

/* What the processes share: the number of the next life, and the life that each has begun. */
struct board {
    atomic_uint_fast64_t next;
    uint64_t begun[DRIVER_JOBS];
};

bool pool_is_finding(const struct driver *driver, const uint64_t *counts) {
    for (size_t i = 0; i < driver->columns_len; i++) {
        if (driver->columns[i].is_finding && counts[i]) return true;
    }
    return false;
}

static _Noreturn void live(const struct pool_work *work, struct board *board, uint64_t job, int pipe) {
    uint64_t lives = work->outcomes_len * work->seeds;
    for (uint64_t life; (life = atomic_fetch_add(&board->next, 1)) < lives;) {
        struct report report = {.outcome = life / work->seeds, .seed = work->first + life % work->seeds};
        board->begun[job] = life;
        work->driver->live(work->outcomes[report.outcome].mode, report.seed, false, report.counts);
        if (write(pipe, &report, sizeof report) != sizeof report) _exit(2);
    }
    _exit(0);
}

static bool record(const struct pool_work *work, const struct report *report) {
    struct pool_outcome *outcome = &work->outcomes[report->outcome];
    outcome->lives++;
    for (size_t i = 0; i < DRIVER_COUNTS; i++) outcome->counts[i] += report->counts[i];
    if (!pool_is_finding(work->driver, report->counts)) return true;
    uint64_t *more = realloc(outcome->seeds, (outcome->seeds_len + 1) * sizeof *more);
    if (!more) return false;
    outcome->seeds = more;
    outcome->seeds[outcome->seeds_len++] = report->seed;
    return true;
}

static void print_progress(const char *mode, uint64_t done, uint64_t lives, uint64_t failed) {
    static bool is_terminal, is_known;
    if (!is_known) is_terminal = isatty(STDERR_FILENO), is_known = true;
    if (!is_terminal) return;
    fprintf(stderr, "\r%" PRIu64 " of %" PRIu64 " lives, %" PRIu64 " with a finding: %-32s", done, lives, failed, mode);
    if (done == lives) fputs("\r\033[K", stderr);
}

/* Reads all of a report. False at the end. */
static bool read_report(int pipe, struct report *report) {
    size_t len = 0;
    while (len < sizeof *report) {
        ssize_t more = read(pipe, (char *)report + len, sizeof *report - len);
        if (more <= 0) return false;
        len += (size_t)more;
    }
    return true;
}

static bool collect(const struct pool_work *work, int pipe) {
    struct report report;
    uint64_t done = 0, failed = 0, lives = work->outcomes_len * work->seeds;
    while (read_report(pipe, &report)) {
        if (!record(work, &report)) return false;
        failed += pool_is_finding(work->driver, report.counts);
        print_progress(work->outcomes[report.outcome].mode, ++done, lives, failed);
    }
    return done == lives;
}

static int compare_seeds(const void *a, const void *b) {
    uint64_t left = *(const uint64_t *)a, right = *(const uint64_t *)b;
    return (left > right) - (left < right);
}

/* Waits for a process, and says which life it didn't end. */
static bool ends_well(const struct pool_work *work, pid_t process, uint64_t life) {
    int status;
    if (waitpid(process, &status, 0) == process && WIFEXITED(status) && WEXITSTATUS(status) == 0) return true;
    fprintf(stderr, "%s: this life didn't end: --seed %" PRIu64 " %s\n", work->driver->name, work->first + life % work->seeds,
            work->outcomes[life / work->seeds].mode);
    return false;
}

bool pool_run(const struct pool_work *work) {
    pid_t processes[DRIVER_JOBS];
    int ends[2];
    uint64_t started = 0;
    struct board *board = mmap(NULL, sizeof *board, PROT_READ | PROT_WRITE, MAP_SHARED | MAP_ANONYMOUS, -1, 0);
    if (board == MAP_FAILED || pipe(ends) != 0) return perror(work->driver->name), false;
    fflush(NULL);
    for (; started < work->jobs; started++) {
        processes[started] = fork();
        if (processes[started] < 0) break;
        if (processes[started] == 0) live(work, board, started, ends[1]);
    }
    close(ends[1]);
    bool is_well = started > 0 && collect(work, ends[0]);
    for (uint64_t i = 0; i < started; i++) is_well &= ends_well(work, processes[i], board->begun[i]);
    for (uint64_t i = 0; i < work->outcomes_len; i++) {
        struct pool_outcome *outcome = &work->outcomes[i];
        if (outcome->seeds_len) qsort(outcome->seeds, outcome->seeds_len, sizeof *outcome->seeds, compare_seeds);
    }
    close(ends[0]);
    munmap(board, sizeof *board);
    return is_well;
}
