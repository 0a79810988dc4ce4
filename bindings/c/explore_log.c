/*
 * A log in two blobs, over every crash of a small run: the power fails at each call in turn, and a crash keeps each prefix of a write.
 *
 * `log` has records of three bytes. `head` has one byte, the number of records that are acknowledged. Recovery must find that many.
 *
 * explore_log [seeds] [forget-sync | head-first] [SCRIPT]: every outcome, or with `seeds` the first 200 seeds without a power loss.
 * With `forget-sync` a record is acknowledged before it is durable, and with `head-first` the head is written before the record. The
 * first run that loses a record is printed, with status 1, and written to the file SCRIPT.
 */
#include "explore.h"

enum { LEN = 3, RECORDS = 2 };

static const char *const settings = "config write 0 1 1 2 prefix\n";

struct log {
    struct blobcrash_paths paths;
    struct blobcrash_session session;
    size_t records, head;
    uint8_t count;
    bool forgets_sync, head_first;
    const char *damage;
};

static bool call(struct log *log, const char *line, char *reply, size_t capacity) {
    struct blobcrash_ran ran =
        blobcrash_explored_call(&log->paths, &log->session, (const uint8_t *)line, strlen(line), (uint8_t *)reply, capacity - 1);
    if (ran.status == BLOBCRASH_POWER_LOSS) return false;
    if (ran.status != BLOBCRASH_DONE) exit(2);
    reply[ran.len] = 0;
    return strncmp(reply, "error", 5) != 0;
}

static bool call_with(struct log *log, const char *format, size_t handle, size_t number) {
    char line[64], reply[64];
    snprintf(line, sizeof line, format, handle, number);
    return call(log, line, reply, sizeof reply);
}

static bool open_blob(struct log *log, const char *line, size_t *handle, size_t *size) {
    char reply[64];
    return call(log, line, reply, sizeof reply) && sscanf(reply, "opened %zu %zu", handle, size) == 2;
}

static void make_record(uint8_t *bytes, uint8_t number) {
    bytes[0] = number;
    bytes[1] = 'r';
    bytes[2] = (uint8_t)(number ^ 0x5a);
}

/* Opens the log, and truncates what isn't acknowledged. `false` if the power failed. */
static bool recover(void *context) {
    struct log *log = context;
    uint8_t bytes[LEN], wanted[LEN];
    size_t size, head_size;
    if (!open_blob(log, "open wal 6c6f67", &log->records, &size)) return false;
    if (!open_blob(log, "open wal 68656164", &log->head, &head_size)) return false;
    log->count = 0;
    if (head_size > 0 && blobcrash_explored_read(&log->paths, &log->session, log->head, 0, &log->count, 1) != BLOBCRASH_DONE) return false;
    for (uint8_t number = 0; number < log->count; number++) {
        make_record(wanted, number);
        uint32_t status = blobcrash_explored_read(&log->paths, &log->session, log->records, LEN * number, bytes, LEN);
        if (status == BLOBCRASH_POWER_LOSS) return false;
        if (status != BLOBCRASH_DONE || memcmp(bytes, wanted, LEN) != 0) log->damage = "a record that is acknowledged is lost";
    }
    size_t end = (size_t)LEN * log->count;
    return size <= end || (call_with(log, "resize %zu %zu", log->records, end) && call_with(log, "sync %zu", log->records, 0));
}

static bool write_head(struct log *log) {
    uint8_t count = (uint8_t)(log->count + 1);
    return blobcrash_explored_write(&log->paths, &log->session, log->head, 0, &count, 1, true) == BLOBCRASH_DONE;
}

static bool write_record(struct log *log) {
    uint8_t bytes[LEN];
    make_record(bytes, log->count);
    uint64_t offset = (uint64_t)LEN * log->count;
    if (blobcrash_explored_write(&log->paths, &log->session, log->records, offset, bytes, LEN, false) != BLOBCRASH_DONE) return false;
    return log->forgets_sync || call_with(log, "sync %zu", log->records, 0);
}

/* Appends a record. Once this is `true` it must never be lost. */
static bool append(struct log *log) {
    bool is_done = log->head_first ? write_head(log) && write_record(log) : write_record(log) && write_head(log);
    log->count += is_done;
    return is_done;
}

/* One run: appends records, then crashes and recovers twice. Returns what is wrong, or NULL. */
static const char *live(struct log *log) {
    log->damage = NULL;
    log->count = 0;
    unsigned appended = 0;
    for (bool is_on = recover(log); is_on && appended < RECORDS; appended += is_on) is_on = append(log);
    for (int again = 0; again < 2 && log->damage == NULL; again++) {
        if (!blobcrash_recover(&log->paths, &log->session, recover, log)) return "the log can't be recovered";
        if (log->count < appended || log->count > appended + 1) return "the head has another number of records";
    }
    return log->damage;
}

/* Opens the file for the script of the run that failed, which is made again. `false` if there is none. */
static bool open_script(struct log *log, const char *name) {
    FILE *script = name == NULL ? NULL : fopen(name, "w");
    blobcrash_repeat_run(&log->paths, script);
    return script != NULL;
}

static int explore(struct log *log, const char *script) {
    int status;
    while ((status = blobcrash_next_run(&log->paths, &log->session, settings)) == BLOBCRASH_EXPLORE_RUN) {
        const char *wrong = live(log);
        status = blobcrash_end_run(&log->paths, &log->session);
        if (status == BLOBCRASH_EXPLORE_AGAIN) continue;
        if (status != BLOBCRASH_EXPLORE_RUN) return 2;
        if (wrong == NULL) continue;
        printf("run %" PRIu64 ": %s\n", log->paths.runs, wrong);
        if (!open_script(log, script)) return 1;
        if (blobcrash_next_run(&log->paths, &log->session, settings) != BLOBCRASH_EXPLORE_RUN || live(log) != wrong) return 2;
        blobcrash_end_run(&log->paths, &log->session);
        return fclose(log->paths.script) == 0 ? 1 : 2;
    }
    printf("%" PRIu64 " runs, all of them%s\n", log->paths.runs, blobcrash_unkept(&log->paths));
    return status == BLOBCRASH_EXPLORE_END ? 0 : 2;
}

static const char *live_by_seed(struct log *log, unsigned seed) {
    char preamble[64];
    int len = snprintf(preamble, sizeof preamble, "seed %u\n%s", seed, settings);
    if (log->paths.script != NULL) fputs(preamble, log->paths.script);
    if (blobcrash_open(&log->session, (const uint8_t *)preamble, (size_t)len).status != BLOBCRASH_DONE) exit(2);
    const char *wrong = live(log);
    blobcrash_close(&log->session);
    return wrong;
}

static int by_seeds(struct log *log, const char *script) {
    for (unsigned seed = 0; seed < 200; seed++) {
        const char *wrong = live_by_seed(log, seed);
        if (wrong == NULL) continue;
        printf("seed %u: %s\n", seed, wrong);
        if (!open_script(log, script)) return 1;
        return live_by_seed(log, seed) == wrong && fclose(log->paths.script) == 0 ? 1 : 2;
    }
    printf("200 seeds, none fails\n");
    return 0;
}

int main(int argc, char **argv) {
    struct log log = {.paths = {.power_losses = 1}};
    bool has_seeds = argc > 1 && strcmp(argv[1], "seeds") == 0;
    argc -= has_seeds;
    argv += has_seeds;
    log.forgets_sync = argc > 1 && strcmp(argv[1], "forget-sync") == 0;
    log.head_first = argc > 1 && strcmp(argv[1], "head-first") == 0;
    if (has_seeds) log.paths.power_losses = 0;
    int status = has_seeds ? by_seeds(&log, argc > 2 ? argv[2] : NULL) : explore(&log, argc > 2 ? argv[2] : NULL);
    blobcrash_free_paths(&log.paths);
    return status;
}
