/*
 * A log with recovery, tested over crashes: a file to copy and to change.
 *
 * The log acknowledges a record once it is synced. Whatever fails and wherever it crashes, recovery has to find each
 * acknowledged record, in order, and may find one more: the record that was being appended.
 *
 * log [forget-sync [SCRIPT]]: 200 lives of the log, one per seed. With `forget-sync` a record is acknowledged before it is durable,
 * which has to be found: the first life that loses a record is reported, with status 1, and written to the file SCRIPT as a script.
 */
#include "blobcrash.h"

static void on_line(struct blobcrash_session *session, const char *line, size_t len);
#define BLOBCRASH_ON_LINE on_line
#include "blobcrash_calls.h"

#include <inttypes.h>
#include <stdio.h>
#include <stdlib.h>
#include <string.h>

enum { HEAD = 12, LONGEST = 40, ROUNDS = 16, APPENDS = 8, MOST_RECORDS = ROUNDS * APPENDS, ROOM = MOST_RECORDS * (HEAD + LONGEST) };

struct record {
    size_t len;
    uint8_t payload[LONGEST];
};

struct records {
    size_t count;
    struct record at[MOST_RECORDS + 1];
};

struct log {
    struct blobcrash_session *session;
    size_t handle;
    uint64_t end;
    bool forgets_sync;
};

/* The preamble and the calls of a life, as a script. */
static FILE *script;

static void on_line(struct blobcrash_session *session, const char *line, size_t len) {
    (void)session;
    if (script != NULL && line != NULL) fprintf(script, "%.*s\n", (int)len, line);
}

/* Ends the test if the layer itself failed; a fault that it injected is one of the others. */
static bool is_done(uint32_t status) {
    if (status == BLOBCRASH_DONE || status == BLOBCRASH_E_INJECTED) return status == BLOBCRASH_DONE;
    fprintf(stderr, "status %" PRIu32 "\n", status);
    exit(2);
}

/* FNV-1a of the offset and the payload, so that zeros, and a record written at another offset, don't match. */
static uint64_t checksum(uint64_t offset, const uint8_t *payload, size_t len) {
    uint64_t sum = 0xcbf29ce484222325;
    for (int i = 0; i < 8; i++) sum = (sum ^ (offset >> 8 * i & 0xff)) * 0x100000001b3;
    for (size_t i = 0; i < len; i++) sum = (sum ^ payload[i]) * 0x100000001b3;
    return sum;
}

static uint64_t little_endian(const uint8_t *bytes, int count) {
    uint64_t number = 0;
    while (count-- > 0) number = number << 8 | bytes[count];
    return number;
}

/* Whether a whole record begins at this offset of the log's bytes. */
static bool record_at(const uint8_t *bytes, size_t len, size_t offset, struct record *record) {
    if (len - offset < HEAD) return false;
    record->len = little_endian(bytes + offset, 4);
    if (record->len > LONGEST || record->len > len - offset - HEAD) return false;
    memcpy(record->payload, bytes + offset + HEAD, record->len);
    return little_endian(bytes + offset + 4, 8) == checksum(offset, record->payload, record->len);
}

/* Opens the log, truncates what no append finished, and returns the records. False if a fault cut it short. */
static bool recover(struct log *log, struct blobcrash_session *session, struct records *records) {
    static uint8_t bytes[ROOM];
    uint64_t size;
    size_t end = 0;
    if (!is_done(blobcrash_open_blob(session, "wal", 3, "log", 3, &log->handle, &size))) return false;
    log->session = session;
    if (size > sizeof bytes || !is_done(blobcrash_read_at(session, log->handle, 0, bytes, size))) return false;
    records->count = 0;
    while (records->count <= MOST_RECORDS && record_at(bytes, size, end, &records->at[records->count])) {
        end += HEAD + records->at[records->count++].len;
    }
    log->end = end;
    return end == size || (is_done(blobcrash_resize(session, log->handle, end)) && is_done(blobcrash_sync(session, log->handle)));
}

/* Appends a record. Once this is true it must never be lost. */
static bool append(struct log *log, const struct record *record) {
    uint8_t bytes[HEAD + LONGEST];
    uint64_t sum = checksum(log->end, record->payload, record->len);
    for (int i = 0; i < 4; i++) bytes[i] = (uint8_t)(record->len >> 8 * i);
    for (int i = 0; i < 8; i++) bytes[4 + i] = (uint8_t)(sum >> 8 * i);
    memcpy(bytes + HEAD, record->payload, record->len);
    if (!is_done(blobcrash_write_at(log->session, log->handle, log->end, bytes, HEAD + record->len))) return false;
    if (!log->forgets_sync && !is_done(blobcrash_sync(log->session, log->handle))) return false;
    log->end += HEAD + record->len;
    return true;
}

static bool is_same(const struct record *a, const struct record *b) {
    return a->len == b->len && memcmp(a->payload, b->payload, a->len) == 0;
}

/* One life of a log: sixteen crashes. Returns how many records were acknowledged, or prints what was lost and returns -1. */
static long live(uint64_t seed, bool forgets_sync) {
    static struct records acknowledged, found;
    struct blobcrash_session session = {0};
    struct log log = {.forgets_sync = forgets_sync};
    struct record record = {0};
    bool is_unanswered = false;
    char preamble[128];
    int len = snprintf(preamble, sizeof preamble, "seed %" PRIu64 "\nconfig write 1 16 1 2 subset\nconfig sync 1 16\nconfig resize 1 16 1 2\n", seed);
    if (script != NULL) fputs(preamble, script);
    if (blobcrash_open(&session, (uint8_t *)preamble, (size_t)len).status != BLOBCRASH_DONE) exit(2);
    acknowledged.count = 0;
    for (unsigned round = 0; round < ROUNDS; round++) {
        /* A recovery that a fault cuts short is one more crash. */
        if (recover(&log, &session, &found)) {
            size_t same = 0;
            while (same < found.count && same < acknowledged.count && is_same(&found.at[same], &acknowledged.at[same])) same++;
            if (same < acknowledged.count) {
                printf("seed %" PRIu64 ", crash %u: %zu records were acknowledged, and %zu are left of them\n", seed, round,
                       acknowledged.count, same);
                blobcrash_close(&session);
                return -1;
            }
            if (found.count > same && (found.count > same + 1 || !is_unanswered || !is_same(&found.at[same], &record))) {
                printf("seed %" PRIu64 ", crash %u: a record that nobody wrote\n", seed, round);
                blobcrash_close(&session);
                return -1;
            }
            acknowledged = found;
            is_unanswered = false;
            for (unsigned number = 0; number < APPENDS && !is_unanswered; number++) {
                record.len = (seed + 5 * round + 3 * number) % LONGEST;
                memset(record.payload, (int)(16 * round + number), record.len);
                if (append(&log, &record)) acknowledged.at[acknowledged.count++] = record;
                else is_unanswered = true;
            }
        }
        if (!is_done(blobcrash_crash(&session, NULL)) || !is_done(blobcrash_reopen(&session))) exit(2);
    }
    blobcrash_close(&session);
    return (long)acknowledged.count;
}

int main(int argc, char **argv) {
    bool forgets_sync = argc > 1 && strcmp(argv[1], "forget-sync") == 0;
    long records = 0;
    for (uint64_t seed = 0; seed < 200; seed++) {
        if (argc > 2 && (script = fopen(argv[2], "w")) == NULL) return 2;
        long kept = live(seed, forgets_sync);
        if (script != NULL && fclose(script) != 0) return 2;
        if (kept < 0) return 1;
        records += kept;
    }
    printf("%ld records in 200 lives, none was lost\n", records);
    return 0;
}
