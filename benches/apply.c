/*
 * Makes calls on one blob for benches/apply.sh: apply WHAT CALLS. Valgrind counts these calls alone. WHAT is `recorded`: writes of 4 bytes,
 * one after the other, which a crash may lose in part; `crash`: the crash after them, which draws for each byte; `write` or `read`: 256
 * bytes at random places of a blob of 100,256 bytes, and nothing is recorded.
 */
#include "blobcrash_calls.h"

#include <stdio.h>
#include <stdlib.h>
#include <string.h>
#include <valgrind/callgrind.h>

enum { SMALL = 4, LARGE = 256, PLACES = 100000 };

static struct blobcrash_session session;
static uint8_t data[LARGE];
static size_t handle;

static void need(uint32_t status) {
    if (status == BLOBCRASH_DONE) return;
    fprintf(stderr, "apply: status %u\n", (unsigned)status);
    exit(1);
}

/* A number below n, by the generator of workloads.sh. */
static uint64_t below(uint64_t n) {
    static uint64_t state = 20260;
    state = state * 16807 % 2147483647;
    return state % n;
}

static void write_small(unsigned long calls) {
    for (unsigned long at = 0; at < calls; at++) need(blobcrash_write(&session, handle, SMALL * at, data, SMALL, false));
}

static void move_large(bool reads, const uint64_t *places, unsigned long calls) {
    for (unsigned long at = 0; at < calls; at++)
        need(reads ? blobcrash_read(&session, handle, places[at], data, LARGE)
                   : blobcrash_write(&session, handle, places[at], data, LARGE, false));
}

int main(int argc, char **argv) {
    if (argc != 3) return 2;
    const char *what = argv[1];
    unsigned long calls = strtoul(argv[2], NULL, 10);
    bool recorded = !strcmp(what, "recorded") || !strcmp(what, "crash");
    // Of zeros the layer keeps the number alone.
    memset(data, 'x', sizeof data);
    need(blobcrash_open(&session, (const uint8_t *)"seed 7", 6).status);
    need(blobcrash_open_blob(&session, "p", 1, "b", 1, &handle, NULL));
    if (recorded) {
        const char *line = "config write 0 1 1 2 subset";
        uint8_t reply[8];
        need(blobcrash_call(&session, (const uint8_t *)line, strlen(line), reply, sizeof reply).status);
        bool is_crash = !strcmp(what, "crash");
        if (is_crash) write_small(calls);
        CALLGRIND_START_INSTRUMENTATION;
        if (is_crash) need(blobcrash_crash(&session, NULL));
        else write_small(calls);
        CALLGRIND_STOP_INSTRUMENTATION;
    } else {
        uint64_t *places = malloc(calls * sizeof *places);
        if (!places) return 1;
        for (unsigned long at = 0; at < calls; at++) places[at] = below(PLACES);
        need(blobcrash_resize(&session, handle, PLACES + LARGE));
        CALLGRIND_START_INSTRUMENTATION;
        move_large(!strcmp(what, "read"), places, calls);
        CALLGRIND_STOP_INSTRUMENTATION;
        free(places);
    }
    blobcrash_close(&session);
    return 0;
}
