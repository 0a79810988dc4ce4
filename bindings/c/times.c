/* Times calls from C, on standard error: `way, size: calls a second`. Each figure takes about `argv[1]` seconds. */
#define _POSIX_C_SOURCE 199309L
#include "blobcrash_calls.h"

#include <inttypes.h>
#include <stdio.h>
#include <stdlib.h>
#include <time.h>

enum { LONGEST = 4096, BLOCKS = 64 };

static struct blobcrash_session session;
static uint8_t block[LONGEST], back[LONGEST], reply[2 * LONGEST + 64];
static char line[2 * LONGEST + 64];
static double seconds = 0.5;

static double now(void) {
    struct timespec time;
    clock_gettime(CLOCK_MONOTONIC, &time);
    return (double)time.tv_sec + (double)time.tv_nsec / 1e9;
}

static void call(size_t len) {
    if (blobcrash_call(&session, (uint8_t *)line, len, reply, sizeof reply).status != BLOBCRASH_DONE) exit(1);
}

static void say(const char *text) {
    strcpy(line, text);
    call(strlen(text));
}

/* What is timed: one round, and the calls in it. `n` counts the rounds. */
static void size_call(size_t len, uint64_t n) {
    (void)len, (void)n;
    call((size_t)sprintf(line, "size 0"));
}

static void typed_size(size_t len, uint64_t n) {
    uint64_t size;
    (void)len, (void)n;
    if (blobcrash_size(&session, 0, &size) != BLOBCRASH_DONE) exit(1);
}

static void typed(size_t len, uint64_t n) {
    uint64_t at = n % BLOCKS * len;
    if (blobcrash_write(&session, 0, at, block, len, false) != BLOBCRASH_DONE) exit(1);
    if (blobcrash_read(&session, 0, at, back, len) != BLOBCRASH_DONE || memcmp(block, back, len)) exit(1);
    if (n % BLOCKS == BLOCKS - 1) say("sync 0");
}

static void text(size_t len, uint64_t n) {
    static const char digits[] = "0123456789abcdef";
    uint64_t at = n % BLOCKS * len;
    size_t end = (size_t)sprintf(line, "write 0 %" PRIu64 " ", at);
    for (size_t i = 0; i < len; i++) {
        line[end++] = digits[block[i] >> 4];
        line[end++] = digits[block[i] & 15];
    }
    call(end);
    call((size_t)sprintf(line, "read 0 %" PRIu64 " %zu", at, len));
    if (n % BLOCKS == BLOCKS - 1) say("sync 0");
}

static void script(size_t len, uint64_t n) {
    static const char text[] = "words 0 max\nconfig write 0 1 1 2 subset\nopen p 62\nwrite 0 0 616263646566\nsync 0\nwrite 0 0 414243\ncrash\nreopen\nopen p 62\n"
                               "read 1 0 6\n";
    (void)len, (void)n;
    if (blobcrash_run((const uint8_t *)text, sizeof text - 1, reply, sizeof reply).status != BLOBCRASH_DONE) exit(1);
}

/* A round of `calls` calls, over and over for a while. */
static void tell(const char *name, void (*round)(size_t, uint64_t), size_t len, double calls) {
    uint64_t n = 0;
    double began = now(), taken;
    do {
        for (int i = 0; i < 128; i++) round(len, n++);
        taken = now() - began;
    } while (taken < seconds);
    fprintf(stderr, "C, %s: %.0f calls/s, %.0f ns each\n", name, calls * (double)n / taken, taken / (calls * (double)n) * 1e9);
}

int main(int argc, char **argv) {
    if (argc > 1) seconds = atof(argv[1]);
    for (size_t i = 0; i < LONGEST; i++) block[i] = (uint8_t)(i * 7);
    if (blobcrash_open(&session, (const uint8_t *)"", 0).status != BLOBCRASH_DONE) return 1;
    say("open p 62");
    tell("size, as text", size_call, 0, 1);
    tell("size, typed", typed_size, 0, 1);
    tell("write and read of 8 bytes, typed", typed, 8, 2);
    tell("write and read of 512 bytes, typed", typed, 512, 2);
    tell("write and read of 4096 bytes, typed", typed, 4096, 2);
    tell("write and read of 8 bytes, as text", text, 8, 2);
    tell("write and read of 512 bytes, as text", text, 512, 2);
    tell("write and read of 4096 bytes, as text", text, 4096, 2);
    tell("a script of 9 calls at once", script, 0, 9);
    blobcrash_close(&session);
    return 0;
}
