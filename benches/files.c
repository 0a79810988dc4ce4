/*
 * Makes calls on files, or with `below-` on one blob, for benches/files.sh: files WHAT FILES CALLS. A tree of FILES files of 100 bytes, a
 * thousand in each directory, is durable before. With WHAT `beside-PROFILE` no sync has settled the names of FILES files. Valgrind
 * counts the calls alone. With WHAT `memory` prints the peak of its memory in KB.
 */
#include "blobcrash_calls.h"
#include "blobcrash_files.h"

#include <stdbool.h>
#include <stdio.h>
#include <stdlib.h>
#include <string.h>
#include <sys/resource.h>
#include <valgrind/callgrind.h>

enum { IN_ONE = 1000, SMALL = 8, PAGE = 4096 };

static struct blobcrash_files files;
static uint8_t data[PAGE];

static void need(uint32_t status) {
    if (status == BLOBCRASH_DONE) return;
    fprintf(stderr, "files: status %u\n", (unsigned)status);
    exit(1);
}

static uint64_t call(uint32_t kind, uint64_t number, uint64_t first, const char *path, const char *to) {
    struct blobcrash_file_call asked = {.kind = kind, .number = number, .first = first};
    struct blobcrash_file_reply reply =
        blobcrash_files_apply(&files, &asked, (const uint8_t *)path, strlen(path), (const uint8_t *)to, strlen(to));
    need(reply.status);
    return reply.number;
}

static void make_tree(unsigned long count) {
    char path[64];
    for (unsigned long at = 0; at < count; at++) {
        if (at % IN_ONE == 0) {
            snprintf(path, sizeof path, "/%lu", at / IN_ONE);
            call(BLOBCRASH_F_MAKE_DIRECTORY, 0, 0, path, "");
        }
        snprintf(path, sizeof path, "/%lu/%lu", at / IN_ONE, at % IN_ONE);
        uint64_t descriptor = call(BLOBCRASH_F_CREATE, 0, 0, path, "");
        need(blobcrash_files_write(&files, descriptor, 0, data, 100));
        call(BLOBCRASH_F_CLOSE, descriptor, 0, "", "");
        if (at % IN_ONE == IN_ONE - 1) call(BLOBCRASH_F_SETTLE, 0, 0, "", "");
    }
    call(BLOBCRASH_F_SETTLE, 0, 0, "", "");
}

/* Makes files, and settles none of their names. */
static void make_unsettled(unsigned long count) {
    char path[64];
    call(BLOBCRASH_F_MAKE_DIRECTORY, 0, 0, "/new", "");
    for (unsigned long at = 0; at < count; at++) {
        snprintf(path, sizeof path, "/new/%lu", at);
        call(BLOBCRASH_F_CLOSE, call(BLOBCRASH_F_CREATE, 0, 0, path, ""), 0, "", "");
    }
}

/* Writes and syncs of a durable file next to this many unsettled edits. The first sync notes what they are about. */
static void work_beside(unsigned long count, unsigned long calls) {
    make_tree(10);
    make_unsettled(count);
    uint64_t descriptor = call(BLOBCRASH_F_OPEN, 0, 0, "/0/7", "");
    call(BLOBCRASH_F_SYNC, descriptor, 0, "", "");
    CALLGRIND_START_INSTRUMENTATION;
    for (unsigned long at = 0; at < calls; at++) {
        need(blobcrash_files_write(&files, descriptor, 0, data, SMALL));
        call(BLOBCRASH_F_SYNC, descriptor, 0, "", "");
    }
    CALLGRIND_STOP_INSTRUMENTATION;
}

/* Calls on one of the files of the tree. */
static void work(const char *what, unsigned long calls) {
    uint64_t descriptor = call(BLOBCRASH_F_OPEN, 0, 0, "/0/7", "");
    CALLGRIND_START_INSTRUMENTATION;
    for (unsigned long at = 0; at < calls; at++) {
        if (!strcmp(what, "open")) {
            call(BLOBCRASH_F_CLOSE, call(BLOBCRASH_F_OPEN, 0, 0, "/0/8", ""), 0, "", "");
        } else if (!strcmp(what, "rename")) {
            call(BLOBCRASH_F_RENAME, 0, 0, at % 2 ? "/0/new" : "/0/9", at % 2 ? "/0/9" : "/0/new");
        } else if (!strcmp(what, "unlink")) {
            call(BLOBCRASH_F_CLOSE, call(BLOBCRASH_F_CREATE, 0, 0, "/0/new", ""), 0, "", "");
            call(BLOBCRASH_F_UNLINK, 0, 0, "/0/new", "");
        } else if (!strcmp(what, "fsyncdir")) {
            call(BLOBCRASH_F_RENAME, 0, 0, at % 2 ? "/0/new" : "/0/9", at % 2 ? "/0/9" : "/0/new");
            call(BLOBCRASH_F_SYNC_DIRECTORY, 0, 0, "/0", "");
        } else if (!strcmp(what, "write8")) {
            need(blobcrash_files_write(&files, descriptor, 0, data, SMALL));
        } else if (!strcmp(what, "write4096")) {
            need(blobcrash_files_write(&files, descriptor, 0, data, PAGE));
        } else if (!strcmp(what, "read8")) {
            need(blobcrash_files_read(&files, descriptor, 0, data, SMALL).status);
        } else if (!strcmp(what, "fsync") || !strcmp(what, "writesync")) {
            need(blobcrash_files_write(&files, descriptor, 0, data, SMALL));
            call(BLOBCRASH_F_SYNC, descriptor, 0, "", "");
        } else if (!strcmp(what, "size")) {
            call(BLOBCRASH_F_SIZE, descriptor, 0, "", "");
        } else if (!strcmp(what, "crash")) {
            call(BLOBCRASH_F_CRASH, 0, 0, "", "");
        }
    }
    CALLGRIND_STOP_INSTRUMENTATION;
}

/* The same calls on a blob. */
static void work_below(const char *what, unsigned long calls) {
    struct blobcrash_session session = {0};
    const char *preamble = "words 0\nconfig write 0 1 1 2 sectors 512\n";
    need(blobcrash_open(&session, (const uint8_t *)preamble, strlen(preamble)).status);
    size_t handle;
    uint64_t size;
    need(blobcrash_open_blob(&session, "p", 1, "b", 1, &handle, &size));
    need(blobcrash_write(&session, handle, 0, data, 100, true));
    CALLGRIND_START_INSTRUMENTATION;
    for (unsigned long at = 0; at < calls; at++) {
        if (!strcmp(what, "write8")) need(blobcrash_write(&session, handle, 0, data, SMALL, false));
        else if (!strcmp(what, "write4096")) need(blobcrash_write(&session, handle, 0, data, PAGE, false));
        else if (!strcmp(what, "read8")) need(blobcrash_read(&session, handle, 0, data, SMALL));
        else if (!strcmp(what, "writesync")) {
            need(blobcrash_write(&session, handle, 0, data, SMALL, false));
            need(blobcrash_sync(&session, handle));
        }
        else if (!strcmp(what, "size")) need(blobcrash_size(&session, handle, &size));
    }
    CALLGRIND_STOP_INSTRUMENTATION;
    blobcrash_close(&session);
}

int main(int argc, char **argv) {
    if (argc != 4) return 2;
    const char *what = argv[1];
    unsigned long count = strtoul(argv[2], NULL, 10), calls = strtoul(argv[3], NULL, 10);
    // Of zeros the layer keeps the number alone.
    memset(data, 'x', sizeof data);
    if (!strncmp(what, "below-", 6)) {
        work_below(what + 6, calls);
        return 0;
    }
    char preamble[128];
    bool is_beside = !strncmp(what, "beside-", 7);
    snprintf(preamble, sizeof preamble, "words 0\n%s%s\nconfig write 0 1 1 2 sectors 512\n", is_beside ? "profile " : "", is_beside ? what + 7 : "");
    need(blobcrash_files_open(&files, (const uint8_t *)preamble, strlen(preamble)).status);
    if (is_beside) {
        work_beside(count, calls);
    } else {
        make_tree(count);
        work(what, calls);
    }
    if (!strcmp(what, "memory")) {
        struct rusage usage;
        getrusage(RUSAGE_SELF, &usage);
        printf("%ld\n", usage.ru_maxrss);
    }
    blobcrash_files_close(&files);
    return 0;
}
