/*
 * Short forms of the calls on files, and checks of what they return, for the tests of bindings/c. A program that includes it has one file
 * system, `files`. Each check that fails is printed, and sets `failed`.
 */
#ifndef BLOBCRASH_FILES_CHECKS_H
#define BLOBCRASH_FILES_CHECKS_H

#include "blobcrash_files.h"

#include <stdio.h>
#include <string.h>

static int failed;

static inline void check(bool holds, const char *what, int line) {
    if (holds) return;
    printf("line %d: %s\n", line, what);
    failed = 1;
}

#define CHECK(holds) check(holds, #holds, __LINE__)
#define TEXT(text) (const uint8_t *)(text), strlen(text)

static struct blobcrash_files files;

static inline void begin(const char *preamble) { CHECK(blobcrash_files_open(&files, TEXT(preamble)).status == BLOBCRASH_DONE); }

static inline struct blobcrash_file_reply ask(uint32_t kind, uint64_t number, const char *path, const char *to, uint64_t first,
                                       uint64_t last) {
    const struct blobcrash_file_call asked = {kind, number, first, last};
    return blobcrash_files_apply(&files, &asked, TEXT(path), TEXT(to));
}

/* Calls by one path, by two, by a directory and a name, and by a number. */
static inline struct blobcrash_file_reply on(uint32_t kind, const char *path) { return ask(kind, 0, path, "", 0, 0); }
static inline uint32_t ends(uint32_t kind, const char *path) { return on(kind, path).status; }
static inline uint32_t pair(uint32_t kind, const char *path, const char *to, uint64_t how) {
    return ask(kind, 0, path, to, how, 0).status;
}
static inline struct blobcrash_file_reply at(uint32_t kind, uint64_t number, const char *name) {
    return ask(kind, number, name, "", 0, 0);
}
static inline struct blobcrash_file_reply by(uint32_t kind, uint64_t number) { return ask(kind, number, "", "", 0, 0); }

static inline bool is(struct blobcrash_file_reply reply, uint32_t kind, uint64_t number, uint64_t size) {
    return reply.status == BLOBCRASH_DONE && reply.kind == kind && reply.number == number && reply.size == size;
}

static inline bool refuses(struct blobcrash_file_reply reply, uint32_t status) {
    return reply.status == status && reply.kind == 0 && reply.number == 0 && reply.size == 0;
}

static inline uint32_t write_at(uint64_t descriptor, uint64_t offset, const char *text) {
    return blobcrash_files_write(&files, descriptor, offset, TEXT(text));
}

/* Whether a read of up to 32 bytes returns these, and changes no others. */
static inline bool reads(uint64_t descriptor, uint64_t offset, const char *text) {
    uint8_t into[33];
    memset(into, '.', sizeof into);
    struct blobcrash_ran ran = blobcrash_files_read(&files, descriptor, offset, into, 32);
    size_t len = strlen(text);
    return ran.status == BLOBCRASH_DONE && ran.len == len && memcmp(into, text, len) == 0 && into[len] == '.' && into[32] == '.';
}

/* Whether a directory has these names, each with a comma after it. */
static inline bool lists(const char *path, const char *names) {
    char found[256] = "";
    struct blobcrash_file_reply reply = on(BLOBCRASH_F_LIST, path);
    for (size_t i = 0; i < reply.size && reply.status == BLOBCRASH_DONE; i++) {
        uint8_t name[32];
        struct blobcrash_file_reply one = blobcrash_files_name(&files, i, name, sizeof name);
        if (one.status != BLOBCRASH_DONE) return false;
        strncat(found, (char *)name, one.size);
        strcat(found, ",");
    }
    return reply.status == BLOBCRASH_DONE && strcmp(found, names) == 0;
}

#endif
