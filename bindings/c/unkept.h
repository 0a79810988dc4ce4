/*
 * Unsynced writes that no crash of an explored run could keep, since they were made at a retention of 0. explore.h includes this header;
 * blobcrash_unkept there returns a text. The calls of power.h and explore_files.h are followed, and no others.
 */
#ifndef BLOBCRASH_UNKEPT_H
#define BLOBCRASH_UNKEPT_H

#include <stdbool.h>
#include <stddef.h>
#include <stdint.h>
#include <stdlib.h>
#include <string.h>

/* What a crash could keep of a write. */
enum { BLOBCRASH_NEVER_KEPT = 1, BLOBCRASH_MAY_KEEP = 2 };

/* The files or handles that have unsynced writes. */
struct blobcrash_unsynced {
    uint64_t *keys;  /* each, and after it what a crash could keep of its writes */
    size_t count, capacity;
    unsigned kept;   /* what it could keep of the next write */
    unsigned met;    /* by the crashes of all runs */
    bool syncs_lie;
};

/* A word of a line. It has the length 0 if there is none. */
struct blobcrash_line_word {
    const char *at;
    size_t len;
};

/* Returns the word after another one, in a line that ends at `end`. */
static inline struct blobcrash_line_word blobcrash_word_after(struct blobcrash_line_word word, const char *end) {
    for (word.at += word.len; word.at < end && *word.at == ' '; word.at++) continue;
    for (word.len = 0; word.at + word.len < end && word.at[word.len] != ' '; word.len++) continue;
    return word;
}

/* Returns the word with an index, from 0 on. */
static inline struct blobcrash_line_word blobcrash_word_at(const char *line, size_t len, size_t index) {
    struct blobcrash_line_word word = {line, 0};
    for (size_t at = 0; at <= index; at++) word = blobcrash_word_after(word, line + len);
    return word;
}

static inline bool blobcrash_is_word(struct blobcrash_line_word word, const char *text, size_t len) {
    return word.len == len && memcmp(word.at, text, len) == 0;
}

/* Returns the number of a word. The library rejects a line in which it isn't one. */
static inline uint64_t blobcrash_number_of(struct blobcrash_line_word word) {
    uint64_t number = 0;
    for (size_t i = 0; i < word.len; i++) number = 10 * number + (uint64_t)(word.at[i] - '0');
    return number;
}

/* Takes a line, if it is a setting. */
static inline void blobcrash_unsynced_set(struct blobcrash_unsynced *unsynced, const char *line, size_t len) {
    const char *end = line + len;
    struct blobcrash_line_word first = blobcrash_word_at(line, len, 0), second = blobcrash_word_after(first, end);
    if (blobcrash_is_word(first, "syncs", 5)) {
        unsynced->syncs_lie = blobcrash_is_word(second, "lie", 3);
    } else if (blobcrash_is_word(first, "config", 6) && blobcrash_is_word(second, "write", 5)) {
        struct blobcrash_line_word kept = second;
        for (int more = 0; more < 3; more++) kept = blobcrash_word_after(kept, end);
        unsynced->kept = blobcrash_number_of(kept) > 0 ? BLOBCRASH_MAY_KEEP : BLOBCRASH_NEVER_KEPT;
    } else if (blobcrash_is_word(first, "config", 6) && blobcrash_is_word(second, "clear", 5)) {
        unsynced->kept = BLOBCRASH_NEVER_KEPT;
    }
}

/* Begins a run with these settings. */
static inline void blobcrash_unsynced_begin(struct blobcrash_unsynced *unsynced, const char *settings) {
    unsynced->count = 0;
    unsynced->kept = BLOBCRASH_NEVER_KEPT;
    unsynced->syncs_lie = false;
    while (*settings != 0) {
        size_t len = strcspn(settings, "\n");
        blobcrash_unsynced_set(unsynced, settings, len);
        settings += len + (settings[len] != 0);
    }
}

/* Takes a write. Without memory it is left out. */
static inline void blobcrash_unsynced_write(struct blobcrash_unsynced *unsynced, uint64_t key) {
    for (size_t i = 0; i < unsynced->count; i++) {
        if (unsynced->keys[2 * i] == key) {
            unsynced->keys[2 * i + 1] |= unsynced->kept;
            return;
        }
    }
    if (unsynced->count == unsynced->capacity) {
        size_t capacity = 2 * unsynced->capacity + 8;
        uint64_t *keys = (uint64_t *)realloc(unsynced->keys, 2 * capacity * sizeof *keys);
        if (keys == NULL) return;
        unsynced->keys = keys;
        unsynced->capacity = capacity;
    }
    unsynced->keys[2 * unsynced->count] = key;
    unsynced->keys[2 * unsynced->count++ + 1] = unsynced->kept;
}

/* Takes a sync, also one that has only started. */
static inline void blobcrash_unsynced_sync(struct blobcrash_unsynced *unsynced, uint64_t key) {
    for (size_t i = 0; i < unsynced->count && !unsynced->syncs_lie; i++) {
        if (unsynced->keys[2 * i] != key) continue;
        unsynced->count--;
        memmove(&unsynced->keys[2 * i], &unsynced->keys[2 * unsynced->count], 2 * sizeof *unsynced->keys);
        return;
    }
}

/* Takes a crash. */
static inline void blobcrash_unsynced_crash(struct blobcrash_unsynced *unsynced) {
    for (size_t i = 0; i < unsynced->count; i++) unsynced->met |= (unsigned)unsynced->keys[2 * i + 1];
    unsynced->count = 0;
}

#endif
