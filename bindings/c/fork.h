/*
 * Forks by a script: over blobcrash_calls.h, which this header includes. blobcrash_fork_session of blobcrash.h makes no call again; take
 * those of this header for an earlier state than the session's, and for a session that is closed.
 *
 * A fork is another session in the same state: blobs, pending writes, settings, handles and started syncs with their numbers, and the
 * words that the generator gives next. From there on the two share nothing, so a run forks, as after a crash, also onto another thread:
 *
 *     static void on_line(struct blobcrash_session *session, const char *line, size_t len);
 *     #define BLOBCRASH_ON_LINE on_line
 *     #include "fork.h"
 *     static struct blobcrash_script script;
 *     static void on_line(struct blobcrash_session *session, const char *line, size_t len) {
 *         blobcrash_add_line(&script, session, line, len);
 *     }
 *
 *     blobcrash_open_recorded(&session, &script, preamble, preamble_len);
 *     ... calls of blobcrash_calls.h, and a crash ...
 *     blobcrash_fork(&script, &fork, NULL);
 *
 * The calls are made again, which takes as long as they took. What isn't a line isn't in the script: don't push words, and the fork's
 * registry of durability debt is new. Calls that are made without blobcrash_calls.h aren't in it either.
 */
#ifndef BLOBCRASH_FORK_H
#define BLOBCRASH_FORK_H

#include "blobcrash_calls.h"

#include <stdlib.h>
#include <string.h>

/* The preamble and the calls of a session, a line each. Set all of it to zeros at first. */
struct blobcrash_script {
    char *text;
    size_t len;
    size_t capacity;
    size_t calls;   /* the index of the first call */
    bool is_short;  /* a call was refused memory, or its line was: there is no fork */
};

/* Adds bytes and a line feed. */
static inline void blobcrash_add_text(struct blobcrash_script *script, const char *bytes, size_t len) {
    if (script->is_short || bytes == NULL || len >= SIZE_MAX / 4 - script->len) {
        script->is_short = true;
        return;
    }
    size_t needed = script->len + len + 1;
    if (needed > script->capacity) {
        char *text = (char *)realloc(script->text, 2 * needed);
        script->is_short = text == NULL;
        if (text == NULL) return;
        script->text = text;
        script->capacity = 2 * needed;
    }
    memcpy(script->text + script->len, bytes, len);
    script->text[needed - 1] = '\n';
    script->len = needed;
}

/* Adds the line of the call that was just made: for the function BLOBCRASH_ON_LINE. */
static inline void blobcrash_add_line(struct blobcrash_script *script, struct blobcrash_session *session, const char *line, size_t len) {
    bool was_refused = blobcrash_last(session).status == BLOBCRASH_E_MEMORY;
    blobcrash_add_text(script, was_refused ? NULL : line, len);
}

/* Opens a session, as blobcrash_open. If that is DONE, its script starts empty. */
static inline struct blobcrash_script_ran blobcrash_open_recorded(struct blobcrash_session *session, struct blobcrash_script *script,
                                                                  const char *preamble, size_t preamble_len) {
    struct blobcrash_script_ran ran = blobcrash_open(session, blobcrash_bytes(preamble), preamble_len);
    if (ran.status != BLOBCRASH_DONE) return ran;
    script->len = 0;
    script->is_short = false;
    blobcrash_add_text(script, preamble == NULL ? "" : preamble, preamble_len);
    script->calls = script->len;
    return ran;
}

/* Frees a script, which is then as at first. */
static inline void blobcrash_free_script(struct blobcrash_script *script) {
    free(script->text);
    memset(script, 0, sizeof *script);
}

/* Makes the calls of a script from `at` on. */
static inline uint32_t blobcrash_play(const struct blobcrash_script *script, size_t at, struct blobcrash_session *session) {
    while (at < script->len) {
        const char *line = script->text + at;
        size_t len = (size_t)((const char *)memchr(line, '\n', script->len - at) - line);
        uint8_t none;
        /* With a capacity of 0 only a line without a reply is DONE. */
        uint32_t status = blobcrash_call(session, (const uint8_t *)line, len, &none, 0).status;
        if (status == BLOBCRASH_NO_ROOM || status == BLOBCRASH_UNPRINTED) {
            status = blobcrash_last(session).status == BLOBCRASH_E_MEMORY ? (uint32_t)BLOBCRASH_NO_MEMORY : (uint32_t)BLOBCRASH_DONE;
        }
        if (status != BLOBCRASH_DONE) return status;
        at += len + 1;
    }
    return BLOBCRASH_DONE;
}

/*
 * Opens `fork` in the state of the session that has this script. `copy` gets a script of its own, so that the fork can be forked; it may
 * be NULL.
 *
 * DONE; NO_MEMORY, also if the script `is_short`: `fork` is then closed, and `copy` as it was.
 */
static inline uint32_t blobcrash_fork(const struct blobcrash_script *script, struct blobcrash_session *fork,
                                      struct blobcrash_script *copy) {
    struct blobcrash_script made;
    memset(&made, 0, sizeof made);
    uint32_t status = script->is_short || script->len == 0 ? (uint32_t)BLOBCRASH_NO_MEMORY : (uint32_t)BLOBCRASH_DONE;
    if (status == BLOBCRASH_DONE) status = blobcrash_open(fork, (const uint8_t *)script->text, script->calls).status;
    if (status == BLOBCRASH_DONE) status = blobcrash_play(script, script->calls, fork);
    if (status == BLOBCRASH_DONE && copy != NULL) {
        /* Without the last line feed, which is added. */
        blobcrash_add_text(&made, script->text, script->len - 1);
        made.calls = script->calls;
        if (made.is_short) status = BLOBCRASH_NO_MEMORY;
    }
    if (status != BLOBCRASH_DONE) {
        blobcrash_close(fork);
        return status;
    }
    if (copy != NULL) {
        blobcrash_free_script(copy);
        *copy = made;
    }
    return status;
}

#endif
