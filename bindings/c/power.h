/*
 * Power losses of an explored run. explore.h includes this header.
 *
 * With `paths.power_losses` the power of the session may fail at each call that may change what a crash leaves (BLOBCRASH_CHANGES). This call
 * and all later ones aren't made and return BLOBCRASH_POWER_LOSS, until the store has crashed and reopened. A run counts the calls that these
 * functions make (`paths.calls_per_run`). Before any other call of the session, call blobcrash_power_fails.
 */
#ifndef BLOBCRASH_POWER_H
#define BLOBCRASH_POWER_H

#include "explore.h"

/* How many words are pushed that make draws false. */
enum { BLOBCRASH_FALSE_WORDS = 64 };

/* Counts an explored call. Returns whether it is past the limit. */
static inline bool blobcrash_is_past_limit(struct blobcrash_paths *paths) {
    return paths->is_running && ++paths->calls > blobcrash_most_calls(paths);
}

/* Follows a call past the limit, where `left` counts the words that are left: no power loss follows. Returns whether `words`, which make
 * draws false, are to be pushed. */
static inline bool blobcrash_ends_draws(struct blobcrash_paths *paths, struct blobcrash_ran left, uint64_t *words) {
    if (left.status != BLOBCRASH_DONE) return false;
    if (!paths->is_long) paths->kept = left.len;
    paths->is_long = true;
    paths->is_off = false;
    paths->losses = paths->power_losses;
    memset(words, 0xff, BLOBCRASH_FALSE_WORDS * sizeof *words);
    return left.len <= paths->kept;
}

/* Returns whether the power may fail at a call, which changes what a crash leaves or doesn't. */
static inline bool blobcrash_may_fail(const struct blobcrash_paths *paths, bool changes) {
    return changes && !paths->is_off && paths->losses != paths->power_losses;
}

/* Returns whether the power may fail at a call of this kind. */
static inline bool blobcrash_kind_may_fail(const struct blobcrash_paths *paths, uint32_t kind) {
    return blobcrash_may_fail(paths, true) && (blobcrash_effect(kind) & BLOBCRASH_CHANGES) != 0;
}

/* Chooses whether the power fails now, after the draws were counted. */
static inline bool blobcrash_fails_now(struct blobcrash_paths *paths) {
    if (blobcrash_choose(paths, BLOBCRASH_POWER, 2) == 0) return false;
    paths->losses++;
    paths->is_off = true;
    if (paths->script != NULL) fputs("# power loss\n", paths->script);
    return true;
}

/* Prints a line to the script, and frees it. Without memory for it the run doesn't count. */
static inline void blobcrash_print_line(struct blobcrash_paths *paths, char *line, size_t len) {
    paths->has_no_memory |= line == NULL;
    if (line != NULL) fwrite(line, 1, len, paths->script);
    free(line);
}

/* Counts an explored call. From the first one past the limit on no draw is true and the power is on. */
static inline void blobcrash_count_call(struct blobcrash_paths *paths, struct blobcrash_session *session) {
    uint64_t words[BLOBCRASH_FALSE_WORDS];
    if (!blobcrash_is_past_limit(paths)) return;
    if (blobcrash_ends_draws(paths, blobcrash_words_left(session), words)) blobcrash_push_words(session, words, BLOBCRASH_FALSE_WORDS);
    if (paths->is_long) blobcrash_power_on(session);
}

/* Returns whether the power is off at a call, which then isn't made. `changes` says that it may change what a crash leaves: it opens,
 * admits, writes, resizes, syncs or removes. Counts the call. */
static inline bool blobcrash_power_fails(struct blobcrash_paths *paths, struct blobcrash_session *session, bool changes) {
    blobcrash_count_call(paths, session);
    if (!blobcrash_may_fail(paths, changes)) return paths->is_off;
    blobcrash_count_draws(paths, session);
    return blobcrash_fails_now(paths) && blobcrash_power_off_after(session, 0) != BLOBCRASH_CLOSED;
}

static inline bool blobcrash_was_made(uint32_t status) {
    return status == BLOBCRASH_DONE || status == BLOBCRASH_NO_ROOM || status == BLOBCRASH_UNPRINTED;
}

/* Returns the kind of the call of a line, by its first word. Of a line that is none it is that of a setting, which is made anyway. */
static inline uint32_t blobcrash_line_kind(const char *line, size_t len) {
    struct blobcrash_line_word word = blobcrash_word_at(line, len, 0);
    for (uint32_t kind = 0; word.len > 0 && kind < BLOBCRASH_CONFIGURE; kind++) {
        uint8_t known[16];
        size_t known_len = blobcrash_word(BLOBCRASH_W_KINDS, kind, known, sizeof known).len;
        if (blobcrash_is_word(word, (const char *)known, known_len)) return kind;
    }
    return BLOBCRASH_CONFIGURE;
}

/* A resize, and the size before it. */
struct blobcrash_resize_made {
    bool is_one;
    size_t handle;
    uint64_t from, to;
};

/* Looks at a resize before it is made. */
static inline struct blobcrash_resize_made blobcrash_before_resize(struct blobcrash_session *session, size_t handle, uint64_t to) {
    struct blobcrash_typed_reply size = blobcrash_tracked_size(session, handle);
    struct blobcrash_resize_made resize = {size.status == BLOBCRASH_DONE, handle, size.size, to};
    return resize;
}

/* Counts the draws of a resize that stopped at a size between the old one and the new one: the last one drew it. */
static inline void blobcrash_after_resize(struct blobcrash_paths *paths, struct blobcrash_session *session,
                                          const struct blobcrash_resize_made *resize) {
    if (!resize->is_one) return;
    uint64_t now = blobcrash_tracked_size(session, resize->handle).size, from = resize->from, to = resize->to;
    if (now == from || now == to) return;
    blobcrash_count_size(paths, blobcrash_words_left(session), (from < to ? to - from : from - to) - 1);
}

/* Follows the power, which a reopen turns on, and which handles have unsynced writes, after a call that returned DONE. A write has bytes. */
static inline void blobcrash_follow(struct blobcrash_paths *paths, uint32_t kind, size_t handle) {
    struct blobcrash_unsynced *unsynced = &paths->unsynced;
    switch (kind) {
    case BLOBCRASH_WRITE: blobcrash_unsynced_write(unsynced, handle); break;
    case BLOBCRASH_SYNC:
    case BLOBCRASH_START_SYNC: blobcrash_unsynced_sync(unsynced, handle); break;
    case BLOBCRASH_CRASH: blobcrash_unsynced_crash(unsynced); break;
    case BLOBCRASH_REOPEN:
        unsynced->count = 0;
        paths->is_off = false;
        break;
    default: break;
    }
}

/* As blobcrash_call. POWER_LOSS if the power is off: then only `crash`, settings, comments and, after the crash, `close` and `reopen` are
 * made. */
static inline struct blobcrash_ran blobcrash_explored_call(struct blobcrash_paths *paths, struct blobcrash_session *session,
                                                           const uint8_t *line, size_t len, uint8_t *reply, size_t reply_room) {
    const char *text = (const char *)line;
    uint32_t kind = blobcrash_line_kind(text, len);
    blobcrash_power_fails(paths, session, blobcrash_kind_may_fail(paths, kind));
    size_t handle = (size_t)blobcrash_number_of(blobcrash_word_at(text, len, 1));
    struct blobcrash_resize_made resize = {false, 0, 0, 0};
    if (kind == BLOBCRASH_RESIZE) resize = blobcrash_before_resize(session, handle, blobcrash_number_of(blobcrash_word_at(text, len, 2)));
    struct blobcrash_ran ran = blobcrash_call(session, line, len, reply, reply_room);
    if (!blobcrash_was_made(ran.status)) return ran;
    blobcrash_after_resize(paths, session, &resize);
    bool is_done = blobcrash_last(session).status == BLOBCRASH_DONE;
    if (kind == BLOBCRASH_CONFIGURE) blobcrash_unsynced_set(&paths->unsynced, text, len);
    else if (is_done && (kind != BLOBCRASH_WRITE || text[len - 1] != '-')) blobcrash_follow(paths, kind, handle);
    if (paths->script != NULL) {
        fwrite(line, 1, len, paths->script);
        fputc('\n', paths->script);
    }
    return ran;
}

/* Prints the line of a typed call that was made. `name` may be the bytes of a write. */
static inline void blobcrash_print_asked(struct blobcrash_paths *paths, const struct blobcrash_asked *asked, const void *partition,
                                         size_t partition_len, const void *name, size_t name_len) {
    size_t line_len;
    char *line = blobcrash_new_line(asked, partition, partition_len, name, name_len, &line_len);
    blobcrash_print_line(paths, line, line_len);
    fputc('\n', paths->script);
}

/* As blobcrash_read. POWER_LOSS, which leaves `into` as it was. */
static inline uint32_t blobcrash_explored_read(struct blobcrash_paths *paths, struct blobcrash_session *session, size_t handle,
                                               uint64_t offset, uint8_t *into, size_t len) {
    struct blobcrash_asked asked = {BLOBCRASH_READ, handle, offset, len};
    blobcrash_count_call(paths, session);
    uint32_t status = blobcrash_read(session, handle, offset, into, len);
    if (paths->script != NULL && status != BLOBCRASH_CLOSED && status != BLOBCRASH_POWER_LOSS) blobcrash_print_asked(paths, &asked, NULL, 0, NULL, 0);
    return status;
}

/* As blobcrash_write, or POWER_LOSS. */
static inline uint32_t blobcrash_explored_write(struct blobcrash_paths *paths, struct blobcrash_session *session, size_t handle,
                                                uint64_t offset, const uint8_t *bytes, size_t len, bool sync) {
    struct blobcrash_asked asked = {(uint32_t)(sync ? BLOBCRASH_WRITE_SYNC : BLOBCRASH_WRITE), handle, offset, 0};
    blobcrash_power_fails(paths, session, true);
    uint32_t status = blobcrash_write(session, handle, offset, bytes, len, sync);
    if (status == BLOBCRASH_DONE && !sync && len > 0) blobcrash_unsynced_write(&paths->unsynced, handle);
    if (paths->script != NULL && status != BLOBCRASH_CLOSED && status != BLOBCRASH_POWER_LOSS) {
        blobcrash_print_asked(paths, &asked, NULL, 0, bytes, len);
    }
    return status;
}

/* Makes the call of a text. Returns DONE, its refusal, or the status of a call that wasn't made. */
static inline uint32_t blobcrash_explored_text(struct blobcrash_paths *paths, struct blobcrash_session *session, const char *line) {
    uint8_t none;
    struct blobcrash_ran ran = blobcrash_explored_call(paths, session, (const uint8_t *)line, strlen(line), &none, 0);
    return blobcrash_was_made(ran.status) ? blobcrash_last(session).status : ran.status;
}

/* As blobcrash_apply. POWER_LOSS if the power is off: then only a crash and, after it, a close and a reopen are made. */
static inline struct blobcrash_typed_reply blobcrash_explored_make(struct blobcrash_paths *paths, struct blobcrash_session *session,
                                                                   const struct blobcrash_asked *asked, const void *partition,
                                                                   size_t partition_len, const void *name, size_t name_len) {
    const uint8_t *in = blobcrash_line_bytes(partition), *called = blobcrash_line_bytes(name);
    blobcrash_power_fails(paths, session, blobcrash_kind_may_fail(paths, asked->kind));
    struct blobcrash_resize_made resize = {false, 0, 0, 0};
    if (asked->kind == BLOBCRASH_RESIZE) resize = blobcrash_before_resize(session, asked->number, asked->first);
    struct blobcrash_typed_reply reply = blobcrash_apply(session, asked, in, partition_len, called, name_len);
    /* Refusals begin with E_OFFSET_OVERFLOW. */
    if (reply.status != BLOBCRASH_DONE && reply.status < BLOBCRASH_E_OFFSET_OVERFLOW) return reply;
    blobcrash_after_resize(paths, session, &resize);
    bool is_empty = asked->kind == BLOBCRASH_WRITE && name_len == 0;
    if (reply.status == BLOBCRASH_DONE && !is_empty) blobcrash_follow(paths, asked->kind, asked->number);
    if (paths->script != NULL) blobcrash_print_asked(paths, asked, partition, partition_len, name, name_len);
    return reply;
}

/* Makes a call without a handle and names. Returns DONE, its refusal, or the status of a call that wasn't made. */
static inline uint32_t blobcrash_explored_kind(struct blobcrash_paths *paths, struct blobcrash_session *session, uint32_t kind) {
    struct blobcrash_asked asked = {kind, 0, 0, 0};
    return blobcrash_explored_make(paths, session, &asked, NULL, 0, NULL, 0).status;
}

/* Crashes and reopens the store. Returns DONE; E_MEMORY if one of them is refused; or the status of the call that wasn't made. */
static inline uint32_t blobcrash_restart(struct blobcrash_paths *paths, struct blobcrash_session *session) {
    uint32_t status = blobcrash_explored_kind(paths, session, BLOBCRASH_CRASH);
    return status == BLOBCRASH_DONE ? blobcrash_explored_kind(paths, session, BLOBCRASH_REOPEN) : status;
}

/* Restarts the store and calls `step`, and does so again if the power fails meanwhile. Returns what the last `step` returned, or `false`
 * if the store couldn't be restarted. */
static inline bool blobcrash_recover(struct blobcrash_paths *paths, struct blobcrash_session *session, bool (*step)(void *context),
                                     void *context) {
    while (blobcrash_restart(paths, session) == BLOBCRASH_DONE) {
        bool is_recovered = step(context);
        if (!blobcrash_power(session).is_off) return is_recovered;
    }
    return false;
}

#endif
