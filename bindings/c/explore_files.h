/*
 * Every outcome of a run on files, from C: explore.h for the calls of blobcrash_files.h. The tree, its limits and its statuses are the same.
 *
 *     struct blobcrash_paths paths = {.power_losses = 1};
 *     struct blobcrash_files files = {0};
 *     const char *settings = "profile xfs\n";
 *     int status;
 *     while ((status = blobcrash_next_files_run(&paths, &files, settings)) == BLOBCRASH_EXPLORE_RUN) {
 *         ... explored calls of the files, the same ones for the same replies ...
 *         if (blobcrash_end_files_run(&paths, &files) == BLOBCRASH_EXPLORE_RUN) {
 *             ... the run counts: check its result ...
 *         }
 *     }
 *     ... fail unless `status` is BLOBCRASH_EXPLORE_END ...
 *     blobcrash_free_paths(&paths);
 *
 * With `paths.power_losses` the power may fail at each explored call that may change what a crash leaves. This call and all later ones
 * aren't made and return BLOBCRASH_POWER_LOSS, until the files have crashed: a crash of files recovers them too. A CLOSE, a SETTLE or a
 * COMMIT is no such call. explore_files.c has examples.
 *
 * `paths.script` gets a script: with blobcrash_repeat_run the words, the settings and a line for each explored call of the run, with which
 * `blobcrash files` makes the same calls, to the same outcome. A comment says what a call opened or was refused, and what a crash kept.
 */
#ifndef BLOBCRASH_EXPLORE_FILES_H
#define BLOBCRASH_EXPLORE_FILES_H

#include "blobcrash_files.h"
#include "explore.h"

/* What the files of a run begin with, as a mount does, if no setting is one of writes: a crash keeps half of the unsynced sectors. */
#define BLOBCRASH_TORN_WRITES "config write 0 1 1 2 sectors 512\n"

/* Returns whether a line of the settings is one of writes. */
static inline bool blobcrash_sets_writes(const char *settings) {
    for (size_t len; *settings != 0; settings += len + (settings[len] != 0)) {
        len = strcspn(settings, "\n");
        if (blobcrash_is_word(blobcrash_word_at(settings, len, 0), "config", 6) &&
            blobcrash_is_word(blobcrash_word_at(settings, len, 1), "write", 5)) return true;
    }
    return false;
}

/* As blobcrash_next_run. The settings are those of blobcrash_files_open; before them come BLOBCRASH_TORN_WRITES, unless one of them is of
 * writes. */
static inline int blobcrash_next_files_run(struct blobcrash_paths *paths, struct blobcrash_files *files, const char *settings) {
    const char *torn = blobcrash_sets_writes(settings) ? "" : BLOBCRASH_TORN_WRITES;
    char *lines = (char *)malloc(strlen(torn) + strlen(settings) + 1);
    if (lines == NULL) return BLOBCRASH_EXPLORE_NO_MEMORY;
    strcpy(lines, torn);
    strcat(lines, settings);
    int status = blobcrash_next_path(paths);
    if (status == BLOBCRASH_EXPLORE_RUN) {
        uint32_t opened = blobcrash_files_open(files, (const uint8_t *)lines, strlen(lines)).status;
        if (opened == BLOBCRASH_DONE) opened = blobcrash_files_push_words(files, paths->words, paths->explorer.given);
        if (opened == BLOBCRASH_NO_MEMORY) blobcrash_files_close(files);
        status = blobcrash_begin_run(paths, opened, lines);
    }
    free(lines);
    return status;
}

/* As blobcrash_end_run. */
static inline int blobcrash_end_files_run(struct blobcrash_paths *paths, struct blobcrash_files *files) {
    struct blobcrash_ran left = blobcrash_files_words_left(files);
    blobcrash_files_close(files);
    return blobcrash_finish_run(paths, left);
}

/* As blobcrash_count_call. */
static inline void blobcrash_count_files_call(struct blobcrash_paths *paths, struct blobcrash_files *files) {
    uint64_t words[BLOBCRASH_FALSE_WORDS];
    if (!blobcrash_is_past_limit(paths)) return;
    if (blobcrash_ends_draws(paths, blobcrash_files_words_left(files), words)) {
        blobcrash_files_push_words(files, words, BLOBCRASH_FALSE_WORDS);
    }
    if (paths->is_long) blobcrash_files_power_on(files);
}

/* As blobcrash_power_fails, for a call of a kind. */
static inline bool blobcrash_files_power_fails(struct blobcrash_paths *paths, struct blobcrash_files *files, uint32_t kind) {
    blobcrash_count_files_call(paths, files);
    if (!blobcrash_may_fail(paths, blobcrash_files_effect(kind) & BLOBCRASH_CHANGES)) return paths->is_off;
    blobcrash_count_words(paths, blobcrash_files_words_left(files));
    return blobcrash_fails_now(paths) && blobcrash_files_power_off_after(files, 0) != BLOBCRASH_CLOSED;
}

/* Prints what a line says of a status. */
static inline void blobcrash_print_refusal(FILE *script, uint32_t status) {
    uint8_t word[32];
    struct blobcrash_ran ran = blobcrash_word(BLOBCRASH_W_REFUSALS, status, word, sizeof word);
    if (status == BLOBCRASH_DONE) return;
    if (ran.status == BLOBCRASH_DONE) fprintf(script, " # is %.*s", (int)ran.len, (const char *)word);
    else fprintf(script, " # is %" PRIu32, status);
}

/* Prints the line of a call, and what it opened or how it was refused. */
static inline void blobcrash_print_file_call(struct blobcrash_paths *paths, const struct blobcrash_file_call *asked,
                                             struct blobcrash_file_reply reply, const uint8_t *path, size_t path_len, const uint8_t *to,
                                             size_t to_len) {
    uint32_t kind = asked->kind;
    bool opens = kind <= BLOBCRASH_F_OPEN_TRUNCATED || kind == BLOBCRASH_F_CREATE_AT || kind == BLOBCRASH_F_OPEN_INODE ||
                 kind == BLOBCRASH_F_OPEN_INODE_TRUNCATED;
    size_t len;
    char *line = blobcrash_new_files_line(asked, path, path_len, to, to_len, &len);
    blobcrash_print_line(paths, line, len);
    blobcrash_print_refusal(paths->script, reply.status);
    if (reply.status == BLOBCRASH_DONE && opens) fprintf(paths->script, " # is %" PRIu64, reply.number);
    fputc('\n', paths->script);
}

/* Prints what the last call, a CRASH, kept. */
static inline void blobcrash_print_kept(FILE *script, struct blobcrash_files *files, struct blobcrash_file_reply crash) {
    if (crash.number > 0) fputs("# of the unsettled edits it keeps ", script);
    for (size_t edit = 0; edit < crash.number; edit++) fputc(blobcrash_files_kept_edit(files, edit).len == 1 ? '1' : '0', script);
    if (crash.number > 0) fputc('\n', script);
    for (size_t row = 0; row < crash.size; row++) {
        struct blobcrash_kept_run run = blobcrash_files_kept_run(files, row, 0);
        fprintf(script, "# of write %" PRIu64 " it keeps %s", run.write, run.len == 0 ? "none" : "");
        for (const char *comma = ""; run.len > 0; comma = ", ") {
            fprintf(script, "%sbytes %zu to %zu", comma, run.start, run.start + run.len - 1);
            run = blobcrash_files_kept_run(files, row, run.start + run.len);
        }
        fprintf(script, " of %zu\n", run.bytes);
    }
}

/* Returns the inode of an open file. */
static inline uint64_t blobcrash_explored_inode(struct blobcrash_files *files, uint64_t descriptor) {
    struct blobcrash_file_call asked = {BLOBCRASH_F_INODE_OF, descriptor, 0, 0};
    const uint8_t none = 0;
    return blobcrash_files_apply(files, &asked, &none, 0, &none, 0).number;
}

/* Follows which files have unsynced writes, after a call that was made. */
static inline void blobcrash_follow_apply(struct blobcrash_paths *paths, struct blobcrash_files *files, uint32_t kind, uint64_t number) {
    struct blobcrash_unsynced *unsynced = &paths->unsynced;
    if (kind == BLOBCRASH_F_CRASH) blobcrash_unsynced_crash(unsynced);
    else if (kind == BLOBCRASH_F_SETTLE || (kind == BLOBCRASH_F_SYNC_ALL && !unsynced->syncs_lie)) unsynced->count = 0;
    else if (unsynced->count > 0 && (kind == BLOBCRASH_F_SYNC || kind == BLOBCRASH_F_SYNC_DATA)) {
        blobcrash_unsynced_sync(unsynced, blobcrash_explored_inode(files, number));
    }
}

/* As blobcrash_files_apply, or POWER_LOSS. A CRASH is always made, and turns the power on. */
static inline struct blobcrash_file_reply blobcrash_explored_apply(struct blobcrash_paths *paths, struct blobcrash_files *files,
                                                                   const struct blobcrash_file_call *asked, const uint8_t *path,
                                                                   size_t path_len, const uint8_t *to, size_t to_len) {
    bool crashes = asked->kind == BLOBCRASH_F_CRASH;
    blobcrash_files_power_fails(paths, files, asked->kind);
    struct blobcrash_file_reply reply = blobcrash_files_apply(files, asked, path, path_len, to, to_len);
    if (reply.status == BLOBCRASH_POWER_LOSS) return reply;
    if (paths->script != NULL) blobcrash_print_file_call(paths, asked, reply, path, path_len, to, to_len);
    if (reply.status != BLOBCRASH_DONE) return reply;
    blobcrash_follow_apply(paths, files, asked->kind, asked->number);
    if (crashes) paths->is_off = false;
    if (crashes && paths->script != NULL) blobcrash_print_kept(paths->script, files, reply);
    return reply;
}

/* An explored call by a path, or by two, of which `to` may be NULL. `first` is that of the call. */
static inline struct blobcrash_file_reply blobcrash_explored_path(struct blobcrash_paths *paths, struct blobcrash_files *files, uint32_t kind,
                                                                  const char *path, const char *to, uint64_t first) {
    struct blobcrash_file_call asked = {kind, 0, first, 0};
    if (to == NULL) to = "";
    return blobcrash_explored_apply(paths, files, &asked, (const uint8_t *)path, strlen(path), (const uint8_t *)to, strlen(to));
}

/* An explored call by a number, or of the whole file system. */
static inline struct blobcrash_file_reply blobcrash_explored_number(struct blobcrash_paths *paths, struct blobcrash_files *files,
                                                                    uint32_t kind, uint64_t number, uint64_t first) {
    struct blobcrash_file_call asked = {kind, number, first, 0};
    const uint8_t none = 0;
    return blobcrash_explored_apply(paths, files, &asked, &none, 0, &none, 0);
}

/* As blobcrash_files_write, or POWER_LOSS. */
static inline uint32_t blobcrash_explored_files_write(struct blobcrash_paths *paths, struct blobcrash_files *files, uint64_t descriptor,
                                                      uint64_t offset, const uint8_t *bytes, size_t len) {
    struct blobcrash_file_call asked = {BLOBCRASH_F_WRITE, descriptor, offset, 0};
    blobcrash_files_power_fails(paths, files, asked.kind);
    struct blobcrash_file_reply reply = {blobcrash_files_write(files, descriptor, offset, bytes, len), 0, 0, 0};
    if (reply.status == BLOBCRASH_DONE && len > 0) blobcrash_unsynced_write(&paths->unsynced, blobcrash_explored_inode(files, descriptor));
    if (paths->script != NULL && reply.status != BLOBCRASH_POWER_LOSS) blobcrash_print_file_call(paths, &asked, reply, bytes, len, NULL, 0);
    return reply.status;
}

/* As blobcrash_files_read, or POWER_LOSS, which leaves `into` as it was. */
static inline struct blobcrash_ran blobcrash_explored_files_read(struct blobcrash_paths *paths, struct blobcrash_files *files,
                                                                 uint64_t descriptor, uint64_t offset, uint8_t *into, size_t capacity) {
    struct blobcrash_file_call asked = {BLOBCRASH_F_READ, descriptor, offset, capacity};
    blobcrash_count_files_call(paths, files);
    struct blobcrash_ran ran = blobcrash_files_read(files, descriptor, offset, into, capacity);
    struct blobcrash_file_reply reply = {ran.status, 0, 0, 0};
    if (paths->script != NULL && ran.status != BLOBCRASH_POWER_LOSS) blobcrash_print_file_call(paths, &asked, reply, NULL, 0, NULL, 0);
    return ran;
}

/* Crashes and calls `step`, and does so again if the power fails meanwhile. Returns what the last `step` returned, or `false` if a crash
 * was refused. */
static inline bool blobcrash_recover_files(struct blobcrash_paths *paths, struct blobcrash_files *files, bool (*step)(void *context),
                                           void *context) {
    while (blobcrash_explored_number(paths, files, BLOBCRASH_F_CRASH, 0, 0).status == BLOBCRASH_DONE) {
        bool is_recovered = step(context);
        if (!blobcrash_files_power(files).is_off) return is_recovered;
    }
    return false;
}

#endif
