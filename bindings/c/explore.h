/*
 * Every outcome of a run, from C: a separate header, over blobcrash.h and the standard library.
 *
 * Each draw of a rate between 0 and 1 takes one word: 0 makes it true, the greatest one false. So the outcomes of a deterministic run form
 * a binary tree. The library visits its paths (blobcrash_explorer_next), depth first, true before false:
 *
 *     struct blobcrash_paths paths = {0};
 *     struct blobcrash_session session = {0};
 *     int status;
 *     while ((status = blobcrash_next_run(&paths, &session, settings)) == BLOBCRASH_EXPLORE_RUN) {
 *         ... calls of the session, the same ones for the same replies ...
 *         if (blobcrash_end_run(&paths, &session) == BLOBCRASH_EXPLORE_RUN) {
 *             ... the run counts: check its result ...
 *         }
 *     }
 *     ... fail unless `status` is BLOBCRASH_EXPLORE_END: with bad settings, for example, nothing was run ...
 *     blobcrash_free_paths(&paths);
 *
 * Power losses, and the script of a run: blobcrash_explored_call and blobcrash_repeat_run. explore_log.c has an example of both. Files
 * (blobcrash_files.h) are explored by explore_files.h.
 *
 * A loop that retries until it succeeds never ends when every try fails; bound it. The first run has such a path. So a run has a limit:
 * `paths.calls_per_run` explored calls (power.h), and as many choices. Past it no draw of an explored call is true and the power stays on,
 * so that a loop that waits for a success ends, and blobcrash_end_run returns TOO_LONG. Calls of blobcrash.h and blobcrash_calls.h aren't
 * counted. Their draws are false once the zeros of a run are taken, so a loop of these ends too, unless the calls before it have taken
 * as many words again.
 *
 * A partial resize stops at a drawn size, and each is tried: make its call by blobcrash_explored_call.
 */
#ifndef BLOBCRASH_EXPLORE_H
#define BLOBCRASH_EXPLORE_H

#include "blobcrash.h"
#include "blobcrash_lines.h"
#include "unkept.h"

#include <inttypes.h>
#include <stdio.h>
#include <stdlib.h>
#include <string.h>

enum {
    BLOBCRASH_EXPLORE_RUN = 0,           /* a run begins, or counts */
    BLOBCRASH_EXPLORE_END = 1,           /* every path was visited */
    BLOBCRASH_EXPLORE_AGAIN = 2,         /* the run took more words than it was given, and is made again: discard it */
    BLOBCRASH_EXPLORE_BAD_SETTINGS = 3,  /* a line of the settings isn't one */
    BLOBCRASH_EXPLORE_NO_MEMORY = 4,     /* nothing was begun, or the run doesn't count */
    BLOBCRASH_EXPLORE_OTHER_DRAWS = 5,   /* the run made other choices than an earlier one on the same path: it isn't deterministic */
    BLOBCRASH_EXPLORE_TOO_LONG = 6       /* the run has more explored calls, or more choices, than `calls_per_run`: it doesn't count */
};

/* Why a run is TOO_LONG, for a message. */
#define BLOBCRASH_EXPLORE_BOUND_IT "a loop that retries until it succeeds never ends when every try fails; bound it"

/* The limit of a run for which none is set. */
enum { BLOBCRASH_CALLS_PER_RUN = 10000 };

/* The kind of a choice that is no draw: whether the power stays on, which comes first, or fails. */
enum { BLOBCRASH_POWER = 1 };

/* The path of a run. Set all of it to zeros at first. */
struct blobcrash_paths {
    struct blobcrash_explorer explorer; /* how far it is */
    struct blobcrash_choice *choices;   /* the choices of the path, and those that were made */
    size_t room;            /* how many zeros are given after the path, and then as many of the greatest word */
    uint64_t runs;          /* how many runs counted */
    bool has_ended;         /* the run of the path counts, and the next one takes the next path */
    bool is_over;
    unsigned power_losses;  /* at most how often the power fails in a run. Set it before the first run */
    uint64_t calls_per_run; /* how many explored calls, and how many choices, a run has at most. If it is 0, 10,000 */
    FILE *script;           /* gets the lines of explored calls, or is NULL */
    size_t capacity;        /* of `choices` */
    uint64_t *words;        /* those that the run is given */
    size_t words_capacity;
    /* Of the run that is under way: */
    unsigned losses;        /* how often the power failed */
    bool is_off;            /* the power is off */
    bool has_no_memory;
    bool is_running;
    bool is_long;           /* it has too many calls */
    uint64_t calls;         /* how many explored calls it has */
    size_t kept;            /* how many words were left when it got too long */
    struct blobcrash_unsynced unsynced;
};

/* What to print after `all of them` of the runs so far: nothing, or that crashes met unsynced writes that they could not keep, since the
 * retention was 0. Then little of what a crash may leave was tried. */
static inline const char *blobcrash_unkept(const struct blobcrash_paths *paths) {
    if ((paths->unsynced.met & BLOBCRASH_NEVER_KEPT) == 0) return "";
    if (paths->unsynced.met == BLOBCRASH_NEVER_KEPT) return "; no unsynced write could be kept: set `write 0 1 1 2 sectors 512`";
    return "; some unsynced writes could not be kept: set `write 0 1 1 2 sectors 512`";
}

/* How many explored calls, and how many choices, a run has at most. */
static inline uint64_t blobcrash_most_calls(const struct blobcrash_paths *paths) {
    return paths->calls_per_run == 0 ? (uint64_t)BLOBCRASH_CALLS_PER_RUN : paths->calls_per_run;
}

/* Whether a choice is a draw, which takes a word. */
static inline bool blobcrash_is_draw(const struct blobcrash_choice *choice) {
    return choice->kind == BLOBCRASH_DRAW || choice->kind == BLOBCRASH_DRAWN_SIZE;
}

/* The word that draws the size at an index among several: index * 2^64 / among, rounded up, one bit at a time. */
static inline uint64_t blobcrash_size_word(uint64_t index, uint64_t among) {
    uint64_t word = 0, rest = index;
    for (int bit = 0; bit < 64; bit++) {
        bool is_set = rest >= among - rest;
        word = 2 * word + is_set;
        rest = is_set ? rest - (among - rest) : 2 * rest;
    }
    return word + (rest > 0);
}

/* The word that makes a draw have the outcome of its choice. */
static inline uint64_t blobcrash_draw_word(const struct blobcrash_choice *choice) {
    if (choice->kind == BLOBCRASH_DRAWN_SIZE) return blobcrash_size_word(choice->branch, choice->among);
    return choice->branch == 0 ? 0 : UINT64_MAX;
}

/* Writes a space and the word of a choice, if it is a draw. Returns the length, at most 21. */
static inline size_t blobcrash_put_word(const struct blobcrash_choice *choice, char *text) {
    uint64_t word = blobcrash_draw_word(choice);
    if (!blobcrash_is_draw(choice)) return 0;
    return (size_t)(word == UINT64_MAX ? snprintf(text, 22, " max") : snprintf(text, 22, " %" PRIu64, word));
}

/* The words of a path as a line of a script, for a failure: `words 0 max`. Returns its length without the final zero, which `text`
 * gets if both fit. */
static inline size_t blobcrash_words_of(const struct blobcrash_paths *paths, char *text, size_t text_room) {
    char word[22];
    size_t len = 5;
    for (size_t i = 0; i < paths->explorer.len; i++) len += blobcrash_put_word(&paths->choices[i], word);
    if (len < text_room) {
        char *end = text + 5;
        memcpy(text, "words", 5);
        for (size_t i = 0; i < paths->explorer.len; i++) {
            size_t count = blobcrash_put_word(&paths->choices[i], word);
            memcpy(end, word, count);
            end += count;
        }
        *end = 0;
    }
    return len;
}

/* Reserves capacity for more choices, and for one after them. `false` if there is no memory. */
static inline bool blobcrash_add_room(struct blobcrash_paths *paths, size_t more) {
    size_t wanted = paths->explorer.taken + more, capacity = 2 * paths->capacity + 64;
    if (wanted < paths->capacity) return true;
    if (capacity <= wanted) capacity = wanted + 1;
    struct blobcrash_choice *choices = (struct blobcrash_choice *)realloc(paths->choices, capacity * sizeof *choices);
    if (choices == NULL) return false;
    paths->choices = choices;
    paths->capacity = capacity;
    return true;
}

/* Reserves capacity for this many words. `false` if there is no memory. */
static inline bool blobcrash_add_words(struct blobcrash_paths *paths, size_t count) {
    if (count <= paths->words_capacity) return true;
    uint64_t *words = (uint64_t *)realloc(paths->words, 2 * count * sizeof *words);
    if (words == NULL) return false;
    paths->words = words;
    paths->words_capacity = 2 * count;
    return true;
}

/* Goes on to the path of the next run, or begins with the first one. Writes the words of its draws, and then those after them. RUN, END or
 * NO_MEMORY. */
static inline int blobcrash_next_path(struct blobcrash_paths *paths) {
    if (!blobcrash_add_room(paths, 0)) return BLOBCRASH_EXPLORE_NO_MEMORY;
    if (paths->has_ended) {
        paths->is_over = !blobcrash_explorer_next(&paths->explorer, paths->choices, paths->capacity);
        paths->has_ended = false;
    }
    if (paths->is_over) return BLOBCRASH_EXPLORE_END;
    if (paths->room == 0) paths->room = 24;
    if (!blobcrash_add_words(paths, paths->explorer.len + 2 * paths->room)) return BLOBCRASH_EXPLORE_NO_MEMORY;
    uint64_t *end = paths->words;
    for (const struct blobcrash_choice *choice = paths->choices; choice < paths->choices + paths->explorer.len; choice++) {
        if (blobcrash_is_draw(choice)) *end++ = blobcrash_draw_word(choice);
    }
    memset(end, 0, paths->room * sizeof *end);
    memset(end + paths->room, 0xff, paths->room * sizeof *end);
    blobcrash_explorer_begin(&paths->explorer, (size_t)(end - paths->words) + 2 * paths->room);
    return BLOBCRASH_EXPLORE_RUN;
}

/* Prints the lines before the calls of a run. */
static inline void blobcrash_print_preamble(const struct blobcrash_paths *paths, const char *settings) {
    char word[22];
    const char *words = "words";
    for (size_t i = 0; i < paths->explorer.len; i++) {
        if (!blobcrash_is_draw(&paths->choices[i])) continue;
        fprintf(paths->script, "%s%.*s", words, (int)blobcrash_put_word(&paths->choices[i], word), word);
        words = "";
    }
    fprintf(paths->script, "%s%s", *words == 0 ? "\n" : "", settings);
}

/* Prepares the fields of a run that is under way, if it was opened with its words, and prints the lines before its calls. */
static inline int blobcrash_begin_run(struct blobcrash_paths *paths, uint32_t opened, const char *settings) {
    if (opened == BLOBCRASH_NO_MEMORY) return BLOBCRASH_EXPLORE_NO_MEMORY;
    if (opened != BLOBCRASH_DONE) return BLOBCRASH_EXPLORE_BAD_SETTINGS;
    if (paths->script != NULL) blobcrash_print_preamble(paths, settings);
    paths->losses = 0;
    paths->is_off = paths->has_no_memory = paths->is_long = false;
    paths->is_running = true;
    paths->calls = 0;
    blobcrash_unsynced_begin(&paths->unsynced, settings);
    return BLOBCRASH_EXPLORE_RUN;
}

/* Goes on to the path of the next run, or begins with the first one, and opens its session with the lines of `settings`, each of which ends
 * with a line feed. RUN, END, BAD_SETTINGS, or NO_MEMORY, after which it may be called again. */
static inline int blobcrash_next_run(struct blobcrash_paths *paths, struct blobcrash_session *session, const char *settings) {
    int status = blobcrash_next_path(paths);
    if (status != BLOBCRASH_EXPLORE_RUN) return status;
    uint32_t opened = blobcrash_open(session, (const uint8_t *)settings, strlen(settings)).status;
    if (opened == BLOBCRASH_DONE) opened = blobcrash_push_words(session, paths->words, paths->explorer.given);
    if (opened == BLOBCRASH_NO_MEMORY) blobcrash_close(session);
    return blobcrash_begin_run(paths, opened, settings);
}

/* Makes the next choice of a kind, and returns its branch: that of the path, or after its end the first one. */
static inline uint64_t blobcrash_choose(struct blobcrash_paths *paths, uint32_t kind, uint64_t among) {
    bool has_room = blobcrash_add_room(paths, 1);
    paths->has_no_memory |= !has_room;
    return has_room ? blobcrash_explorer_choose(&paths->explorer, paths->choices, paths->capacity, kind, among).branch : 0;
}

/* Makes the draws of the calls up to here choices, where `left` counts the words that are left. If `among` isn't 0, the last one is that of a
 * size among as many. */
static inline void blobcrash_count_size(struct blobcrash_paths *paths, struct blobcrash_ran left, uint64_t among) {
    if (left.status != BLOBCRASH_DONE || left.len > paths->explorer.given) return;
    bool has_room = blobcrash_add_room(paths, paths->explorer.given - left.len);
    paths->has_no_memory |= !has_room;
    if (!has_room) return;
    if (among > 0) blobcrash_explorer_count_size(&paths->explorer, paths->choices, paths->capacity, left.len, among);
    else blobcrash_explorer_count(&paths->explorer, paths->choices, paths->capacity, left.len);
}

static inline void blobcrash_count_words(struct blobcrash_paths *paths, struct blobcrash_ran left) {
    blobcrash_count_size(paths, left, 0);
}

/* As blobcrash_count_words. Returns how many words are left. */
static inline struct blobcrash_ran blobcrash_count_draws(struct blobcrash_paths *paths, struct blobcrash_session *session) {
    struct blobcrash_ran left = blobcrash_words_left(session);
    blobcrash_count_words(paths, left);
    return left;
}

/* Ends a run, where `left` counts the words that are left. Returns what blobcrash_end_run does. */
static inline int blobcrash_finish_run(struct blobcrash_paths *paths, struct blobcrash_ran left) {
    uint64_t most = blobcrash_most_calls(paths);
    blobcrash_count_words(paths, left);
    paths->is_running = false;
    if (left.status != BLOBCRASH_DONE) {
        return left.status == BLOBCRASH_ENDLESS ? BLOBCRASH_EXPLORE_BAD_SETTINGS : BLOBCRASH_EXPLORE_NO_MEMORY;
    }
    if (paths->is_long) return BLOBCRASH_EXPLORE_TOO_LONG;
    if (left.len < paths->room) {
        if (paths->explorer.given - paths->room > most) return BLOBCRASH_EXPLORE_TOO_LONG;
        paths->room *= 2;
        return BLOBCRASH_EXPLORE_AGAIN;
    }
    if (left.len > paths->explorer.given) return BLOBCRASH_EXPLORE_BAD_SETTINGS;
    if (paths->explorer.taken > most) return BLOBCRASH_EXPLORE_TOO_LONG;
    if (paths->has_no_memory) return BLOBCRASH_EXPLORE_NO_MEMORY;
    if (!blobcrash_explorer_end(&paths->explorer)) return BLOBCRASH_EXPLORE_OTHER_DRAWS;
    paths->runs++;
    paths->has_ended = true;
    return BLOBCRASH_EXPLORE_RUN;
}

/* Closes the session of a run. RUN if it counts: `paths` then has its path until the next run begins. AGAIN, OTHER_DRAWS, TOO_LONG,
 * NO_MEMORY, or BAD_SETTINGS if these have a seed or words: the run doesn't count, and the next run is the same one again. */
static inline int blobcrash_end_run(struct blobcrash_paths *paths, struct blobcrash_session *session) {
    struct blobcrash_ran left = blobcrash_words_left(session);
    blobcrash_close(session);
    return blobcrash_finish_run(paths, left);
}

/* Makes the next run repeat the one that counted last. Its explored calls are printed to `script`, which may be NULL, as a script that
 * makes the same calls: `blobcrash explain` and `tools/crash_page` show it. */
static inline void blobcrash_repeat_run(struct blobcrash_paths *paths, FILE *script) {
    paths->runs -= paths->has_ended;
    paths->has_ended = false;
    paths->script = script;
}

/* Frees the memory of the path. */
static inline void blobcrash_free_paths(struct blobcrash_paths *paths) {
    free(paths->choices);
    free(paths->words);
    free(paths->unsynced.keys);
    memset(paths, 0, sizeof *paths);
}

#include "power.h"

#endif
