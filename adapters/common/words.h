/*
 * The words of a mode's name that say what the disk does, the same for each database. A name is words with dashes; a driver reads the
 * words that are its own, and passes the others to words_read.
 */
#ifndef COMMON_WORDS_H
#define COMMON_WORDS_H

#include <stdbool.h>
#include <stddef.h>
#include <stdint.h>

#ifdef __cplusplus
extern "C" {
#endif

enum { WORDS_PREAMBLE = 160, WORDS_LINE = 100 };

/* What a mode says of the disk. */
struct words {
    /* One of words_profile. */
    const char *profile;
    /* What a crash keeps of an unsynced write: none, all, whole, prefix, sectors512, sectors4096, bytes; mix takes one of these but bytes. */
    const char *tear;
    /* Syncs return Ok and do nothing; a sync that fails drops what was unsynced; a crash keeps all changes of names. */
    bool lies, drops, keeps_names;
};

/* Returns the name of the profile with this number, from 0 on, or NULL. */
const char *words_profile(uint32_t number);

/* What is meant without a word: ext4 and mix. */
extern const struct words words_default;

/* Reads a word: a profile, a tear, `lie`, `drops` or `names`. False if it is another. */
bool words_read(struct words *words, const char *word);

/* Writes the lines of a preamble: the seed, the profile and how often a crash keeps a change of names. Syncs are honest. */
void words_preamble(const struct words *words, uint64_t seed, char preamble[WORDS_PREAMBLE]);

/* Returns the tear of a life: that of the mode, or with `mix` one that is drawn. */
const char *words_tear(const struct words *words, uint64_t *draws);

/* Returns the mode of a tear, as a setting of writes has it, and in `rate` the rate at which a crash keeps, or NULL if any does. NULL if the tear
 * is none. */
const char *words_mode(const char *tear, const char **rate);

/* Writes the setting of writes: the rate `fails`, as "1 60", at which they fail, and what a crash keeps of them, at a rate that is drawn. */
void words_write_setting(const char *tear, const char *fails, uint64_t *draws, char line[WORDS_LINE]);

#ifdef __cplusplus
}
#endif

#endif
