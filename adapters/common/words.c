#include "words.h"

#include "blobcrash.h"
#include "random.h"

#include <inttypes.h>
#include <stdio.h>
#include <string.h>

/* The first of these are those of `mix`. */
static const char *const tears[] = {"none", "all", "whole", "prefix", "sectors512", "sectors4096", "bytes", "mix", NULL};
enum { MIX_LEN = 6 };

const struct words words_default = {.profile = "ext4", .tear = "mix"};

const char *words_profile(uint32_t number) {
    enum { MOST = 16, SIZE = 16 };
    static char names[MOST][SIZE];
    if (number >= MOST) return NULL;
    struct blobcrash_ran ran = blobcrash_word(BLOBCRASH_W_PROFILES, number, (uint8_t *)names[number], SIZE - 1);
    return ran.status == BLOBCRASH_DONE ? names[number] : NULL;
}

static const char *find_profile(const char *word) {
    const char *profile;
    for (uint32_t number = 0; (profile = words_profile(number)); number++) {
        if (strcmp(profile, word) == 0) break;
    }
    return profile;
}

static const char *find_tear(const char *word) {
    const char *const *tear = tears;
    while (*tear && strcmp(*tear, word) != 0) tear++;
    return *tear;
}

bool words_read(struct words *words, const char *word) {
    const char *profile = find_profile(word), *tear = find_tear(word);
    if (profile) words->profile = profile;
    else if (tear) words->tear = tear;
    else if (strcmp(word, "lie") == 0) words->lies = true;
    else if (strcmp(word, "drops") == 0) words->drops = true;
    else if (strcmp(word, "names") == 0) words->keeps_names = true;
    else return false;
    return true;
}

void words_preamble(const struct words *words, uint64_t seed, char preamble[WORDS_PREAMBLE]) {
    snprintf(preamble, WORDS_PREAMBLE, "seed %" PRIu64 "\nprofile %s\nkeep %s\nfailed_sync %s\n", seed, words->profile,
             words->keeps_names ? "1 1" : "1 2", words->drops ? "drops" : "keeps");
}

const char *words_tear(const struct words *words, uint64_t *draws) {
    return strcmp(words->tear, "mix") == 0 ? tears[random_below(draws, MIX_LEN)] : words->tear;
}

const char *words_mode(const char *tear, const char **rate) {
    static const struct {
        const char *tear, *rate, *mode;
    } modes[] = {
        {"none", "0 1", "prefix"},           {"all", "1 1", "prefix"},
        {"whole", NULL, "sectors 9223372036854775807"}, {"prefix", NULL, "prefix"},
        {"sectors512", NULL, "sectors 512"}, {"sectors4096", NULL, "sectors 4096"},
        {"bytes", NULL, "subset"},
    };
    for (size_t i = 0; i < sizeof modes / sizeof *modes; i++) {
        if (strcmp(modes[i].tear, tear) != 0) continue;
        *rate = modes[i].rate;
        return modes[i].mode;
    }
    return NULL;
}

void words_write_setting(const char *tear, const char *fails, uint64_t *draws, char line[WORDS_LINE]) {
    static const char *const rates[] = {"1 2", "1 8", "7 8"}, *const prefixes[] = {"1 2", "99 100", "1999 2000"};
    const char *rate = rates[random_below(draws, 3)], *prefix = prefixes[random_below(draws, 3)], *fixed;
    const char *mode = words_mode(tear, &fixed);
    if (!mode) return;
    if (strcmp(tear, "prefix") == 0) rate = prefix;
    snprintf(line, WORDS_LINE, "config write %s %s %s", fails, fixed ? fixed : rate, mode);
}
