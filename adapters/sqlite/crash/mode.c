#include "mode.h"

#include <sqlite3.h>
#include <stdio.h>
#include <string.h>

static const char *const journals[] = {"delete", "truncate", "persist", "memory", "wal", NULL};
static const char *const levels[] = {"off", "normal", "full", "extra", NULL};

const char *const mode_names[] = {
    "delete-full",
    "delete-full-names",
    "delete-extra",
    "delete-normal",
    "delete-off",
    "truncate-full",
    "truncate-extra",
    "truncate-normal",
    "truncate-off",
    "persist-full",
    "persist-extra",
    "persist-normal",
    "persist-off",
    "wal-full",
    "wal-extra",
    "wal-normal",
    "wal-off",
    "wal-full-exclusive",
    "memory-full",
    "delete-extra-bytes",
    "truncate-full-bytes",
    "persist-full-bytes",
    "wal-full-bytes",
    "delete-extra-savepoints",
    "truncate-full-savepoints",
    "persist-full-savepoints",
    "wal-full-savepoints",
    "delete-extra-attach",
    "truncate-full-attach",
    "persist-full-attach",
    "wal-full-attach",
    "delete-extra-two",
    "truncate-full-two",
    "persist-full-two",
    "wal-full-two",
    "wal-full-savepoints-two",
    "delete-extra-faults",
    "truncate-full-faults",
    "persist-full-faults",
    "wal-full-faults",
    "wal-full-faults-two",
    "delete-extra-partial",
    "truncate-full-partial",
    "persist-full-partial",
    "wal-full-partial",
    "delete-extra-faults-drops",
    "truncate-full-faults-drops",
    "persist-full-faults-drops",
    "wal-full-faults-drops",
    "delete-extra-lie",
    "truncate-full-lie",
    "persist-full-lie",
    "wal-full-lie",
    "delete-extra-sequential",
    "truncate-full-sequential",
    "persist-full-sequential",
    "wal-full-sequential",
};
const size_t mode_count = sizeof mode_names / sizeof *mode_names;

static const char *find(const char *const *words, const char *word) {
    while (*words && strcmp(*words, word) != 0) words++;
    return *words;
}

static bool set_option(struct mode *mode, const char *word) {
    if (strcmp(word, "savepoints") == 0) return mode->has_savepoints = true;
    if (strcmp(word, "attach") == 0) return mode->has_two_files = true;
    if (strcmp(word, "two") == 0) return mode->has_two_connections = true;
    if (strcmp(word, "exclusive") == 0) return mode->is_exclusive = true;
    if (strcmp(word, "faults") == 0) return mode->has_faults = true;
    if (strcmp(word, "partial") == 0) return mode->has_faults = mode->has_partial_resize = true;
    if (strcmp(word, "sequential") == 0) return mode->characteristics = SQLITE_IOCAP_SEQUENTIAL, true;
    return words_read(&mode->disk, word);
}

bool mode_parse(const char *name, struct mode *mode) {
    char words[sizeof mode->name], *rest = NULL;
    if (strlen(name) >= sizeof words) return false;
    *mode = (struct mode){.disk = words_default};
    strcpy(mode->name, name);
    strcpy(words, name);
    const char *word = strtok_r(words, "-", &rest);
    if (!word || !(mode->journal = find(journals, word))) return false;
    word = strtok_r(NULL, "-", &rest);
    if (!word || !(mode->synchronous = find(levels, word))) return false;
    while ((word = strtok_r(NULL, "-", &rest))) {
        if (!set_option(mode, word)) return false;
    }
    return !(mode->is_exclusive && mode->has_two_connections);
}

/*
 * https://www.sqlite.org/pragma.html#pragma_synchronous, by journal mode. A disk that lies takes every promise away,
 * and so does one that reports an order of writes which it doesn't keep. With write-ahead logs a transaction over two
 * files isn't atomic.
 */
enum promise mode_promise(const struct mode *mode) {
    bool is_wal = strcmp(mode->journal, "wal") == 0;
    /* https://www.sqlite.org/atomiccommit.html: a sector is taken to be written from one end to the other. */
    if (strcmp(mode->disk.tear, "bytes") == 0) return NOTHING;
    if (mode->disk.lies || mode->characteristics || strcmp(mode->journal, "memory") == 0) return NOTHING;
    if (is_wal && mode->has_two_files) return NOTHING;
    if (strcmp(mode->synchronous, "off") == 0) return NOTHING;
    if (strcmp(mode->synchronous, "normal") == 0) return is_wal ? CONSISTENT : NOTHING;
    /* Only EXTRA syncs the directory after the journal is deleted. */
    bool deletes = strcmp(mode->journal, "delete") == 0 && strcmp(mode->synchronous, "full") == 0;
    return deletes && !mode->disk.keeps_names ? CONSISTENT : DURABLE;
}
