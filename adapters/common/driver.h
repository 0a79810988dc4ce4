/*
 * What the programs that crash a database by seed have in common: arguments, lives in processes side by side, the table, and the
 * command that repeats a life. A life is one database, from its creation to the last of its crashes.
 *
 *     PROGRAM [--first SEED] [--jobs N] [--with WORD] SEEDS [MODE ..]
 *                                                          these seeds in each mode; without a mode, in those of the table. With a
 *                                                          word, as `xfs`, each mode's name has this word too
 *     PROGRAM --seed SEED MODE                             one life, with what was found
 *     PROGRAM --explore [MODE ..]                          what `explore` does
 *     PROGRAM --list                                       the names of the table's modes
 *
 * The table is on standard output, progress on standard error. Exit status: 0; 1 if the database broke a promise in some mode; 2 if
 * the arguments are wrong, or a life didn't end.
 */
#ifndef COMMON_DRIVER_H
#define COMMON_DRIVER_H

#include <stdbool.h>
#include <stddef.h>
#include <stdint.h>

#ifdef __cplusplus
extern "C" {
#endif

/* The verdict on a mode in which the database broke a promise. */
#define DRIVER_BROKEN "NOT HELD"

enum { DRIVER_COUNTS = 16, DRIVER_JOBS = 256 };

/* What lives count, and a column of the table. A finding is something that was lost or damaged. */
struct driver_column {
    const char *name;
    bool is_finding;
};

struct driver {
    /* The program, in messages and in the command that repeats a life. A script may give the command by CRASH_COMMAND. */
    const char *name;
    /* The modes of the table, in its order. */
    const char *const *modes;
    size_t modes_len;
    /* The columns between `seeds` and `promise`, at most DRIVER_COUNTS. */
    const struct driver_column *columns;
    size_t columns_len;
    /* Whether this is the name of a mode. */
    bool (*is_mode)(const char *mode);
    /* Runs a life, and fills in what it counted, in the order of the columns. Each is 0 before. If `is_told`, prints what was found. */
    void (*live)(const char *mode, uint64_t seed, bool is_told, uint64_t *counts);
    /* The last column: DRIVER_BROKEN, or other words. */
    const char *(*verdict)(const char *mode, const uint64_t *counts);
    /* `--explore` with these modes, or with none. Returns an exit status. NULL if the driver doesn't explore. */
    int (*explore)(const char *const *modes, size_t modes_len);
};

/* Does what the arguments say. Returns an exit status. Each life is in a child process, that of `--seed` in this one. */
int driver_main(const struct driver *driver, int argc, char **argv);

#ifdef __cplusplus
}
#endif

#endif
