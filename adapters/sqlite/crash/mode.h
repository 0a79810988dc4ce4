/* A mode: how SQLite is set up, and what the disk does. Its name is words with dashes, as `wal-full-bytes-savepoints`. */
#ifndef CRASH_MODE_H
#define CRASH_MODE_H

#include "blobcrash_vfs.h"
#include "words.h"

/* What SQLite promises after a crash. */
enum promise {
    NOTHING,    /* The database may be lost. */
    CONSISTENT, /* The rows are those after some transaction. Acknowledged ones may be lost. */
    DURABLE     /* And every acknowledged transaction is found. */
};

struct mode {
    char name[96];
    const char *journal, *synchronous;
    struct words disk;
    bool has_savepoints;      /* Some transactions roll back to a savepoint. */
    bool has_two_files;       /* Each transaction changes two attached files. */
    bool has_two_connections; /* Two connections write in turn. */
    bool is_exclusive;        /* locking_mode=EXCLUSIVE. */
    bool has_faults;          /* Calls fail. */
    bool has_partial_resize;  /* And a truncation that fails may be done in part. */
    int characteristics;      /* Of the device, as it reports them to SQLite; 0 for the default. */
};

/*
 * Reads a name: a journal mode (delete, truncate, persist, memory, wal), a value of synchronous (off, normal, full,
 * extra), and then any of the words of words.h and of savepoints, attach, two, exclusive, faults, partial, sequential.
 *
 * Returns false if it is no name.
 */
bool mode_parse(const char *name, struct mode *mode);

enum promise mode_promise(const struct mode *mode);

/* The modes of the table, in its order. */
extern const char *const mode_names[];
extern const size_t mode_count;

#endif
