/* The parameters of a database's URI. adapters/sqlite/README.md has the table. */
#ifndef BLOBCRASH_PARAMETERS_H
#define BLOBCRASH_PARAMETERS_H

#include <sqlite3ext.h>

/* What the device of a file reports to SQLite. */
struct device {
    int sector_size, characteristics;
};

static const struct device default_device = {4096, SQLITE_IOCAP_POWERSAFE_OVERWRITE};

/*
 * Reads the parameters of a name that SQLite passed to xOpen for a main database: starts the file system if that must
 * be, makes the settings, and fills in the device. Returns SQLITE_OK, or SQLITE_CANTOPEN:
 * - with nothing changed if a parameter is unknown, given twice or has a value that it can't have, or if the URI needs
 * another file system while files are open;
 * - if memory is exhausted. Some of the settings may be made.
 */
int parameters_apply(const char *name, struct device *device);

/* Forgets the settings that URIs have made. For store.c, when a file system ends. */
void parameters_reset(void);

/* Fills in the device for a journal of a main database, from the same URI. */
void parameters_device(const char *name, struct device *device);

#endif
