/* A file as SQLite has it open, for the files that have its methods. */
#ifndef BLOBCRASH_FILE_H
#define BLOBCRASH_FILE_H

#include "memory.h"
#include "parameters.h"
#include "store.h"

struct file {
    sqlite3_file base;
    struct open_file open;
    struct device device;
    /* The lock of this connection. */
    int lock;
    struct memory_user memory;
    /* The next sync makes the file's name durable too. */
    bool syncs_directory;
};

static inline struct file *file_of(sqlite3_file *base) { return (struct file *)base; }

#endif
