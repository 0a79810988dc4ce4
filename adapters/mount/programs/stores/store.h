/*
 * What stores.c needs of a library of keys and values, and what it has for that. A file of this folder is one library. `kind` is the word
 * of the command line, such as `lmdb-writemap`.
 */
#ifndef STORE_H
#define STORE_H

#include <stdbool.h>
#include <stddef.h>

/* Prints what failed and why, and exits with 1. */
void fail(const char *what, const char *why);

/* Prints a line `key|value`. */
void show(const char *key, size_t key_len, const char *value, size_t len);

/* Opens the store, and makes it if there is none. */
void open_store(const char *kind, const char *path);

/* Sets a key. Returns when the library says that this is durable. */
void put(const char *key, const char *value, size_t len);

/* Shows all keys. */
void list(void);

void close_store(void);

#endif
