/* The lines of calls that were made, in memory of their own. blobcrash_calls.h, blobcrash_files_calls.h and explore.h include this header. */
#ifndef BLOBCRASH_LINES_H
#define BLOBCRASH_LINES_H

#include "blobcrash.h"
#include "blobcrash_files.h"

#include <stdlib.h>

/* The functions of blobcrash.h take no NULL. */
static inline const uint8_t *blobcrash_line_bytes(const void *bytes) {
    return (const uint8_t *)(bytes == NULL ? "" : bytes);
}

/* Returns the line of a call, which the caller frees, and its length. NULL without memory. */
static inline char *blobcrash_new_line(const struct blobcrash_asked *asked, const void *partition, size_t partition_len, const void *name,
                                       size_t name_len, size_t *len) {
    const uint8_t *in = blobcrash_line_bytes(partition), *called = blobcrash_line_bytes(name);
    uint8_t none;
    *len = blobcrash_line_of(asked, in, partition_len, called, name_len, &none, 0).len;
    char *line = *len < SIZE_MAX ? (char *)malloc(*len + 1) : NULL;
    if (line != NULL) blobcrash_line_of(asked, in, partition_len, called, name_len, (uint8_t *)line, *len);
    return line;
}

/* The same of a call on files. */
static inline char *blobcrash_new_files_line(const struct blobcrash_file_call *asked, const void *path, size_t path_len, const void *to,
                                             size_t to_len, size_t *len) {
    const uint8_t *from = blobcrash_line_bytes(path), *other = blobcrash_line_bytes(to);
    uint8_t none;
    *len = blobcrash_files_line_of(asked, from, path_len, other, to_len, &none, 0).len;
    char *line = *len < SIZE_MAX ? (char *)malloc(*len + 1) : NULL;
    if (line != NULL) blobcrash_files_line_of(asked, from, path_len, other, to_len, (uint8_t *)line, *len);
    return line;
}

#endif
