/* Checks, for the tests of bindings/c. Each one that fails is printed, and sets `failed`, the exit status. */
#ifndef BLOBCRASH_CHECKS_H
#define BLOBCRASH_CHECKS_H

#include <stdbool.h>
#include <stdint.h>
#include <stdio.h>
#include <string.h>

static int failed;

static inline void check(bool holds, const char *what, int line) {
    if (holds) return;
    printf("line %d: %s\n", line, what);
    failed = 1;
}

#define CHECK(holds) check(holds, #holds, __LINE__)

/* A text with its length, as two arguments. */
#define TEXT(text) (const uint8_t *)(text), strlen(text)

#endif
