/*
 * Allocations of the library that are refused, for the tests of bindings/c: the one that `until_refused` counts down to, and with
 * `refuses_on` all later ones too. A program that includes it is linked with `-Wl,--wrap=malloc,--wrap=realloc`.
 */
#ifndef BLOBCRASH_MEMORY_CHECKS_H
#define BLOBCRASH_MEMORY_CHECKS_H

#include <stdbool.h>
#include <stddef.h>

static unsigned long until_refused;
static bool refuses_on;
void *__real_malloc(size_t size);
void *__real_realloc(void *old, size_t size);
void *__wrap_malloc(size_t size);
void *__wrap_realloc(void *old, size_t size);

static bool is_refused(void) {
    if (until_refused == 0) return false;
    until_refused -= until_refused > 1 || !refuses_on;
    return until_refused == 0 || (refuses_on && until_refused == 1);
}

void *__wrap_malloc(size_t size) { return is_refused() ? NULL : __real_malloc(size); }
void *__wrap_realloc(void *old, size_t size) { return is_refused() ? NULL : __real_realloc(old, size); }

#endif
