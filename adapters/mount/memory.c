#include "memory.h"

#include <inttypes.h>
#include <stdio.h>
#include <unistd.h>

enum { MEGABYTE = 1 << 20, LEAST = 16 * MEGABYTE, MOST = 1024 * MEGABYTE };

/* Returns the limit of the control group, or the most that there is. */
static uint64_t limit_of_group(void) {
    uint64_t limit = UINT64_MAX;
    FILE *file = fopen("/sys/fs/cgroup/memory.max", "re");
    if (!file) return limit;
    if (fscanf(file, "%" SCNu64, &limit) != 1) limit = UINT64_MAX; /* the word `max` */
    fclose(file);
    return limit;
}

uint64_t memory_of_machine(void) {
    long pages = sysconf(_SC_PHYS_PAGES), size = sysconf(_SC_PAGESIZE);
    uint64_t limit = limit_of_group(), all = pages > 0 && size > 0 ? (uint64_t)pages * (uint64_t)size : UINT64_MAX;
    if (limit < all) all = limit;
    return all == UINT64_MAX ? 0 : all;
}

uint64_t memory_for_files(void) {
    uint64_t quarter = memory_of_machine() / 4 / MEGABYTE * MEGABYTE;
    if (quarter == 0 || quarter > MOST) return MOST;
    return quarter < LEAST ? LEAST : quarter;
}
