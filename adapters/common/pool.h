/* Lives in processes side by side. */
#ifndef COMMON_POOL_H
#define COMMON_POOL_H

#include "driver.h"

enum { POOL_MODE = 96 };

/* What the lives of a mode came to. */
struct pool_outcome {
    char mode[POOL_MODE];
    uint64_t lives, counts[DRIVER_COUNTS];
    /* Of the lives with a finding, in order; malloc'd. */
    uint64_t *seeds;
    size_t seeds_len;
};

/* The seeds from `first` on, in each mode, in `jobs` processes. */
struct pool_work {
    const struct driver *driver;
    struct pool_outcome *outcomes;
    uint64_t outcomes_len, first, seeds, jobs;
};

/*
 * Runs the lives and fills in the outcomes. Returns false, with a message on standard error, if a process can't be started or doesn't
 * end well.
 */
bool pool_run(const struct pool_work *work);

/* Whether counts have a finding. */
bool pool_is_finding(const struct driver *driver, const uint64_t *counts);

#endif
