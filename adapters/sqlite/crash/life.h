/* One life of a database: rounds of transactions, each of which a crash ends. */
#ifndef CRASH_LIFE_H
#define CRASH_LIFE_H

#include "mode.h"

/* What is counted in a life. */
enum count {
    COMMITS, /* Acknowledged transactions. */
    CRASHES,
    IN_COMMIT,   /* Crashes during a COMMIT. */
    IN_RECOVERY, /* Crashes during an open after a crash. */
    FAULTS,      /* Injected. */
    LOST,        /* Acknowledged transactions that weren't found. */
    CORRUPT,     /* Databases that SQLite calls damaged, at an open, a query or an integrity check. */
    WRONG,       /* Databases with rows that no transaction left. */
    COUNTS
};

/* Whether something was counted that the promise rules out. */
bool life_breaks(const uint64_t *counts, enum promise promise);

/* Runs a life, and adds to its COUNTS counts. If `is_told`, what was found is printed. Ends the process if the layer itself doesn't work. */
void life_run(const struct mode *mode, uint64_t seed, bool is_told, uint64_t *counts);

#endif
