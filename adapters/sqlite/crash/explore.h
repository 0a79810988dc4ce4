/* Every outcome of a crash at every call of one small transaction. */
#ifndef CRASH_EXPLORE_H
#define CRASH_EXPLORE_H

#include <stddef.h>

/*
 * Explores these modes, of which the tear is `whole` (the default here), `sectors512` or `sectors4096`; without names,
 * each journal mode at FULL. Prints a row for each. Returns an exit status: 1 if a promise is broken, 2 if a name is no
 * such mode.
 */
int explore(const char *const *names, size_t count);

#endif
