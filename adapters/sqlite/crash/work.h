/* The transactions of a life. */
#ifndef CRASH_WORK_H
#define CRASH_WORK_H

#include "database.h"
#include "history.h"

/*
 * Runs one transaction and records it. Returns SQLITE_OK if it was acknowledged, or rolled back on purpose.
 * `*in_commit` is set if it is the COMMIT that failed.
 */
int work_transact(struct database *database, struct history *history, uint64_t *draws, bool *in_commit);

/* Commits the transaction that was recorded last, again if a reader was in its way. `*in_commit` is set if that failed. */
int work_commit(struct database *database, struct history *history, bool *in_commit);

/* Does what isn't a transaction: VACUUM, REINDEX or a checkpoint. */
int work_maintain(struct database *database, uint64_t *draws);

#endif
