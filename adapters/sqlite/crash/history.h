/* What each transaction of a life leaves in the database, and what may be found of it. */
#ifndef CRASH_HISTORY_H
#define CRASH_HISTORY_H

#include <stdbool.h>
#include <stdint.h>

enum { MOST_ROWS = 240, MOST_ATTEMPTS = 4000 };

/* A hash of each row of the table; 0 if there is no such row. */
struct rows {
    uint64_t hash[MOST_ROWS];
};

/* The state after a transaction, by its number. Number 0 is the empty table. */
struct attempt {
    struct rows *rows;
    uint64_t hash;
    int parent;           /* The state in which it began. */
    bool is_acknowledged; /* Its COMMIT returned SQLITE_OK. */
    bool may_be_found;    /* It was written, perhaps, and no state was seen since that rules it out. */
};

struct history {
    struct attempt attempts[MOST_ATTEMPTS];
    int last;    /* The newest attempt. */
    int durable; /* The state that must not be lost. */
    int current; /* The state that the connection sees. */
};

enum finding {
    FOUND_DURABLE,        /* The state that must not be lost. */
    FOUND_UNACKNOWLEDGED, /* A later one that wasn't acknowledged, and may be there. */
    FOUND_OLDER,          /* Acknowledged commits are lost. */
    FOUND_OTHER           /* Rows of no state, or of one that was ruled out. */
};

void history_start(struct history *history);
void history_end(struct history *history);

/* Whether another attempt can be recorded. */
bool history_has_capacity(const struct history *history);

/* Records an attempt that leaves `rows`, from the current state. Aborts if memory is exhausted. */
void history_record(struct history *history, const struct rows *rows, bool may_be_found);

/* The newest attempt was acknowledged. */
void history_acknowledge(struct history *history);

/*
 * Compares what a connection sees with what it may see. The attempt becomes the current state, unless it is
 * FOUND_OTHER. With `is_after_crash` all other states are ruled out. `lost` is the number of acknowledged commits that
 * are lost.
 */
enum finding history_compare(struct history *history, int attempt, uint64_t hash, bool is_after_crash, uint64_t *lost);

uint64_t history_hash(const struct rows *rows);

#endif
