#include "history.h"

#include <stdlib.h>
#include <string.h>

uint64_t history_hash(const struct rows *rows) {
    uint64_t sum = 0;
    for (int i = 0; i < MOST_ROWS; i++) sum += rows->hash[i];
    return sum;
}

bool history_has_capacity(const struct history *history) { return history->last + 2 < MOST_ATTEMPTS; }

static void put(struct history *history, const struct rows *rows, bool may_be_found) {
    struct attempt *attempt = &history->attempts[history->last];
    if (!(attempt->rows = malloc(sizeof *rows))) abort();
    *attempt->rows = *rows;
    attempt->hash = history_hash(rows);
    attempt->parent = history->current;
    attempt->is_acknowledged = false;
    attempt->may_be_found = may_be_found;
}

void history_record(struct history *history, const struct rows *rows, bool may_be_found) {
    history->last++;
    put(history, rows, may_be_found);
}

void history_start(struct history *history) {
    struct rows empty = {0};
    history->last = history->durable = history->current = 0;
    put(history, &empty, true);
    history->attempts[0].is_acknowledged = true;
}

void history_end(struct history *history) {
    for (int i = 0; i <= history->last; i++) free(history->attempts[i].rows);
    memset(history->attempts, 0, (size_t)(history->last + 1) * sizeof *history->attempts);
}

/* Rules out all states but one. */
static void rule_out(struct history *history, int found) {
    for (int i = 0; i <= history->last; i++) {
        if (i != found) history->attempts[i].may_be_found = false;
    }
}

void history_acknowledge(struct history *history) {
    rule_out(history, history->last);
    history->attempts[history->last].is_acknowledged = true;
    history->durable = history->current = history->last;
}

static bool is_ancestor(const struct history *history, int of, int attempt) {
    while (attempt > of) attempt = history->attempts[attempt].parent;
    return attempt == of;
}

static uint64_t acknowledged_after(const struct history *history, int attempt) {
    uint64_t count = 0;
    for (int at = history->durable; at > attempt; at = history->attempts[at].parent) {
        count += history->attempts[at].is_acknowledged;
    }
    return count;
}

enum finding history_compare(struct history *history, int attempt, uint64_t hash, bool is_after_crash, uint64_t *lost) {
    *lost = 0;
    if (attempt < 0 || attempt > history->last || history->attempts[attempt].hash != hash) return FOUND_OTHER;
    bool is_allowed = history->attempts[attempt].may_be_found && is_ancestor(history, history->durable, attempt);
    enum finding finding = FOUND_DURABLE;
    if (attempt != history->durable) {
        *lost = acknowledged_after(history, attempt);
        finding = is_allowed ? FOUND_UNACKNOWLEDGED : *lost ? FOUND_OLDER : FOUND_OTHER;
    }
    if (finding == FOUND_OTHER) return finding;
    history->current = attempt;
    if (is_after_crash) rule_out(history, attempt);
    if (is_after_crash || finding == FOUND_OLDER) history->durable = attempt;
    return finding;
}
