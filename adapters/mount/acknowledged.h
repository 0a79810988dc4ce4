/*
 * The file to which a workload writes what it has acknowledged, a line each. It is looked at before each call and each command, so a line is
 * noted in the record after all calls that came before it, and before all that come after it.
 */
#ifndef MOUNT_ACKNOWLEDGED_H
#define MOUNT_ACKNOWLEDGED_H

#include <stdbool.h>
#include <stdint.h>

/* Begins with a file that exists, after its present end. Returns 0 or a number of errno. */
int acknowledged_begin(const char *path);
/* Notes the lines that were written since the last look. */
void acknowledged_look(void);
/* Returns how many there are. */
uint64_t acknowledged_count(void);
/* Returns in `calls` how many changing calls came before a line, the first of which has the number 1. Returns whether it is known. */
bool acknowledged_after(uint64_t number, uint64_t *calls);

#endif
