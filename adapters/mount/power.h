/* The power of the simulated machine. While it is off the daemon reads no call: each waits in the kernel. */
#ifndef MOUNT_POWER_H
#define MOUNT_POWER_H

#include "layer.h"

#include <stdbool.h>
#include <stdint.h>

struct power {
    bool is_off;
    bool is_ending; /* calls that waited are ended with EIO */
    bool is_counting;
    uint64_t calls_left; /* if it is counting: how many changing calls are made before the power goes off */
    uint64_t waits_for;  /* the acknowledgement after which it counts, or 0 */
    uint64_t life;       /* 1, and one more with each crash */
    uint64_t calls, changing_calls, stale_calls, write_backs, commits;
};

extern struct power power;

/* Begins a life: nothing is counted down. */
void power_on(void);

/* Lets the power go off after some changing calls. They count from the acknowledgement of this number on, if it isn't 0 or there is one. */
void power_off_after(uint64_t calls, uint64_t acknowledgement);
/* Says how many acknowledgements there are. */
void power_acknowledged(uint64_t count);

/* Crashes the layer, and begins the next life. After an error the power is off. */
int power_crash(struct disk_crash *crash);

#endif
