#include "power.h"

#include "acknowledged.h"
#include "nodes.h"

struct power power = {.life = 1};

void power_on(void) {
    power.is_off = power.is_ending = power.is_counting = false;
    power.waits_for = 0;
}

/* Counts the calls that are left. */
static void count_down(void) {
    power.waits_for = 0;
    power.is_counting = power.calls_left > 0;
    if (power.calls_left == 0) power.is_off = true;
}

void power_off_after(uint64_t calls, uint64_t acknowledgement) {
    power.calls_left = calls;
    power.is_counting = false;
    power.waits_for = acknowledgement;
    if (acknowledgement <= acknowledged_count()) count_down();
}

void power_acknowledged(uint64_t count) {
    if (power.waits_for > 0 && count >= power.waits_for) count_down();
}

int power_crash(struct disk_crash *crash) {
    power.is_off = true;
    int error = layer_crash(crash);
    if (!error) {
        power.life++;
        error = nodes_recover();
    }
    if (!error) power_on();
    return error;
}
