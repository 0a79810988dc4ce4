/*
 * Crashes SQLite at random points between the calls of its VFS, and checks what it finds afterwards. mode.h says what a mode is, and
 * driver.h what the arguments are.
 */
#include "driver.h"
#include "explore.h"
#include "life.h"

#include <sqlite3.h>

/* The order is that of enum count. */
static const struct driver_column columns[COUNTS] = {
    {"commits", false}, {"crashes", false}, {"in commit", false}, {"recovery", false},
    {"faults", false},  {"lost", true},     {"corrupt", true},    {"wrong", true},
};

static bool is_mode(const char *name) {
    struct mode mode;
    return mode_parse(name, &mode);
}

static void live(const char *name, uint64_t seed, bool is_told, uint64_t *counts) {
    struct mode mode;
    if (mode_parse(name, &mode)) life_run(&mode, seed, is_told, counts);
}

static const char *verdict(const char *name, const uint64_t *counts) {
    struct mode mode;
    if (!mode_parse(name, &mode)) return DRIVER_BROKEN;
    enum promise promise = mode_promise(&mode);
    if (life_breaks(counts, promise)) return DRIVER_BROKEN;
    if (promise == DURABLE) return "held";
    if (!counts[LOST] && !counts[CORRUPT] && !counts[WRONG]) return "nothing lost";
    return promise == CONSISTENT ? "lost, as allowed" : "damaged, as allowed";
}

int main(int argc, char **argv) {
    const struct driver driver = {
        .name = "crash",
        .modes = mode_names,
        .modes_len = mode_count,
        .columns = columns,
        .columns_len = COUNTS,
        .is_mode = is_mode,
        .live = live,
        .verdict = verdict,
        .explore = explore,
    };
    sqlite3_config(SQLITE_CONFIG_SINGLETHREAD);
    sqlite3_config(SQLITE_CONFIG_MEMSTATUS, 0);
    if (blobcrash_vfs_register() != SQLITE_OK) return 2;
    return driver_main(&driver, argc, argv);
}
