#include "driver.h"

#include "pool.h"

#include <inttypes.h>
#include <stdio.h>
#include <stdlib.h>
#include <string.h>
#include <unistd.h>

enum { MODE_WIDTH = 26, VERDICT_WIDTH = 19, LEAST_WIDTH = 7 };

static int usage(const struct driver *driver) {
    fprintf(stderr, "usage: %s [--first SEED] [--jobs N] [--with WORD] SEEDS [MODE ..]\n", driver->name);
    fprintf(stderr, "       %s --seed SEED MODE\n", driver->name);
    if (driver->explore) fprintf(stderr, "       %s --explore [MODE ..]\n", driver->name);
    fprintf(stderr, "       %s --list\n", driver->name);
    return 2;
}

static bool read_number(const char *text, uint64_t *number) {
    char *end;
    if (!text || *text < '0' || *text > '9') return false;
    *number = strtoull(text, &end, 10);
    return *end == 0;
}

/* The table is Markdown. */

static int width_of(const struct driver_column *column) {
    int len = (int)strlen(column->name);
    return len < LEAST_WIDTH ? LEAST_WIDTH : len;
}

static void print_dashes(int count) {
    for (int i = 0; i < count; i++) putchar('-');
}

static void print_heading(const struct driver *driver) {
    printf("| %-*s | %*s |", MODE_WIDTH, "mode", LEAST_WIDTH, "seeds");
    for (size_t i = 0; i < driver->columns_len; i++) printf(" %*s |", width_of(&driver->columns[i]), driver->columns[i].name);
    printf(" %-*s |\n|", VERDICT_WIDTH, "promise");
    print_dashes(MODE_WIDTH + 2);
    putchar('|');
    print_dashes(LEAST_WIDTH + 1);
    for (size_t i = 0; i < driver->columns_len; i++) {
        fputs(":|", stdout);
        print_dashes(width_of(&driver->columns[i]) + 1);
    }
    fputs(":|", stdout);
    print_dashes(VERDICT_WIDTH + 2);
    puts("|");
}

static void print_row(const struct driver *driver, const struct pool_outcome *outcome) {
    printf("| %-*s | %*" PRIu64 " |", MODE_WIDTH, outcome->mode, LEAST_WIDTH, outcome->lives);
    for (size_t i = 0; i < driver->columns_len; i++) {
        printf(" %*" PRIu64 " |", width_of(&driver->columns[i]), outcome->counts[i]);
    }
    printf(" %-*s |\n", VERDICT_WIDTH, driver->verdict(outcome->mode, outcome->counts));
}

static bool is_broken(const struct driver *driver, const struct pool_outcome *outcome) {
    return strcmp(driver->verdict(outcome->mode, outcome->counts), DRIVER_BROKEN) == 0;
}

/* Prints a command for every life that broke a promise, and for the first that lost what it may. */
static void print_findings(const struct driver *driver, const struct pool_outcome *outcome) {
    const char *command = getenv("CRASH_COMMAND");
    bool breaks = is_broken(driver, outcome);
    size_t shown = breaks ? outcome->seeds_len : outcome->seeds_len > 0;
    if (shown == 0) return;
    printf("\n%s: %zu of %" PRIu64 " seeds%s\n", outcome->mode, outcome->seeds_len, outcome->lives,
           breaks ? ", in which a promise is broken:" : " lose what is allowed, the first of them:");
    for (size_t i = 0; i < shown; i++) {
        printf("    %s --seed %" PRIu64 " %s\n", command ? command : driver->name, outcome->seeds[i], outcome->mode);
    }
}

/* Makes an outcome for each mode. False, with a message, if there is no such mode. */
static bool make_outcomes(const struct driver *driver, struct pool_work *work, const char *const *modes, const char *word) {
    work->outcomes = (struct pool_outcome *)calloc(work->outcomes_len, sizeof *work->outcomes);
    for (uint64_t i = 0; work->outcomes && i < work->outcomes_len; i++) {
        char *name = work->outcomes[i].mode;
        int len = snprintf(name, POOL_MODE, "%s%s%s", modes[i], word ? "-" : "", word ? word : "");
        if (len < POOL_MODE && driver->is_mode(name)) continue;
        fprintf(stderr, "%s: no mode: %s\n", driver->name, name);
        return false;
    }
    return work->outcomes != NULL;
}

static int run_table(const struct driver *driver, struct pool_work *work) {
    int status = 0;
    if (!pool_run(work)) return 2;
    print_heading(driver);
    for (uint64_t i = 0; i < work->outcomes_len; i++) print_row(driver, &work->outcomes[i]);
    for (uint64_t i = 0; i < work->outcomes_len; i++) {
        print_findings(driver, &work->outcomes[i]);
        if (is_broken(driver, &work->outcomes[i])) status = 1;
        free(work->outcomes[i].seeds);
    }
    return status;
}

static int run_one(const struct driver *driver, const char *seed, const char *mode) {
    struct pool_outcome outcome = {.lives = 1};
    uint64_t number;
    if (!read_number(seed, &number) || strlen(mode) >= POOL_MODE || !driver->is_mode(mode)) return usage(driver);
    strcpy(outcome.mode, mode);
    driver->live(mode, number, true, outcome.counts);
    print_heading(driver);
    print_row(driver, &outcome);
    return is_broken(driver, &outcome);
}

static int list(const struct driver *driver) {
    for (size_t i = 0; i < driver->modes_len; i++) puts(driver->modes[i]);
    return 0;
}

/* Reads the arguments of a table, after which the modes are made. Returns the index of the first mode, or 0. */
static int read_arguments(struct pool_work *work, const char **with, int argc, const char *const *words) {
    int at = 1;
    for (; at + 1 < argc && strncmp(words[at], "--", 2) == 0; at += 2) {
        uint64_t *option = strcmp(words[at], "--first") == 0 ? &work->first : strcmp(words[at], "--jobs") == 0 ? &work->jobs : NULL;
        if (strcmp(words[at], "--with") == 0) *with = words[at + 1];
        else if (!option || !read_number(words[at + 1], option)) return 0;
    }
    if (at >= argc || !read_number(words[at], &work->seeds) || work->seeds == 0) return 0;
    return work->jobs == 0 || work->jobs > DRIVER_JOBS ? 0 : at + 1;
}

int driver_main(const struct driver *driver, int argc, char **argv) {
    struct pool_work work = {.driver = driver, .first = 1, .jobs = (uint64_t)sysconf(_SC_NPROCESSORS_ONLN)};
    const char *const *words = (const char *const *)argv;
    const char *with = NULL;
    if (argc == 2 && strcmp(words[1], "--list") == 0) return list(driver);
    if (argc == 4 && strcmp(words[1], "--seed") == 0) return run_one(driver, words[2], words[3]);
    if (argc > 1 && driver->explore && strcmp(words[1], "--explore") == 0) return driver->explore(words + 2, (size_t)argc - 2);
    int at = read_arguments(&work, &with, argc, words);
    if (at == 0) return usage(driver);
    work.outcomes_len = at == argc ? driver->modes_len : (uint64_t)(argc - at);
    bool is_well = make_outcomes(driver, &work, at == argc ? driver->modes : words + at, with);
    int status = is_well ? run_table(driver, &work) : 2;
    free(work.outcomes);
    return status;
}
