#define _GNU_SOURCE
#include "failing.h"

#include "layer.h"
#include "notes.h"
#include "power.h"

#include <errno.h>
#include <inttypes.h>
#include <limits.h>
#include <regex.h>
#include <stdio.h>
#include <stdlib.h>
#include <string.h>

enum { MOST = 32, TEXT_MOST = 512, POWER_OFF = -1, POWER_OFF_BEFORE = -2 };

static const char *const calls[] = {"open", "write", "sync"};
static const struct {
    const char *name;
    int number;
} errors[] = {{"EIO", EIO},       {"ENOSPC", ENOSPC}, {"EDQUOT", EDQUOT}, {"ENOMEM", ENOMEM}, {"EROFS", EROFS}, {"EACCES", EACCES},
              {"EMFILE", EMFILE}, {"ENFILE", ENFILE}, {"EINTR", EINTR},   {"EAGAIN", EAGAIN}, {"EFBIG", EFBIG}, {"off", POWER_OFF}};

static struct failing {
    char path[TEXT_MOST]; /* unless there is a pattern */
    bool has_pattern;
    regex_t pattern;
    enum failing_call call;
    uint64_t left; /* how many calls there are up to the one that fails */
    const char *error;
    int number;
    struct failing_parts parts;
    uint64_t order;
} failing[MOST];
static size_t count;
static uint64_t next_order = 1;
static struct failing_parts due; /* of the write that failed last */

/* Takes the last word from a text. Returns it, or NULL if there is only one. */
static char *take_last(char *text) {
    char *space = strrchr(text, ' ');
    if (!space) return NULL;
    *space = 0;
    return space + 1;
}

/* Reads the words after the path. Returns whether they are right. */
static bool read_words(struct failing *rule, const char *call, const char *number, const char *error) {
    char *end;
    size_t at = 0, kind = 0;
    while (at < sizeof errors / sizeof *errors && strcmp(error, errors[at].name)) at++;
    while (kind < sizeof calls / sizeof *calls && strcmp(call, calls[kind])) kind++;
    errno = 0;
    rule->left = strtoull(number, &end, 10);
    if (at == sizeof errors / sizeof *errors || kind == sizeof calls / sizeof *calls) return false;
    if (*number < '0' || *number > '9' || *end || errno || rule->left == 0) return false;
    rule->call = (enum failing_call)kind;
    rule->error = errors[at].name;
    rule->number = errors[at].number;
    return true;
}

static int add(struct failing *rule) {
    if (count == MOST) {
        if (rule->has_pattern) regfree(&rule->pattern);
        return ENOBUFS;
    }
    rule->order = next_order++;
    failing[count++] = *rule;
    return 0;
}

static void drop(struct failing *rule) {
    if (rule->has_pattern) regfree(&rule->pattern);
    *rule = failing[--count];
}

int failing_set(const char *text) {
    struct failing rule = {0};
    if (strlen(text) >= sizeof rule.path) return EINVAL;
    strcpy(rule.path, text);
    char *error = take_last(rule.path), *number = error ? take_last(rule.path) : NULL, *call = number ? take_last(rule.path) : NULL;
    if (!call || *rule.path != '/' || !read_words(&rule, call, number, error)) return EINVAL;
    return add(&rule);
}

int failing_crash(const char *pattern, enum failing_call call, bool is_before) {
    struct failing rule = {.has_pattern = true, .call = call, .left = 1, .error = is_before ? "off before" : "off"};
    rule.number = is_before ? POWER_OFF_BEFORE : POWER_OFF;
    return regcomp(&rule.pattern, pattern, REG_EXTENDED | REG_NOSUB) ? EINVAL : add(&rule);
}

int failing_torn(const char *path, uint64_t number, const struct failing_parts *parts) {
    struct failing rule = {.call = FAILING_WRITE, .left = number, .error = "torn", .number = POWER_OFF_BEFORE, .parts = *parts};
    if (*path != '/' || strlen(path) >= sizeof rule.path || number == 0) return EINVAL;
    strcpy(rule.path, path);
    return add(&rule);
}

static int by_order(const void *one, const void *other) {
    const struct failing *a = one, *b = other;
    return (a->order > b->order) - (a->order < b->order);
}

void failing_end(char *reply, size_t capacity) {
    size_t len = strlen(reply);
    qsort(failing, count, sizeof *failing, by_order);
    for (size_t at = 0; at < count && len < capacity; at++)
        len += (size_t)snprintf(reply + len, capacity - len, "%s %" PRIu64, at == 0 ? " never due" : "", failing[at].order);
    while (count > 0) drop(&failing[count - 1]);
    next_order = 1;
}

static bool is_about(const struct failing *rule, const char *path) {
    return rule->has_pattern ? regexec(&rule->pattern, path, 0, NULL, 0) == 0 : !strcmp(rule->path, path);
}

/* Counts a call on a path. Each of its rules counts; the first that is due decides, and no due rule stays. */
static int error_of(const char *path, enum failing_call call) {
    int found = 0;
    due.count = 0;
    for (size_t at = 0; at < count; at++) {
        struct failing *rule = &failing[at];
        if (rule->call != call || !is_about(rule, path) || --rule->left > 0) continue;
        if (!found) {
            found = rule->number;
            due = rule->parts;
        }
        note_failing(calls[call], path, rule->error);
        drop(rule);
        at--;
    }
    if (found >= 0) return found;
    power.is_off = true;
    return found == POWER_OFF_BEFORE ? EIO : 0;
}

const struct failing_parts *failing_write(void) { return due.count > 0 ? &due : NULL; }

int failing_error(const struct node *node, enum failing_call call) {
    char path[PATH_MAX];
    if (count == 0 || node->links == 0 || !node_path(node, path, sizeof path)) return 0;
    return error_of(node->inode == ROOT ? "/" : path, call);
}

int failing_create_error(const struct node *directory, const char *name) {
    char path[PATH_MAX + NAME_MOST + 2];
    /* The kernel passes longer names, which the call refuses. */
    if (count == 0 || strlen(name) > NAME_MOST || !node_path(directory, path, PATH_MAX)) return 0;
    strcat(strcat(path, "/"), name);
    return error_of(path, FAILING_OPEN);
}
