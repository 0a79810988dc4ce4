#include "lazy.h"

#include "failing.h"

#include <errno.h>
#include <stdint.h>
#include <stdlib.h>
#include <string.h>

enum { VALUE_MOST = 512 };

static const char crash[] = "crash::", torn_op[] = "torn-op::";

static bool begins(const char *text, const char *with) { return strncmp(text, with, strlen(with)) == 0; }

/* Copies the value of a field, without brackets around it. Returns whether there is one. */
static bool read_field(const char *fields, const char *name, char value[VALUE_MOST]) {
    for (const char *at = fields; at; at = strstr(at, "::")) {
        if (begins(at, "::")) at += 2;
        const char *equals = strchr(at, '=');
        if (!equals || (size_t)(equals - at) != strlen(name) || !begins(at, name)) continue;
        const char *end = strstr(equals, "::");
        size_t len = end ? (size_t)(end - equals - 1) : strlen(equals + 1);
        if (len == 0 || len >= VALUE_MOST) return false;
        memcpy(value, equals + 1, len);
        value[len] = 0;
        return true;
    }
    return false;
}

/* Reads numbers from 1 on with commas between them, which may be in brackets. Returns how many there are, or 0. */
static size_t read_numbers(const char *text, uint64_t numbers[FAILING_PARTS_MOST]) {
    size_t count = 0;
    bool has_bracket = *text == '[';
    for (const char *at = text + has_bracket; count < FAILING_PARTS_MOST;) {
        char *end;
        errno = 0;
        numbers[count] = strtoull(at, &end, 10);
        if (*at < '0' || *at > '9' || errno || numbers[count++] == 0) return 0;
        if (*end != ',') return strcmp(end, has_bracket ? "]" : "") ? 0 : count;
        at = end + 1 + strspn(end + 1, " ");
    }
    return 0;
}

/* Reads a field that is one number. Returns 0 if there is none. */
static uint64_t read_number(const char *fields, const char *name) {
    uint64_t numbers[FAILING_PARTS_MOST];
    char value[VALUE_MOST];
    return read_field(fields, name, value) && read_numbers(value, numbers) == 1 ? numbers[0] : 0;
}

static int crash_fault(const char *fields) {
    char timing[VALUE_MOST], op[VALUE_MOST], pattern[VALUE_MOST];
    if (!read_field(fields, "timing", timing) || !read_field(fields, "op", op) || !read_field(fields, "from_rgx", pattern)) return EINVAL;
    bool is_before = !strcmp(timing, "before");
    if (!is_before && strcmp(timing, "after")) return EINVAL;
    if (!strcmp(op, "open") || !strcmp(op, "create")) return failing_crash(pattern, FAILING_OPEN, is_before);
    if (!strcmp(op, "write")) return failing_crash(pattern, FAILING_WRITE, is_before);
    return strcmp(op, "fsync") ? EINVAL : failing_crash(pattern, FAILING_SYNC, is_before);
}

static int torn_fault(const char *fields) {
    struct failing_parts parts = {0};
    uint64_t kept[FAILING_PARTS_MOST];
    char path[VALUE_MOST], value[VALUE_MOST];
    uint64_t count = read_number(fields, "parts");
    if (count > 0 && count <= FAILING_PARTS_MOST) parts.count = (size_t)count;
    else if (read_field(fields, "parts_bytes", value)) parts.count = read_numbers(value, parts.sizes);
    if (parts.count == 0 || !read_field(fields, "file", path) || !read_field(fields, "persist", value)) return EINVAL;
    size_t persisted = read_numbers(value, kept);
    for (size_t at = 0; at < persisted; at++) {
        if (kept[at] > parts.count) return EINVAL;
        parts.kept |= UINT32_C(1) << (kept[at] - 1);
    }
    bool has_number = read_field(fields, "occurrence", value);
    return persisted == 0 ? EINVAL : failing_torn(path, has_number ? read_number(fields, "occurrence") : 1, &parts);
}

bool is_lazy_fault(const char *command) { return begins(command, crash) || begins(command, torn_op); }

int lazy_fault(const char *command) {
    return begins(command, crash) ? crash_fault(command + strlen(crash)) : torn_fault(command + strlen(torn_op));
}
