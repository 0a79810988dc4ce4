#include "commands.h"

#include "acknowledged.h"
#include "failing.h"
#include "layer.h"
#include "nodes.h"
#include "outside.h"
#include "power.h"
#include "record.h"
#include "serve.h"
#include "text.h"

#include <errno.h>
#include <inttypes.h>
#include <stdio.h>
#include <stdlib.h>
#include <string.h>

static const char *mounted_on;

void commands_mounted_on(const char *directory) { mounted_on = directory; }

static void print_status(char *reply, size_t capacity) {
    snprintf(reply, capacity,
             "ok power %s life %" PRIu64 " calls %" PRIu64 " changing %" PRIu64 " bytes %" PRIu64 "/%" PRIu64 " files %" PRIu64
             "/%" PRIu64 " unsynced %" PRIu64 " names-changed %" PRIu64 "/%" PRIu64 " commits %" PRIu64 " write-backs %" PRIu64 " stale %" PRIu64
             " acknowledged %" PRIu64 " record %s",
             power.is_off ? "off" : "on", power.life, power.calls, power.changing_calls, node_counts.bytes, node_limits.bytes,
             node_counts.files, node_limits.files, node_counts.unsynced, node_counts.changes, node_limits.changes,
             power.commits, power.write_backs, power.stale_calls, acknowledged_count(), record_state());
}

static int crash(char *reply, size_t capacity, pid_t *child) {
    struct disk_crash kept;
    int error = serve_crash(&kept, child);
    if (error) return error;
    snprintf(reply, capacity,
             "ok life %" PRIu64 " writes %" PRIu64 " kept-bytes %" PRIu64 " lost-bytes %" PRIu64 " edits %" PRIu64 " kept-edits %" PRIu64,
             power.life, kept.files.writes + kept.names.writes, kept.files.kept_bytes + kept.names.kept_bytes,
             kept.files.lost_bytes + kept.names.lost_bytes, kept.edits, kept.kept_edits);
    return 0;
}

/* Reads a number, and the space after it if something follows. */
static int read_number(const char **text, uint64_t *number) {
    char *end;
    errno = 0;
    if (**text < '0' || **text > '9') return EINVAL;
    *number = strtoull(*text, &end, 10);
    if (errno || (*end && (*end != ' ' || !end[1]))) return EINVAL;
    *text = *end ? end + 1 : end;
    return 0;
}

/* Lets the power go off after some changing calls, which may count from an acknowledgement on. */
static int crash_after(const char *text) {
    uint64_t calls, acknowledgement = 0;
    int error = read_number(&text, &calls);
    if (!error && *text) error = read_number(&text, &acknowledgement);
    if (!error && *text) error = EINVAL;
    if (!error) power_off_after(calls, acknowledgement);
    return error;
}

/* Says how many changing calls came before an acknowledgement. */
static int acknowledgement(const char *text, char *reply, size_t capacity) {
    uint64_t number, calls;
    int error = read_number(&text, &number);
    if (error || *text) return EINVAL;
    if (!acknowledged_after(number, &calls)) return ENODATA;
    snprintf(reply, capacity, "ok %" PRIu64, calls);
    return 0;
}

static int begin_record(const char *path) { return leads_to_mount(path, mounted_on) ? EDEADLK : record_begin(path); }

static int note(const char *text) {
    if (!is_plain_text(text)) return EILSEQ;
    record_note(text);
    return 0;
}

static bool begins(const char *line, const char *word) { return strncmp(line, word, strlen(word)) == 0; }

/* Whether a line is a setting of the layer that may change at any time. */
static bool is_setting(const char *line) {
    static const char *const words[] = {"config ", "profile ", "edits ", "keep ", "failed_sync ", "syncs ", "failed_write "};
    for (size_t at = 0; at < sizeof words / sizeof *words; at++)
        if (begins(line, words[at])) return true;
    return false;
}

pid_t command_run(const char *line, char *reply, size_t capacity) {
    int error = 0;
    pid_t child = 0;
    snprintf(reply, capacity, "ok");
    acknowledged_look();
    if (!strcmp(line, "status")) print_status(reply, capacity);
    else if (!strcmp(line, "settle")) error = nodes_settle();
    else if (!strcmp(line, "off")) power.is_off = true;
    else if (!strcmp(line, "on")) power_on();
    else if (!strcmp(line, "crash")) error = crash(reply, capacity, &child);
    else if (!strcmp(line, "umount")) serve_end();
    else if (!strcmp(line, "record stop")) error = record_end();
    else if (begins(line, "record /")) error = begin_record(line + strlen("record "));
    else if (begins(line, "note ")) error = note(line + strlen("note "));
    else if (begins(line, "crash-after ")) error = crash_after(line + strlen("crash-after "));
    else if (begins(line, "acknowledgement ")) error = acknowledgement(line + strlen("acknowledgement "), reply, capacity);
    else if (!strcmp(line, "fail none")) failing_end(reply, capacity);
    else if (begins(line, "fail ")) error = failing_set(line + strlen("fail "));
    else if (is_setting(line)) error = layer_set(line);
    else error = ENOSYS;
    if (error == ENOSYS) snprintf(reply, capacity, "error: no such command");
    else if (error == EALREADY) snprintf(reply, capacity, "error: too late: a record begins before the first change, as with --record");
    else if (error == EILSEQ) snprintf(reply, capacity, "error: a note is UTF-8 without control characters");
    else if (error == ENODATA) snprintf(reply, capacity, "error: there is no such acknowledgement");
    else if (error) snprintf(reply, capacity, "error: %s", strerror(error));
    return error ? 0 : child;
}
