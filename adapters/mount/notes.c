#define _GNU_SOURCE
#include "notes.h"

#include "record.h"
#include "text.h"

#include <inttypes.h>
#include <limits.h>
#include <stdio.h>
#include <string.h>

enum { NOTE_MOST = 4 * PATH_MAX + 128 };

void note_descriptor(const struct node *node, uint64_t descriptor) {
    char path[PATH_MAX], escaped[4 * PATH_MAX], note[NOTE_MOST];
    if (!record_notes) return;
    if (node->links > 0 && node_path(node, path, sizeof path))
        escape_path(path, escaped);
    else
        strcpy(escaped, "a file without a name");
    snprintf(note, sizeof note, "descriptor %" PRIu64 " is %s", descriptor, escaped);
    record_note(note);
}

void note_failing(const char *call, const char *path, const char *error) {
    char escaped[4 * PATH_MAX], note[NOTE_MOST];
    escape_path(path, escaped);
    snprintf(note, sizeof note, "failed %s of %s: %s", call, escaped, error);
    record_note(note);
}
