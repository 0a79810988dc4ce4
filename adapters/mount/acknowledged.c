#define _GNU_SOURCE
#include "acknowledged.h"

#include "power.h"
#include "record.h"
#include "text.h"

#include <errno.h>
#include <fcntl.h>
#include <stdlib.h>
#include <string.h>
#include <sys/stat.h>
#include <unistd.h>

enum {
    LINE_MOST = 1024, /* the rest of a longer line isn't noted */
    COUNT_MOST = 1 << 20
};

static const char word[] = "acknowledged ";
static int file = -1;
static off_t offset;
static char line[LINE_MOST + 1];
static size_t line_len;
static uint64_t count;
/* For each line how many changing calls came before it. */
static uint64_t *calls_before;
static size_t capacity;

int acknowledged_begin(const char *path) {
    struct stat there;
    file = open(path, O_RDONLY | O_CLOEXEC | O_NONBLOCK);
    if (file < 0 || fstat(file, &there)) return errno;
    if (!S_ISREG(there.st_mode)) return EINVAL;
    offset = there.st_size;
    return 0;
}

/* Makes space for one more line. Without memory its place isn't known. */
static bool has_space(void) {
    if (count < capacity) return true;
    size_t larger = capacity ? 2 * capacity : 256;
    uint64_t *grown = larger > COUNT_MOST ? NULL : realloc(calls_before, larger * sizeof *grown);
    if (!grown) return false;
    calls_before = grown;
    capacity = larger;
    return true;
}

static void note_line(void) {
    char note[sizeof word + 4 * LINE_MOST];
    line[line_len] = 0;
    memcpy(note, word, sizeof word);
    escape_unless_plain(line, line_len, note + sizeof word - 1);
    record_note(note);
    if (has_space()) calls_before[count] = power.changing_calls;
    count++;
    line_len = 0;
    power_acknowledged(count);
}

void acknowledged_look(void) {
    char bytes[4096];
    ssize_t got;
    while (file >= 0 && (got = pread(file, bytes, sizeof bytes, offset)) > 0) {
        offset += got;
        for (ssize_t at = 0; at < got; at++) {
            if (bytes[at] == '\n')
                note_line();
            else if (line_len < LINE_MOST)
                line[line_len++] = bytes[at];
        }
    }
}

uint64_t acknowledged_count(void) { return count; }

bool acknowledged_after(uint64_t number, uint64_t *calls) {
    if (number == 0 || number > count || number > capacity) return false;
    *calls = calls_before[number - 1];
    return true;
}
