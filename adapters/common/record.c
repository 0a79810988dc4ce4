#define _GNU_SOURCE
#include "record.h"

#include <errno.h>
#include <fcntl.h>
#include <signal.h>
#include <stdio.h>
#include <stdlib.h>
#include <string.h>
#include <sys/stat.h>
#include <unistd.h>

enum {
    PREAMBLE_MOST = 512,
    FLUSH_AT = 1 << 18,
    LINE_MOST = (1 << 21) + (1 << 16), /* a write has at most 1 MB, and a byte of a name takes four */
};

bool record_notes = true;
static char preamble[PREAMBLE_MOST];
static int file = -1;
static int failure;      /* the number of errno for which the record stopped */
static bool reads_draw;  /* since a setting gave reads a rate */
static uint64_t written; /* bytes of the file */
static pid_t process, noted; /* the one that makes the calls, and the last one that the record names; 0 if none is known */
static char *buffer, *end;

const char *record_state(void) { return file >= 0 ? "on" : failure ? "failed" : "off"; }

static void stop(void) {
    close(file);
    free(buffer);
    file = -1;
    buffer = end = NULL;
    record_notes = false;
}

/* Stops after an error. The file ends with a whole line. */
static void fail(int error) {
    int kept = ftruncate(file, (off_t)written);
    fprintf(stderr, "the record ended early: %s%s\n", strerror(error), kept ? ", in a line" : "");
    failure = error;
    stop();
}

/* Writes the lines of the buffer. */
static void flush(void) {
    const char *at = buffer;
    while (at < end) {
        ssize_t count = write(file, at, (size_t)(end - at));
        if (count < 0 && errno == EINTR) continue;
        if (count < 0) {
            fail(errno);
            return;
        }
        at += count;
    }
    written += (uint64_t)(end - buffer);
    end = buffer;
}

static void put_text(const char *text) {
    size_t len = strlen(text);
    memcpy(end, text, len);
    end += len;
}

/* Stops before a call that a replay can't repeat. */
static void stop_before(int error) {
    flush();
    if (file >= 0) fail(error);
}

static void end_line(void) {
    *end++ = '\n';
    if (end - buffer >= FLUSH_AT) flush();
}

/* Puts the number and the name of a process, if its calls begin here. The name is read each time, since a process may run another program. */
static void put_process(void) {
    char path[32], name[32];
    if (process == noted) return;
    noted = process;
    snprintf(path, sizeof path, "/proc/%d/comm", (int)process);
    int opened = open(path, O_RDONLY | O_CLOEXEC);
    ssize_t len = opened < 0 ? 0 : read(opened, name, sizeof name);
    if (opened >= 0) close(opened);
    end += sprintf(end, "# process %d ", (int)process);
    for (ssize_t at = 0; at < len && name[at] != '\n'; at++) *end++ = name[at] > ' ' && name[at] <= '~' ? name[at] : '?';
    if (len <= 0) *end++ = '?';
    end_line();
}

/* Returns whether a line of at most so many bytes can be put. A replay may have the memory that a call didn't have. */
static bool begin_line(size_t most, uint32_t status) {
    if (file < 0)
        record_notes = false; /* too late for a record */
    else if (status == BLOBCRASH_NO_MEMORY || status == BLOBCRASH_E_MEMORY)
        stop_before(ENOMEM);
    else if (most > LINE_MOST)
        stop_before(EMSGSIZE);
    else
        put_process();
    return file >= 0;
}

/* Puts the line of a call that returned this status. */
static void put_call(const struct blobcrash_file_call *call, const void *path, size_t path_len, const void *to, size_t to_len,
                     uint32_t status) {
    static const uint8_t nothing[1];
    if (!begin_line(0, status)) return;
    struct blobcrash_ran ran =
        blobcrash_files_line_of(call, path ? path : nothing, path_len, to ? to : nothing, to_len, (uint8_t *)end, LINE_MOST - 1);
    if (ran.status != BLOBCRASH_DONE) {
        stop_before(ran.status == BLOBCRASH_BAD_CALL ? ENOSYS : EMSGSIZE);
        return;
    }
    end += ran.len;
    end_line();
}

void record_call(const struct blobcrash_file_call *call, const char *path, const char *to, uint32_t status) {
    bool is_made = status != BLOBCRASH_BAD_CALL && status != BLOBCRASH_POWER_LOSS && status != BLOBCRASH_CLOSED;
    if (!is_made || (blobcrash_files_effect(call->kind) & BLOBCRASH_LOOKS)) return;
    put_call(call, path, path ? strlen(path) : 0, to, to ? strlen(to) : 0, status);
    if (call->kind == BLOBCRASH_F_CRASH && file >= 0) flush();
}

void record_setting(const char *setting) {
    if (strncmp(setting, "config read", 11) == 0) reads_draw = true;
    if (!begin_line(strlen(setting), BLOBCRASH_DONE)) return;
    put_text(setting);
    end_line();
}

void record_note(const char *text) {
    if (file < 0 || strlen(text) + 4 > LINE_MOST) return;
    put_text("# ");
    put_text(text);
    end_line();
}

void record_process(pid_t number) { process = number; }

void record_write(uint64_t descriptor, uint64_t offset, const void *bytes, size_t len, uint32_t status) {
    struct blobcrash_file_call call = {.kind = BLOBCRASH_F_WRITE, .number = descriptor, .first = offset};
    if (status != BLOBCRASH_POWER_LOSS) put_call(&call, bytes, len, NULL, 0, status);
}

void record_read(uint64_t descriptor, uint64_t offset, size_t len, uint32_t status) {
    struct blobcrash_file_call call = {.kind = BLOBCRASH_F_READ, .number = descriptor, .first = offset, .last = len};
    if (reads_draw && status != BLOBCRASH_POWER_LOSS) put_call(&call, NULL, 0, NULL, 0, status);
}

void record_preamble(const char *text) { snprintf(preamble, sizeof preamble, "%s", text); }

/* Opens an empty file that is its owner's alone. A fifo would let the daemon wait. */
static int open_file(const char *path) {
    struct stat there;
    int opened = open(path, O_WRONLY | O_CREAT | O_CLOEXEC | O_NOFOLLOW | O_NONBLOCK, 0600);
    if (opened < 0) return errno;
    int error = fstat(opened, &there) ? errno : S_ISREG(there.st_mode) ? 0 : EEXIST;
    if (!error && (fchmod(opened, 0600) || ftruncate(opened, 0))) error = errno;
    if (error)
        close(opened);
    else
        file = opened;
    return error;
}

int record_begin(const char *path) {
    if (file >= 0) return EBUSY;
    if (!record_notes) return EALREADY;
    buffer = end = malloc(FLUSH_AT + LINE_MOST);
    if (!buffer) return ENOMEM;
    int error = open_file(path);
    if (error) {
        free(buffer);
        return error;
    }
    signal(SIGXFSZ, SIG_IGN); /* a limit of the file's size stops the record, not the daemon */
    put_text(preamble);
    return 0;
}

int record_end(void) {
    if (file >= 0) flush();
    if (file >= 0) stop();
    return failure;
}
