/*
 * The disk of a database that a driver crashes: a file system of the layer, of which the power goes off. It counts the calls that change
 * something and the faults that were injected. One thread at a time uses a disk.
 */
#ifndef COMMON_DISK_H
#define COMMON_DISK_H

#include "blobcrash_files.h"

#include <stdbool.h>
#include <stddef.h>
#include <stdint.h>

#ifdef __cplusplus
extern "C" {
#endif

/* The status of a call while the power is off. All others are those of blobcrash_files.h. It changes nothing. */
enum { DISK_OFF = BLOBCRASH_POWER_LOSS };

/* Of all zeros it has no file system, and is off. */
struct disk {
    struct blobcrash_files files;
    /* `is_on` until a call found the power off. */
    bool is_on, is_recorded;
    uint64_t faults; /* since disk_start */
};

/* Writes for which a crash drew, and their bytes. */
struct disk_rows {
    uint64_t writes, kept_bytes, lost_bytes;
};

/* What a crash kept of the writes for which it drew, and of the changes of names that nothing had settled. */
struct disk_crash {
    struct disk_rows files, names; /* a change of names is written too, to no file */
    uint64_t edits, kept_edits;
    /* The writes and changes for which it drew and kept something. Of a change that follows a lost one a profile may keep nothing. */
    uint64_t kept_draws;
};

/*
 * Starts an empty file system, with the power on. `preamble` has the lines of blobcrash_files_open. If the environment has
 * BLOBCRASH_RECORD, the name of a file, what happens to the first disk of the process is recorded there (record.h), until disk_end.
 *
 * DONE; BAD_LINE and NO_MEMORY, with the file system before unchanged.
 */
uint32_t disk_start(struct disk *disk, const char *preamble);
void disk_end(struct disk *disk);

/* Makes a setting, as "config sync 1 40" or "syncs lie". DONE; BAD_LINE, NO_MEMORY and CLOSED, which change nothing. */
uint32_t disk_set(struct disk *disk, const char *setting);

/* Adds a comment to the record, if there is one. */
void disk_note(struct disk *disk, const char *text);

/* Returns how many calls have changed what a crash leaves, since disk_start. */
uint64_t disk_changes(struct disk *disk);

/* Lets `calls` more calls change what a crash leaves. After them every call fails until the crash. A negative number cancels this if no
 * call has failed so. */
void disk_power_off_after(struct disk *disk, int64_t calls);

/*
 * Makes a call of blobcrash_files_apply. `path` and `to` may be NULL. A crash is made by disk_crash instead.
 *
 * The statuses of blobcrash_files_apply, and DISK_OFF.
 */
struct blobcrash_file_reply disk_apply(struct disk *disk, const struct blobcrash_file_call *call, const char *path, const char *to);

/* The same call with a path or a name alone. */
struct blobcrash_file_reply disk_call(struct disk *disk, uint32_t kind, uint64_t number, uint64_t first, const char *path);

/* As blobcrash_files_write and blobcrash_files_read, and DISK_OFF. */
uint32_t disk_write(struct disk *disk, uint64_t descriptor, uint64_t offset, const void *bytes, size_t len);
struct blobcrash_ran disk_read(struct disk *disk, uint64_t descriptor, uint64_t offset, void *into, size_t capacity);

/*
 * Crashes, and turns the power on. All descriptors are stale. `crash` may be NULL.
 *
 * DONE; a refusal, with the power off: crash again.
 */
uint32_t disk_crash(struct disk *disk, struct disk_crash *crash);

/* Prints a line on standard error if the environment has BLOBCRASH_TRACE. */
void disk_trace(const char *format, ...);

#ifdef __cplusplus
}
#endif

#endif
