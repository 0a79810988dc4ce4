#include "disk.h"

#include "record.h"

#include <stdarg.h>
#include <stdio.h>
#include <stdlib.h>
#include <string.h>

/* Bytes that no call uses. */
static const uint8_t nothing[1];

static const uint8_t *bytes_of(const char *text) { return text ? (const uint8_t *)text : nothing; }
static size_t length_of(const char *text) { return text ? strlen(text) : 0; }

void disk_trace(const char *format, ...) {
    static int is_traced = -1;
    if (is_traced < 0) is_traced = getenv("BLOBCRASH_TRACE") != NULL;
    if (!is_traced) return;
    va_list words;
    va_start(words, format);
    vfprintf(stderr, format, words);
    va_end(words);
    fputc('\n', stderr);
}

static void end_record(void) { record_end(); }

/* Begins the record that the environment asks for. That of an earlier disk, if there is one, goes on. */
static void begin_record(struct disk *disk, const char *preamble) {
    const char *path = getenv("BLOBCRASH_RECORD");
    if (!path || !record_notes || strcmp(record_state(), "off") != 0) return;
    record_preamble(preamble ? preamble : "");
    int error = record_begin(path);
    if (error) fprintf(stderr, "there is no record %s: %s\n", path, strerror(error));
    else disk->is_recorded = atexit(end_record) == 0;
}

uint32_t disk_start(struct disk *disk, const char *preamble) {
    struct blobcrash_script_ran ran = blobcrash_files_open(&disk->files, bytes_of(preamble), length_of(preamble));
    if (ran.status != BLOBCRASH_DONE) return ran.status;
    disk->is_recorded = false;
    begin_record(disk, preamble);
    disk->is_on = true;
    disk->faults = 0;
    return BLOBCRASH_DONE;
}

void disk_end(struct disk *disk) {
    if (disk->is_recorded) record_end();
    disk->is_recorded = false;
    blobcrash_files_close(&disk->files);
    disk->is_on = false;
}

uint32_t disk_set(struct disk *disk, const char *setting) {
    uint32_t status = blobcrash_files_configure(&disk->files, bytes_of(setting), length_of(setting));
    if (disk->is_recorded && status == BLOBCRASH_DONE) record_setting(setting);
    return status;
}

void disk_note(struct disk *disk, const char *text) {
    if (disk->is_recorded) record_note(text);
}

void disk_power_off_after(struct disk *disk, int64_t calls) {
    if (calls >= 0)
        blobcrash_files_power_off_after(&disk->files, (uint64_t)calls);
    else if (disk->is_on)
        blobcrash_files_power_on(&disk->files);
}

uint64_t disk_changes(struct disk *disk) { return blobcrash_files_power(&disk->files).changes; }

/* Notes a fault and that the power is off. Returns the status. */
static uint32_t noted(struct disk *disk, uint32_t status) {
    if (status == BLOBCRASH_POWER_LOSS || status == BLOBCRASH_CLOSED) {
        disk->is_on = false;
        return DISK_OFF;
    }
    if (status == BLOBCRASH_E_INJECTED) {
        disk->faults++;
        disk_trace("  injected");
    }
    return status;
}

struct blobcrash_file_reply disk_apply(struct disk *disk, const struct blobcrash_file_call *call, const char *path, const char *to) {
    struct blobcrash_file_reply reply =
        blobcrash_files_apply(&disk->files, call, bytes_of(path), length_of(path), bytes_of(to), length_of(to));
    if (disk->is_recorded) record_call(call, path, to, reply.status);
    reply.status = noted(disk, reply.status);
    return reply;
}

struct blobcrash_file_reply disk_call(struct disk *disk, uint32_t kind, uint64_t number, uint64_t first, const char *path) {
    struct blobcrash_file_call call = {.kind = kind, .number = number, .first = first};
    return disk_apply(disk, &call, path, NULL);
}

uint32_t disk_write(struct disk *disk, uint64_t descriptor, uint64_t offset, const void *bytes, size_t len) {
    uint32_t status = blobcrash_files_write(&disk->files, descriptor, offset, (const uint8_t *)bytes, len);
    if (disk->is_recorded) record_write(descriptor, offset, bytes, len, status);
    return noted(disk, status);
}

struct blobcrash_ran disk_read(struct disk *disk, uint64_t descriptor, uint64_t offset, void *into, size_t capacity) {
    struct blobcrash_ran ran = blobcrash_files_read(&disk->files, descriptor, offset, (uint8_t *)into, capacity);
    if (disk->is_recorded) record_read(descriptor, offset, capacity, ran.status);
    ran.status = noted(disk, ran.status);
    return ran;
}

/* Adds what a crash kept of one write. */
static void count_row(struct disk *disk, struct disk_crash *crash, size_t row) {
    struct blobcrash_kept_run kept = blobcrash_files_kept_run(&disk->files, row, 0);
    bool is_of_names = blobcrash_files_kept_place(&disk->files, row).number == 0;
    struct disk_rows *rows = is_of_names ? &crash->names : &crash->files;
    size_t bytes = kept.bytes, count = 0;
    crash->kept_draws += kept.len > 0;
    while (kept.len > 0) {
        count += kept.len;
        kept = blobcrash_files_kept_run(&disk->files, row, kept.start + kept.len);
    }
    rows->writes++;
    rows->kept_bytes += count;
    rows->lost_bytes += bytes - count;
}

/* Counts what the crash kept that was the last call. */
static void count_crash(struct disk *disk, const struct blobcrash_file_reply *reply, struct disk_crash *crash) {
    *crash = (struct disk_crash){.edits = reply->number};
    for (size_t row = 0; row < reply->size; row++) count_row(disk, crash, row);
    for (size_t edit = 0; edit < reply->number; edit++) {
        crash->kept_edits += blobcrash_files_kept_edit(&disk->files, edit).len == 1;
    }
}

uint32_t disk_crash(struct disk *disk, struct disk_crash *crash) {
    struct blobcrash_file_call call = {.kind = BLOBCRASH_F_CRASH};
    disk_trace("crash");
    disk->is_on = false;
    struct blobcrash_file_reply reply = blobcrash_files_apply(&disk->files, &call, nothing, 0, nothing, 0);
    if (disk->is_recorded) record_call(&call, NULL, NULL, reply.status);
    if (reply.status != BLOBCRASH_DONE) return reply.status;
    if (crash) count_crash(disk, &reply, crash);
    blobcrash_files_power_on(&disk->files);
    disk->is_on = true;
    return BLOBCRASH_DONE;
}
