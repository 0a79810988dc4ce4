/*
 * The record of a run: a script of files, as docs/FORMATS.md has it, with a line for each call of the layer that changes something or
 * may draw. `blobcrash files` replays it to the same names and bytes. It begins before the first such call. If it can't be written, it
 * stops and says so on standard error; no call fails because of it. A process has one record, of one file system.
 */
#ifndef COMMON_RECORD_H
#define COMMON_RECORD_H

#include "blobcrash_files.h"

#include <stdbool.h>
#include <sys/types.h>

#ifdef __cplusplus
extern "C" {
#endif

/* Whether the next call is to be noted. If nothing is recorded then, nothing can be recorded later. */
extern bool record_notes;

/* Keeps the first lines of a record: the preamble of the layer. */
void record_preamble(const char *lines);
/*
 * Begins a record in a new file, which is its owner's alone. Returns 0 or a number of errno: EALREADY if a call was made before, EBUSY if
 * another record is being written, EEXIST if the path is of another kind of file.
 */
int record_begin(const char *path);
/* Ends the record, if there is one. Returns 0, or the number of errno for which it had stopped. */
int record_end(void);
/* Returns `on`, `off` or `failed`. */
const char *record_state(void);

/* Notes a call that returned this status, if it changes something or may draw. */
void record_call(const struct blobcrash_file_call *call, const char *path, const char *to, uint32_t status);
void record_setting(const char *setting);
/* Adds a comment to the record, if there is one. It is no change. The text is UTF-8 without a line feed: else no replay reads it. */
void record_note(const char *text);
/* Says which process makes the calls from here on. When the calls of another one begin, the record gets a comment with its number and name. */
void record_process(pid_t number);
void record_write(uint64_t descriptor, uint64_t offset, const void *bytes, size_t len, uint32_t status);
void record_read(uint64_t descriptor, uint64_t offset, size_t len, uint32_t status);

#ifdef __cplusplus
}
#endif

#endif
