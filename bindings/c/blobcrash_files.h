/*
 * Files with names, directories, renames and their syncs, over the storage layer: a crash keeps only some of the bytes, of the
 * changes of names and of the truncations that no sync made durable. docs/FILES.md says what a crash may leave.
 *
 * The duties of a caller are those of blobcrash.h, with `struct blobcrash_files` in place of a session.
 *
 * A path is names, each after a slash, from the root on: bytes, without a final zero. An inode is a file or a directory, by its number; the
 * root has the number 1. A descriptor is a number too, from 0 on; no number is used again, and after a crash all are stale. An edit is
 * a change of names, or a truncation, that one call made.
 */
#ifndef BLOBCRASH_FILES_H
#define BLOBCRASH_FILES_H

#include "blobcrash.h"

#ifdef __cplusplus
extern "C" {
#endif

/* The status of a call on files that was made and refused, in the words of errno. Refusals of the layer keep their numbers. */
enum blobcrash_file_refusal {
    BLOBCRASH_F_EXISTS = 64,         /* the name is taken */
    BLOBCRASH_F_NOT_FOUND = 65,      /* no file or directory has this name or number */
    BLOBCRASH_F_NOT_EMPTY = 66,      /* the directory has names */
    BLOBCRASH_F_IS_DIRECTORY = 67,   /* the call wants a file */
    BLOBCRASH_F_NOT_DIRECTORY = 68,  /* the call wants a directory */
    BLOBCRASH_F_NAME_TOO_LONG = 69,  /* a name has more than 255 bytes */
    BLOBCRASH_F_INVALID_NAME = 70,   /* a name is empty, `.` or `..`, or has a zero or a slash */
    BLOBCRASH_F_TOO_MANY_LINKS = 71, /* the file has 65,000 names */
    BLOBCRASH_F_STALE = 72,          /* the descriptor is closed, or from before the last crash */
    BLOBCRASH_F_NO_SPACE = 73,       /* a limit of bytes or files is reached, or no number is left */
    BLOBCRASH_F_LOOP = 74,           /* a directory would be moved below itself */
    BLOBCRASH_F_CRASHED = 75         /* the recovery of the last crash failed: crash again */
};

/* The kinds of calls, each with the fields and bytes that it uses, and what it returns. It ignores the others. */
enum blobcrash_file_kind {
    /* By paths. */
    BLOBCRASH_F_CREATE = 0,           /* path. Returns a descriptor in `number`. Refused as EXISTS if the name is taken */
    BLOBCRASH_F_OPEN = 1,             /* path. Returns a descriptor */
    BLOBCRASH_F_OPEN_TRUNCATED = 2,   /* path. Returns a descriptor */
    BLOBCRASH_F_LINK = 3,             /* path, to */
    BLOBCRASH_F_UNLINK = 4,           /* path */
    BLOBCRASH_F_RENAME = 5,           /* path, to, first: 0 replaces, 1 refuses a name that is taken, 2 exchanges */
    BLOBCRASH_F_MAKE_DIRECTORY = 6,   /* path */
    BLOBCRASH_F_REMOVE_DIRECTORY = 7, /* path */
    BLOBCRASH_F_LIST = 8,             /* path. Returns in `size` how many names the directory has; blobcrash_files_name copies one */
    BLOBCRASH_F_SYNC_DIRECTORY = 9,   /* path */
    /* path. Returns an inode in `number`, in `kind` 0 for a file or 1 for a directory, and in `size` a file's size in bytes */
    BLOBCRASH_F_FIND = 10,
    /* By the number of a directory, in `number`, and a name, in `path`. */
    BLOBCRASH_F_CREATE_AT = 16,           /* returns a descriptor in `number` */
    BLOBCRASH_F_LINK_AT = 17,             /* first: the inode that gets the name */
    BLOBCRASH_F_UNLINK_AT = 18,
    BLOBCRASH_F_RENAME_AT = 19,           /* first: the other directory; to: the other name; last: 0, 1 or 2 as for RENAME */
    BLOBCRASH_F_MAKE_DIRECTORY_AT = 20,   /* returns its inode in `number` */
    BLOBCRASH_F_REMOVE_DIRECTORY_AT = 21,
    BLOBCRASH_F_LIST_AT = 22,             /* no name. Returns as LIST */
    BLOBCRASH_F_SYNC_DIRECTORY_AT = 23,   /* no name */
    BLOBCRASH_F_FIND_AT = 24,             /* returns as FIND */
    BLOBCRASH_F_OPEN_INODE = 25,          /* no name; number: a file's inode. Returns a descriptor */
    BLOBCRASH_F_OPEN_INODE_TRUNCATED = 26, /* the same, and the file is made empty */
    /* By a descriptor, in `number`. */
    BLOBCRASH_F_CLOSE = 32,
    BLOBCRASH_F_TRUNCATE = 33,  /* first: the length, also one beyond the end */
    BLOBCRASH_F_SIZE = 34,      /* returns `size`, in bytes */
    BLOBCRASH_F_SYNC = 35,
    BLOBCRASH_F_SYNC_DATA = 36,
    BLOBCRASH_F_INODE_OF = 37,  /* returns an inode in `number` */
    /* Calls with functions of their own: blobcrash_files_apply refuses them as BAD_CALL. */
    BLOBCRASH_F_READ = 38,      /* first: the offset, last: the most bytes */
    BLOBCRASH_F_WRITE = 39,     /* first: the offset; the bytes are the path */
    /* The whole file system. */
    BLOBCRASH_F_SYNC_ALL = 48,
    BLOBCRASH_F_SETTLE = 49,    /* makes all durable, without a draw: the state before a test */
    BLOBCRASH_F_CRASH = 50,     /* returns in `size` for how many writes it drew, in `number` how many edits were unsettled */
    BLOBCRASH_F_TREE = 51,      /* makes no draw. Returns in `size` how many paths the root reaches; blobcrash_files_path copies one */
    BLOBCRASH_F_COMMIT = 52     /* makes all names and truncations durable, without a draw, as a commit of a journal; the bytes of files stay
                                   unsynced */
};

/* A file system, or none. Of all zeros it is closed. Its fields belong to the library. */
struct blobcrash_files {
    void *at;
    bool is_open;
};

/* A call without its bytes. */
struct blobcrash_file_call {
    uint32_t kind;
    uint64_t number;
    uint64_t first;
    uint64_t last;
};

/* What a call returns. The numbers that it doesn't return are 0. */
struct blobcrash_file_reply {
    /* DONE, a refusal, or another status if no call was made. */
    uint32_t status;
    uint32_t kind;
    uint64_t number;
    uint64_t size;
};

/*
 * Opens a new, empty file system. The preamble has the lines `words W ..` and `seed N`, and then settings, in any order and all
 * optional: `profile ext4|xfs|btrfs|posix` (ext4 without one), and after it `edits prefix|any|logged`, which edits a crash may keep in
 * place of what the profile says; `config ..` as for a session (the faults of calls on files, and which
 * bytes of an unsynced write a crash keeps: none without one); `keep N D`, how often a crash keeps an edit that nothing settled (1 2
 * without one); `space BYTES FILES`, the limits; `failed_sync keeps|drops`, `syncs honest|lie` and `failed_write mode|prefix`, the switches
 * of docs/FILES.md (the first of each without one). If the files were open, their file system ends.
 *
 * DONE; BAD_LINE with the number of a line that isn't allowed there; NO_MEMORY. The last two change nothing.
 */
struct blobcrash_script_ran blobcrash_files_open(struct blobcrash_files *files, const uint8_t *preamble, size_t preamble_len);

/*
 * Opens the closed files `fork` in the state of `files`: the same names and bytes, of which the same are durable, unsynced and unsettled,
 * settings, descriptors by the same numbers, words of the generator, supply of power and last call. No call is made again: files of more
 * than 16 KB share the pages that haven't changed since a sync, and the rest is copied. No later call of one changes the other, and each
 * may be used by a thread of its own at the same time. Close both, in any order.
 *
 * DONE; BAD_CALL if `fork` is open, and so also if it is `files`; CLOSED; F_CRASHED; NO_MEMORY. All but DONE change nothing.
 */
uint32_t blobcrash_files_fork(struct blobcrash_files *files, struct blobcrash_files *fork);

/*
 * Makes a setting, a line as in the preamble without its line feed. What is pending keeps the mode and the rate of its issue.
 *
 * DONE; BAD_LINE if it is no setting, NO_MEMORY and CLOSED, which change nothing.
 */
uint32_t blobcrash_files_configure(struct blobcrash_files *files, const uint8_t *setting, size_t setting_len);

/*
 * Makes a call.
 *
 * DONE; a refusal; BAD_CALL if the kind is unknown or the number of a rename is above 2, and CLOSED, which change nothing.
 */
struct blobcrash_file_reply blobcrash_files_apply(struct blobcrash_files *files, const struct blobcrash_file_call *asked,
                                                  const uint8_t *path, size_t path_len, const uint8_t *to, size_t to_len);

/*
 * Writes bytes at an offset, unsynced.
 *
 * DONE; F_STALE, F_NO_SPACE, F_CRASHED, and refusals of the layer's write, of which E_INJECTED may leave a part; CLOSED.
 */
uint32_t blobcrash_files_write(struct blobcrash_files *files, uint64_t descriptor, uint64_t offset, const uint8_t *bytes, size_t len);

/*
 * Reads the bytes from an offset on, as many as there are and as fit. Returns how many in `len`, 0 at and beyond the end.
 *
 * DONE; F_STALE, F_CRASHED, and refusals of the layer's read; CLOSED. Only DONE changes `into`.
 */
struct blobcrash_ran blobcrash_files_read(struct blobcrash_files *files, uint64_t descriptor, uint64_t offset, uint8_t *into,
                                          size_t capacity);

/*
 * Copies the name with an index, from 0 on, to the start of `into`. The last call is a LIST or a LIST_AT; names are sorted by their
 * bytes. `kind` and `number` of the reply are those of FIND, `size` is the length of the name.
 *
 * DONE; NO_ROOM with the length in `size`; OTHER_REPLY if the last call has no such name; CLOSED. None changes anything else.
 */
struct blobcrash_file_reply blobcrash_files_name(struct blobcrash_files *files, size_t index, uint8_t *into, size_t capacity);

/*
 * Copies the path with an index, from 0 on, to the start of `into`: names, each after a slash. The last call is a TREE; a directory comes
 * before what is in it, and names are sorted by their bytes. `kind` and `number` of the reply are those of FIND, `size` is the length of
 * the path.
 *
 * DONE; NO_ROOM with the length in `size`; OTHER_REPLY if the last call has no such path; CLOSED. None changes anything else.
 */
struct blobcrash_file_reply blobcrash_files_path(struct blobcrash_files *files, size_t index, uint8_t *into, size_t capacity);

/*
 * Returns what the path with an index is bound to, as FIND does: in `number` an inode, in `kind` 0 for a file or 1 for a directory, and
 * in `size` a file's size in bytes, all as they were at the last call, a TREE.
 *
 * DONE; OTHER_REPLY if the last call has no such path; CLOSED. None changes anything.
 */
struct blobcrash_file_reply blobcrash_files_path_found(struct blobcrash_files *files, size_t index);

/*
 * Copies the durable bytes of a file, by its inode, to the start of `into`, and returns how many in `len`. They are those of its last sync
 * and of failed writes since; a crash applies to them what it keeps of later calls. Makes no draw.
 *
 * DONE; NO_ROOM with the number of bytes in `len`; F_NOT_FOUND if no file has this number, E_MEMORY and CLOSED, with the length 0. None
 * changes anything else, and the last call stays.
 */
struct blobcrash_ran blobcrash_files_durable(struct blobcrash_files *files, uint64_t inode, uint8_t *into, size_t capacity);

/*
 * Returns the first run of kept bytes at or after the index `from` of one write. The last call is a CRASH, and `row` counts the writes
 * for which it drew, from 0 on, in the order of their issue. The record of an unsettled edit in the journal is a write too.
 *
 * DONE, also if no further byte was kept; OTHER_REPLY if the last call has no such row; CLOSED. None changes anything.
 */
struct blobcrash_kept_run blobcrash_files_kept_run(struct blobcrash_files *files, size_t row, size_t from);

/*
 * Returns where the write of a row was: in `number` the inode of its file, and in `size` its offset in bytes. Of an edit `number` is 0,
 * and `size` its offset in the journal. The last call is a CRASH, and `row` is as for blobcrash_files_kept_run.
 *
 * DONE; OTHER_REPLY if the last call has no such row; CLOSED. None changes anything.
 */
struct blobcrash_file_reply blobcrash_files_kept_place(struct blobcrash_files *files, size_t row);

/*
 * Returns in `len` 1 if the last call, a CRASH, kept the unsettled edit with this index, from 0 on in the order of their issue, and 0 if
 * not.
 *
 * DONE; OTHER_REPLY if the last call has no such edit; CLOSED. None changes anything.
 */
struct blobcrash_ran blobcrash_files_kept_edit(struct blobcrash_files *files, size_t index);

/*
 * Returns in `len` 1 if the log of the syncs follows the unsettled edit with this index, from 0 on in the order of their issue, and 0 if
 * not: it frees a name that a sync has settled since the last commit, in a profile whose syncs write a log. docs/FILES.md says what a
 * crash keeps of such edits.
 *
 * DONE; OTHER_REPLY if there is no such edit; CLOSED. None changes anything.
 */
struct blobcrash_ran blobcrash_files_follows(struct blobcrash_files *files, size_t index);

/* As blobcrash_words_left and blobcrash_push_words. */
struct blobcrash_ran blobcrash_files_words_left(struct blobcrash_files *files);
uint32_t blobcrash_files_push_words(struct blobcrash_files *files, const uint64_t *words, size_t count);

/*
 * As blobcrash_power_off_after, blobcrash_power_on and blobcrash_power. A crash turns the power on, since it recovers the files too.
 */
uint32_t blobcrash_files_power_off_after(struct blobcrash_files *files, uint64_t calls);
uint32_t blobcrash_files_power_on(struct blobcrash_files *files);
struct blobcrash_power_state blobcrash_files_power(struct blobcrash_files *files);

/* As blobcrash_effect. */
uint32_t blobcrash_files_effect(uint32_t kind);

/*
 * As blobcrash_line_of: the line of `blobcrash files` (docs/FORMATS.md). The bytes of a write are the path.
 */
struct blobcrash_ran blobcrash_files_line_of(const struct blobcrash_file_call *asked, const uint8_t *path, size_t path_len,
                                             const uint8_t *to, size_t to_len, uint8_t *into, size_t capacity);

/* Closes files and frees their file system. Closed ones stay closed. */
void blobcrash_files_close(struct blobcrash_files *files);

#ifdef __cplusplus
}
#endif

#endif
