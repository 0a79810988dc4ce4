/*
 * A storage layer for tests of crash recovery, in-process: it injects faults, and a crash keeps only some of the bytes that
 * weren't synced.
 *
 * The library is `crates/blob_c`, which is proved: each function does what is said here if its caller keeps to the duties
 * below. Nothing checks a caller.
 *
 * Duties of a caller
 *
 * - Pointers. A pointer with a length `len` points to `len` bytes. No one else changes them during the call, and bytes that
 *   the call writes overlap no other argument. If the length is 0, the pointer isn't used, but must not be NULL. A session's
 *   pointer points to a session that the caller owns.
 * - Sessions. A session of all zeros is closed: `struct blobcrash_session s = {0};`. Its fields belong to the library: don't
 *   read or write them. An open session may be moved; after that use only its new address, never two copies. Close each
 *   session, or its memory leaks.
 * - One at a time. Pass a session to one call at a time. It may move from one thread to another if the calls are ordered,
 *   for example by a lock or a join: the library has no global or thread-local state, and calls only `malloc`, `realloc`,
 *   `free` and the `mem` functions. Different sessions share nothing, except that a session and its forks share pages of blobs:
 *   no call writes a shared page, and their counts are atomic. Call no function in a signal handler, nor in the child of a
 *   `fork` of a process that has threads.
 * - Memory. The program's `malloc`, `realloc` and `free` come from one allocator, which aligns a block to each power of two up
 *   to 16 that divides its size.
 *
 * Typed calls, a function for each: blobcrash_calls.h. Lines, replies and statuses of scripts: docs/FORMATS.md. Building and
 * linking: docs/BINDINGS.md.
 */
#ifndef BLOBCRASH_H
#define BLOBCRASH_H

#include <stdbool.h>
#include <stddef.h>
#include <stdint.h>

#ifdef __cplusplus
extern "C" {
#endif

/* How a call ended. A storage call that was refused is DONE: its reply says so, for example `error Injected`. */
enum blobcrash_status {
    /* Done; `len` bytes of the reply were written. */
    BLOBCRASH_DONE = 0,
    /* A script has more than 2^64 - 1 lines, and its replies are lost. Or a seed gives an unlimited number of words. */
    BLOBCRASH_ENDLESS = 1,
    /* A line isn't a call, or isn't allowed at this point. No call was made. */
    BLOBCRASH_BAD_LINE = 2,
    /* The library can't allocate. No call was made. */
    BLOBCRASH_NO_MEMORY = 3,
    /* The call was made. Its reply has `len` bytes, more than the buffer, and is kept. */
    BLOBCRASH_NO_ROOM = 4,
    /* The session is closed. No call was made. */
    BLOBCRASH_CLOSED = 5,
    /* The last reply has no such name, path, row or edit. */
    BLOBCRASH_OTHER_REPLY = 6,
    /* The call was made. The length of its reply doesn't fit in 64 bits. The reply is kept. */
    BLOBCRASH_UNPRINTED = 7,
    /* A typed call has an unknown kind, a version above 65535 or a partition that isn't UTF-8. Or the session that
     * a fork is to open is open. No call was made. */
    BLOBCRASH_BAD_CALL = 8,
    /* The power is off (blobcrash_power_off_after). No call was made. */
    BLOBCRASH_POWER_LOSS = 9
};

/* The status of a call without a line that was made and refused. */
enum blobcrash_refusal {
    BLOBCRASH_E_OFFSET_OVERFLOW = 16,
    BLOBCRASH_E_BLOB_INSUFFICIENT_LENGTH = 17,
    BLOBCRASH_E_PARTITION_NAME_INVALID = 18,
    BLOBCRASH_E_PARTITION_MISSING = 19,
    BLOBCRASH_E_BLOB_MISSING = 20,
    BLOBCRASH_E_BLOB_ALREADY_OPEN = 21,
    BLOBCRASH_E_BLOB_CORRUPT = 22,
    BLOBCRASH_E_BLOB_LAYOUT_MISMATCH = 23,
    BLOBCRASH_E_BLOB_VERSION_MISMATCH = 24,
    BLOBCRASH_E_CLOSED = 25,
    BLOBCRASH_E_READ_FAILED = 26,
    BLOBCRASH_E_WRITE_FAILED = 27,
    BLOBCRASH_E_INJECTED = 28,
    BLOBCRASH_E_MEMORY = 29,
    BLOBCRASH_E_GENERATIONS_EXHAUSTED = 30,
    BLOBCRASH_E_NO_HANDLE = 31,
    BLOBCRASH_E_EMPTY_RANGE = 32
};

/* The kinds of typed calls, each with the fields and the bytes that it uses. It ignores the others. */
enum blobcrash_kind {
    BLOBCRASH_OPEN = 0,              /* partition, name, first and last accepted version */
    BLOBCRASH_OPEN_LOOSE = 1,        /* partition, name, first and last accepted version */
    BLOBCRASH_ADMIT = 2,             /* partition, name */
    BLOBCRASH_CLOSE = 3,             /* number */
    BLOBCRASH_RESIZE = 4,            /* number, first: the length */
    BLOBCRASH_SIZE = 5,              /* number */
    BLOBCRASH_SYNC = 6,              /* number */
    BLOBCRASH_START_SYNC = 7,        /* number */
    BLOBCRASH_FINISH = 8,            /* number: the started sync's */
    BLOBCRASH_REMOVE_BLOB = 9,       /* partition, name */
    BLOBCRASH_REMOVE_PARTITION = 10, /* partition */
    BLOBCRASH_SCAN = 11,             /* partition */
    BLOBCRASH_CRASH = 12,
    BLOBCRASH_REOPEN = 13,
    /* Calls with functions of their own, or a line alone: blobcrash_apply refuses them as BAD_CALL. */
    BLOBCRASH_READ = 14,             /* number, first: the offset, last: the length */
    BLOBCRASH_WRITE = 15,            /* number, first: the offset; the bytes are the name */
    BLOBCRASH_WRITE_SYNC = 16,       /* the same */
    BLOBCRASH_CONFIGURE = 17
};

/* What a call may do, as bits. */
enum blobcrash_effects {
    BLOBCRASH_CHANGES = 1, /* what a crash leaves may differ after it: it counts for the power */
    BLOBCRASH_DRAWS = 2,   /* it may take words of the generator */
    BLOBCRASH_SYNCS = 4,   /* it makes something durable, if it is done */
    BLOBCRASH_LOOKS = 8    /* it returns something and does nothing else: a record may leave it out */
};

/* The tables of words, by the numbers of what they name. */
enum blobcrash_words {
    BLOBCRASH_W_KINDS = 0,      /* the first words of the lines of a store, by kinds */
    BLOBCRASH_W_FILE_KINDS = 1, /* those of files */
    BLOBCRASH_W_REFUSALS = 2,   /* by statuses, also those of files */
    BLOBCRASH_W_PROFILES = 3,   /* from 0 on */
    BLOBCRASH_W_MODES = 4,      /* of partial writes, from 0 on */
    BLOBCRASH_W_RENAMES = 5     /* what a rename does if the new name is taken: 0, that it replaces it, has no word */
};

/* Why a header is refused: the first check that it fails. */
enum blobcrash_header_refusal {
    BLOBCRASH_H_INVALID_MAGIC = 48,              /* the first four bytes are no layout's magic */
    BLOBCRASH_H_UNSUPPORTED_LAYOUT_VERSION = 49, /* the layout version isn't the magic's: `version` has it */
    BLOBCRASH_H_LAYOUT_MISMATCH = 50,            /* the layout isn't accepted: `version` has its number */
    BLOBCRASH_H_VERSION_MISMATCH = 51,           /* the version isn't accepted: `version` has it */
    BLOBCRASH_H_INVALID_CHECKSUM = 52,
    BLOBCRASH_H_INVALID_PADDING = 53,
    BLOBCRASH_H_TRUNCATED = 54,                  /* the blob is too short: `size` has the length that the header needs */
    /* Only of blobcrash_resolve_header: an open creates the blob. It has fewer than 8 bytes, or what an interrupted creation left. */
    BLOBCRASH_H_TO_CREATE = 55
};

/* The calls of the registry of durability debt, each with the fields and the bytes that it uses. It ignores the others. */
enum blobcrash_debt_kind {
    BLOBCRASH_DEBT_ADMIT = 0,            /* partition, name, flag: whether the blob existed */
    BLOBCRASH_DEBT_RELEASE = 1,          /* number: an open */
    BLOBCRASH_DEBT_SETTLE = 2,           /* number: a token; the partition and the name of its open; flag: whether debt is left; failure */
    BLOBCRASH_DEBT_DEBT = 3,             /* number: an open */
    BLOBCRASH_DEBT_CLEAR = 4,            /* number: an open; failure, or DONE */
    BLOBCRASH_DEBT_FAIL = 5,             /* number: an open; failure */
    BLOBCRASH_DEBT_CLOSE = 6,            /* number: an open */
    BLOBCRASH_DEBT_FORGET = 7,           /* partition, name */
    BLOBCRASH_DEBT_FORGET_PARTITION = 8, /* partition */
    BLOBCRASH_DEBT_IS_SETTLED = 9,       /* number: a predecessor */
    BLOBCRASH_DEBT_KEEPS = 10            /* partition, name */
};

/* The kind of a choice that is a draw of the store: true in the first branch, false in the second. Other kinds are the caller's. */
enum blobcrash_choice_kind {
    BLOBCRASH_DRAW = 0,
    /* A draw of a size among several. The word that draws the one at index k of n is k * 2^64 / n, rounded up. */
    BLOBCRASH_DRAWN_SIZE = 3
};

/* A laboratory, or none: a store with its open handles and started syncs. */
struct blobcrash_session {
    void *at;
    bool is_open;
};

/* How a call ended, and how many bytes its reply has. */
struct blobcrash_ran {
    uint32_t status;
    size_t len;
};

/* How a script ended, how many bytes its replies have, and which line is bad, counted from 1; 0 if none is. */
struct blobcrash_script_ran {
    uint32_t status;
    size_t len;
    uint64_t line;
};

/* A typed call without its bytes. */
struct blobcrash_asked {
    uint32_t kind;
    size_t number;
    uint64_t first;
    uint64_t last;
};

/* The numbers of a reply. Those that a reply doesn't have are 0. */
struct blobcrash_typed_reply {
    /* DONE, a refusal, or another status if no call was made. */
    uint32_t status;
    /* The version of an opened blob. */
    uint32_t version;
    /* The handle of an opened blob, or the number of a started sync. */
    size_t number;
    /* The size of a blob in bytes, how many names a scan returned, or for how many writes a crash drew. */
    uint64_t size;
};

/* A run of bytes of one write that a crash kept. */
struct blobcrash_kept_run {
    uint32_t status;
    /* The write's number, and how many bytes it submitted. */
    uint64_t write;
    size_t bytes;
    /* The run is the bytes from `start` to before `start + len`; without one `start` is `bytes`, and `len` 0. */
    size_t start;
    size_t len;
};

/* The supply of power of a session or of files. */
struct blobcrash_power_state {
    /* DONE, or CLOSED. */
    uint32_t status;
    bool is_off;
    /* The store has crashed while the power was off, and hasn't reopened. */
    bool has_crashed;
    bool is_counting;
    /* How many calls that change what a crash leaves were made, whatever they returned. */
    uint64_t changes;
    /* If they are counted, how many are made before the power goes off. */
    uint64_t left;
};

/* Which headers are accepted: the layouts from `oldest` to `newest`, 0 or 1, and the versions from `least` to `greatest`. */
struct blobcrash_accepts {
    uint16_t oldest;
    uint16_t newest;
    uint16_t least;
    uint16_t greatest;
};

/* What a header says. The numbers that it doesn't say are 0. */
struct blobcrash_header {
    /* DONE, why it is refused, or BAD_CALL. */
    uint32_t status;
    uint32_t version;
    /* The size of the blob without its header, in bytes. */
    uint64_t size;
    /* The offset of the blob's own bytes. */
    uint64_t data_offset;
};

/* A call of the registry of durability debt without its bytes. */
struct blobcrash_debt_call {
    uint32_t kind;
    /* DONE, or one of the refusals without texts. */
    uint32_t failure;
    size_t number;
    bool flag;
};

/* What the registry returns. The numbers that a call doesn't return are 0. */
struct blobcrash_debt_reply {
    /* DONE, a refusal, or another status if no call was made. */
    uint32_t status;
    /* Whether a name has debt, a release gave a token, a predecessor has settled or anything is kept of a name. */
    bool flag;
    /* Whether an admitted open has a predecessor that hasn't settled. `predecessor` is its number. */
    bool has_predecessor;
    /* The number of an admitted open, or of a release's token. */
    size_t number;
    size_t predecessor;
};

/* A choice of a run: which branch it takes, from 0 on, and among how many. */
struct blobcrash_choice {
    uint32_t kind;
    uint64_t branch;
    uint64_t among;
};

/*
 * How far a traversal of the tree of choices of deterministic runs is. All zeros are the first run of the whole tree. A run follows a
 * path, and then takes the first branch of each choice. The choices of the path, and those that the run has made, are the first ones of
 * a list that the caller keeps; each call is given the same one, which may grow.
 */
struct blobcrash_explorer {
    /* How many choices of the path are kept. They name the subtree that is visited. */
    size_t root;
    /* How many choices the path has. */
    size_t len;
    /* How many choices the run has made. */
    size_t taken;
    /* How many words the run was given, and how many of them were taken by draws that are counted. */
    size_t given;
    size_t drawn;
    /* Whether the path has another choice than the run has made. */
    bool differs;
};

/* Which branch a choice takes. */
struct blobcrash_branch {
    uint32_t status;
    uint64_t branch;
};

/*
 * Opens a session. The preamble is the lines of a script before its calls, and settings: `image P NAME HEX`, `words W ..`,
 * `seed N`, and then `config ..`. It may be empty. If the session was open, its store ends.
 *
 * DONE; BAD_LINE with the number of a line that isn't allowed there; NO_MEMORY. The last two change nothing.
 */
struct blobcrash_script_ran blobcrash_open(struct blobcrash_session *session, const uint8_t *preamble, size_t preamble_len);

/*
 * Opens the closed session `fork` in the state of `session`: the same blobs and pending writes, settings, handles and started syncs by the
 * same numbers, words of the generator, supply of power and last reply. Only its registry of durability debt is new. No call is made
 * again: blobs of more than 16 KB share the pages that haven't changed since a sync, and the rest is copied. No later call of one changes
 * the other, and each may be used by a thread of its own at the same time. Close both, in any order.
 *
 * DONE; BAD_CALL if `fork` is open, and so also if it is `session`; CLOSED; NO_MEMORY. All but DONE change nothing.
 */
uint32_t blobcrash_fork_session(struct blobcrash_session *session, struct blobcrash_session *fork);

/*
 * Makes the call of a line, which has no line feed, and writes its reply to the start of `reply`, without a line feed and
 * without a final zero. An empty line and a comment make no call, and are DONE with no bytes.
 *
 * DONE; NO_ROOM; UNPRINTED; BAD_LINE, NO_MEMORY and CLOSED, which change nothing.
 */
struct blobcrash_ran blobcrash_call(struct blobcrash_session *session, const uint8_t *line, size_t line_len, uint8_t *reply,
                                    size_t reply_room);

/*
 * Writes the reply to the last call to the start of `reply`. It may be called any number of times, so if the buffer was too
 * short, the caller can try a larger one. If no call was made yet, the reply is empty.
 *
 * DONE; NO_ROOM with the capacity that is needed; UNPRINTED; CLOSED. None changes anything.
 */
struct blobcrash_ran blobcrash_reply(struct blobcrash_session *session, uint8_t *reply, size_t reply_room);

/*
 * Makes a typed call. Its partition and its name are bytes, which never become part of a line: a partition that isn't a valid
 * name is refused as PARTITION_NAME_INVALID, with the caller's text in the reply.
 *
 * DONE; a refusal, which blobcrash_reply prints with its texts; BAD_CALL and CLOSED, which change nothing.
 */
struct blobcrash_typed_reply blobcrash_apply(struct blobcrash_session *session, const struct blobcrash_asked *asked,
                                             const uint8_t *partition, size_t partition_len, const uint8_t *name,
                                             size_t name_len);

/*
 * Returns the numbers of the reply to the last call, also of a line, a read or a write. DONE if no call was made yet.
 *
 * DONE; a refusal; CLOSED. None changes anything.
 */
struct blobcrash_typed_reply blobcrash_last(struct blobcrash_session *session);

/*
 * Returns in `size` the size that a handle tracks, in bytes, as the call SIZE does. The last reply stays the last one.
 *
 * DONE; E_NO_HANDLE; CLOSED. None changes anything.
 */
struct blobcrash_typed_reply blobcrash_tracked_size(struct blobcrash_session *session, size_t handle);

/*
 * Copies the name with an index, from 0 on, to the start of `name`. The last reply is that of a scan, which sorts names by
 * their bytes.
 *
 * DONE; NO_ROOM with the capacity that is needed; OTHER_REPLY if the last reply has no such name; CLOSED. None changes anything.
 */
struct blobcrash_ran blobcrash_name(struct blobcrash_session *session, size_t index, uint8_t *name, size_t capacity);

/*
 * Returns in `len` the index of a name in the last reply, that of a scan.
 *
 * DONE; OTHER_REPLY if the last reply doesn't have this name; CLOSED. None changes anything.
 */
struct blobcrash_ran blobcrash_find_name(struct blobcrash_session *session, const uint8_t *name, size_t name_len);

/*
 * Returns the first run of kept bytes at or after the index `from` of one write. The last reply is that of a crash, and `row`
 * counts the writes for which it drew, from 0 on.
 *
 * DONE, also if no further byte was kept; OTHER_REPLY if the last reply has no such row; CLOSED. None changes anything.
 */
struct blobcrash_kept_run blobcrash_kept_run(struct blobcrash_session *session, size_t row, size_t from);

/*
 * Copies the durable bytes of a blob to the start of `into`: `with_header` all of them, otherwise those after the header. Draws
 * nothing.
 *
 * DONE; NO_ROOM with the capacity that is needed; BLOBCRASH_E_BLOB_MISSING if there is no such blob, or no header to leave out;
 * BAD_CALL, NO_MEMORY and CLOSED. None changes anything.
 */
struct blobcrash_ran blobcrash_durable_blob(struct blobcrash_session *session, const uint8_t *partition, size_t partition_len,
                                            const uint8_t *name, size_t name_len, bool with_header, uint8_t *into,
                                            size_t capacity);

/*
 * Copies the digest of all durable blobs (docs/FORMATS.md), which has four bytes, to the start of `into`. Draws nothing.
 *
 * DONE; NO_ROOM; CLOSED. None changes anything.
 */
struct blobcrash_ran blobcrash_audit(struct blobcrash_session *session, uint8_t *into, size_t capacity);

/*
 * Writes bytes at an offset: the call `write HANDLE OFFSET HEX`, or with `sync` the call `writes HANDLE OFFSET HEX`.
 *
 * DONE; a refusal, which blobcrash_reply prints with its texts; CLOSED, which changes nothing.
 */
uint32_t blobcrash_write(struct blobcrash_session *session, size_t handle, uint64_t offset, const uint8_t *bytes, size_t len,
                         bool sync);

/*
 * Fills `into` with `len` bytes from an offset: the call `read HANDLE OFFSET LEN`.
 *
 * DONE; a refusal, which blobcrash_reply prints with its texts; CLOSED, which changes nothing. `into` changes only with DONE.
 */
uint32_t blobcrash_read(struct blobcrash_session *session, size_t handle, uint64_t offset, uint8_t *into, size_t len);

/*
 * Returns in `len` how many words of the session's generator remain, up to the last one that isn't zero. All words after that
 * one are zero. If the last given word isn't zero and `len` isn't 0, the number of given words less `len` is how many were
 * taken.
 *
 * DONE; ENDLESS if the session has a seed; CLOSED. None changes anything.
 */
struct blobcrash_ran blobcrash_words_left(struct blobcrash_session *session);

/*
 * Inserts `count` words before those that the session's generator gives next. The library keeps a copy.
 *
 * DONE; NO_MEMORY and CLOSED, which change nothing.
 */
uint32_t blobcrash_push_words(struct blobcrash_session *session, const uint64_t *words, size_t count);

/*
 * Lets the power of a session go off after this number of calls that change what a crash leaves (BLOBCRASH_CHANGES), whatever they return;
 * with 0 it is off now. From then on each call returns POWER_LOSS and changes nothing, except settings and a crash, and after the crash a
 * close and the reopening, which turns the power on. A crash while it is on doesn't end the count.
 *
 * DONE; POWER_LOSS if it is off, and CLOSED, which change nothing.
 */
uint32_t blobcrash_power_off_after(struct blobcrash_session *session, uint64_t calls);

/* Turns the power on, and counts nothing. DONE; CLOSED. */
uint32_t blobcrash_power_on(struct blobcrash_session *session);

/* Returns the supply of power. Its status is DONE, or CLOSED. Changes nothing. */
struct blobcrash_power_state blobcrash_power(struct blobcrash_session *session);

/* Returns what a call of a kind may do to a store, as bits. Of an unknown kind there are none. */
uint32_t blobcrash_effect(uint32_t kind);

/*
 * Copies the word of a number in a table to the start of `into`, and returns its length in `len`.
 *
 * DONE; NO_ROOM with the length; OTHER_REPLY if the table has no such number. Only DONE changes `into`.
 */
struct blobcrash_ran blobcrash_word(uint32_t table, uint32_t number, uint8_t *into, size_t capacity);

/*
 * Writes the line of a call, without its line feed, to the start of `into`, and returns its length in `len`. A partition whose name isn't
 * valid is `!`, which makes the same draw and gets the same refusal.
 *
 * DONE; NO_ROOM with the length; BAD_CALL if no line has the kind. Only DONE changes `into`.
 */
struct blobcrash_ran blobcrash_line_of(const struct blobcrash_asked *asked, const uint8_t *partition, size_t partition_len,
                                       const uint8_t *name, size_t name_len, uint8_t *into, size_t capacity);

/*
 * Makes a call of the registry of durability debt, which each session has next to its store. The store doesn't change. The
 * registry knows the latest open of each name, and what closed opens left: work that isn't done, debt, and failures. An open
 * is admitted, and at its end released and closed; its token is settled when its work is done. Opens, tokens and predecessors
 * are numbered from 0; no number is reused. What each call returns: `crates/blob_debt/src/pending.rt`.
 *
 * DONE; E_BLOB_ALREADY_OPEN if the name's open isn't closed; a failure that was kept; E_NO_HANDLE if nothing has the number;
 * E_GENERATIONS_EXHAUSTED and E_MEMORY; BAD_CALL if the kind is unknown, the failure has texts or the partition isn't UTF-8;
 * CLOSED. All but DONE leave the registry as it was.
 */
struct blobcrash_debt_reply blobcrash_debt(struct blobcrash_session *session, const struct blobcrash_debt_call *asked,
                                           const uint8_t *partition, size_t partition_len, const uint8_t *name, size_t name_len);

/*
 * Parses the header of a blob, without a session. `raw` has the first bytes of the blob, at least `min(raw_len, 4096)`, and `raw_len`
 * is the length of the whole blob.
 *
 * DONE; why the header is refused; BAD_CALL if a layout is unknown, `raw` has too few bytes or more than the blob, or the blob is
 * shorter than 8 bytes.
 */
struct blobcrash_header blobcrash_parse_header(const uint8_t *raw, size_t len, uint64_t raw_len, const struct blobcrash_accepts *accepts);

/*
 * Resolves the header of a blob as an open does, without a session. `raw` has the first bytes of the blob, at least
 * `min(raw_len, 4096)`, and `raw_len` is the length of the whole blob.
 *
 * DONE; H_TO_CREATE; why the header is refused; BAD_CALL if a layout is unknown, or `raw` has too few bytes or more than the blob.
 */
struct blobcrash_header blobcrash_resolve_header(const uint8_t *raw, size_t len, uint64_t raw_len,
                                                 const struct blobcrash_accepts *accepts);

/*
 * Copies the header of a new blob with this layout, 0 or 1, and this version to the start of `into`, without a session. It has 8 bytes
 * in layout 0, which no store creates, and 4096 in layout 1.
 *
 * DONE; NO_ROOM with the capacity that is needed; BAD_CALL if the layout is unknown; NO_MEMORY. Only DONE changes `into`.
 */
struct blobcrash_ran blobcrash_create_header(uint16_t layout, uint16_t version, uint8_t *into, size_t capacity);

/*
 * Returns whether an interrupted creation in this layout, 0 or 1, may have left these bytes of a whole blob. Always false for
 * layout 0 and for a layout that doesn't exist.
 */
bool blobcrash_interrupted_creation(uint16_t layout, const uint8_t *raw, size_t len);

/* Begins the run of the path, with this many words. */
void blobcrash_explorer_begin(struct blobcrash_explorer *explorer, size_t given);

/*
 * Makes the next choice of the run: that of the path, or after its end the first branch. If the path has a choice of another kind or
 * among another number, the explorer differs from then on.
 *
 * DONE; NO_ROOM if the list is full, and BAD_CALL if `among` is 0, which change nothing.
 */
struct blobcrash_branch blobcrash_explorer_choose(struct blobcrash_explorer *explorer, struct blobcrash_choice *choices,
                                                  size_t capacity, uint32_t kind, uint64_t among);

/*
 * Makes the draws of the calls up to here choices of the run, where `left` words are left (blobcrash_words_left).
 *
 * DONE; NO_ROOM if the list is too short for them, which changes nothing.
 */
uint32_t blobcrash_explorer_count(struct blobcrash_explorer *explorer, struct blobcrash_choice *choices, size_t capacity,
                                  size_t left);

/*
 * As blobcrash_explorer_count, if the last draw is that of a size among `among`: a partial resize stopped at one of the `among` sizes
 * between the old one and the new one.
 *
 * DONE; NO_ROOM if the list is too short for them, and BAD_CALL if `among` is 0, which change nothing.
 */
uint32_t blobcrash_explorer_count_size(struct blobcrash_explorer *explorer, struct blobcrash_choice *choices, size_t capacity,
                                       size_t left, uint64_t among);

/* Ends the run. Returns whether it made the choices of the path, and no fewer: then all choices that it made are the path. */
bool blobcrash_explorer_end(struct blobcrash_explorer *explorer);

/*
 * Makes the path that of the next leaf below the root, depth first, the branches in order. Returns false if this was the last leaf, and
 * also if the list is shorter than the path, which changes nothing.
 */
bool blobcrash_explorer_next(struct blobcrash_explorer *explorer, struct blobcrash_choice *choices, size_t capacity);

/* Closes a session and frees its store. A closed one stays closed. */
void blobcrash_close(struct blobcrash_session *session);

/*
 * Runs a whole script, without a session, and writes its replies to the start of `replies`, each with a line feed: what the
 * program prints.
 *
 * DONE; BAD_LINE with the number of the line, and the replies before it; NO_ROOM with the capacity that is needed, the number
 * of the bad line if there is one, and nothing written: run it again, since a script's replies are a function of its text;
 * NO_MEMORY and ENDLESS, with nothing written.
 */
struct blobcrash_script_ran blobcrash_run(const uint8_t *script, size_t script_len, uint8_t *replies, size_t replies_room);

/*
 * Runs a whole script as blobcrash_run does, and writes to the start of `text` what `blobcrash explain` prints: each reply, and after
 * it lines that begin with `# ` and show what the call did, if the reply doesn't (docs/FORMATS.md).
 *
 * The statuses of blobcrash_run. With BAD_LINE the text is that of the lines before the bad one.
 */
struct blobcrash_script_ran blobcrash_explain(const uint8_t *script, size_t script_len, uint8_t *text, size_t capacity);

/* The same as JSON, what `blobcrash explain --json` prints: an object a line (docs/FORMATS.md). */
struct blobcrash_script_ran blobcrash_explain_json(const uint8_t *script, size_t script_len, uint8_t *text, size_t capacity);

#ifdef __cplusplus
}
#endif

#endif
