/*
 * Numbers of handles and of started syncs after many were closed and finished, and the memory that these leave: none that grows. Where the
 * C library doesn't say how much is in use, or another allocator is linked in, only the replies are tested. It prints each check that
 * fails, and ends with the status 1 if there is one.
 */
#include "blobcrash_calls.h"
#include "checks.h"

#include <malloc.h>

enum { MANY = 20000, OPEN = 40, LEFT = 65536 };

static size_t in_use(void) {
#if defined __GLIBC__ && __GLIBC_PREREQ(2, 33)
    struct mallinfo2 info = mallinfo2();
    return info.uordblks + info.hblkhd;
#else
    return 0;
#endif
}

/* The tracked size of a handle, or a number that no blob here has as its size. */
static uint64_t size_of(struct blobcrash_session *session, size_t handle) {
    uint64_t size = 0;
    return blobcrash_size(session, handle, &size) == BLOBCRASH_DONE ? size : UINT64_MAX;
}

/* Opens a blob by a number, writes as many bytes to it as its number says, and returns its handle. */
static size_t open_numbered(struct blobcrash_session *session, uint8_t blob) {
    static const uint8_t bytes[256];
    size_t handle = SIZE_MAX;
    CHECK(blobcrash_open_blob(session, "p", 1, &blob, 1, &handle, NULL) == BLOBCRASH_DONE);
    CHECK(blobcrash_write_at_sync(session, handle, 0, bytes, blob) == BLOBCRASH_DONE);
    return handle;
}

/* Opens and closes a blob again and again, with a crash each time. Numbers go on from `next`. */
static void open_and_close(struct blobcrash_session *session, size_t next) {
    for (size_t i = 0; i < MANY; i++) {
        size_t handle = 0, writes = 0;
        CHECK(blobcrash_open_blob(session, "p", 1, "b", 1, &handle, NULL) == BLOBCRASH_DONE && handle == next + i);
        CHECK(size_of(session, handle) == 0 && size_of(session, handle + 1) == UINT64_MAX);
        CHECK(blobcrash_close_blob(session, handle) == BLOBCRASH_DONE);
        CHECK(blobcrash_close_blob(session, handle) == BLOBCRASH_E_NO_HANDLE);
        CHECK(blobcrash_crash(session, &writes) == BLOBCRASH_DONE);
    }
}

/* Starts and finishes a sync again and again, the first one after all others. */
static void start_and_finish(struct blobcrash_session *session, size_t handle) {
    size_t first = 0;
    CHECK(blobcrash_start_sync(session, handle, &first) == BLOBCRASH_DONE && first == 0);
    for (size_t i = 1; i < MANY; i++) {
        size_t number = 0;
        CHECK(blobcrash_start_sync(session, handle, &number) == BLOBCRASH_DONE && number == i);
        CHECK(blobcrash_finish(session, number) == BLOBCRASH_DONE);
        CHECK(blobcrash_finish(session, number) == BLOBCRASH_E_NO_HANDLE);
    }
    CHECK(blobcrash_finish(session, first) == BLOBCRASH_DONE);
    CHECK(blobcrash_finish(session, first) == BLOBCRASH_E_NO_HANDLE);
}

/* Each third of many handles stays open, while others are opened and closed: each number is still that of its blob. */
static void some_stay(struct blobcrash_session *session, size_t next) {
    size_t handles[OPEN];
    for (uint8_t i = 0; i < OPEN; i++) {
        handles[i] = open_numbered(session, i + 1);
        CHECK(handles[i] == next + i);
    }
    for (uint8_t i = 0; i < OPEN; i++) {
        if (i % 3) CHECK(blobcrash_close_blob(session, handles[i]) == BLOBCRASH_DONE);
    }
    open_and_close(session, next + OPEN);
    for (uint8_t i = 0; i < OPEN; i++) {
        CHECK(size_of(session, handles[i]) == (i % 3 ? UINT64_MAX : (uint64_t)i + 1));
        if (i % 3 == 0) CHECK(blobcrash_close_blob(session, handles[i]) == BLOBCRASH_DONE);
        CHECK(size_of(session, handles[i]) == UINT64_MAX);
    }
}

int main(void) {
    struct blobcrash_session session = {0};
    CHECK(blobcrash_open(&session, TEXT("")).status == BLOBCRASH_DONE);
    size_t log = open_numbered(&session, 200);
    size_t before = in_use();
    open_and_close(&session, 1);
    CHECK(in_use() <= before + LEFT);
    start_and_finish(&session, log);
    CHECK(in_use() <= before + LEFT);
    CHECK(size_of(&session, log) == 200);
    some_stay(&session, 1 + MANY);
    CHECK(size_of(&session, log) == 200);
    CHECK(blobcrash_reopen(&session) == BLOBCRASH_DONE);
    CHECK(blobcrash_finish(&session, 0) == BLOBCRASH_E_NO_HANDLE);
    CHECK(blobcrash_close_blob(&session, log) == BLOBCRASH_DONE);
    CHECK(open_numbered(&session, 7) == 1 + 2 * MANY + OPEN);
    blobcrash_close(&session);
    return failed;
}
