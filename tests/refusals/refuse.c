/*
 * A library to be preloaded, which refuses allocations, and makes reads and writes fail.
 *
 * REFUSE=N      counts allocations from 1, and refuses the Nth
 * REFUSE_ON=1   and all later ones
 * REFUSE_ALL=1  counts from the program's start; otherwise only the allocations of one marked call count (below)
 * REFUSE_READ=N makes the Nth read of standard input fail; REFUSE_WRITE=N the Nth write of standard output
 * REFUSE_SHORT=N limits each of these to N bytes
 * REFUSE_LOG=F  writes to the file F how many allocations were counted and how many were refused, failed reads and writes too
 *
 * A program marks a call by allocations of four sizes that it doesn't otherwise use. The first arms the library, the next two
 * begin and end the call, and the last one is refused if one of the call's own was. A call that begins unarmed isn't counted. The library is for one thread, and for the GNU C library.
 */
#include <errno.h>
#include <fcntl.h>
#include <stddef.h>
#include <stdio.h>
#include <stdlib.h>
#include <sys/syscall.h>
#include <unistd.h>

extern void *__libc_malloc(size_t size);
extern void *__libc_calloc(size_t count, size_t size);
extern void *__libc_realloc(void *old, size_t size);
extern void *__libc_memalign(size_t alignment, size_t size);

enum { ARMED = 1000003, BEGUN = 1000033, ENDED = 1000037, ASKED = 1000039 };

static unsigned long nth, nth_read, nth_write, most;
static unsigned long counted, refused, counted_in_all, refused_in_all, reads, writes;
static int goes_on, is_armed, counts;
static const char *log_file;

/* The number in a variable of the environment, 0 without one. */
static unsigned long number(const char *name) {
    const char *word = getenv(name);
    return word == NULL ? 0 : strtoul(word, NULL, 10);
}

__attribute__((constructor)) static void begin(void) {
    nth = number("REFUSE");
    nth_read = number("REFUSE_READ");
    nth_write = number("REFUSE_WRITE");
    most = number("REFUSE_SHORT");
    goes_on = getenv("REFUSE_ON") != NULL;
    log_file = getenv("REFUSE_LOG");
    counts = getenv("REFUSE_ALL") != NULL;
}

__attribute__((destructor)) static void end(void) {
    char text[64];
    counts = 0;
    if (log_file == NULL)
        return;
    int length = snprintf(text, sizeof text, "%lu %lu\n", counted_in_all, refused_in_all);
    int file = open(log_file, O_WRONLY | O_CREAT | O_TRUNC, 0600);
    if (file < 0 || syscall(SYS_write, file, text, (size_t)length) != length)
        _exit(99);
}

/* Whether a request that isn't a mark is refused. */
static int is_refused(void) {
    if (!counts)
        return 0;
    counted++;
    counted_in_all++;
    if (nth == 0 || counted < nth || (counted > nth && !goes_on))
        return 0;
    refused++;
    refused_in_all++;
    return 1;
}

void *malloc(size_t size) {
    switch (size) {
    case ARMED:
        is_armed = 1;
        counted = refused = 0;
        return __libc_malloc(1);
    case BEGUN:
        counts = is_armed;
        is_armed = 0;
        return __libc_malloc(1);
    case ENDED:
        counts = 0;
        return __libc_malloc(1);
    case ASKED:
        return refused ? NULL : __libc_malloc(1);
    }
    if (is_refused()) {
        errno = ENOMEM;
        return NULL;
    }
    return __libc_malloc(size);
}

void *calloc(size_t count, size_t size) {
    if (is_refused()) {
        errno = ENOMEM;
        return NULL;
    }
    return __libc_calloc(count, size);
}

void *realloc(void *old, size_t size) {
    if (is_refused()) {
        errno = ENOMEM;
        return NULL;
    }
    return __libc_realloc(old, size);
}

int posix_memalign(void **place, size_t alignment, size_t size) {
    if (is_refused())
        return ENOMEM;
    void *memory = __libc_memalign(alignment, size);
    if (memory == NULL)
        return ENOMEM;
    *place = memory;
    return 0;
}

void *aligned_alloc(size_t alignment, size_t size) {
    if (is_refused()) {
        errno = ENOMEM;
        return NULL;
    }
    return __libc_memalign(alignment, size);
}

static size_t shortened(size_t size) {
    return most != 0 && size > most ? most : size;
}

ssize_t read(int file, void *bytes, size_t size) {
    if (file != STDIN_FILENO)
        return syscall(SYS_read, file, bytes, size);
    if (++reads == nth_read) {
        refused_in_all++;
        errno = EIO;
        return -1;
    }
    return syscall(SYS_read, file, bytes, shortened(size));
}

ssize_t write(int file, const void *bytes, size_t size) {
    if (file != STDOUT_FILENO)
        return syscall(SYS_write, file, bytes, size);
    if (++writes == nth_write) {
        refused_in_all++;
        errno = EIO;
        return -1;
    }
    return syscall(SYS_write, file, bytes, shortened(size));
}

ssize_t __write(int file, const void *bytes, size_t size) {
    return write(file, bytes, size);
}
