/*
 * Adds syncs to a program, to try which one it lacks: a library for LD_PRELOAD. SYNCS in the environment names them:
 *
 *   file       a file is synced before a rename of it
 *   folder     the folders of a rename are synced after it
 *   create     the folder of a new file or folder is synced after a call that makes it
 *   unlink     the folder is synced after an unlink
 *   truncate   a file is synced after an ftruncate of it
 *   write      a file is synced after each write
 *   open       all files that are open for writing are synced before a rename, an unlink and a truncation
 */
#define _GNU_SOURCE
#include <dlfcn.h>
#include <fcntl.h>
#include <libgen.h>
#include <limits.h>
#include <stdarg.h>
#include <stdio.h>
#include <stdlib.h>
#include <string.h>
#include <sys/stat.h>
#include <sys/uio.h>
#include <unistd.h>

#define NEXT(type, name) ((type)dlsym(RTLD_NEXT, name))
enum { MOST_FILES = 256 };

static int wants(const char *word) {
    const char *all = getenv("SYNCS"), *at = all ? strstr(all, word) : NULL;
    return at && (at[strlen(word)] == 0 || at[strlen(word)] == ' ');
}

static int open_as_is(int at, const char *path, int flags, mode_t mode) {
    return NEXT(int (*)(int, const char *, int, ...), "openat")(at, path, flags, mode);
}

static void sync_path(int at, const char *path, int flags) {
    int file = open_as_is(at, path, flags | O_CLOEXEC | O_NONBLOCK, 0);
    if (file >= 0) fsync(file), close(file);
}

static void sync_folder(int at, const char *path) {
    char copy[PATH_MAX];
    snprintf(copy, sizeof copy, "%s", path);
    sync_path(at, dirname(copy), O_RDONLY | O_DIRECTORY);
}

static void sync_open(void) {
    struct stat found;
    for (int file = 0; wants("open") && file < MOST_FILES; file++)
        if (fstat(file, &found) == 0 && S_ISREG(found.st_mode) && (fcntl(file, F_GETFL) & O_ACCMODE) != O_RDONLY) fsync(file);
}

static void before_rename(int at, const char *path) {
    struct stat found;
    sync_open();
    if (wants("file") && fstatat(at, path, &found, AT_SYMLINK_NOFOLLOW) == 0 && S_ISREG(found.st_mode)) sync_path(at, path, O_RDONLY);
}

static int after(int result, const char *word, int at, const char *path) {
    if (result >= 0 && wants(word)) sync_folder(at, path);
    return result;
}

int renameat2(int from_at, const char *from, int to_at, const char *to, unsigned flags) {
    before_rename(from_at, from);
    int result = NEXT(int (*)(int, const char *, int, const char *, unsigned), "renameat2")(from_at, from, to_at, to, flags);
    return after(after(result, "folder", to_at, to), "folder", from_at, from);
}

int renameat(int from_at, const char *from, int to_at, const char *to) { return renameat2(from_at, from, to_at, to, 0); }

int rename(const char *from, const char *to) { return renameat2(AT_FDCWD, from, AT_FDCWD, to, 0); }

int unlinkat(int at, const char *path, int flags) {
    sync_open();
    return after(NEXT(int (*)(int, const char *, int), "unlinkat")(at, path, flags), "unlink", at, path);
}

int unlink(const char *path) { return unlinkat(AT_FDCWD, path, 0); }

int mkdir(const char *path, mode_t mode) {
    return after(NEXT(int (*)(const char *, mode_t), "mkdir")(path, mode), "create", AT_FDCWD, path);
}

int ftruncate(int file, off_t size) {
    sync_open();
    int result = NEXT(int (*)(int, off_t), "ftruncate")(file, size);
    if (result == 0 && wants("truncate")) fsync(file);
    return result;
}

int ftruncate64(int file, off_t size) { return ftruncate(file, size); }

static ssize_t written(int file, ssize_t result) {
    struct stat found;
    if (result > 0 && wants("write") && fstat(file, &found) == 0 && S_ISREG(found.st_mode)) fsync(file);
    return result;
}

ssize_t write(int file, const void *bytes, size_t size) {
    return written(file, NEXT(ssize_t (*)(int, const void *, size_t), "write")(file, bytes, size));
}

ssize_t writev(int file, const struct iovec *parts, int count) {
    return written(file, NEXT(ssize_t (*)(int, const struct iovec *, int), "writev")(file, parts, count));
}

ssize_t pwrite64(int file, const void *bytes, size_t size, off_t at) {
    return written(file, NEXT(ssize_t (*)(int, const void *, size_t, off_t), "pwrite64")(file, bytes, size, at));
}

int openat(int at, const char *path, int flags, ...) {
    va_list rest;
    va_start(rest, flags);
    mode_t mode = flags & (O_CREAT | O_TMPFILE) ? va_arg(rest, mode_t) : 0;
    va_end(rest);
    int is_new = flags & O_CREAT && wants("create") && faccessat(at, path, F_OK, AT_SYMLINK_NOFOLLOW) != 0;
    int file = open_as_is(at, path, flags, mode);
    return is_new ? after(file, "create", at, path) : file;
}

int open(const char *path, int flags, ...) {
    va_list rest;
    va_start(rest, flags);
    mode_t mode = flags & (O_CREAT | O_TMPFILE) ? va_arg(rest, mode_t) : 0;
    va_end(rest);
    return openat(AT_FDCWD, path, flags, mode);
}

int open64(const char *path, int flags, ...) {
    va_list rest;
    va_start(rest, flags);
    mode_t mode = flags & (O_CREAT | O_TMPFILE) ? va_arg(rest, mode_t) : 0;
    va_end(rest);
    return openat(AT_FDCWD, path, flags, mode);
}
