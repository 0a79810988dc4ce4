/*
 * blobcrash_mount DIR --control SOCKET [options]: mounts the layer's files on a folder, and goes to the background. tools/mount starts
 * it. Options: usage_text. Exit statuses: 0; 1 if the mount fails; 2 for a bad option; 3 if FUSE or the right to mount is missing.
 */
#define _GNU_SOURCE
#include "acknowledged.h"
#include "calls.h"
#include "commands.h"
#include "control.h"
#include "fifo.h"
#include "layer.h"
#include "memory.h"
#include "power.h"
#include "record.h"
#include "serve.h"

#include <errno.h>
#include <fcntl.h>
#include <getopt.h>
#include <inttypes.h>
#include <signal.h>
#include <stdarg.h>
#include <stdio.h>
#include <stdlib.h>
#include <string.h>
#include <sys/prctl.h>
#include <unistd.h>

enum { FAILED = 1, BAD_OPTION = 2, NO_FUSE = 3 };

static const char usage_text[] =
    "usage: blobcrash_mount DIR --control SOCKET [--seed N] [--profile ext4|xfs|btrfs|posix] [--tear prefix|subset|sectorsN]\n"
    "                       [--keep N/D] [--size BYTES] [--changes N] [--record FILE] [--acknowledged FILE] [--fifo FIFO]\n"
    "                       [--fifo-completed FIFO] [--log FILE] [--attributes] [--allow-other] [--foreground]";

static struct {
    const char *directory, *control, *seed, *profile, *tear, *keep, *record, *acknowledged, *fifo, *completed, *log;
    uint64_t size, changes;
    bool has_attributes, allows_other, stays;
} options = {.seed = "1", .profile = "ext4", .tear = "sectors512", .keep = "1/2"};

static void end(int status, const char *format, ...) {
    va_list values;
    va_start(values, format);
    fputs("mount: ", stderr);
    vfprintf(stderr, format, values);
    fputc('\n', stderr);
    va_end(values);
    exit(status);
}

/* Whether a text has only digits. */
static bool is_number(const char *text, size_t len) { return len > 0 && len < 20 && strspn(text, "0123456789") >= len; }

/* Reads a size in bytes, with K, M or G after it for powers of 1024. */
static uint64_t size_of(const char *text) {
    char *unit;
    errno = 0;
    unsigned long long size = strtoull(text, &unit, 10);
    unsigned shift = *unit == 'K' ? 10 : *unit == 'M' ? 20 : *unit == 'G' ? 30 : 0;
    if (errno || *text < '0' || *text > '9' || (shift ? unit[1] : *unit) || size == 0 || size > (UINT64_MAX >> 1) >> shift)
        end(BAD_OPTION, "--size %s: not a size, such as 512M", text);
    uint64_t bytes = (uint64_t)size << shift, memory = memory_of_machine();
    if (memory > 0 && bytes > memory)
        end(BAD_OPTION, "--size %s: files are in memory, and there are only %" PRIu64 "M", text, memory >> 20);
    return bytes;
}

/* Reads a number of changes. */
static uint64_t count_of(const char *text) {
    if (!is_number(text, strlen(text)) || strtoull(text, NULL, 10) == 0) end(BAD_OPTION, "--changes %s: not a number above 0", text);
    return strtoull(text, NULL, 10);
}

static void read_options(int count, char **words) {
    static const struct option names[] = {
        {"control", required_argument, NULL, 'c'}, {"seed", required_argument, NULL, 's'},
        {"profile", required_argument, NULL, 'p'}, {"tear", required_argument, NULL, 't'},
        {"keep", required_argument, NULL, 'k'},    {"size", required_argument, NULL, 'z'},
        {"fifo", required_argument, NULL, 'F'},    {"fifo-completed", required_argument, NULL, 'C'},
        {"log", required_argument, NULL, 'l'},     {"record", required_argument, NULL, 'r'},
        {"changes", required_argument, NULL, 'n'}, {"acknowledged", required_argument, NULL, 'a'},
        {"attributes", no_argument, NULL, 'x'},    {"allow-other", no_argument, NULL, 'o'},
        {"foreground", no_argument, NULL, 'f'},    {NULL, 0, NULL, 0}};
    for (int option; (option = getopt_long(count, words, "", names, NULL)) != -1;) {
        switch (option) {
        case 'c': options.control = optarg; break;
        case 's': options.seed = optarg; break;
        case 'p': options.profile = optarg; break;
        case 't': options.tear = optarg; break;
        case 'k': options.keep = optarg; break;
        case 'z': options.size = size_of(optarg); break;
        case 'n': options.changes = count_of(optarg); break;
        case 'F': options.fifo = optarg; break;
        case 'C': options.completed = optarg; break;
        case 'l': options.log = optarg; break;
        case 'r': options.record = optarg; break;
        case 'a': options.acknowledged = optarg; break;
        case 'x': options.has_attributes = true; break;
        case 'o': options.allows_other = true; break;
        case 'f': options.stays = true; break;
        default: end(BAD_OPTION, "%s", usage_text);
        }
    }
    if (optind + 1 != count || !options.control) end(BAD_OPTION, "%s", usage_text);
    if (options.size == 0) options.size = memory_for_files();
    if (!options.fifo && (options.completed || options.log)) end(BAD_OPTION, "--fifo-completed and --log belong to --fifo");
    options.directory = words[optind];
}

/* Opens the layer with the settings that the options say. */
static void begin_layer(void) {
    char preamble[512];
    const char *slash = strchr(options.keep, '/');
    bool is_sectors = strncmp(options.tear, "sectors", 7) == 0 && is_number(options.tear + 7, strlen(options.tear + 7));
    if (!is_number(options.seed, strlen(options.seed))) end(BAD_OPTION, "--seed %s: not a number", options.seed);
    if (!is_sectors && strcmp(options.tear, "prefix") && strcmp(options.tear, "subset"))
        end(BAD_OPTION, "--tear %s: not prefix, subset or sectorsN, such as sectors512", options.tear);
    if (!slash || !is_number(options.keep, (size_t)(slash - options.keep)) || !is_number(slash + 1, strlen(slash + 1)))
        end(BAD_OPTION, "--keep %s: not a fraction, such as 1/2", options.keep);
    if (strspn(options.profile, "abcdefghijklmnopqrstuvwxyz0123456789") != strlen(options.profile) || strlen(options.profile) > 20)
        end(BAD_OPTION, "--profile %s: not ext4, xfs, btrfs or posix", options.profile);
    node_limits.bytes = options.size;
    node_limits.files = options.size / 4096 > 1024 ? options.size / 4096 : 1024;
    node_limits.changes = options.changes ? options.changes : options.size / 2048 > 65536 ? options.size / 2048 : 65536;
    int number = (int)(slash - options.keep);
    snprintf(preamble, sizeof preamble,
             "seed %s\nprofile %s\nconfig write 0 1 %.*s %s %s %s\nkeep %.*s %s\nspace %" PRIu64 " %" PRIu64 "\n", options.seed,
             options.profile, number, options.keep, slash + 1, is_sectors ? "sectors" : options.tear,
             is_sectors ? options.tear + 7 : "", number, options.keep, slash + 1, node_limits.bytes, node_limits.files);
    uint64_t line;
    int error = layer_begin(preamble, &line);
    static const char *const bad[] = {"--seed: not a seed", "--profile: not ext4, xfs, btrfs or posix",
                                      "--keep or --tear: not from 0 to 1, or no sectors", "--keep: not from 0 to 1",
                                      "--size: too large"};
    if (error == EINVAL) end(BAD_OPTION, "%s", line >= 1 && line <= 5 ? bad[line - 1] : "a bad option");
    if (error) end(FAILED, "the layer: %s", strerror(error));
    if (nodes_begin(getuid(), getgid())) end(FAILED, "no memory");
    error = options.record ? record_begin(options.record) : 0;
    if (error) end(FAILED, "--record %s: %s", options.record, strerror(error));
    error = options.acknowledged ? acknowledged_begin(options.acknowledged) : 0;
    if (error) end(FAILED, "--acknowledged %s: %s", options.acknowledged, strerror(error));
}

/* Says what is missing for a mount, in one line. */
static void need_fuse(void) {
    static const char help[] = "in a container: docker run --device /dev/fuse --cap-add SYS_ADMIN";
    int fd = open("/dev/fuse", O_RDWR | O_CLOEXEC);
    if (fd < 0 && (errno == EACCES || errno == EPERM)) end(NO_FUSE, "no right to open /dev/fuse; %s", help);
    if (fd < 0 && (errno == ENOENT || errno == ENODEV || errno == ENXIO))
        end(NO_FUSE, "there is no /dev/fuse: load the kernel's module fuse; %s", help);
    if (fd < 0) end(NO_FUSE, "/dev/fuse: %s; %s", strerror(errno), help);
    close(fd);
}

/* Removes the socket and the fifos. */
static void end_paths(void) {
    control_end();
    fifo_end();
}

static struct fuse_session *mount_it(char *name) {
    char *words[] = {name, "-o", options.allows_other ? "default_permissions,fsname=blobcrash,subtype=blobcrash,allow_other"
                                                      : "default_permissions,fsname=blobcrash,subtype=blobcrash", NULL};
    struct fuse_args arguments = FUSE_ARGS_INIT(3, words);
    const struct fuse_lowlevel_ops *table = options.has_attributes ? &calls : &calls_without_attributes;
    struct fuse_session *session = fuse_session_new(&arguments, table, sizeof *table, NULL);
    if (!session || fuse_set_signal_handlers(session)) end(FAILED, "no session");
    if (fuse_session_mount(session, options.directory)) {
        end_paths();
        if (geteuid() == 0)
            end(NO_FUSE, "no right to mount: CAP_SYS_ADMIN is missing, or a rule of the system forbids it. In a container: docker run "
                         "--device /dev/fuse --cap-add SYS_ADMIN");
        end(NO_FUSE, "fusermount3 doesn't mount it: it is missing (Debian: apt-get install fuse3), or says above why");
    }
    fuse_opt_free_args(&arguments);
    return session;
}

int main(int count, char **words) {
    read_options(count, words);
    need_fuse();
    begin_layer();
    int error = control_begin(options.control);
    if (error) end(FAILED, "the control socket %s: %s", options.control, strerror(error));
    error = options.fifo ? fifo_begin(options.fifo, options.completed, options.log) : 0;
    if (error) {
        end_paths();
        end(FAILED, "--fifo: %s", strerror(error));
    }
    char *directory = realpath(options.directory, NULL);
    if (!directory) {
        end_paths();
        end(FAILED, "%s: %s", options.directory, strerror(errno));
    }
    options.directory = directory;
    commands_mounted_on(directory);
    struct fuse_session *session = mount_it(words[0]);
    /* In the foreground the daemon ends with the process that started it. */
    if (options.stays && prctl(PR_SET_PDEATHSIG, SIGTERM)) end(FAILED, "the foreground: %s", strerror(errno));
    if (!options.stays && daemon(0, 0)) end(FAILED, "the background: %s", strerror(errno));
    error = serve(session);
    acknowledged_look();
    record_end();
    fuse_session_unmount(session);
    end_paths();
    fuse_remove_signal_handlers(session);
    fuse_session_destroy(session);
    call_directories_end();
    layer_end();
    free(directory);
    return error ? FAILED : 0;
}
