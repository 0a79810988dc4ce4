/* For benches/explore.sh: explores 64 runs TIMES times. A run writes six bytes, crashes, and reads what is left. */
#include "explore.h"

static struct blobcrash_paths paths;
static struct blobcrash_session session;

static void need(bool holds, const char *what) {
    if (holds) return;
    fprintf(stderr, "explore: %s\n", what);
    exit(1);
}

static struct blobcrash_typed_reply open_blob(void) {
    struct blobcrash_asked asked = {BLOBCRASH_OPEN, 0, 0, 0};
    struct blobcrash_typed_reply opened = blobcrash_explored_make(&paths, &session, &asked, "wal", 3, "0", 1);
    need(opened.status == BLOBCRASH_DONE, "open");
    return opened;
}

static void body(void) {
    uint8_t found[6];
    size_t handle = open_blob().number;
    need(blobcrash_explored_write(&paths, &session, handle, 0, (const uint8_t *)"record", 6, false) == BLOBCRASH_DONE, "write");
    need(blobcrash_restart(&paths, &session) == BLOBCRASH_DONE, "restart");
    struct blobcrash_typed_reply opened = open_blob();
    need(blobcrash_explored_read(&paths, &session, opened.number, 0, found, (size_t)opened.size) == BLOBCRASH_DONE, "read");
}

int main(int argc, char **argv) {
    for (long times = argc > 1 ? atol(argv[1]) : 1; times > 0; times--) {
        int status;
        while ((status = blobcrash_next_run(&paths, &session, "config write 0 1 1 2 subset\n")) == BLOBCRASH_EXPLORE_RUN) {
            body();
            need(blobcrash_end_run(&paths, &session) == BLOBCRASH_EXPLORE_RUN, "the run");
        }
        need(status == BLOBCRASH_EXPLORE_END && paths.runs == 64, "64 runs");
        blobcrash_free_paths(&paths);
    }
    return 0;
}
