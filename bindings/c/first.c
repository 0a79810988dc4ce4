/* The example of docs/BINDINGS.md: a write that a crash keeps. It prints `6 of 6 bytes`. */
#include "blobcrash_calls.h"

#include <stdio.h>

int main(void) {
    struct blobcrash_session session = {0};
    const char *preamble = "config write 0 1 1 1 prefix\n";
    size_t handle = 0, writes = 0;
    blobcrash_open(&session, (const uint8_t *)preamble, strlen(preamble));
    blobcrash_open_blob(&session, "p", 1, "b", 1, &handle, NULL);
    blobcrash_write_at(&session, handle, 0, "abcdef", 6);                 /* BLOBCRASH_DONE, or a refusal: BLOBCRASH_E_INJECTED .. */
    blobcrash_crash(&session, &writes);                                   /* 1 write was pending */
    struct blobcrash_kept_run run = blobcrash_kept_run(&session, 0, 0);   /* the first run that was kept of it */
    printf("%zu of %zu bytes\n", run.len, run.bytes);
    blobcrash_close(&session);
    return 0;
}
