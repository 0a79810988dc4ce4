/* The example of docs/BINDINGS.md: a name that a crash keeps, of a file whose bytes it may lose. It prints `the name is kept`. */
#include "blobcrash_files_calls.h"

#include <stdio.h>

int main(void) {
    struct blobcrash_files files = {0};
    const char *preamble = "seed 7\nkeep 1 1\n";
    uint64_t file = 0;
    blobcrash_files_open(&files, (const uint8_t *)preamble, strlen(preamble));
    blobcrash_file_create(&files, "/f", &file);
    blobcrash_file_write(&files, file, 0, "abc", 3);                      /* BLOBCRASH_DONE, or a refusal: BLOBCRASH_F_STALE .. */
    blobcrash_files_crash(&files, NULL, NULL);
    bool is_kept = blobcrash_files_kept_edit(&files, 0).len == 1;         /* whether the crash kept the name */
    blobcrash_files_close(&files);
    puts(is_kept ? "the name is kept" : "the name is lost");
    return 0;
}
