/*
 * The calls of blobcrash_files_calls.h, each with what it returns, and their script, as C and as C++:
 *
 *     files_calls SCRIPT
 *
 * writes the script, and prints the tree that is left after a crash, as `blobcrash files` prints it for the last line of the script.
 */
#include "blobcrash_files.h"

static void on_line(struct blobcrash_files *, const char *line, size_t len);
#define BLOBCRASH_ON_FILES_LINE on_line
#include "blobcrash_files_calls.h"

#include <stdio.h>

static FILE *script;
static struct blobcrash_files files;
static int failed, lines, lost;

static void on_line(struct blobcrash_files *of, const char *line, size_t len) {
    lost += of != &files || line == NULL;
    lines++;
    fprintf(script, "%.*s\n", (int)len, line == NULL ? "" : line);
}

#define CHECK(holds) \
    if (!(holds)) { \
        printf("line %d: %s\n", __LINE__, #holds); \
        failed = 1; \
    }
#define DONE(call) CHECK((call) == BLOBCRASH_DONE)

static void by_paths(void) {
    uint64_t fd = 7, count = 0, inode = 0, size = 0;
    bool is_directory = true;
    DONE(blobcrash_file_create(&files, "/a", &fd));
    CHECK(fd == 0);
    CHECK(blobcrash_file_create(&files, "/a", &fd) == BLOBCRASH_F_EXISTS && fd == 0);
    DONE(blobcrash_file_open(&files, "/a", &fd));
    CHECK(fd == 1);
    DONE(blobcrash_file_open_truncated(&files, "/a", NULL));
    DONE(blobcrash_file_write(&files, 0, 0, "abc", 3));
    DONE(blobcrash_file_link(&files, "/a", "/b"));
    CHECK(blobcrash_file_rename_no_replace(&files, "/a", "/b") == BLOBCRASH_F_EXISTS);
    DONE(blobcrash_file_unlink(&files, "/b"));
    DONE(blobcrash_file_rename_no_replace(&files, "/a", "/c d#\\"));
    DONE(blobcrash_file_create(&files, "/e", NULL));
    DONE(blobcrash_file_exchange(&files, "/c d#\\", "/e"));
    DONE(blobcrash_file_rename(&files, "/c d#\\", "/f"));
    DONE(blobcrash_file_make_directory(&files, "/d"));
    DONE(blobcrash_file_make_directory(&files, "/d/x"));
    CHECK(blobcrash_file_remove_directory(&files, "/d") == BLOBCRASH_F_NOT_EMPTY);
    DONE(blobcrash_file_remove_directory(&files, "/d/x"));
    DONE(blobcrash_file_list(&files, "/", &count));
    CHECK(count == 3);
    DONE(blobcrash_file_find(&files, "/e", &inode, &is_directory, &size));
    CHECK(inode == 2 && !is_directory && size == 3);
    DONE(blobcrash_file_find(&files, "/d", NULL, &is_directory, NULL));
    CHECK(is_directory);
    DONE(blobcrash_file_sync_directory(&files, "/"));
    CHECK(blobcrash_file_open(&files, "", NULL) == BLOBCRASH_F_INVALID_NAME);
}

static void by_numbers(void) {
    uint64_t directory = 0, fd = 0, inode = 0, count = 0, size = 0, first = 0;
    bool is_directory = true;
    DONE(blobcrash_file_make_directory_at(&files, 1, "g", &directory));
    DONE(blobcrash_file_create_at(&files, directory, "h", &fd));
    DONE(blobcrash_file_inode_of(&files, fd, &first));
    DONE(blobcrash_file_link_at(&files, first, 1, "i"));
    DONE(blobcrash_file_rename_at(&files, 1, "i", directory, "j", 1));
    CHECK(blobcrash_file_rename_at(&files, 1, "none", directory, "h", 0) == BLOBCRASH_F_NOT_FOUND);
    DONE(blobcrash_file_find_at(&files, directory, "j", &inode, &is_directory, &size));
    CHECK(inode == first && !is_directory && size == 0);
    DONE(blobcrash_file_list_at(&files, directory, &count));
    CHECK(count == 2);
    DONE(blobcrash_file_unlink_at(&files, directory, "h"));
    DONE(blobcrash_file_make_directory_at(&files, directory, "k", NULL));
    DONE(blobcrash_file_remove_directory_at(&files, directory, "k"));
    DONE(blobcrash_file_sync_directory_at(&files, directory));
    DONE(blobcrash_file_open_inode(&files, first, &fd));
    DONE(blobcrash_file_open_inode_truncated(&files, first, NULL));
    DONE(blobcrash_file_write(&files, fd, 2, "\0xyz", 4));
    DONE(blobcrash_file_write(&files, fd, 2, NULL, 0));
    DONE(blobcrash_file_truncate(&files, fd, 5));
    DONE(blobcrash_file_size(&files, fd, &size));
    CHECK(size == 5);
}

static void by_descriptors(void) {
    char into[8] = "???????";
    size_t found = 9;
    DONE(blobcrash_file_read(&files, 0, 1, into, 7, &found));
    CHECK(found == 2 && memcmp(into, "bc?????", 8) == 0);
    DONE(blobcrash_file_read(&files, 0, 3, NULL, 0, &found));
    CHECK(found == 0);
    DONE(blobcrash_file_sync(&files, 0));
    DONE(blobcrash_file_write(&files, 0, 3, "unsynced", 8));
    DONE(blobcrash_file_sync_data(&files, 1));
    DONE(blobcrash_file_close(&files, 1));
    CHECK(blobcrash_file_close(&files, 1) == BLOBCRASH_F_STALE);
    DONE(blobcrash_files_sync(&files));
    DONE(blobcrash_files_settle(&files));
    DONE(blobcrash_files_commit(&files));
    DONE(blobcrash_file_write(&files, 0, 0, "ABCDEFGHIJK", 11));
    DONE(blobcrash_file_unlink(&files, "/f"));
    DONE(blobcrash_file_create(&files, "/new", NULL));
}

static void no_calls(void) {
    int before = lines;
    CHECK(blobcrash_file_create(&files, NULL, NULL) == BLOBCRASH_BAD_CALL);
    CHECK(blobcrash_file_rename(&files, "/a", NULL) == BLOBCRASH_BAD_CALL);
    CHECK(blobcrash_file_write(&files, 0, 0, NULL, 1) == BLOBCRASH_BAD_CALL);
    CHECK(blobcrash_file_read(&files, 0, 0, NULL, 1, NULL) == BLOBCRASH_BAD_CALL);
    CHECK(blobcrash_file_rename_at(&files, 1, "e", 1, "m", 3) == BLOBCRASH_BAD_CALL);
    CHECK(blobcrash_files_set(&files, NULL) == BLOBCRASH_BAD_LINE && blobcrash_files_set(&files, "keep") == BLOBCRASH_BAD_LINE);
    CHECK(lines == before);
    DONE(blobcrash_files_set(&files, "config sync 0 1"));
    CHECK(lines == before + 1);
}

/* Prints the bytes of a call as its line has them, after the first `skipped` bytes. */
static void print_token(uint32_t kind, const void *bytes, size_t len, size_t skipped) {
    struct blobcrash_file_call asked = {kind, 0, 0, 0};
    size_t line_len;
    char *line = blobcrash_new_files_line(&asked, bytes, len, NULL, 0, &line_len);
    printf("%.*s", (int)(line_len - skipped), line + skipped);
    free(line);
}

/* Prints the tree, as `blobcrash files` does. */
static void print_tree(void) {
    uint64_t paths = 0, fd = 0, size = 0;
    uint8_t path[300], bytes[300];
    DONE(blobcrash_files_tree(&files, &paths));
    printf("tree");
    for (size_t at = 0; at < paths; at++) {
        DONE(blobcrash_files_tree(&files, NULL));
        struct blobcrash_file_reply one = blobcrash_files_path(&files, at, path, sizeof path - 1);
        path[one.size] = 0;
        printf(" ");
        print_token(BLOBCRASH_F_FIND, path, (size_t)one.size, strlen("find "));
        printf("%s", one.kind == 1 ? "/" : "=");
        if (one.kind == 1) continue;
        DONE(blobcrash_file_open(&files, (const char *)path, &fd));
        DONE(blobcrash_file_size(&files, fd, &size));
        size_t found = 0;
        DONE(blobcrash_file_read(&files, fd, 0, bytes, sizeof bytes, &found));
        CHECK(found == size);
        print_token(BLOBCRASH_F_WRITE, bytes, found, strlen("write 0 0 "));
    }
    printf("\n");
    DONE(blobcrash_files_tree(&files, NULL));
}

int main(int count, char **arguments) {
    const char *preamble = "seed 11\nprofile posix\nconfig write 0 1 1 2 subset\n";
    uint64_t writes = 0, edits = 0;
    script = count == 2 ? fopen(arguments[1], "w") : NULL;
    if (script == NULL) return 2;
    fputs(preamble, script);
    DONE(blobcrash_files_open(&files, (const uint8_t *)preamble, strlen(preamble)).status);
    by_paths();
    by_numbers();
    by_descriptors();
    no_calls();
    DONE(blobcrash_files_crash(&files, &writes, &edits));
    /* The write and the two edits. */
    CHECK(writes == 3 && edits == 2);
    print_tree();
    blobcrash_files_close(&files);
    CHECK(blobcrash_file_create(&files, "/a", NULL) == BLOBCRASH_CLOSED);
    CHECK(lost == 0 && fclose(script) == 0);
    return failed;
}
