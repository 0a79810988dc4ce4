/*
 * Trees that crashes leave: reads programs, and prints for each what a crash after it may leave.
 *
 * A program is a line `unit N`, lines of a script of files (docs/FORMATS.md), of the calls below, and a line `.`. Offsets, lengths and
 * bytes count letters: a byte of a line is N equal ones. Each combination of outcomes of the draws is run, as `blobcrash files
 * explore --last` does with `crash` and `tree` after the calls. For each tree one line is printed, as that program prints it, with a byte
 * for each letter, `?` for one that is torn, and at the end `= N`, the number of runs, or `= limit` after MOST_RUNS.
 * Exit status: 1 if a line is bad or refused, or there is no memory.
 */
#define _POSIX_C_SOURCE 200809L
#include "explore_files.h"

#include "blobcrash_files_calls.h"

#include <stdio.h>
#include <stdlib.h>
#include <string.h>

enum { LINES_MOST = 256, WORDS_MOST = 8, TREE_MOST = 4096, LETTERS_MOST = 64, UNIT_MOST = 4096, PATH_MOST = 256, MOST_RUNS = 10000 };

static char *lines[LINES_MOST];
static size_t line_count;
static char **trees;
static size_t tree_count, tree_room;
static size_t unit = 1; /* the bytes of a letter */
static uint8_t bytes[LETTERS_MOST * UNIT_MOST];

static void end(const char *why, const char *line) {
    fprintf(stderr, "trees: %s: %s\n", why, line);
    exit(1);
}

/* Reads a program. Returns whether there is one. */
static bool read_program(void) {
    char *line = NULL;
    size_t room = 0;
    for (size_t at = 0; at < line_count; at++) free(lines[at]);
    line_count = 0;
    while (getline(&line, &room, stdin) > 0) {
        line[strcspn(line, "\n")] = 0;
        if (!strcmp(line, ".")) {
            free(line);
            return true;
        }
        if (line_count == LINES_MOST || !(lines[line_count++] = strdup(line))) end("too many lines", line);
    }
    free(line);
    return false;
}

/* Fills `bytes` with the letters of a token, and returns how many bytes these are. */
static size_t bytes_of(const char *hex) {
    size_t letters = strlen(hex) / 2;
    if (letters > LETTERS_MOST) end("too many letters", hex);
    for (size_t at = 0; at < letters; at++) {
        unsigned letter = 0;
        sscanf(hex + 2 * at, "%2x", &letter);
        memset(bytes + at * unit, (int)letter, unit);
    }
    return letters * unit;
}

/* Opens a file by its path, or takes the descriptor that the word is. */
static uint32_t open_word(struct blobcrash_files *files, const char *word, uint64_t *descriptor) {
    if (*word == '/') return blobcrash_file_open(files, word, descriptor);
    *descriptor = strtoull(word, NULL, 10);
    return BLOBCRASH_DONE;
}

/* Makes a call on the file that the second word names. */
static uint32_t on_file(struct blobcrash_files *files, char **words) {
    uint64_t descriptor;
    uint32_t status = open_word(files, words[1], &descriptor);
    if (status != BLOBCRASH_DONE) return status;
    if (!strcmp(words[0], "write")) {
        size_t len = bytes_of(words[3]);
        status = blobcrash_file_write(files, descriptor, unit * strtoull(words[2], NULL, 10), bytes, len);
    } else if (!strcmp(words[0], "truncate")) {
        status = blobcrash_file_truncate(files, descriptor, unit * strtoull(words[2], NULL, 10));
    } else {
        status = words[0][1] == 's' ? blobcrash_file_sync(files, descriptor) : blobcrash_file_sync_data(files, descriptor);
    }
    if (*words[1] == '/') blobcrash_file_close(files, descriptor);
    return status;
}

static uint32_t call(struct blobcrash_files *files, const char *line) {
    char text[4096], *words[WORDS_MOST] = {NULL};
    size_t count = 0;
    if (strlen(line) >= sizeof text) end("too long", line);
    strcpy(text, line);
    for (char *word = strtok(text, " "); word && count < WORDS_MOST - 1; word = strtok(NULL, " ")) words[count++] = word;
    const char *name = words[0];
    if (!strcmp(name, "unit")) {
        unit = count > 1 ? strtoull(words[1], NULL, 10) : 0;
        if (unit == 0 || unit > UNIT_MOST) end("no unit", line);
        return BLOBCRASH_DONE;
    }
    if (!strcmp(name, "config") || !strcmp(name, "keep") || !strcmp(name, "profile") || !strcmp(name, "edits"))
        return blobcrash_files_configure(files, (const uint8_t *)line, strlen(line));
    if (!strcmp(name, "sync")) return blobcrash_files_sync(files);
    if (!strcmp(name, "settle")) return blobcrash_files_settle(files);
    if (!strcmp(name, "commit")) return blobcrash_files_commit(files);
    if (count < 2) end("no call", line);
    if (!strcmp(name, "create")) return blobcrash_file_create(files, words[1], NULL);
    if (!strcmp(name, "open")) return blobcrash_file_open(files, words[1], NULL);
    if (!strcmp(name, "open_truncated")) return blobcrash_file_open_truncated(files, words[1], NULL);
    if (!strcmp(name, "close")) return blobcrash_file_close(files, strtoull(words[1], NULL, 10));
    if (!strcmp(name, "write") || !strcmp(name, "truncate") || !strcmp(name, "fsync") || !strcmp(name, "fdatasync"))
        return on_file(files, words);
    if (!strcmp(name, "fsyncdir")) return blobcrash_file_sync_directory(files, words[1]);
    if (!strcmp(name, "unlink")) return blobcrash_file_unlink(files, words[1]);
    if (!strcmp(name, "mkdir")) return blobcrash_file_make_directory(files, words[1]);
    if (!strcmp(name, "rmdir")) return blobcrash_file_remove_directory(files, words[1]);
    if (!strcmp(name, "link") && count > 2) return blobcrash_file_link(files, words[1], words[2]);
    if (!strcmp(name, "rename") && count > 3) return blobcrash_file_exchange(files, words[1], words[2]);
    if (!strcmp(name, "rename") && count > 2) return blobcrash_file_rename(files, words[1], words[2]);
    end("no call", line);
    return 0;
}

/* Writes a letter of a file. `left` is the number of bytes up to its end. */
static int put_letter(char *at, const uint8_t *letter, size_t left) {
    bool is_whole = left >= unit;
    for (size_t byte = 1; is_whole && byte < unit; byte++) is_whole = letter[byte] == letter[0];
    return sprintf(at, "%02x", is_whole ? letter[0] : '?');
}

/* Writes the tree that calls see to a text. */
static void put_tree(struct blobcrash_files *files, char *text) {
    uint64_t count;
    char *at = text + sprintf(text, "tree");
    if (blobcrash_files_tree(files, &count) != BLOBCRASH_DONE) end("no tree", "");
    for (size_t index = 0; index < count; index++) {
        uint8_t path[PATH_MOST];
        size_t len = (size_t)blobcrash_files_path(files, index, path, sizeof path).size;
        struct blobcrash_file_reply found = blobcrash_files_path_found(files, index);
        if (at + len + 2 * LETTERS_MOST + 4 > text + TREE_MOST || len > sizeof path || found.size > sizeof bytes) end("too large", text);
        at += sprintf(at, " %.*s%s", (int)len, (const char *)path, found.kind == 1 ? "/" : "=");
        if (found.kind == 1) continue;
        size_t size = blobcrash_files_durable(files, found.number, bytes, sizeof bytes).len;
        if (size == 0) at += sprintf(at, "-");
        for (size_t byte = 0; byte < size; byte += unit) at += put_letter(at, bytes + byte, size - byte);
    }
}

static void add_tree(const char *text) {
    for (size_t at = 0; at < tree_count; at++) {
        if (!strcmp(trees[at], text)) return;
    }
    if (tree_count == tree_room) {
        tree_room = 2 * tree_room + 16;
        trees = realloc(trees, tree_room * sizeof *trees);
        if (!trees) end("no memory", text);
    }
    if (!(trees[tree_count++] = strdup(text))) end("no memory", text);
    puts(text);
}

int main(void) {
    while (read_program()) {
        struct blobcrash_paths paths = {0};
        struct blobcrash_files files = {0};
        char text[TREE_MOST];
        int status;
        unsigned long runs = 0;
        while (runs < MOST_RUNS && (status = blobcrash_next_files_run(&paths, &files, "")) == BLOBCRASH_EXPLORE_RUN) {
            for (size_t at = 0; at < line_count; at++) {
                if (call(&files, lines[at]) != BLOBCRASH_DONE) end("refused", lines[at]);
            }
            if (blobcrash_files_crash(&files, NULL, NULL) != BLOBCRASH_DONE) end("no crash", "");
            put_tree(&files, text);
            if (blobcrash_end_files_run(&paths, &files) != BLOBCRASH_EXPLORE_RUN) continue;
            runs++;
            add_tree(text);
        }
        blobcrash_free_paths(&paths);
        if (runs == MOST_RUNS) puts("= limit");
        else if (status == BLOBCRASH_EXPLORE_END) printf("= %lu\n", runs);
        else end("not explored", "");
        fflush(stdout);
        for (size_t at = 0; at < tree_count; at++) free(trees[at]);
        tree_count = 0;
    }
    return 0;
}
