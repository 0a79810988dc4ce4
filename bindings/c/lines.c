/*
 * Runs a script from standard input through a session, a line at a time, or with `--whole` as a whole. Its replies and its exit
 * status are the program's (docs/FORMATS.md). With `--explain` it prints what `blobcrash explain` prints.
 */
#include "blobcrash.h"

#include <inttypes.h>
#include <stdio.h>
#include <stdlib.h>
#include <string.h>

/* A buffer that grows: `len` bytes of text, with capacity `room`. */
struct text {
    uint8_t *bytes;
    size_t len, room;
};

static void want(struct text *text, size_t room) {
    if (room <= text->room) return;
    uint8_t *bytes = realloc(text->bytes, room);
    if (!bytes) exit(BLOBCRASH_NO_MEMORY);
    text->bytes = bytes;
    text->room = room;
}

static int bad_line(uint64_t number) {
    fprintf(stderr, "line %" PRIu64 ": bad call\n", number);
    return 2;
}

/* Whether a line's first token is this word; with no word, whether it has none or begins a comment. */
static bool begins(const uint8_t *line, size_t len, const char *word) {
    size_t at = 0;
    while (at < len && line[at] == ' ') at++;
    if (!word) return at == len || line[at] == '#';
    size_t word_len = strlen(word);
    return len - at >= word_len && memcmp(line + at, word, word_len) == 0 && (len - at == word_len || line[at + word_len] == ' ');
}

static bool is_preamble(const uint8_t *line, size_t len) {
    return begins(line, len, NULL) || begins(line, len, "image") || begins(line, len, "words") || begins(line, len, "seed");
}

/* The session's reply to a line, of any length: if the buffer is too short, it is read again into a larger one. */
static uint32_t call(struct blobcrash_session *session, const uint8_t *line, size_t len, struct text *reply) {
    struct blobcrash_ran ran = blobcrash_call(session, line, len, reply->bytes, reply->room);
    while (ran.status == BLOBCRASH_NO_ROOM) {
        want(reply, ran.len);
        ran = blobcrash_reply(session, reply->bytes, reply->room);
    }
    reply->len = ran.len;
    return ran.status;
}

static int by_lines(struct blobcrash_session *session, const struct text *script) {
    struct text reply = {0};
    /* So little that most replies don't fit: what is tested is that none is lost. */
    want(&reply, 4);
    uint64_t number = 0;
    size_t at = 0, preamble = 0;
    bool in_preamble = true, opened = false;
    int status = 0;
    while (at < script->len && status == 0) {
        const uint8_t *line = script->bytes + at;
        const uint8_t *end = memchr(line, '\n', script->len - at);
        size_t len = end ? (size_t)(end - line) : script->len - at;
        number++;
        in_preamble = in_preamble && is_preamble(line, len);
        if (in_preamble) {
            preamble = at + len + (end != NULL);
        } else {
            if (!opened) {
                opened = true;
                struct blobcrash_script_ran ran = blobcrash_open(session, script->bytes, preamble);
                status = ran.status == BLOBCRASH_BAD_LINE ? bad_line(ran.line) : (int)ran.status;
                if (status) break;
            }
            uint32_t ran = call(session, line, len, &reply);
            if (ran == BLOBCRASH_BAD_LINE) status = bad_line(number);
            else if (ran != BLOBCRASH_DONE) status = (int)ran;
            else if (reply.len) {
                fwrite(reply.bytes, 1, reply.len, stdout);
                putchar('\n');
            }
        }
        at += len + (end != NULL);
    }
    if (in_preamble && status == 0) {
        struct blobcrash_script_ran ran = blobcrash_open(session, script->bytes, script->len);
        status = ran.status == BLOBCRASH_BAD_LINE ? bad_line(ran.line) : (int)ran.status;
    }
    free(reply.bytes);
    return status;
}

/* A function that runs a whole script. */
typedef struct blobcrash_script_ran run_function(const uint8_t *script, size_t script_len, uint8_t *text, size_t capacity);

static int whole(const struct text *script, run_function *run) {
    struct text text = {0};
    want(&text, 1);
    struct blobcrash_script_ran ran = run(script->bytes, script->len, text.bytes, text.room);
    if (ran.status == BLOBCRASH_NO_ROOM) {
        want(&text, ran.len);
        ran = run(script->bytes, script->len, text.bytes, text.room);
    }
    fwrite(text.bytes, 1, ran.len, stdout);
    free(text.bytes);
    return ran.status == BLOBCRASH_BAD_LINE ? bad_line(ran.line) : (int)ran.status;
}

int main(int argc, char **argv) {
    struct text script = {0};
    want(&script, 4096);
    size_t got;
    while ((got = fread(script.bytes + script.len, 1, script.room - script.len, stdin)) > 0) {
        script.len += got;
        want(&script, 2 * script.len + 4096);
    }
    int status;
    if (argc > 1 && strcmp(argv[1], "--whole") == 0) {
        status = whole(&script, blobcrash_run);
    } else if (argc > 1 && strcmp(argv[1], "--explain") == 0) {
        status = whole(&script, blobcrash_explain);
    } else {
        struct blobcrash_session session = {0};
        status = by_lines(&session, &script);
        blobcrash_close(&session);
    }
    free(script.bytes);
    return status;
}
