/*
 * Times the calls of a script by kind. Reads the whole script from standard input first, then makes its calls in-process. The time of
 * a call includes parsing its line and printing its reply: `size` shows how much that is. Prints to standard error.
 */
#define _POSIX_C_SOURCE 199309L
#include "blobcrash.h"

#include <stdio.h>
#include <stdlib.h>
#include <string.h>
#include <time.h>

enum { KINDS = 32, WORD = 16, IDLE = 100000 };

struct kind {
    char name[WORD];
    unsigned long calls;
    double ns;
};

static struct kind kinds[KINDS];
static size_t kind_count;
static unsigned long drawn;

static double now(void) {
    struct timespec time;
    clock_gettime(CLOCK_MONOTONIC, &time);
    return (double)time.tv_sec * 1e9 + (double)time.tv_nsec;
}

static void give_up(const char *why, unsigned long number) {
    fprintf(stderr, "line %lu: %s\n", number, why);
    exit(1);
}

static char *read_all(size_t *len) {
    size_t space = 1 << 16;
    char *text = malloc(space);
    for (*len = 0; text;) {
        *len += fread(text + *len, 1, space - *len, stdin);
        if (*len < space) break;
        text = realloc(text, space *= 2);
    }
    if (!text || ferror(stdin)) give_up("the script can't be read", 0);
    return text;
}

/* Whether the line belongs to the preamble. */
static bool is_preamble(const char *line, size_t len) {
    static const char *const words[] = {"image ", "words ", "seed ", "#"};
    while (len && *line == ' ') line++, len--;
    if (!len) return true;
    for (size_t i = 0; i < sizeof words / sizeof *words; i++) {
        size_t word = strlen(words[i]);
        if (len >= word && !memcmp(line, words[i], word)) return true;
    }
    return false;
}

static struct kind *kind_of(const char *line, size_t len) {
    size_t end = 0;
    while (end < len && end < WORD - 1 && line[end] != ' ') end++;
    for (size_t i = 0; i < kind_count; i++)
        if (strlen(kinds[i].name) == end && !memcmp(kinds[i].name, line, end)) return &kinds[i];
    if (kind_count == KINDS) return NULL;
    memcpy(kinds[kind_count].name, line, end);
    return &kinds[kind_count++];
}

/* Makes the call and adds its time to its kind. Grows the buffer if the reply doesn't fit. */
static void make(struct blobcrash_session *session, const char *line, size_t len, unsigned long number) {
    static uint8_t *reply;
    static size_t space;
    while (len && *line == ' ') line++, len--;
    double began = now();
    struct blobcrash_ran ran = blobcrash_call(session, (const uint8_t *)line, len, reply ? reply : (uint8_t *)"", space);
    double ended = now();
    if (ran.status == BLOBCRASH_NO_ROOM) {
        space = 2 * ran.len;
        if (!(reply = realloc(reply, space))) give_up("no memory", number);
        ran = blobcrash_reply(session, reply, space);
    }
    if (ran.status != BLOBCRASH_DONE) give_up("bad call, or no memory", number);
    struct kind *kind = ran.len ? kind_of(line, len) : NULL;
    if (!kind) return;
    kind->calls++;
    kind->ns += ended - began;
    /* A crash replies with `NUMBER:CHOICES` for each write that it draws for. */
    if (!strcmp(kind->name, "crash"))
        for (size_t i = 0; i < ran.len; i++) drawn += reply[i] == ':';
}

int main(void) {
    struct blobcrash_session session = {0};
    size_t len, at = 0;
    unsigned long number = 0;
    char *text = read_all(&len);
    bool is_open = false;
    while (at < len || !is_open) {
        char *end = at < len ? memchr(text + at, '\n', len - at) : NULL;
        size_t line = end ? (size_t)(end - text) - at : len - at;
        if (!is_open && (at == len || !is_preamble(text + at, line))) {
            if (blobcrash_open(&session, (const uint8_t *)text, at).status != BLOBCRASH_DONE) give_up("bad preamble, or no memory", 0);
            is_open = true;
            if (at == len) break;
        }
        number++;
        if (is_open) make(&session, text + at, line, number);
        at += line + (end != NULL);
    }
    double all = 0;
    for (size_t i = 0; i < kind_count; i++) {
        fprintf(stderr, "%s: %lu calls, %.0f ns a call\n", kinds[i].name, kinds[i].calls, kinds[i].ns / (double)kinds[i].calls);
        if (!strcmp(kinds[i].name, "crash") && drawn)
            fprintf(stderr, "crash: %lu writes drawn for, %.0f ns a write\n", drawn, kinds[i].ns / (double)drawn);
        all += kinds[i].ns;
    }
    fprintf(stderr, "all: %.0f us\n", all / 1e3);
    double began = now();
    for (int i = 0; i < IDLE; i++) now();
    fprintf(stderr, "reading the clock, which is in each call: %.0f ns\n", (now() - began) / IDLE);
    blobcrash_close(&session);
    free(text);
    return 0;
}
