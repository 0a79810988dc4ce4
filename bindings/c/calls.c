/*
 * Tests what each exported function returns: sessions, replies that don't fit, bad lines, whole scripts. Prints the source line
 * of each check that fails, and exits with status 1 if there is one.
 */
#include "blobcrash.h"

#include "checks.h"

static bool is_told(const uint8_t *room, size_t len, const char *reply) {
    return len == strlen(reply) && memcmp(room, reply, len) == 0;
}

/* Whether the call of a line is done, with this reply. */
static bool answers(struct blobcrash_session *session, const char *line, const char *reply) {
    uint8_t room[64];
    struct blobcrash_ran ran = blobcrash_call(session, TEXT(line), room, sizeof room);
    return ran.status == BLOBCRASH_DONE && is_told(room, ran.len, reply);
}

static void a_session_is_opened_asked_and_closed(void) {
    struct blobcrash_session session = {0};
    uint8_t room[8], found[6];
    CHECK(blobcrash_call(&session, TEXT("crash"), room, sizeof room).status == BLOBCRASH_CLOSED);
    CHECK(blobcrash_write(&session, 0, 0, TEXT("a"), false) == BLOBCRASH_CLOSED);
    CHECK(blobcrash_open(&session, TEXT("# faults\nwords 0 max\nconfig write 0 1 1 2 subset\n")).status == BLOBCRASH_DONE);
    CHECK(answers(&session, "", ""));
    CHECK(answers(&session, "open p 62", "opened 0 0 0"));
    CHECK(blobcrash_write(&session, 0, 0, TEXT("abcdef"), true) == BLOBCRASH_DONE);
    CHECK(blobcrash_write(&session, 0, 0, TEXT("AB"), false) == BLOBCRASH_DONE);
    CHECK(answers(&session, "crash", "crashed 0:10"));
    CHECK(answers(&session, "reopen", "ok"));
    CHECK(answers(&session, "open p 62", "opened 1 6 0"));
    CHECK(blobcrash_read(&session, 1, 0, found, sizeof found) == BLOBCRASH_DONE);
    CHECK(memcmp(found, "Abcdef", 6) == 0);
    blobcrash_close(&session);
    CHECK(blobcrash_reply(&session, room, sizeof room).status == BLOBCRASH_CLOSED);
}

static void a_reply_without_room_is_kept(void) {
    struct blobcrash_session session = {0};
    uint8_t room[64], found[3] = {7, 7, 7};
    CHECK(blobcrash_open(&session, TEXT("")).status == BLOBCRASH_DONE);
    struct blobcrash_ran ran = blobcrash_call(&session, TEXT("open p 62"), room, 0);
    CHECK(ran.status == BLOBCRASH_NO_ROOM);
    CHECK(ran.len == 12);
    for (int time = 0; time < 2; time++) {
        ran = blobcrash_reply(&session, room, 16);
        CHECK(ran.status == BLOBCRASH_DONE);
        CHECK(is_told(room, ran.len, "opened 0 0 0"));
    }
    CHECK(blobcrash_read(&session, 0, 0, found, sizeof found) == BLOBCRASH_E_BLOB_INSUFFICIENT_LENGTH);
    CHECK(memcmp(found, "\7\7\7", 3) == 0);
    ran = blobcrash_reply(&session, room, sizeof room);
    CHECK(is_told(room, ran.len, "error BlobInsufficientLength"));
    CHECK(blobcrash_write(&session, 5, 0, TEXT("a"), false) == BLOBCRASH_E_NO_HANDLE);
    ran = blobcrash_reply(&session, room, sizeof room);
    CHECK(is_told(room, ran.len, "error NoHandle"));
    blobcrash_close(&session);
}

static void bad_lines_change_nothing(void) {
    static const struct { const char *preamble; uint64_t line; } rows[] = {
        {"frob", 1},
        {"\nopen p 62\n", 2},
        {"words 1\nconfig clear\nwords 1\n", 3},
        {"config clear\n\n# \xff\n", 3},
        {"seed 1\nwords 1\nseed 1\n", 3},
        {"config clear\nseed 1\n", 2},
    };
    static const char *const lines[] = {"frob", "words 1", "seed 1", "image p 62 -", "\xff"};
    struct blobcrash_session session = {0};
    uint8_t room[1];
    CHECK(blobcrash_open(&session, TEXT("image p 62 43574943000000056162")).status == BLOBCRASH_DONE);
    for (size_t row = 0; row < sizeof rows / sizeof *rows; row++) {
        struct blobcrash_script_ran ran = blobcrash_open(&session, TEXT(rows[row].preamble));
        check(ran.status == BLOBCRASH_BAD_LINE && ran.line == rows[row].line, rows[row].preamble, __LINE__);
    }
    for (size_t row = 0; row < sizeof lines / sizeof *lines; row++) {
        struct blobcrash_ran ran = blobcrash_call(&session, TEXT(lines[row]), room, 0);
        check(ran.status == BLOBCRASH_BAD_LINE, lines[row], __LINE__);
    }
    CHECK(answers(&session, "open p 62 0 9", "opened 0 2 5"));
    blobcrash_close(&session);
}

static void a_script_is_run_at_once(void) {
    uint8_t room[64];
    struct blobcrash_script_ran ran = blobcrash_run(TEXT("open p 62\nsize 0\n"), room, sizeof room);
    CHECK(ran.status == BLOBCRASH_DONE);
    CHECK(is_told(room, ran.len, "opened 0 0 0\nsize 0\n"));
    ran = blobcrash_run(TEXT("open p 62\nfrob\n"), room, sizeof room);
    CHECK(ran.status == BLOBCRASH_BAD_LINE);
    CHECK(ran.line == 2);
    CHECK(is_told(room, ran.len, "opened 0 0 0\n"));
    ran = blobcrash_run(TEXT("open p 62\n"), room, 0);
    CHECK(ran.status == BLOBCRASH_NO_ROOM);
    CHECK(ran.len == 13);
}

/* The text is written by hand, as docs/FORMATS.md says. */
static void a_script_is_explained_at_once(void) {
    static const char explained[] = "opened 0 0 0\nok\nok\ncrashed 0:1\n"
                                    "# p 62: length 0 before, 1 after\n"
                                    "#   write 0 0..1: 1 kept\n"
                                    "#   at 0\n"
                                    "#     before\n"
                                    "#     write 0  78\n"
                                    "#     after    78\n";
    static const char bad[] = "open p 62\nconfig write 0 1 1 2 subset\nwrite 0 0 78\ncrash\nfrob\n";
    uint8_t text[256], unwritten[sizeof text];
    const size_t len = sizeof explained - 1, script_len = strlen(bad) - strlen("frob\n");
    memset(unwritten, '?', sizeof unwritten);
    memset(text, '?', sizeof text);
    struct blobcrash_script_ran ran = blobcrash_explain((const uint8_t *)bad, script_len, text, len - 1);
    CHECK(ran.status == BLOBCRASH_NO_ROOM && ran.len == len && ran.line == 0);
    CHECK(memcmp(text, unwritten, sizeof text) == 0);
    ran = blobcrash_explain((const uint8_t *)bad, script_len, text, len);
    CHECK(ran.status == BLOBCRASH_DONE && ran.line == 0 && is_told(text, ran.len, explained));
    CHECK(memcmp(text + len, unwritten, sizeof text - len) == 0);
    memset(text, '?', sizeof text);
    ran = blobcrash_explain(TEXT(bad), text, 0);
    CHECK(ran.status == BLOBCRASH_NO_ROOM && ran.len == len && ran.line == 5);
    ran = blobcrash_explain(TEXT(bad), text, sizeof text);
    CHECK(ran.status == BLOBCRASH_BAD_LINE && ran.line == 5 && is_told(text, ran.len, explained));
    CHECK(memcmp(text + len, unwritten, sizeof text - len) == 0);
    ran = blobcrash_explain(TEXT(""), text, 0);
    CHECK(ran.status == BLOBCRASH_DONE && ran.len == 0);
}

/* Whether this many words of the session's generator are left. */
static bool has_left(struct blobcrash_session *session, size_t words) {
    struct blobcrash_ran ran = blobcrash_words_left(session);
    return ran.status == BLOBCRASH_DONE && ran.len == words;
}

static void words_are_counted_and_pushed(void) {
    static const uint64_t pushed[] = {UINT64_MAX, 0};
    struct blobcrash_session session = {0};
    CHECK(blobcrash_words_left(&session).status == BLOBCRASH_CLOSED);
    CHECK(blobcrash_push_words(&session, pushed, 1) == BLOBCRASH_CLOSED);
    CHECK(blobcrash_open(&session, TEXT("words 0 max 0 0 max\nconfig write 0 1 1 2 subset\n")).status == BLOBCRASH_DONE);
    CHECK(has_left(&session, 5));
    CHECK(answers(&session, "open p 62", "opened 0 0 0"));
    CHECK(answers(&session, "write 0 0 616263", "ok"));
    CHECK(has_left(&session, 5));
    CHECK(answers(&session, "crash", "crashed 0:101"));
    CHECK(has_left(&session, 2));
    CHECK(answers(&session, "reopen", "ok"));
    CHECK(answers(&session, "open p 62", "opened 1 3 0"));
    CHECK(answers(&session, "write 1 0 616263", "ok"));
    CHECK(blobcrash_push_words(&session, pushed, 2) == BLOBCRASH_DONE);
    CHECK(blobcrash_push_words(&session, pushed, 0) == BLOBCRASH_DONE);
    CHECK(has_left(&session, 4));
    CHECK(answers(&session, "crash", "crashed 0:011"));
    CHECK(has_left(&session, 1));
    CHECK(blobcrash_open(&session, TEXT("words 0 0\n")).status == BLOBCRASH_DONE);
    CHECK(has_left(&session, 0));
    CHECK(blobcrash_open(&session, TEXT("words 1\nseed 7\n")).status == BLOBCRASH_DONE);
    CHECK(blobcrash_words_left(&session).status == BLOBCRASH_ENDLESS);
    CHECK(blobcrash_push_words(&session, pushed, 2) == BLOBCRASH_DONE);
    blobcrash_close(&session);
}

int main(void) {
    a_session_is_opened_asked_and_closed();
    a_reply_without_room_is_kept();
    bad_lines_change_nothing();
    a_script_is_run_at_once();
    a_script_is_explained_at_once();
    words_are_counted_and_pushed();
    return failed;
}
