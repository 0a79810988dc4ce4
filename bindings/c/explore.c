/* Every outcome of a torn write, by explore.h: the nine of a write of eight bytes in prefix mode, each once, and those of runs with a
 * failing sync. The last line is `N passed, M failed`. */
#define _POSIX_C_SOURCE 200809L
#include "blobcrash_calls.h"
#include "explore.h"

#include <stdio.h>
#include <sys/resource.h>

static int passed, failed;

static void tell(bool holds, const char *what) {
    if (holds) {
        passed++;
    } else {
        failed++;
        printf("explore.c: FAILED: %s\n", what);
    }
}

/* Overwrites `len` synced bytes without a sync, crashes, and returns how many of them were kept. */
static size_t torn(struct blobcrash_session *session, size_t len) {
    static uint8_t old[256], new[256];
    size_t handle = 0;
    memset(old, 'a', sizeof old);
    memset(new, 'b', sizeof new);
    blobcrash_open_blob(session, "p", 1, "b", 1, &handle, NULL);
    blobcrash_write_at_sync(session, handle, 0, old, len);
    blobcrash_write_at(session, handle, 0, new, len);
    blobcrash_crash(session, NULL);
    struct blobcrash_kept_run run = blobcrash_kept_run(session, 0, 0);
    return run.start == 0 ? run.len : 0;
}

static void outcomes(size_t len) {
    struct blobcrash_paths paths = {0};
    struct blobcrash_session session = {0};
    uint64_t again = 0, seen[257] = {0};
    int status;
    while ((status = blobcrash_next_run(&paths, &session, "config write 0 1 1 2 prefix\n")) == BLOBCRASH_EXPLORE_RUN) {
        size_t kept = torn(&session, len);
        status = blobcrash_end_run(&paths, &session);
        if (status == BLOBCRASH_EXPLORE_RUN) {
            char words[1024] = "";
            seen[kept]++;
            tell(blobcrash_words_of(&paths, words, sizeof words) == strlen(words) && paths.explorer.len == (kept < len ? kept + 1 : len), words);
        } else {
            tell(status == BLOBCRASH_EXPLORE_AGAIN && again++ < 4, "a run is made again for more words");
        }
    }
    tell(status == BLOBCRASH_EXPLORE_END && paths.runs == len + 1, "all runs");
    for (size_t kept = 0; kept <= len; kept++) tell(seen[kept] == 1, "an outcome is visited once");
    blobcrash_free_paths(&paths);
}

static void refusals(void) {
    struct blobcrash_paths paths = {0};
    struct blobcrash_session session = {0};
    tell(blobcrash_next_run(&paths, &session, "config frob\n") == BLOBCRASH_EXPLORE_BAD_SETTINGS, "a bad setting");
    tell(blobcrash_next_run(&paths, &session, "seed 7\n") == BLOBCRASH_EXPLORE_RUN, "a seed is a line of a preamble");
    tell(blobcrash_end_run(&paths, &session) == BLOBCRASH_EXPLORE_BAD_SETTINGS, "a seed");
    tell(blobcrash_next_run(&paths, &session, "") == BLOBCRASH_EXPLORE_RUN, "no settings");
    tell(blobcrash_end_run(&paths, &session) == BLOBCRASH_EXPLORE_RUN && paths.explorer.len == 0, "no draws");
    tell(blobcrash_next_run(&paths, &session, "") == BLOBCRASH_EXPLORE_END && paths.runs == 1, "one run without draws");
    blobcrash_free_paths(&paths);
    /* A run that draws less than before on its path. */
    tell(blobcrash_next_run(&paths, &session, "config write 0 1 1 2 prefix\n") == BLOBCRASH_EXPLORE_RUN, "a first run");
    torn(&session, 4);
    tell(blobcrash_end_run(&paths, &session) == BLOBCRASH_EXPLORE_RUN && paths.explorer.len == 4, "four draws");
    tell(blobcrash_next_run(&paths, &session, "config write 0 1 1 2 prefix\n") == BLOBCRASH_EXPLORE_RUN, "a second run");
    torn(&session, 2);
    tell(blobcrash_end_run(&paths, &session) == BLOBCRASH_EXPLORE_OTHER_DRAWS, "other draws");
    blobcrash_free_paths(&paths);
}

/* What one run makes that tries some call until it succeeds. */
typedef void body(struct blobcrash_paths *paths, struct blobcrash_session *session);

static bool is_done(struct blobcrash_paths *paths, struct blobcrash_session *session, const char *line) {
    uint8_t reply[64] = "";
    struct blobcrash_ran ran = blobcrash_explored_call(paths, session, (const uint8_t *)line, strlen(line), reply, sizeof reply);
    return ran.status == BLOBCRASH_DONE && memcmp(reply, "error", 5) != 0;
}

static void retry_sync(struct blobcrash_paths *paths, struct blobcrash_session *session) {
    is_done(paths, session, "open p 62");
    while (!is_done(paths, session, "sync 0")) {}
}

/* Three loops: after the first the words are used up. */
static void retry_often(struct blobcrash_paths *paths, struct blobcrash_session *session) {
    retry_sync(paths, session);
    while (blobcrash_explored_write(paths, session, 0, 0, (const uint8_t *)"abc", 3, true) != BLOBCRASH_DONE) {}
    while (blobcrash_explored_read(paths, session, 0, 0, (uint8_t *)(char[3]){0}, 3) != BLOBCRASH_DONE) {}
}

/* Without a power loss it ends: it retries while the power is off, of which it knows nothing. */
static void retry_open(struct blobcrash_paths *paths, struct blobcrash_session *session) {
    while (!is_done(paths, session, "open p 62")) {}
    is_done(paths, session, "crash");
}

/* By calls that aren't explored. */
static void retry_directly(struct blobcrash_paths *paths, struct blobcrash_session *session) {
    (void)paths;
    blobcrash_open_blob(session, "p", 1, "b", 1, NULL, NULL);
    while (blobcrash_sync(session, 0) != BLOBCRASH_DONE) {}
    while (blobcrash_sync(session, 0) != BLOBCRASH_DONE) {}
}

/* Explores a body until its end, or what ends it earlier. */
static int explore(struct blobcrash_paths *paths, const char *settings, body *of) {
    struct blobcrash_session session = {0};
    for (;;) {
        int status = blobcrash_next_run(paths, &session, settings);
        if (status != BLOBCRASH_EXPLORE_RUN) return status;
        of(paths, &session);
        status = blobcrash_end_run(paths, &session);
        if (status != BLOBCRASH_EXPLORE_RUN && status != BLOBCRASH_EXPLORE_AGAIN) return status;
    }
}

static void crash_ten_times(struct blobcrash_paths *paths, struct blobcrash_session *session) {
    for (int i = 0; i < 10; i++) is_done(paths, session, "crash");
}

static void draw_hundred(struct blobcrash_paths *paths, struct blobcrash_session *session) {
    (void)paths;
    torn(session, 100);
}

static void too_long(void) {
    static const struct { body *of; const char *settings; unsigned losses; uint64_t calls; } rows[] = {
        {retry_sync, "config sync 1 2\n", 0, 0},
        {retry_sync, "config sync 1 2\n", 1, 100},
        {retry_often, "config sync 1 2\nconfig write 1 2 1 2 subset\nconfig read 1 2\n", 0, 0},
        {retry_open, "", 1, 100},
        {retry_directly, "config sync 1 2\n", 0, 0},
        {retry_directly, "config sync 1 2\n", 0, 1000},
        {crash_ten_times, "", 0, 9},
        {draw_hundred, "config write 0 1 1 2 prefix\n", 0, 99},
        {draw_hundred, "config write 0 1 1 2 prefix\n", 0, 20},
    };
    for (size_t row = 0; row < sizeof rows / sizeof *rows; row++) {
        struct blobcrash_paths paths = {.power_losses = rows[row].losses, .calls_per_run = rows[row].calls};
        char name[64];
        snprintf(name, sizeof name, "row %zu of too_long", row);
        tell(explore(&paths, rows[row].settings, rows[row].of) == BLOBCRASH_EXPLORE_TOO_LONG, name);
        blobcrash_free_paths(&paths);
    }
    /* Just as many. */
    struct blobcrash_paths ten = {.calls_per_run = 10}, hundred = {.calls_per_run = 100}, open = {.power_losses = 0};
    tell(explore(&ten, "", crash_ten_times) == BLOBCRASH_EXPLORE_END && ten.runs == 1, "ten calls of ten");
    tell(explore(&hundred, "config write 0 1 1 2 prefix\n", draw_hundred) == BLOBCRASH_EXPLORE_END && hundred.runs == 101, "draws");
    tell(explore(&open, "", retry_open) == BLOBCRASH_EXPLORE_END && open.runs == 1, "a loop that ends");
    blobcrash_free_paths(&ten);
    blobcrash_free_paths(&hundred);
    blobcrash_free_paths(&open);
}

/* The script of a run that is too long has the calls that it made. */
static void script_of_a_long_run(void) {
    struct blobcrash_paths paths = {.calls_per_run = 5};
    char *text = NULL;
    size_t len = 0;
    tell(explore(&paths, "config sync 1 2\n", retry_sync) == BLOBCRASH_EXPLORE_TOO_LONG, "a limit of five calls");
    FILE *script = open_memstream(&text, &len);
    if (script == NULL) return;
    blobcrash_repeat_run(&paths, script);
    tell(explore(&paths, "config sync 1 2\n", retry_sync) == BLOBCRASH_EXPLORE_TOO_LONG, "again");
    fclose(script);
    tell(strcmp(text, "config sync 1 2\nopen p 62\nsync 0\nsync 0\nsync 0\nsync 0\nsync 0\n") == 0, text);
    free(text);
    blobcrash_free_paths(&paths);
}

/* A run with a resize that may fail and stop at another size, by lines or by typed calls. */
static void resizes(struct blobcrash_paths *paths, struct blobcrash_session *session, bool are_typed) {
    static const char *const lines[] = {"open p 62", "resize 0 2", "config resize 1 2 1 2", " resize  0   6"};
    static const struct blobcrash_asked asked[] = {{BLOBCRASH_OPEN, 0, 0, 0}, {BLOBCRASH_RESIZE, 0, 2, 0}, {0}, {BLOBCRASH_RESIZE, 0, 6, 0}};
    for (size_t at = 0; at < sizeof lines / sizeof *lines; at++) {
        size_t named = at == 0;
        if (are_typed && at != 2) blobcrash_explored_make(paths, session, &asked[at], "p", named, "b", named);
        else blobcrash_explored_text(paths, session, lines[at]);
    }
}

/* A resize from 2 to 6 bytes fails and stops at 3, 4 or 5 bytes, or fails and stays, or is done and survives a crash or not. The words are
 * those of a rate, of another one and of a size: of three sizes the second has the word 2^64 / 3, rounded up. */
static void drawn_sizes(bool are_typed) {
    static const char *const words[] = {"words 0 0 0", "words 0 0 6148914691236517206", "words 0 0 12297829382473034411", "words 0 max", "words max 0", "words max max"};
    static const uint64_t sizes[] = {3, 4, 5, 2, 6, 6};
    char *script = NULL;
    size_t script_len = 0;
    struct blobcrash_paths paths = {.script = open_memstream(&script, &script_len)};
    struct blobcrash_session session = {0};
    while (blobcrash_next_run(&paths, &session, "") == BLOBCRASH_EXPLORE_RUN) {
        resizes(&paths, &session, are_typed);
        uint64_t size = blobcrash_tracked_size(&session, 0).size, run = paths.runs;
        char text[64] = "";
        tell(blobcrash_end_run(&paths, &session) == BLOBCRASH_EXPLORE_RUN, "a run with a drawn size");
        blobcrash_words_of(&paths, text, sizeof text);
        tell(run < 6 && size == sizes[run] && strcmp(text, words[run]) == 0, text);
        if (run > 0) continue;
        fclose(paths.script);
        paths.script = NULL;
        const char *wanted = are_typed ? "open p 62\nresize 0 2\nconfig resize 1 2 1 2\nresize 0 6\n" : "open p 62\nresize 0 2\nconfig resize 1 2 1 2\n resize  0   6\n";
        tell(strcmp(script, wanted) == 0, script);
    }
    tell(paths.runs == 6, "each size once");
    free(script);
    blobcrash_free_paths(&paths);
}

/* A typed call that isn't made: the power is off, or the kind is unknown. */
static void typed_calls_not_made(void) {
    struct blobcrash_asked open = {BLOBCRASH_OPEN, 0, 0, 0}, unknown = {1000, 0, 0, 0};
    struct blobcrash_paths paths = {.power_losses = 1};
    struct blobcrash_session session = {0};
    for (int run = 0; run < 2; run++) {
        blobcrash_next_run(&paths, &session, "");
        uint32_t status = blobcrash_explored_make(&paths, &session, &open, "p", 1, "b", 1).status;
        tell(status == (uint32_t)(run == 0 ? BLOBCRASH_DONE : BLOBCRASH_POWER_LOSS), "an open with and without power");
        if (run == 0) tell(blobcrash_explored_make(&paths, &session, &unknown, NULL, 0, NULL, 0).status == BLOBCRASH_BAD_CALL, "no such kind");
        tell(blobcrash_end_run(&paths, &session) == BLOBCRASH_EXPLORE_RUN, "a run of typed calls");
    }
    blobcrash_free_paths(&paths);
}

/* While the power is off, what makes no call of the store is made. */
static void what_is_made_without_power(void) {
    static const struct { const char *line; bool is_made; } rows[] = {
        {"", true}, {"  ", true}, {"# a comment", true}, {"  # a comment", true}, {" config clear", true}, {"#", true},
        {"size 0", false}, {" reopen", false}, {"close 0", false},
    };
    struct blobcrash_paths paths = {.power_losses = 1};
    struct blobcrash_session session = {0};
    for (int run = 0; run < 2; run++) {
        blobcrash_next_run(&paths, &session, "");
        is_done(&paths, &session, "open p 62");
        for (size_t row = 0; paths.is_off && row < sizeof rows / sizeof *rows; row++) {
            const char *line = rows[row].line;
            uint8_t reply[64];
            struct blobcrash_ran ran = blobcrash_explored_call(&paths, &session, (const uint8_t *)line, strlen(line), reply, sizeof reply);
            tell((ran.status == BLOBCRASH_DONE) == rows[row].is_made && (ran.status == BLOBCRASH_POWER_LOSS) != rows[row].is_made, line);
        }
        tell(blobcrash_end_run(&paths, &session) == BLOBCRASH_EXPLORE_RUN, "a run without power");
    }
    blobcrash_free_paths(&paths);
}

/* How many pages of memory the process has, or 0. */
static long pages_of_memory(void) {
    long pages = 0;
    FILE *file = fopen("/proc/self/statm", "r");
    if (file == NULL || fscanf(file, "%ld", &pages) != 1) pages = 0;
    if (file != NULL) fclose(file);
    return pages;
}

/* A restart whose crash is refused memory hasn't reopened the store. */
static void a_refused_restart(void) {
    struct blobcrash_paths paths = {0};
    struct blobcrash_session session = {0};
    const char *preamble = "config write 0 1 1 1 subset\n";
    size_t len = (size_t)64 << 20;
    char *bytes = calloc(len, 1);
    blobcrash_open(&session, (const uint8_t *)preamble, strlen(preamble));
    blobcrash_open_blob(&session, "p", 1, "b", 1, NULL, NULL);
    bool is_written = bytes != NULL && blobcrash_write_at(&session, 0, 0, bytes, len) == BLOBCRASH_DONE;
    free(bytes);
    struct rlimit before, limit;
    long pages = pages_of_memory();
    if (is_written && pages > 0 && getrlimit(RLIMIT_AS, &before) == 0) {
        limit = before;
        limit.rlim_cur = (rlim_t)pages * 4096 + (1 << 20);
        setrlimit(RLIMIT_AS, &limit);
        tell(blobcrash_restart(&paths, &session) == BLOBCRASH_E_MEMORY, "a crash that is refused memory");
        tell(blobcrash_open_blob(&session, "p", 1, "b", 1, NULL, NULL) == BLOBCRASH_E_BLOB_ALREADY_OPEN, "a store that isn't reopened");
        setrlimit(RLIMIT_AS, &before);
        tell(blobcrash_restart(&paths, &session) == BLOBCRASH_DONE, "a restart with memory");
    }
    blobcrash_close(&session);
}

/* The lines of a run, up to NULL. */
static const char *const *lines_of_run;

static void make_lines(struct blobcrash_paths *paths, struct blobcrash_session *session) {
    for (const char *const *line = lines_of_run; *line != NULL; line++) is_done(paths, session, *line);
}

static void write_and_crash(struct blobcrash_paths *paths, struct blobcrash_session *session) {
    is_done(paths, session, "open p 62");
    blobcrash_explored_write(paths, session, 0, 0, (const uint8_t *)"abc", 3, lines_of_run != NULL);
    is_done(paths, session, "crash");
}

#define NONE "; no unsynced write could be kept: set `write 0 1 1 2 sectors 512`"
#define SOME "; some unsynced writes could not be kept: set `write 0 1 1 2 sectors 512`"
#define HALF "config write 0 1 1 2 prefix"

/* What is said of writes that no crash could keep. */
static void unkept(void) {
    static const struct { const char *settings, *lines[6], *said; } rows[] = {
        {"", {"open p 62", "write 0 0 61", "crash"}, NONE},
        {"config write 0 1 000 1 prefix\n", {"open p 62", "write 0 0 61", "crash"}, NONE},
        {HALF "\n", {"open p 62", "write 0 0 61", "crash"}, ""},
        {" config  write 0 1 1 2 prefix\n", {"open p 62", "write 0 0 61", "crash"}, ""},
        {HALF "\nconfig clear\n", {"open p 62", "write 0 0 61", "crash"}, NONE},
        {"", {"open p 62", "write 0 0 61", "sync 0", "crash"}, ""},
        {"", {"open p 62", " write  0 0 61", "startsync  0", "crash"}, ""},
        {"config sync 1 1\n", {"open p 62", "write 0 0 61", "sync 0", "crash"}, NONE},
        {"", {"open p 62", "writes 0 0 61", "crash"}, ""},
        {"", {"open p 62", "write 0 0 -", "crash"}, ""},
        {"", {"open p 62", "write 0 0 61", "reopen", "crash"}, ""},
        {"", {"open p 62", "write 0 0 61", HALF, "write 0 1 62", "crash"}, SOME},
        {HALF "\n", {"open p 62", "config clear", "write 0 1 62", "crash"}, NONE},
    };
    for (size_t row = 0; row < sizeof rows / sizeof *rows; row++) {
        struct blobcrash_paths paths = {0};
        char what[160];
        lines_of_run = rows[row].lines;
        int status = explore(&paths, rows[row].settings, make_lines);
        snprintf(what, sizeof what, "row %zu of unkept: status %d, `%s`", row, status, blobcrash_unkept(&paths));
        tell(status == BLOBCRASH_EXPLORE_END && strcmp(blobcrash_unkept(&paths), rows[row].said) == 0, what);
        blobcrash_free_paths(&paths);
    }
    for (int syncs = 0; syncs < 2; syncs++) {
        struct blobcrash_paths paths = {0};
        lines_of_run = syncs ? rows[0].lines : NULL;
        tell(explore(&paths, "", write_and_crash) == BLOBCRASH_EXPLORE_END, "explored writes");
        tell(strcmp(blobcrash_unkept(&paths), syncs ? "" : NONE) == 0, "what is said of explored writes");
        blobcrash_free_paths(&paths);
    }
}

int main(void) {
    outcomes(8);
    outcomes(150);
    refusals();
    too_long();
    script_of_a_long_run();
    drawn_sizes(false);
    drawn_sizes(true);
    typed_calls_not_made();
    what_is_made_without_power();
    a_refused_restart();
    unkept();
    printf("%d passed, %d failed\n", passed, failed);
    return failed != 0;
}
