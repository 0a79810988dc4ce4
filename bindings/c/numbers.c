/*
 * The numbers of the header: each kind of call, refusal, header refusal and call of the registry is what its name says. A typed call is
 * made by its number, and as a line of a script; both have the same reply and leave the same. It prints each check that fails, and ends
 * with the status 1 if there is one.
 */
#include "blobcrash.h"

#include "checks.h"

/* The address sanitizer, if there is one, refuses what can't be allocated, as `malloc` does. */
const char *__asan_default_options(void);
const char *__asan_default_options(void) { return "allocator_may_return_null=1"; }

enum { CAPACITY = 512 };

static void begin(struct blobcrash_session *session, const char *preamble) {
    CHECK(blobcrash_open(session, TEXT(preamble)).status == BLOBCRASH_DONE);
}

/* Adds the last reply to a text. */
static void add_reply(struct blobcrash_session *session, char *text) {
    size_t len = strlen(text);
    struct blobcrash_ran ran = blobcrash_reply(session, (uint8_t *)text + len, CAPACITY - 2 - len);
    CHECK(ran.status == BLOBCRASH_DONE);
    memcpy(text + len + ran.len, "\n", 2);
}

/* Makes the calls of lines, each of which ends with a line feed, and adds their replies. */
static void add_lines(struct blobcrash_session *session, const char *lines, char *text) {
    for (const char *end; (end = strchr(lines, '\n')) != NULL; lines = end + 1) {
        uint8_t none;
        uint32_t status = blobcrash_call(session, (const uint8_t *)lines, (size_t)(end - lines), &none, 0).status;
        CHECK(status == BLOBCRASH_NO_ROOM);
        add_reply(session, text);
    }
}

static const char preamble[] = "words 0 max 0 max 0 max\nconfig write 0 1 1 2 subset\n";
/* A blob with a pending write on both sides of a started sync. */
static const char before[] = "open p 61\nwrite 0 0 616263\nstartsync 0\nwrite 0 3 6465\n";
/* What shows everything that a call may have changed. */
static const char after[] = "finish 0\nfinish 1\nsize 0\nscan p\ncrash\nopen p 61\nreopen\nopen p 61\n";

/* Each kind with the same numbers and texts: number 0, first 0, last 9, partition `p`, name `a`. The replies are by hand. */
static const struct { uint32_t kind; const char *line, *reply; } kinds[] = {
    {BLOBCRASH_OPEN, "open p 61 0 9\n", "error BlobAlreadyOpen p 61"},
    {BLOBCRASH_OPEN_LOOSE, "loose p 61 0 9\n", "opened 1 3 0"},
    {BLOBCRASH_ADMIT, "admit p 61\n", "ok"},
    {BLOBCRASH_CLOSE, "close 0\n", "ok"},
    {BLOBCRASH_RESIZE, "resize 0 0\n", "ok"},
    {BLOBCRASH_SIZE, "size 0\n", "size 5"},
    {BLOBCRASH_SYNC, "sync 0\n", "ok"},
    {BLOBCRASH_START_SYNC, "startsync 0\n", "started 1"},
    {BLOBCRASH_FINISH, "finish 0\n", "ok"},
    {BLOBCRASH_REMOVE_BLOB, "remove p 61\n", "ok"},
    {BLOBCRASH_REMOVE_PARTITION, "remove p\n", "ok"},
    {BLOBCRASH_SCAN, "scan p\n", "names 61"},
    {BLOBCRASH_CRASH, "crash\n", "crashed 1:10"},
    {BLOBCRASH_REOPEN, "reopen\n", "ok"},
};
enum { KINDS = sizeof kinds / sizeof *kinds };

static void kinds_of_calls(void) {
    static char texts[KINDS][CAPACITY];
    for (size_t i = 0; i < KINDS; i++) {
        struct blobcrash_session numbered = {0}, by_line = {0};
        char text[CAPACITY] = "", first[CAPACITY] = "";
        begin(&numbered, preamble);
        begin(&by_line, preamble);
        add_lines(&numbered, before, first);
        first[0] = 0;
        add_lines(&by_line, before, first);
        const struct blobcrash_asked asked = {kinds[i].kind, 0, 0, 9};
        char line[64];
        struct blobcrash_ran ran = blobcrash_line_of(&asked, TEXT("p"), TEXT("a"), (uint8_t *)line, sizeof line);
        check(ran.status == BLOBCRASH_DONE && ran.len == strlen(kinds[i].line) - 1 && memcmp(line, kinds[i].line, ran.len) == 0,
              kinds[i].line, __LINE__);
        struct blobcrash_typed_reply reply = blobcrash_apply(&numbered, &asked, TEXT("p"), TEXT("a"));
        check((reply.status == BLOBCRASH_DONE) == (strncmp(kinds[i].reply, "error", 5) != 0), kinds[i].line, __LINE__);
        add_reply(&numbered, texts[i]);
        add_lines(&by_line, kinds[i].line, text);
        size_t len = strlen(kinds[i].reply);
        check(strncmp(text, kinds[i].reply, len) == 0 && text[len] == '\n', text, __LINE__);
        add_lines(&numbered, after, texts[i]);
        add_lines(&by_line, after, text);
        check(strcmp(text, texts[i]) == 0, kinds[i].line, __LINE__);
        /* No other kind has done the same. */
        for (size_t j = 0; j < i; j++) check(strcmp(texts[i], texts[j]) != 0, kinds[i].line, __LINE__);
        blobcrash_close(&numbered);
        blobcrash_close(&by_line);
    }
}

/* What provokes each refusal that this store has. The last call of the lines is refused. */
static const struct { uint32_t status; const char *lines, *reply; } refusals[] = {
    {BLOBCRASH_E_OFFSET_OVERFLOW, "open p 61\nresize 0 18446744073709551615\n", "error OffsetOverflow"},
    {BLOBCRASH_E_BLOB_INSUFFICIENT_LENGTH, "open p 61\nread 0 0 1\n", "error BlobInsufficientLength"},
    {BLOBCRASH_E_PARTITION_NAME_INVALID, "scan !\n", "error PartitionNameInvalid !"},
    {BLOBCRASH_E_PARTITION_MISSING, "scan r\n", "error PartitionMissing r"},
    {BLOBCRASH_E_BLOB_MISSING, "open p 61\nremove p 62\n", "error BlobMissing p 62"},
    {BLOBCRASH_E_BLOB_ALREADY_OPEN, "open p 61\nopen p 61\n", "error BlobAlreadyOpen p 61"},
    {BLOBCRASH_E_BLOB_CORRUPT, "open q 62\n", "error BlobCorrupt q 62 "},
    {BLOBCRASH_E_BLOB_VERSION_MISMATCH, "loose p 61 3 3\nloose p 61 0 2\n", "error BlobVersionMismatch 0 2 3"},
    {BLOBCRASH_E_INJECTED, "open p 61\nconfig sync 1 1\nsync 0\n", "error Injected"},
    {BLOBCRASH_E_MEMORY, "open p 61\nresize 0 4611686018427387904\n", "error Memory"},
    {BLOBCRASH_E_NO_HANDLE, "size 0\n", "error NoHandle"},
    {BLOBCRASH_E_EMPTY_RANGE, "open p 61 2 1\n", "error EmptyRange"},
};

static void refusals_of_calls(void) {
    for (size_t i = 0; i < sizeof refusals / sizeof *refusals; i++) {
        uint8_t word[64];
        struct blobcrash_ran said = blobcrash_word(BLOBCRASH_W_REFUSALS, refusals[i].status, word, sizeof word);
        size_t word_len = strcspn(refusals[i].reply + strlen("error "), " ");
        check(said.status == BLOBCRASH_DONE && said.len == word_len && memcmp(word, refusals[i].reply + strlen("error "), word_len) == 0,
              refusals[i].reply, __LINE__);
        struct blobcrash_session session = {0};
        char text[CAPACITY] = "";
        begin(&session, "image q 62 5857494b00000000\n");
        add_lines(&session, refusals[i].lines, text);
        text[strlen(text) - 1] = 0;
        const char *line = strrchr(text, '\n');
        line = line == NULL ? text : line + 1;
        check(strncmp(line, refusals[i].reply, strlen(refusals[i].reply)) == 0, line, __LINE__);
        check(blobcrash_last(&session).status == refusals[i].status, line, __LINE__);
        blobcrash_close(&session);
    }
}

static uint32_t resolved(const uint8_t *raw, size_t len, uint16_t newest, uint16_t greatest) {
    const struct blobcrash_accepts accepts = {0, newest, 0, greatest};
    return blobcrash_resolve_header(raw, len, len, &accepts).status;
}

static void refusals_of_headers(void) {
    uint8_t region[4096], other[4096];
    CHECK(blobcrash_create_header(1, 5, region, sizeof region).len == sizeof region);
    CHECK(resolved(region, 4096, 1, 5) == BLOBCRASH_DONE);
    CHECK(resolved(region, 4096, 1, 4) == BLOBCRASH_H_VERSION_MISMATCH);
    CHECK(resolved(region, 4096, 0, 5) == BLOBCRASH_H_LAYOUT_MISMATCH);
    CHECK(resolved(region, 7, 1, 5) == BLOBCRASH_H_TO_CREATE);
    /* The magic, the layout's version, the blob's version, the last byte of the padding. */
    static const struct { size_t at; uint32_t status; } rows[] = {
        {0, BLOBCRASH_H_INVALID_MAGIC}, {5, BLOBCRASH_H_UNSUPPORTED_LAYOUT_VERSION}, {7, BLOBCRASH_H_INVALID_CHECKSUM},
        {4095, BLOBCRASH_H_INVALID_PADDING},
    };
    for (size_t row = 0; row < sizeof rows / sizeof *rows; row++) {
        memcpy(other, region, sizeof other);
        other[rows[row].at] ^= 2;
        CHECK(resolved(other, sizeof other, 1, 65535) == rows[row].status);
    }
    const struct blobcrash_accepts all = {0, 1, 0, 65535};
    CHECK(blobcrash_parse_header((const uint8_t *)"CWIK\0\1\0\0", 8, 8, &all).status == BLOBCRASH_H_TRUNCATED);
}

/* A call of the registry of debt, of the blob `a` of the partition `p`. */
static struct blobcrash_debt_reply owe(struct blobcrash_session *session, uint32_t kind, size_t number, bool flag, uint32_t failure) {
    const struct blobcrash_debt_call asked = {kind, failure, number, flag};
    return blobcrash_debt(session, &asked, TEXT("p"), TEXT("a"));
}

/* What a name owes, and what is kept of it: whether an open of it is a success, owes something and has a predecessor. */
static int kept_of(struct blobcrash_session *session, const char *name) {
    const struct blobcrash_debt_call keeps = {BLOBCRASH_DEBT_KEEPS, 0, 0, false}, admit = {BLOBCRASH_DEBT_ADMIT, 0, 0, true};
    struct blobcrash_debt_reply kept = blobcrash_debt(session, &keeps, TEXT("p"), TEXT(name));
    struct blobcrash_debt_reply reply = blobcrash_debt(session, &admit, TEXT("p"), TEXT(name));
    return kept.flag * 8 + (reply.status == BLOBCRASH_DONE) * 4 + reply.flag * 2 + reply.has_predecessor;
}

static void calls_of_the_registry(void) {
    struct blobcrash_session session = {0};
    begin(&session, "");
    /* Two names of one partition, of which one is forgotten alone, and then the partition. */
    const struct blobcrash_debt_call other = {BLOBCRASH_DEBT_ADMIT, 0, 0, true};
    CHECK(owe(&session, BLOBCRASH_DEBT_ADMIT, 0, false, 0).number == 0);
    CHECK(blobcrash_debt(&session, &other, TEXT("p"), TEXT("b")).number == 1);
    CHECK(owe(&session, BLOBCRASH_DEBT_ADMIT, 0, true, 0).status == BLOBCRASH_E_BLOB_ALREADY_OPEN);
    CHECK(owe(&session, BLOBCRASH_DEBT_KEEPS, 0, false, 0).flag);
    for (size_t open = 0; open < 2; open++) {
        struct blobcrash_debt_reply token = owe(&session, BLOBCRASH_DEBT_RELEASE, open, false, 0);
        CHECK(token.status == BLOBCRASH_DONE && token.flag && token.number == open);
        CHECK(owe(&session, BLOBCRASH_DEBT_CLOSE, open, false, 0).status == BLOBCRASH_DONE);
        CHECK(owe(&session, BLOBCRASH_DEBT_CLOSE, open, false, 0).status == BLOBCRASH_E_NO_HANDLE);
    }
    CHECK(owe(&session, BLOBCRASH_DEBT_FORGET, 0, false, 0).status == BLOBCRASH_DONE);
    CHECK(kept_of(&session, "a") == 4 && kept_of(&session, "b") == 8 + 4 + 2 + 1);
    CHECK(owe(&session, BLOBCRASH_DEBT_FORGET_PARTITION, 0, false, 0).status == BLOBCRASH_DONE);
    CHECK(!owe(&session, BLOBCRASH_DEBT_KEEPS, 0, false, 0).flag && kept_of(&session, "b") == 4);
    blobcrash_close(&session);
}

/* An open that settles with debt, and the next one of its name, which clears it, owes it again by a failure, and keeps that. */
static void debt_of_the_registry(void) {
    struct blobcrash_session session = {0};
    const uint32_t failure = BLOBCRASH_E_WRITE_FAILED;
    begin(&session, "");
    CHECK(owe(&session, BLOBCRASH_DEBT_ADMIT, 0, false, 0).number == 0);
    CHECK(owe(&session, BLOBCRASH_DEBT_RELEASE, 0, false, 0).flag);
    CHECK(owe(&session, BLOBCRASH_DEBT_CLOSE, 0, false, 0).status == BLOBCRASH_DONE);
    struct blobcrash_debt_reply next = owe(&session, BLOBCRASH_DEBT_ADMIT, 0, true, 0);
    CHECK(next.number == 1 && next.has_predecessor && next.predecessor == 0);
    CHECK(!owe(&session, BLOBCRASH_DEBT_IS_SETTLED, 0, false, 0).flag);
    CHECK(owe(&session, BLOBCRASH_DEBT_SETTLE, 0, true, 0).status == BLOBCRASH_DONE);
    CHECK(owe(&session, BLOBCRASH_DEBT_SETTLE, 0, true, 0).status == BLOBCRASH_E_NO_HANDLE);
    CHECK(owe(&session, BLOBCRASH_DEBT_IS_SETTLED, 0, false, 0).flag);
    CHECK(owe(&session, BLOBCRASH_DEBT_DEBT, 1, false, 0).flag);
    CHECK(owe(&session, BLOBCRASH_DEBT_CLEAR, 1, false, 0).status == BLOBCRASH_DONE);
    struct blobcrash_debt_reply debt = owe(&session, BLOBCRASH_DEBT_DEBT, 1, false, 0);
    CHECK(debt.status == BLOBCRASH_DONE && !debt.flag);
    CHECK(owe(&session, BLOBCRASH_DEBT_FAIL, 1, false, failure).status == BLOBCRASH_DONE);
    CHECK(owe(&session, BLOBCRASH_DEBT_DEBT, 1, false, 0).status == failure);
    /* A failure has no texts. */
    static const struct { uint32_t failure; bool is_kept; } rows[] = {
        {BLOBCRASH_E_OFFSET_OVERFLOW, true}, {BLOBCRASH_E_BLOB_INSUFFICIENT_LENGTH, true}, {BLOBCRASH_E_PARTITION_NAME_INVALID, false},
        {BLOBCRASH_E_PARTITION_MISSING, false}, {BLOBCRASH_E_BLOB_MISSING, false}, {BLOBCRASH_E_BLOB_ALREADY_OPEN, false},
        {BLOBCRASH_E_BLOB_CORRUPT, false}, {BLOBCRASH_E_BLOB_LAYOUT_MISMATCH, false}, {BLOBCRASH_E_BLOB_VERSION_MISMATCH, false},
        {BLOBCRASH_E_CLOSED, true}, {BLOBCRASH_E_READ_FAILED, true}, {BLOBCRASH_E_WRITE_FAILED, true}, {BLOBCRASH_E_INJECTED, true},
        {BLOBCRASH_E_MEMORY, true}, {BLOBCRASH_E_GENERATIONS_EXHAUSTED, true},
    };
    for (size_t row = 0; row < sizeof rows / sizeof *rows; row++) {
        struct blobcrash_session each = {0};
        begin(&each, "");
        CHECK(owe(&each, BLOBCRASH_DEBT_ADMIT, 0, false, 0).status == BLOBCRASH_DONE);
        bool is_kept = owe(&each, BLOBCRASH_DEBT_FAIL, 0, false, rows[row].failure).status == BLOBCRASH_DONE;
        CHECK(is_kept == rows[row].is_kept);
        CHECK(!is_kept || owe(&each, BLOBCRASH_DEBT_DEBT, 0, false, 0).status == rows[row].failure);
        blobcrash_close(&each);
    }
    blobcrash_close(&session);
}

/* How a call ends. Nothing here refuses memory or prints a reply of 2^64 bytes: NO_MEMORY and UNPRINTED aren't reached. */
static void statuses(void) {
    struct blobcrash_session session = {0};
    uint8_t reply[32];
    CHECK(blobcrash_call(&session, TEXT("crash"), reply, sizeof reply).status == BLOBCRASH_CLOSED);
    begin(&session, "seed 7\n");
    CHECK(blobcrash_words_left(&session).status == BLOBCRASH_ENDLESS);
    CHECK(blobcrash_call(&session, TEXT("frob"), reply, sizeof reply).status == BLOBCRASH_BAD_LINE);
    CHECK(blobcrash_call(&session, TEXT("crash"), reply, 6).status == BLOBCRASH_NO_ROOM);
    CHECK(blobcrash_write(&session, 0, 0, TEXT("a"), false) == BLOBCRASH_E_NO_HANDLE);
    CHECK(blobcrash_name(&session, 0, reply, sizeof reply).status == BLOBCRASH_OTHER_REPLY);
    const struct blobcrash_asked unknown = {KINDS, 0, 0, 0};
    CHECK(blobcrash_apply(&session, &unknown, TEXT("p"), TEXT("a")).status == BLOBCRASH_BAD_CALL);
    blobcrash_close(&session);
}

int main(void) {
    kinds_of_calls();
    refusals_of_calls();
    refusals_of_headers();
    calls_of_the_registry();
    debt_of_the_registry();
    statuses();
    return failed;
}
