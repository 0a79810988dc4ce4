/*
 * What each typed call returns, and the lines that it is recorded as. It prints each check that fails, and ends with the status 1
 * if there is one.
 */
#include "blobcrash.h"

static void on_line(struct blobcrash_session *session, const char *line, size_t len);
#define BLOBCRASH_ON_LINE on_line
#include "blobcrash_calls.h"

#include "checks.h"

/* The calls since the last look, a line each. */
static struct {
    char text[4096];
    size_t len;
} lines;

static void on_line(struct blobcrash_session *session, const char *line, size_t len) {
    (void)session;
    if (line == NULL || len + 1 > sizeof lines.text - lines.len) return;
    memcpy(lines.text + lines.len, line, len);
    lines.text[lines.len + len] = '\n';
    lines.len += len + 1;
}

static bool were_lines(const char *text) {
    bool same = lines.len == strlen(text) && memcmp(lines.text, text, lines.len) == 0;
    if (!same) printf("%.*s", (int)lines.len, lines.text);
    lines.len = 0;
    return same;
}

static void begin(struct blobcrash_session *session, const char *preamble) {
    CHECK(blobcrash_open(session, (const uint8_t *)preamble, strlen(preamble)).status == BLOBCRASH_DONE);
    lines.len = 0;
}

static bool prints(struct blobcrash_session *session, const char *reply) {
    uint8_t text[128];
    struct blobcrash_ran ran = blobcrash_reply(session, text, sizeof text);
    return ran.status == BLOBCRASH_DONE && ran.len == strlen(reply) && memcmp(text, reply, ran.len) == 0;
}

static void blobs_are_written_and_read(void) {
    struct blobcrash_session session = {0};
    size_t handle = 9, number = 9, found = 9;
    uint64_t size = 9;
    uint16_t version = 9;
    uint8_t into[8] = "-------";
    begin(&session, "");
    CHECK(blobcrash_open_blob(&session, "p", 1, "b", 1, &handle, &size) == BLOBCRASH_DONE && handle == 0 && size == 0);
    CHECK(blobcrash_write_at(&session, handle, 2, "abc", 3) == BLOBCRASH_DONE);
    CHECK(blobcrash_write_at_sync(&session, handle, 5, "d", 1) == BLOBCRASH_DONE);
    CHECK(blobcrash_size(&session, handle, &size) == BLOBCRASH_DONE && size == 6);
    CHECK(blobcrash_read_at(&session, handle, 2, into, 4) == BLOBCRASH_DONE && memcmp(into, "abcd---", 7) == 0);
    CHECK(blobcrash_read_some(&session, handle, 4, into, 8, &found) == BLOBCRASH_DONE && found == 2 && memcmp(into, "cdcd", 4) == 0);
    CHECK(blobcrash_read_some(&session, handle, 7, into, 8, &found) == BLOBCRASH_DONE && found == 0);
    CHECK(blobcrash_resize(&session, handle, 3) == BLOBCRASH_DONE);
    CHECK(blobcrash_sync(&session, handle) == BLOBCRASH_DONE);
    CHECK(blobcrash_start_sync(&session, handle, &number) == BLOBCRASH_DONE && number == 0);
    CHECK(blobcrash_finish(&session, number) == BLOBCRASH_DONE);
    CHECK(blobcrash_close_blob(&session, handle) == BLOBCRASH_DONE);
    CHECK(were_lines("open p 62\nwrite 0 2 616263\nwrites 0 5 64\nsize 0\nread 0 2 4\nsize 0\nread 0 4 2\nsize 0\nread 0 6 0\n"
                     "resize 0 3\nsync 0\nstartsync 0\nfinish 0\nclose 0\n"));
    CHECK(blobcrash_open_versioned(&session, "p", 1, "v", 1, 3, 7, &handle, &size, &version) == BLOBCRASH_DONE);
    CHECK(handle == 1 && size == 0 && version == 7);
    CHECK(blobcrash_open_loose(&session, "p", 1, "v", 1, 0, 65535, &handle, &size, &version) == BLOBCRASH_DONE);
    CHECK(handle == 2 && size == 0 && version == 7);
    CHECK(blobcrash_write_at(&session, handle, 0, NULL, 0) == BLOBCRASH_DONE);
    CHECK(blobcrash_read_at(&session, handle, 0, NULL, 0) == BLOBCRASH_DONE);
    CHECK(blobcrash_open_blob(&session, "p", 1, NULL, 0, NULL, NULL) == BLOBCRASH_DONE);
    CHECK(blobcrash_admit(&session, "p", 1, "v", 1) == BLOBCRASH_DONE);
    CHECK(were_lines("open p 76 3 7\nloose p 76 0 65535\nwrite 2 0 -\nread 2 0 0\nopen p -\nadmit p 76\n"));
    blobcrash_close(&session);
}

static void names_are_listed(void) {
    struct blobcrash_session session = {0};
    size_t count = 9;
    uint8_t name[4] = "....";
    bool exists = true;
    begin(&session, "image p 62 -\nimage p 6161 -\nimage q 62 -\n");
    CHECK(blobcrash_scan(&session, "p", 1, &count) == BLOBCRASH_DONE && count == 2);
    struct blobcrash_ran ran = blobcrash_name(&session, 0, name, 1);
    CHECK(ran.status == BLOBCRASH_NO_ROOM && ran.len == 2 && name[0] == '.');
    ran = blobcrash_name(&session, 0, name, sizeof name);
    CHECK(ran.status == BLOBCRASH_DONE && ran.len == 2 && memcmp(name, "aa..", 4) == 0);
    ran = blobcrash_name(&session, 1, name, sizeof name);
    CHECK(ran.status == BLOBCRASH_DONE && ran.len == 1 && memcmp(name, "ba..", 4) == 0);
    CHECK(blobcrash_name(&session, 2, name, sizeof name).status == BLOBCRASH_OTHER_REPLY);
    ran = blobcrash_find_name(&session, (const uint8_t *)"b", 1);
    CHECK(ran.status == BLOBCRASH_DONE && ran.len == 1);
    CHECK(blobcrash_find_name(&session, (const uint8_t *)"a", 1).status == BLOBCRASH_OTHER_REPLY);
    CHECK(blobcrash_exists(&session, "p", 1, "aa", 2, &exists) == BLOBCRASH_DONE && exists);
    CHECK(blobcrash_exists(&session, "p", 1, "a", 1, &exists) == BLOBCRASH_DONE && !exists);
    exists = true;
    CHECK(blobcrash_exists(&session, "r", 1, "a", 1, &exists) == BLOBCRASH_DONE && !exists);
    CHECK(blobcrash_remove_blob(&session, "p", 1, "b", 1) == BLOBCRASH_DONE);
    CHECK(blobcrash_name(&session, 0, name, sizeof name).status == BLOBCRASH_OTHER_REPLY);
    CHECK(blobcrash_remove_partition(&session, "q", 1) == BLOBCRASH_DONE);
    CHECK(blobcrash_scan(&session, "q", 1, &count) == BLOBCRASH_E_PARTITION_MISSING && count == 2);
    CHECK(were_lines("scan p\nscan p\nscan p\nscan r\nremove p 62\nremove q\nscan q\n"));
    blobcrash_close(&session);
}

static bool is_run(struct blobcrash_kept_run run, uint64_t write, size_t bytes, size_t start, size_t len) {
    return run.status == BLOBCRASH_DONE && run.write == write && run.bytes == bytes && run.start == start && run.len == len;
}

static void a_crash_returns_runs(void) {
    struct blobcrash_session session = {0};
    size_t writes = 9;
    begin(&session, "words 0 0 max 0 max max\nconfig write 0 1 1 2 subset\n");
    CHECK(blobcrash_open_blob(&session, "p", 1, "b", 1, NULL, NULL) == BLOBCRASH_DONE);
    CHECK(blobcrash_write_at(&session, 0, 0, "abcd", 4) == BLOBCRASH_DONE);
    CHECK(blobcrash_write_at(&session, 0, 4, "ef", 2) == BLOBCRASH_DONE);
    CHECK(blobcrash_kept_run(&session, 0, 0).status == BLOBCRASH_OTHER_REPLY);
    CHECK(blobcrash_crash(&session, &writes) == BLOBCRASH_DONE && writes == 2);
    CHECK(prints(&session, "crashed 0:1101 1:00"));
    CHECK(is_run(blobcrash_kept_run(&session, 0, 0), 0, 4, 0, 2));
    CHECK(is_run(blobcrash_kept_run(&session, 0, 1), 0, 4, 1, 1));
    CHECK(is_run(blobcrash_kept_run(&session, 0, 2), 0, 4, 3, 1));
    CHECK(is_run(blobcrash_kept_run(&session, 0, 4), 0, 4, 4, 0));
    CHECK(is_run(blobcrash_kept_run(&session, 0, SIZE_MAX), 0, 4, 4, 0));
    CHECK(is_run(blobcrash_kept_run(&session, 1, 0), 1, 2, 2, 0));
    CHECK(blobcrash_kept_run(&session, 2, 0).status == BLOBCRASH_OTHER_REPLY);
    CHECK(blobcrash_reopen(&session) == BLOBCRASH_DONE);
    CHECK(blobcrash_kept_run(&session, 0, 0).status == BLOBCRASH_OTHER_REPLY);
    CHECK(were_lines("open p 62\nwrite 0 0 61626364\nwrite 0 4 6566\ncrash\nreopen\n"));
    blobcrash_close(&session);
}

static void durable_bytes_are_read(void) {
    struct blobcrash_session session = {0};
    const uint8_t *p = (const uint8_t *)"p", *b = (const uint8_t *)"b", *x = (const uint8_t *)"x";
    uint8_t into[16] = {0};
    begin(&session, "image p 62 43574943000000056162\nimage p 78 79\nconfig scan 1 1\n");
    struct blobcrash_ran ran = blobcrash_durable_blob(&session, p, 1, b, 1, true, into, sizeof into);
    CHECK(ran.status == BLOBCRASH_DONE && ran.len == 10 && memcmp(into, "CWIC\0\0\0\5ab", 11) == 0);
    ran = blobcrash_durable_blob(&session, p, 1, b, 1, false, into, 2);
    CHECK(ran.status == BLOBCRASH_DONE && ran.len == 2 && memcmp(into, "abIC", 4) == 0);
    ran = blobcrash_durable_blob(&session, p, 1, b, 1, false, into, 1);
    CHECK(ran.status == BLOBCRASH_NO_ROOM && ran.len == 2 && memcmp(into, "abIC", 4) == 0);
    ran = blobcrash_durable_blob(&session, p, 1, x, 1, true, into, sizeof into);
    CHECK(ran.status == BLOBCRASH_DONE && ran.len == 1 && into[0] == 'y');
    CHECK(blobcrash_durable_blob(&session, p, 1, x, 1, false, into, sizeof into).status == BLOBCRASH_E_BLOB_MISSING);
    CHECK(blobcrash_durable_blob(&session, x, 1, x, 1, true, into, sizeof into).status == BLOBCRASH_E_BLOB_MISSING);
    CHECK(blobcrash_durable_blob(&session, (const uint8_t *)"\xff", 1, x, 1, true, into, sizeof into).status == BLOBCRASH_BAD_CALL);
    /* The example of docs/FORMATS.md: another store with the same digest. */
    begin(&session, "image p 62 78\nimage p 63 79\n");
    ran = blobcrash_audit(&session, into, sizeof into);
    CHECK(ran.status == BLOBCRASH_DONE && ran.len == 4);
    begin(&session, "image p 62 78706172746974696f6e70626c6f6263636f6e74656e7479\n");
    ran = blobcrash_audit(&session, into + 4, 4);
    CHECK(ran.status == BLOBCRASH_DONE && memcmp(into, into + 4, 4) == 0);
    CHECK(blobcrash_audit(&session, into, 3).status == BLOBCRASH_NO_ROOM);
    /* The checksum of the text alone. */
    begin(&session, "");
    CHECK(blobcrash_audit(&session, into, 4).len == 4 && memcmp(into, "\215\163\110\101", 4) == 0);
    blobcrash_close(&session);
    CHECK(blobcrash_audit(&session, into, 4).status == BLOBCRASH_CLOSED);
}

static void a_tracked_size_is_no_reply(void) {
    struct blobcrash_session session = {0};
    CHECK(blobcrash_tracked_size(&session, 0).status == BLOBCRASH_CLOSED);
    begin(&session, "image p 62 000102\n");
    CHECK(blobcrash_tracked_size(&session, 0).status == BLOBCRASH_E_NO_HANDLE);
    CHECK(blobcrash_open_blob(&session, "p", 1, "a", 1, NULL, NULL) == BLOBCRASH_DONE);
    CHECK(blobcrash_write_at(&session, 0, 5, "abc", 3) == BLOBCRASH_DONE);
    CHECK(blobcrash_sync(&session, 7) == BLOBCRASH_E_NO_HANDLE);
    struct blobcrash_typed_reply size = blobcrash_tracked_size(&session, 0);
    CHECK(size.status == BLOBCRASH_DONE && size.size == 8);
    CHECK(blobcrash_tracked_size(&session, SIZE_MAX).status == BLOBCRASH_E_NO_HANDLE);
    CHECK(blobcrash_last(&session).status == BLOBCRASH_E_NO_HANDLE && prints(&session, "error NoHandle"));
    blobcrash_close(&session);
}

static void refusals_have_numbers_and_texts(void) {
    static const struct blobcrash_asked unknown = {14, 0, 0, 0}, late = {BLOBCRASH_OPEN, 0, 0, 65536};
    struct blobcrash_session session = {0};
    const uint8_t *p = (const uint8_t *)"p";
    size_t handle = 9;
    uint64_t size = 9;
    begin(&session, "words 0\nimage p 62 0001\nconfig sync 1 2\n");
    CHECK(blobcrash_last(&session).status == BLOBCRASH_DONE);
    CHECK(blobcrash_open_blob(&session, "p", 1, "a", 1, &handle, NULL) == BLOBCRASH_DONE);
    CHECK(blobcrash_sync(&session, handle) == BLOBCRASH_E_INJECTED && prints(&session, "error Injected"));
    CHECK(blobcrash_open_blob(&session, "p", 1, "a", 1, &handle, &size) == BLOBCRASH_E_BLOB_ALREADY_OPEN && handle == 0 && size == 9);
    CHECK(prints(&session, "error BlobAlreadyOpen p 61"));
    CHECK(blobcrash_open_blob(&session, "a b\n", 4, "a", 1, NULL, NULL) == BLOBCRASH_E_PARTITION_NAME_INVALID);
    CHECK(prints(&session, "error PartitionNameInvalid a b\n"));
    CHECK(blobcrash_open_versioned(&session, "p", 1, "a", 1, 2, 1, NULL, NULL, NULL) == BLOBCRASH_E_EMPTY_RANGE);
    CHECK(blobcrash_open_versioned(&session, "p", 1, "c", 1, 1, 1, NULL, NULL, NULL) == BLOBCRASH_DONE);
    CHECK(blobcrash_close_blob(&session, 1) == BLOBCRASH_DONE);
    CHECK(blobcrash_open_blob(&session, "p", 1, "c", 1, NULL, NULL) == BLOBCRASH_E_BLOB_VERSION_MISMATCH);
    CHECK(prints(&session, "error BlobVersionMismatch 0 0 1"));
    CHECK(blobcrash_remove_blob(&session, "p", 1, "d", 1) == BLOBCRASH_E_BLOB_MISSING);
    CHECK(blobcrash_size(&session, 7, &size) == BLOBCRASH_E_NO_HANDLE && size == 9);
    CHECK(blobcrash_finish(&session, SIZE_MAX) == BLOBCRASH_E_NO_HANDLE);
    CHECK(blobcrash_resize(&session, 0, UINT64_MAX) == BLOBCRASH_E_OFFSET_OVERFLOW);
    CHECK(blobcrash_read_at(&session, 0, 0, &handle, 1) == BLOBCRASH_E_BLOB_INSUFFICIENT_LENGTH && handle == 0);
    CHECK(blobcrash_write_at(&session, 0, UINT64_MAX, "a", 1) == BLOBCRASH_E_OFFSET_OVERFLOW);
    CHECK(blobcrash_line(&session, "sync 3") == BLOBCRASH_E_NO_HANDLE);
    CHECK(were_lines("open p 61\nsync 0\nopen p 61\nopen ! 61\nopen p 61 2 1\nopen p 63 1 1\nclose 1\nopen p 63\nremove p 64\nsize 7\n"
                     "finish 18446744073709551615\nresize 0 18446744073709551615\nread 0 0 1\nwrite 0 18446744073709551615 61\nsync 3\n"));
    /* No call: nothing changes, nor does the last reply. */
    CHECK(blobcrash_apply(&session, &unknown, p, 1, p, 1).status == BLOBCRASH_BAD_CALL);
    CHECK(blobcrash_apply(&session, &late, p, 1, p, 1).status == BLOBCRASH_BAD_CALL);
    CHECK(blobcrash_open_blob(&session, "\xff", 1, "a", 1, NULL, NULL) == BLOBCRASH_BAD_CALL);
    CHECK(blobcrash_line(&session, "open p\n61") == BLOBCRASH_BAD_LINE && blobcrash_line(&session, "frob") == BLOBCRASH_BAD_LINE);
    CHECK(were_lines("") && prints(&session, "error NoHandle"));
    CHECK(blobcrash_line(&session, "# a comment") == BLOBCRASH_DONE && blobcrash_line(&session, "config clear") == BLOBCRASH_DONE);
    CHECK(were_lines("# a comment\nconfig clear\n"));
    /* NULL with a length. */
    CHECK(blobcrash_open_blob(&session, NULL, 1, "a", 1, NULL, NULL) == BLOBCRASH_BAD_CALL);
    CHECK(blobcrash_remove_blob(&session, "p", 1, NULL, SIZE_MAX) == BLOBCRASH_BAD_CALL);
    CHECK(blobcrash_write_at(&session, 0, 0, NULL, 5000) == BLOBCRASH_BAD_CALL);
    CHECK(blobcrash_write_at_sync(&session, 0, 0, NULL, 5000) == BLOBCRASH_BAD_CALL);
    CHECK(blobcrash_resize(&session, 0, 5000) == BLOBCRASH_DONE && blobcrash_read_at(&session, 0, 0, NULL, 5000) == BLOBCRASH_BAD_CALL);
    CHECK(blobcrash_read_some(&session, 0, 0, NULL, 5000, NULL) == BLOBCRASH_BAD_CALL);
    CHECK(blobcrash_exists(&session, "p", 1, NULL, 5000, NULL) == BLOBCRASH_BAD_CALL);
    CHECK(blobcrash_line(&session, NULL) == BLOBCRASH_BAD_LINE && were_lines("resize 0 5000\nsize 0\n"));
    blobcrash_close(&session);
    CHECK(blobcrash_sync(&session, 0) == BLOBCRASH_CLOSED && blobcrash_line(&session, "crash") == BLOBCRASH_CLOSED);
    CHECK(blobcrash_read_at(&session, 0, 0, NULL, 0) == BLOBCRASH_CLOSED && blobcrash_last(&session).status == BLOBCRASH_CLOSED);
    CHECK(blobcrash_kept_run(&session, 0, 0).status == BLOBCRASH_CLOSED && were_lines(""));
}

static bool says(struct blobcrash_header header, uint32_t status, uint32_t version, uint64_t size, uint64_t data_offset) {
    return header.status == status && header.version == version && header.size == size && header.data_offset == data_offset;
}

static void headers_are_parsed(void) {
    const uint8_t v0[12] = "CWIC\0\0\0\5data", torn[6] = "CWIK\0\1";
    const struct blobcrash_accepts all = {0, 1, 0, 65535}, newest = {1, 1, 0, 65535}, second = {0, 1, 2, 2}, none = {0, 2, 0, 0};
    CHECK(says(blobcrash_parse_header(v0, 12, 12, &all), BLOBCRASH_DONE, 5, 4, 8));
    CHECK(says(blobcrash_parse_header(v0, 12, 12, &newest), BLOBCRASH_H_LAYOUT_MISMATCH, 0, 0, 0));
    CHECK(says(blobcrash_parse_header(v0, 12, 12, &second), BLOBCRASH_H_VERSION_MISMATCH, 5, 0, 0));
    CHECK(says(blobcrash_parse_header(v0, 12, 12, &none), BLOBCRASH_BAD_CALL, 0, 0, 0));
    CHECK(says(blobcrash_parse_header(v0, 12, 11, &all), BLOBCRASH_BAD_CALL, 0, 0, 0));
    CHECK(says(blobcrash_parse_header(v0, 12, 13, &all), BLOBCRASH_BAD_CALL, 0, 0, 0));
    CHECK(says(blobcrash_parse_header(v0, 7, 7, &all), BLOBCRASH_BAD_CALL, 0, 0, 0));
    CHECK(says(blobcrash_parse_header((const uint8_t *)"CWIK\0\1\0\0", 8, 8, &all), BLOBCRASH_H_TRUNCATED, 0, 12, 0));
    CHECK(says(blobcrash_parse_header((const uint8_t *)"CWIK\0\0\0\0", 8, 8, &all), BLOBCRASH_H_UNSUPPORTED_LAYOUT_VERSION, 0, 0, 0));
    CHECK(says(blobcrash_parse_header((const uint8_t *)"XWIK\0\0\0\0", 8, 8, &all), BLOBCRASH_H_INVALID_MAGIC, 0, 0, 0));
    CHECK(blobcrash_interrupted_creation(1, torn, 6) && !blobcrash_interrupted_creation(0, torn, 6));
    CHECK(!blobcrash_interrupted_creation(2, torn, 6) && !blobcrash_interrupted_creation(1, v0, 12));
}

static void headers_are_created_and_resolved(void) {
    const uint8_t v0[12] = "CWIC\0\0\0\5data", zeros[9] = {0};
    const struct blobcrash_accepts all = {0, 1, 0, 65535}, older = {0, 1, 0, 4}, none = {0, 2, 0, 0};
    uint8_t region[4097];
    memset(region, 7, sizeof region);
    struct blobcrash_ran ran = blobcrash_create_header(1, 5, region, 4095);
    CHECK(ran.status == BLOBCRASH_NO_ROOM && ran.len == 4096 && region[0] == 7);
    CHECK(blobcrash_create_header(1, 5, region, 0).len == 4096 && blobcrash_create_header(2, 5, region, 4096).status == BLOBCRASH_BAD_CALL);
    ran = blobcrash_create_header(0, 5, region, sizeof region);
    CHECK(ran.status == BLOBCRASH_DONE && ran.len == 8 && memcmp(region, "CWIC\0\0\0\5\7", 9) == 0);
    ran = blobcrash_create_header(1, 65535, region, sizeof region);
    CHECK(ran.status == BLOBCRASH_DONE && ran.len == 4096 && memcmp(region, "CWIK\0\1\377\377", 8) == 0 && region[4096] == 7);
    CHECK(says(blobcrash_resolve_header(region, 4097, 4097, &all), BLOBCRASH_DONE, 65535, 1, 4096));
    CHECK(says(blobcrash_resolve_header(region, 4096, UINT64_MAX, &all), BLOBCRASH_DONE, 65535, UINT64_MAX - 4096, 4096));
    CHECK(says(blobcrash_resolve_header(region, 4096, 4096, &older), BLOBCRASH_H_VERSION_MISMATCH, 65535, 0, 0));
    CHECK(says(blobcrash_resolve_header(region, 4095, 4095, &all), BLOBCRASH_H_TO_CREATE, 0, 0, 0));
    CHECK(says(blobcrash_resolve_header(region, 4095, 4096, &all), BLOBCRASH_BAD_CALL, 0, 0, 0));
    region[4095] = 1;
    CHECK(says(blobcrash_resolve_header(region, 4096, 4096, &all), BLOBCRASH_H_INVALID_PADDING, 0, 0, 0));
    CHECK(says(blobcrash_resolve_header(v0, 12, 12, &all), BLOBCRASH_DONE, 5, 4, 8));
    CHECK(says(blobcrash_resolve_header(v0, 7, 7, &all), BLOBCRASH_H_TO_CREATE, 0, 0, 0));
    CHECK(says(blobcrash_resolve_header(v0, 0, 0, &all), BLOBCRASH_H_TO_CREATE, 0, 0, 0));
    CHECK(says(blobcrash_resolve_header(zeros, 9, 9, &all), BLOBCRASH_H_TO_CREATE, 0, 0, 0));
    CHECK(says(blobcrash_resolve_header(v0, 12, 11, &all), BLOBCRASH_BAD_CALL, 0, 0, 0));
    CHECK(says(blobcrash_resolve_header(v0, 12, 13, &all), BLOBCRASH_BAD_CALL, 0, 0, 0));
    CHECK(says(blobcrash_resolve_header(v0, 12, 12, &none), BLOBCRASH_BAD_CALL, 0, 0, 0));
}

/* A call of the registry for the one name of this test. */
static struct blobcrash_debt_reply owe(struct blobcrash_session *session, uint32_t kind, size_t number, bool flag, uint32_t failure) {
    const struct blobcrash_debt_call asked = {kind, failure, number, flag};
    return blobcrash_debt(session, &asked, (const uint8_t *)"p", 1, (const uint8_t *)"b", 1);
}

static void debt_is_kept(void) {
    struct blobcrash_session session = {0};
    CHECK(owe(&session, BLOBCRASH_DEBT_KEEPS, 0, false, BLOBCRASH_DONE).status == BLOBCRASH_CLOSED);
    begin(&session, "");
    struct blobcrash_debt_reply reply = owe(&session, BLOBCRASH_DEBT_ADMIT, 0, false, BLOBCRASH_DONE);
    CHECK(reply.status == BLOBCRASH_DONE && reply.number == 0 && !reply.flag && !reply.has_predecessor);
    CHECK(owe(&session, BLOBCRASH_DEBT_ADMIT, 0, true, BLOBCRASH_DONE).status == BLOBCRASH_E_BLOB_ALREADY_OPEN);
    reply = owe(&session, BLOBCRASH_DEBT_RELEASE, 0, false, BLOBCRASH_DONE);
    CHECK(reply.status == BLOBCRASH_DONE && reply.flag && reply.number == 0);
    reply = owe(&session, BLOBCRASH_DEBT_RELEASE, 0, false, BLOBCRASH_DONE);
    CHECK(reply.status == BLOBCRASH_DONE && !reply.flag);
    CHECK(owe(&session, BLOBCRASH_DEBT_CLOSE, 0, false, BLOBCRASH_DONE).status == BLOBCRASH_DONE);
    CHECK(owe(&session, BLOBCRASH_DEBT_CLOSE, 0, false, BLOBCRASH_DONE).status == BLOBCRASH_E_NO_HANDLE);
    reply = owe(&session, BLOBCRASH_DEBT_ADMIT, 0, true, BLOBCRASH_DONE);
    CHECK(reply.status == BLOBCRASH_DONE && reply.number == 1 && reply.flag && reply.has_predecessor && reply.predecessor == 0);
    CHECK(!owe(&session, BLOBCRASH_DEBT_IS_SETTLED, 0, false, BLOBCRASH_DONE).flag);
    CHECK(owe(&session, BLOBCRASH_DEBT_IS_SETTLED, 1, false, BLOBCRASH_DONE).status == BLOBCRASH_E_NO_HANDLE);
    CHECK(owe(&session, BLOBCRASH_DEBT_SETTLE, 0, true, BLOBCRASH_DONE).status == BLOBCRASH_DONE);
    CHECK(owe(&session, BLOBCRASH_DEBT_SETTLE, 0, true, BLOBCRASH_DONE).status == BLOBCRASH_E_NO_HANDLE);
    CHECK(owe(&session, BLOBCRASH_DEBT_IS_SETTLED, 0, false, BLOBCRASH_DONE).flag);
    CHECK(owe(&session, BLOBCRASH_DEBT_DEBT, 1, false, BLOBCRASH_DONE).flag);
    CHECK(owe(&session, BLOBCRASH_DEBT_CLEAR, 1, false, BLOBCRASH_DONE).status == BLOBCRASH_DONE);
    CHECK(!owe(&session, BLOBCRASH_DEBT_DEBT, 1, false, BLOBCRASH_DONE).flag);
    CHECK(owe(&session, BLOBCRASH_DEBT_FAIL, 1, false, BLOBCRASH_DONE).status == BLOBCRASH_BAD_CALL);
    CHECK(owe(&session, BLOBCRASH_DEBT_FAIL, 1, false, BLOBCRASH_E_BLOB_CORRUPT).status == BLOBCRASH_BAD_CALL);
    CHECK(owe(&session, BLOBCRASH_DEBT_FAIL, 1, false, BLOBCRASH_E_WRITE_FAILED).status == BLOBCRASH_DONE);
    CHECK(owe(&session, BLOBCRASH_DEBT_DEBT, 1, false, BLOBCRASH_DONE).status == BLOBCRASH_E_WRITE_FAILED);
    CHECK(owe(&session, BLOBCRASH_DEBT_CLOSE, 1, false, BLOBCRASH_DONE).status == BLOBCRASH_DONE);
    CHECK(owe(&session, BLOBCRASH_DEBT_ADMIT, 0, true, BLOBCRASH_DONE).status == BLOBCRASH_E_WRITE_FAILED);
    CHECK(owe(&session, BLOBCRASH_DEBT_KEEPS, 0, false, BLOBCRASH_DONE).flag);
    CHECK(owe(&session, BLOBCRASH_DEBT_FORGET, 0, false, BLOBCRASH_DONE).status == BLOBCRASH_DONE);
    CHECK(!owe(&session, BLOBCRASH_DEBT_KEEPS, 0, false, BLOBCRASH_DONE).flag);
    CHECK(owe(&session, 11, 0, false, BLOBCRASH_DONE).status == BLOBCRASH_BAD_CALL);
    /* What is open and what isn't settled is ended with the session. */
    CHECK(owe(&session, BLOBCRASH_DEBT_ADMIT, 0, false, BLOBCRASH_DONE).number == 2);
    CHECK(owe(&session, BLOBCRASH_DEBT_RELEASE, 2, false, BLOBCRASH_DONE).flag);
    CHECK(blobcrash_last(&session).status == BLOBCRASH_DONE);
    blobcrash_close(&session);
}

int main(void) {
    blobs_are_written_and_read();
    names_are_listed();
    a_crash_returns_runs();
    durable_bytes_are_read();
    a_tracked_size_is_no_reply();
    refusals_have_numbers_and_texts();
    headers_are_parsed();
    headers_are_created_and_resolved();
    debt_is_kept();
    return failed;
}
