/*
 * The rows of tests/hostile.tsv in C, by typed calls; its head says what they are. hostile TABLE: the rows that don't hold, and how
 * many do.
 *
 * The lines of a preamble are the caller's own. `put_image` keeps a text from becoming anything but the argument that it is: to be
 * copied with a program that takes names from elsewhere.
 */
#include "blobcrash_calls.h"

#include <inttypes.h>
#include <stdio.h>
#include <stdlib.h>
#include <string.h>

enum { LONGEST = 4096, FIELDS = 6, WORDS = 12, PROBES = 6 };

/* Bytes, a zero among them too. */
struct text {
    size_t len;
    char bytes[LONGEST];
};

static void put(struct text *text, const char *bytes, size_t len) {
    if (len > sizeof text->bytes - text->len) abort();
    memcpy(text->bytes + text->len, bytes, len);
    text->len += len;
}

static void put_string(struct text *text, const char *string) { put(text, string, strlen(string)); }

static void put_number(struct text *text, uint64_t number) {
    char digits[24];
    snprintf(digits, sizeof digits, " %" PRIu64, number);
    put_string(text, digits);
}

/* A space, and bytes as hex. */
static void put_hex(struct text *text, const struct text *bytes) {
    char digits[3];
    put_string(text, bytes->len ? " " : " -");
    for (size_t i = 0; i < bytes->len; i++) {
        snprintf(digits, sizeof digits, "%02x", (unsigned char)bytes->bytes[i]);
        put_string(text, digits);
    }
}

/* The line of an image with its line feed; false for a partition that no line can have. */
static bool put_image(struct text *preamble, const struct text *partition, const struct text *name, const struct text *data) {
    if (partition->len == 0 || memchr(partition->bytes, ' ', partition->len) || memchr(partition->bytes, '\n', partition->len)) {
        return false;
    }
    put_string(preamble, "image ");
    put(preamble, partition->bytes, partition->len);
    put_hex(preamble, name);
    put_hex(preamble, data);
    put_string(preamble, "\n");
    return true;
}

/* A text of the table: percent-encoding is undone. */
static struct text decoded(const char *from) {
    struct text text = {0};
    for (; *from; from++) {
        char byte = *from;
        if (byte == '%') {
            char digits[3] = {from[1], from[2], 0};
            byte = (char)strtoul(digits, NULL, 16);
            from += 2;
        }
        put(&text, &byte, 1);
    }
    return text;
}

/* The value of an argument, without its kind. */
static struct text value(const char *argument) { return decoded(strchr(argument, ':') + 1); }

static uint64_t number(const char *argument) {
    const char *digits = strchr(argument, ':') + 1;
    if (strncmp(digits, "MAX", 3) == 0) return digits[3] ? UINT64_MAX - strtoull(digits + 4, NULL, 10) : UINT64_MAX;
    return strtoull(digits, NULL, 10);
}

static bool is_text(const struct text *text, const char *string) {
    return text->len == strlen(string) && memcmp(text->bytes, string, text->len) == 0;
}

/* The outcome of the call that had this status: `ok`, `refused`, or an error with its texts, which are those of the reply. */
static struct text outcome_of(struct blobcrash_session *session, uint32_t status) {
    struct text text = {0}, reply = {0};
    if (status < BLOBCRASH_E_OFFSET_OVERFLOW) {
        if (status != BLOBCRASH_DONE && status != BLOBCRASH_BAD_CALL && status != BLOBCRASH_BAD_LINE) abort();
        put_string(&text, status == BLOBCRASH_DONE ? "ok" : "refused");
        return text;
    }
    struct blobcrash_ran ran = blobcrash_reply(session, (uint8_t *)reply.bytes, LONGEST);
    if (ran.status != BLOBCRASH_DONE) abort();
    reply.len = ran.len;
    /* An empty text is printed as `-`. The text of a partition is the caller's, and may have spaces. */
    bool is_partition = status == BLOBCRASH_E_PARTITION_NAME_INVALID, in_text = false;
    bool has_name = status == BLOBCRASH_E_BLOB_MISSING || status == BLOBCRASH_E_BLOB_ALREADY_OPEN;
    bool is_empty = is_partition ? is_text(&reply, "error PartitionNameInvalid -")
                                 : has_name && memcmp(reply.bytes + reply.len - 2, " -", 2) == 0;
    for (size_t i = strlen("error "); i < reply.len - is_empty; i++) {
        bool parts = reply.bytes[i] == ' ' && !(is_partition && in_text);
        put(&text, parts ? ":" : &reply.bytes[i], 1);
        in_text = in_text || parts;
    }
    return text;
}

/* The versions of an open; a row without them has version 0. */
static uint64_t version(char **arguments, int count, int at) { return at < count ? number(arguments[at]) : 0; }

/* The status of a row's call with a partition. */
static uint32_t named(struct blobcrash_session *session, const char *call, char **arguments, int count) {
    struct text partition = value(arguments[0]), name = {0};
    bool has_name = count > 1 && strncmp(arguments[1], "bytes:", 6) == 0;
    const char *at = partition.bytes;
    if (has_name) name = value(arguments[1]);
    if (strcmp(call, "open") == 0 || strcmp(call, "loose") == 0) {
        struct blobcrash_asked asked = {*call == 'o' ? BLOBCRASH_OPEN : BLOBCRASH_OPEN_LOOSE, 0, version(arguments, count, 2),
                                        version(arguments, count, 3)};
        return blobcrash_apply(session, &asked, (const uint8_t *)at, partition.len, (const uint8_t *)name.bytes, name.len).status;
    }
    if (strcmp(call, "admit") == 0) return blobcrash_admit(session, at, partition.len, name.bytes, name.len);
    if (strcmp(call, "scan") == 0) return blobcrash_scan(session, at, partition.len, NULL);
    if (strcmp(call, "remove") != 0) abort();
    if (has_name) return blobcrash_remove_blob(session, at, partition.len, name.bytes, name.len);
    return blobcrash_remove_partition(session, at, partition.len);
}

/* The status of a row's call of the handle 0. */
static uint32_t numbered(struct blobcrash_session *session, const char *call, char **arguments) {
    uint64_t first = number(arguments[0]);
    if (strcmp(call, "resize") == 0) return blobcrash_resize(session, 0, first);
    if (strcmp(call, "finish") == 0) return blobcrash_finish(session, first);
    if (strcmp(call, "read") == 0) {
        static uint8_t into[LONGEST];
        uint64_t len = number(arguments[1]);
        if (len <= sizeof into) return blobcrash_read_at(session, 0, first, into, len);
        /* No buffer has that many bytes. */
        char line[64];
        snprintf(line, sizeof line, "read 0 %" PRIu64 " %" PRIu64, first, len);
        return blobcrash_line(session, line);
    }
    struct text bytes = value(arguments[1]);
    if (strcmp(call, "write") == 0) return blobcrash_write_at(session, 0, first, bytes.bytes, bytes.len);
    if (strcmp(call, "writes") != 0) abort();
    return blobcrash_write_at_sync(session, 0, first, bytes.bytes, bytes.len);
}

/* The status of a row's call. */
static uint32_t perform(struct blobcrash_session *session, const char *call, char **arguments, int count) {
    struct text line = {0}, first = value(arguments[0]);
    /* `begin` made the preamble of these. */
    if (strcmp(call, "image") == 0 || strcmp(call, "seed") == 0) return BLOBCRASH_DONE;
    if (strcmp(call, "call") == 0 || strcmp(call, "configure") == 0) {
        if (*call == 'c' && call[1] == 'o') put_string(&line, "config ");
        put(&line, first.bytes, first.len);
        put(&line, "", 1);
        return strlen(line.bytes) + 1 == line.len ? blobcrash_line(session, line.bytes) : (uint32_t)BLOBCRASH_BAD_LINE;
    }
    return strncmp(arguments[0], "text:", 5) == 0 ? named(session, call, arguments, count) : numbered(session, call, arguments);
}

struct blob {
    const char *partition, *name, *data;
};

static const struct blob BLOBS[] = {{"p", "a", "abcdef"}, {"p", "b", "second"}, {"62", "c", "third"}};

/* Whether a blob has these durable bytes. */
static bool has_bytes(struct blobcrash_session *session, const struct text *partition, const struct text *name, const struct text *data) {
    struct text found = {0};
    size_t handle;
    uint64_t size;
    uint32_t status = blobcrash_open_loose(session, partition->bytes, partition->len, name->bytes, name->len, 0, 65535, &handle, &size, NULL);
    if (status != BLOBCRASH_DONE || size != data->len) return false;
    return blobcrash_read_at(session, handle, 0, found.bytes, size) == BLOBCRASH_DONE && memcmp(found.bytes, data->bytes, size) == 0;
}

/* Whether the durable blobs are those of the start, except the change of `leaves`. */
static bool leaves_blobs(struct blobcrash_session *session, const char *leaves) {
    static const char *const partitions[] = {"p", "62", "q", "-", "clear"};
    size_t names = 0, wanted = sizeof BLOBS / sizeof *BLOBS;
    struct text partition = {0};
    if (blobcrash_line(session, "config clear") != BLOBCRASH_DONE) return false;
    if (strcmp(leaves, "-") != 0) {
        const char *slash = strchr(leaves, '/'), *equals = strchr(leaves, '=');
        struct text name = {0}, data = decoded(equals + 1);
        char path[LONGEST] = {0};
        put(&partition, leaves, (size_t)(slash - leaves));
        memcpy(path, slash + 1, (size_t)(equals - slash - 1));
        name = decoded(path);
        if (!has_bytes(session, &partition, &name, &data)) return false;
        wanted++;
    }
    for (size_t i = 0; i < sizeof partitions / sizeof *partitions + 1; i++) {
        size_t found = 0;
        partition.len = 0;
        if (i < sizeof partitions / sizeof *partitions) put_string(&partition, partitions[i]);
        else while (partition.len < 300) put_string(&partition, "n");
        blobcrash_scan(session, partition.bytes, partition.len, &found);
        names += found;
    }
    for (size_t i = 0; i < sizeof BLOBS / sizeof *BLOBS; i++) {
        struct text of = decoded(BLOBS[i].partition), name = decoded(BLOBS[i].name), data = decoded(BLOBS[i].data);
        if (!has_bytes(session, &of, &name, &data)) return false;
    }
    return names == wanted;
}

/* Opens the store of a row. False if an argument is refused. */
static bool begin(struct blobcrash_session *session, bool is_false, const char *call, char **arguments) {
    static const char *const rates[] = {"config open 1 2",   "config read 1 2", "config sync 1 2",
                                        "config remove 1 2", "config scan 1 2", "config write 1 2 0 1 subset",
                                        "config resize 1 2 0 1"};
    struct text preamble = {0};
    put_string(&preamble, is_false ? "words max" : "words 0");
    put_string(&preamble, " 0 max max 0 max 0 0 max 0 max max\n");
    for (size_t i = 0; i < sizeof BLOBS / sizeof *BLOBS; i++) {
        struct text partition = decoded(BLOBS[i].partition), name = decoded(BLOBS[i].name), raw = decoded("CWIC%00%00%00%00");
        put_string(&raw, BLOBS[i].data);
        if (!put_image(&preamble, &partition, &name, &raw)) abort();
    }
    if (strcmp(call, "image") == 0) {
        struct text partition = value(arguments[0]), name = value(arguments[1]), raw = value(arguments[2]);
        if (!put_image(&preamble, &partition, &name, &raw)) return false;
    }
    if (strcmp(call, "seed") == 0) {
        put_string(&preamble, "seed");
        put_number(&preamble, number(arguments[0]));
    }
    if (blobcrash_open(session, (uint8_t *)preamble.bytes, preamble.len).status != BLOBCRASH_DONE) abort();
    if (blobcrash_open_blob(session, "p", 1, "a", 1, NULL, NULL) != BLOBCRASH_DONE) abort();
    for (size_t i = 0; i < sizeof rates / sizeof *rates; i++) {
        if (blobcrash_line(session, rates[i]) != BLOBCRASH_DONE) abort();
    }
    return true;
}

/* What doesn't hold of a row if the first draw is false, or true; NULL if it holds. */
static const char *wrong(bool is_false, char **row, int draws) {
    static const bool fails[WORDS] = {false, true, false, false, true, false, true, true, false, true, false, false};
    char arguments[LONGEST], *words[LONGEST / 2];
    const char *leaves = row[5], *reason = NULL;
    struct text outcome = decoded(row[4]);
    int count = 0;
    struct blobcrash_session session = {0};
    snprintf(arguments, sizeof arguments, "%s", row[2]);
    for (char *word = strtok(arguments, " "); word; word = strtok(NULL, " ")) words[count++] = word;
    if (!begin(&session, is_false, row[1], words)) return is_text(&outcome, "refused") ? NULL : "it is refused";
    if (draws > 0 && !is_false) {
        outcome = decoded("Injected");
        leaves = "-";
    }
    uint32_t status = perform(&session, row[1], words, count);
    struct text found = outcome_of(&session, status);
    if (found.len != outcome.len || memcmp(found.bytes, outcome.bytes, found.len) != 0) {
        printf("%.*s\n", (int)found.len, found.bytes);
        reason = "that is another outcome";
    }
    if (blobcrash_line(&session, "config scan 1 2") != BLOBCRASH_DONE) abort();
    for (int i = draws; reason == NULL && i < draws + PROBES; i++) {
        bool is_injected = i == 0 ? !is_false : fails[i];
        if ((blobcrash_scan(&session, "p", 1, NULL) == BLOBCRASH_E_INJECTED) != is_injected) reason = "it takes another number of words";
    }
    if (reason == NULL && !leaves_blobs(&session, leaves)) reason = "it leaves other blobs";
    blobcrash_close(&session);
    return reason;
}

int main(int argc, char **argv) {
    static char line[LONGEST];
    FILE *table = argc > 1 ? fopen(argv[1], "r") : NULL;
    int held = 0, broken = 0, other = 0, at = 0;
    if (table == NULL) return 2;
    while (fgets(line, sizeof line, table)) {
        char *row[FIELDS];
        int fields = 0;
        at++;
        if (line[0] == '#') continue;
        line[strcspn(line, "\n")] = 0;
        for (char *field = line; field; fields++) {
            char *tab = strchr(field, '\t');
            if (tab) *tab++ = 0;
            if (fields == FIELDS) abort();
            row[fields] = field;
            field = tab;
        }
        if (fields != FIELDS) abort();
        if (!strchr(row[0], 'C')) {
            other++;
            continue;
        }
        const char *if_true = strchr(row[3], '/');
        const char *reason = wrong(true, row, atoi(row[3]));
        if (reason == NULL) reason = wrong(false, row, atoi(if_true ? if_true + 1 : row[3]));
        if (reason) printf("%d: %s %s: %s\n", at, row[1], row[2], reason);
        held += reason == NULL;
        broken += reason != NULL;
    }
    fclose(table);
    printf("%d rows hold, %d don't; C's types can't express %d\n", held, broken, other);
    return broken > 0 || held < 100;
}
