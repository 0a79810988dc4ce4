#include "text.h"

#include "blobcrash_files.h"

#include <limits.h>
#include <stdint.h>
#include <string.h>

/* Reads a character of two to four bytes. Returns 0 if it isn't one in its shortest form. */
static uint32_t read_long(const unsigned char **at) {
    static const uint32_t least[] = {0, 0, 0x80, 0x800, 0x10000};
    unsigned char first = *(*at)++;
    int count = first >= 0xf8 ? 0 : first >= 0xf0 ? 4 : first >= 0xe0 ? 3 : first >= 0xc0 ? 2 : 0;
    uint32_t read = count ? first & (0x7fu >> count) : 0;
    for (int left = count; left > 1; left--) {
        if ((**at & 0xc0) != 0x80) return 0;
        read = read << 6 | (*(*at)++ & 0x3fu);
    }
    bool is_surrogate = read >= 0xd800 && read < 0xe000;
    return count == 0 || read < least[count] || read > 0x10ffff || is_surrogate ? 0 : read;
}

bool is_plain_text(const char *text) {
    for (const unsigned char *at = (const unsigned char *)text; *at;) {
        uint32_t read = *at < 0x80 ? *at++ : read_long(&at);
        if (read < ' ' || (read >= 0x7f && read < 0xa0) || read == 0x2028 || read == 0x2029) return false;
    }
    return true;
}

/* Adds the name of a path as the library writes it in a script. Returns where it ends. */
static char *put_name(const char *name, size_t len, char *into) {
    static const char word[] = "unlink ";
    static uint8_t line[sizeof word + 4 * PATH_MAX];
    struct blobcrash_file_call call = {.kind = BLOBCRASH_F_UNLINK};
    const uint8_t *bytes = (const uint8_t *)name;
    size_t all = blobcrash_files_line_of(&call, bytes, len, bytes, 0, line, sizeof line).len;
    size_t written = all < sizeof line ? all - (sizeof word - 1) : 0;
    memcpy(into, line + sizeof word - 1, written);
    into[written] = 0;
    return into + written;
}

void escape_unless_plain(const char *text, size_t len, char *into) {
    if (strlen(text) == len && is_plain_text(text)) {
        memcpy(into, text, len + 1);
        return;
    }
    *into = 0;
    for (size_t at = 0; at < len;) {
        size_t part = at;
        while (part < len && text[part] != ' ' && text[part] != '#') part++;
        if (part > at) into = put_name(text + at, part - at, into);
        if (part < len) *into++ = text[part++];
        *into = 0;
        at = part;
    }
}

void escape_path(const char *path, char *into) { put_name(path, strlen(path), into); }
