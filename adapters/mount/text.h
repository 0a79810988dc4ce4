/* Texts from outside. */
#ifndef MOUNT_TEXT_H
#define MOUNT_TEXT_H

#include <stdbool.h>
#include <stddef.h>

/* Returns whether a text is UTF-8 without control characters and separators of lines: so a line of a record, for each reader. */
bool is_plain_text(const char *text);
/*
 * Copies a text of so many bytes, and ends it with a zero. If it isn't plain, each byte that isn't printable ASCII, and each `\`, is
 * `\xNN`: so four times as many bytes are needed, and the zero.
 */
void escape_unless_plain(const char *text, size_t len, char *into);
/* Copies a path as a script has it: the space and `#` are `\xNN` too. It needs the same space. */
void escape_path(const char *path, char *into);

#endif
