/*
 * A store of keys and values by a library, which a file of the folder stores is for.
 *
 *   stores KIND STORE make                                makes it
 *   stores KIND STORE work OPERATIONS KEYS ACKNOWLEDGED   sets keys, as driver.py says, and appends each number to a file
 *   stores KIND STORE list                                prints lines `key|value`, and `end`
 */
#define _POSIX_C_SOURCE 200809L
#include "stores/store.h"

#include <fcntl.h>
#include <stdio.h>
#include <stdlib.h>
#include <string.h>
#include <unistd.h>

enum { VALUE_MOST = 1024 };

void fail(const char *what, const char *why) {
    printf("%s: %s\n", what, why);
    exit(1);
}

void show(const char *key, size_t key_len, const char *value, size_t len) {
    printf("%.*s|%.*s\n", (int)key_len, key, (int)len, value);
}

/* Writes the value of an operation, and a zero after it. Returns its length. */
static size_t value_of(unsigned long number, char *value) {
    int start = sprintf(value, "%lu:", number);
    size_t len = number * 37 % 900;
    memset(value + start, (int)('a' + number % 26), len);
    value[(size_t)start + len] = 0;
    return (size_t)start + len;
}

static void work(unsigned long operations, unsigned long keys, const char *acknowledged) {
    char key[32], value[VALUE_MOST];
    int file = open(acknowledged, O_WRONLY | O_APPEND | O_CREAT, 0644);
    for (unsigned long number = 1; number <= operations; number++) {
        sprintf(key, "%lu", number % keys);
        put(key, value, value_of(number, value));
        if (dprintf(file, "%lu\n", number) < 0) fail(acknowledged, "can't be written");
    }
    close(file);
}

int main(int count, char **words) {
    if (count < 4) return 2;
    open_store(words[1], words[2]);
    if (count == 7 && strcmp(words[3], "work") == 0) work(strtoul(words[4], NULL, 10), strtoul(words[5], NULL, 10), words[6]);
    if (strcmp(words[3], "list") == 0) {
        list();
        puts("end");
    }
    close_store();
    return 0;
}
