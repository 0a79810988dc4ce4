#include "parameters.h"

#include "store.h"
#include "words.h"

#include <stdlib.h>
#include <string.h>

enum { RATE_SIZE = 48, LINE_SIZE = 160, CALLS = 3, SWITCHES = 6 };

/* The calls that have a `config` line of their own, with a rate alone. */
static const char *const calls[CALLS] = {"open", "read", "sync"};

/* The parameters that are settings of the layer, with a word that it reads; the last one has a rate. */
static const struct {
    const char *name, *setting;
} switches[SWITCHES] = {{"profile", "profile"},         {"edits", "edits"},               {"syncs", "syncs"},
                        {"failed_sync", "failed_sync"}, {"failed_write", "failed_write"}, {"keep_names", "keep"}};

/* Parts of `config` lines. An empty text is one that wasn't given. */
struct settings {
    char write_fails[RATE_SIZE], keep[RATE_SIZE], tear[RATE_SIZE], resize_fails[RATE_SIZE], partial[RATE_SIZE];
};

/* What a URI asks for. */
struct request {
    bool has_seed, has_power_off;
    uint64_t seed, power_off;
    struct device device;
    struct settings settings;
    char fails[CALLS][RATE_SIZE], switches[SWITCHES][RATE_SIZE];
};

/* What the URIs since the start of the file system have set. */
static struct settings settings;

/* Values. */

/* Reads decimal digits, up to `end`. */
static bool read_digits(const char *text, const char *end, uint64_t *number) {
    *number = 0;
    if (text == end) return false;
    for (; text < end; text++) {
        if (*text < '0' || *text > '9') return false;
        unsigned digit = (unsigned)(*text - '0');
        if (*number > (UINT64_MAX - digit) / 10) return false;
        *number = *number * 10 + digit;
    }
    return true;
}

static bool read_number(const char *text, uint64_t most, uint64_t *number) {
    return read_digits(text, text + strlen(text), number) && *number <= most;
}

/* Reads a rate `N/D`, and writes it as a script has it: `N D`. */
static bool read_rate(const char *text, char *rate) {
    uint64_t over, under;
    const char *slash = strchr(text, '/');
    if (!slash || !read_digits(text, slash, &over) || !read_number(slash + 1, UINT64_MAX, &under)) return false;
    if (under == 0 || over > under) return false;
    sqlite3_snprintf(RATE_SIZE, rate, "%llu %llu", (unsigned long long)over, (unsigned long long)under);
    return true;
}

/* Reads what a crash keeps of a write: a word, or sectors and their size. */
static bool read_tear(const char *text, char *tear) {
    const char *rate;
    uint64_t sector;
    if (words_mode(text, &rate)) return strcpy(tear, text), true;
    if (strncmp(text, "sectors", 7) != 0 || !read_number(text + 7, UINT64_MAX, &sector) || sector == 0) return false;
    sqlite3_snprintf(RATE_SIZE, tear, "sectors %llu", (unsigned long long)sector);
    return true;
}

static bool read_sector(const char *text, int *size) {
    uint64_t number;
    if (!read_number(text, 65536, &number) || number < 32 || (number & (number - 1)) != 0) return false;
    *size = (int)number;
    return true;
}

static bool read_device(const char *text, int *characteristics) {
    uint64_t number;
    if (!read_number(text, INT32_MAX, &number)) return false;
    *characteristics = (int)number;
    return true;
}

/* Parameters. */

static bool read_failure(const char *call, const char *value, struct request *request) {
    if (strcmp(call, "write") == 0) return read_rate(value, request->settings.write_fails);
    if (strcmp(call, "resize") == 0) return read_rate(value, request->settings.resize_fails);
    for (int i = 0; i < CALLS; i++) {
        if (strcmp(call, calls[i]) == 0) return read_rate(value, request->fails[i]);
    }
    return false;
}

/* Returns whether the layer has a setting with this word. */
static bool is_setting(const char *setting, const char *word) {
    struct blobcrash_files files = {0};
    char line[LINE_SIZE];
    size_t len = strlen(word);
    if (len == 0 || len >= RATE_SIZE || strspn(word, "abcdefghijklmnopqrstuvwxyz0123456789_") != len) return false;
    sqlite3_snprintf(sizeof line, line, "%s %s", setting, word);
    uint32_t status = blobcrash_files_open(&files, (const uint8_t *)line, strlen(line)).status;
    blobcrash_files_close(&files);
    return status == BLOBCRASH_DONE;
}

/* Reads the value of a switch. */
static bool read_switch(int at, const char *value, struct request *request) {
    if (at == SWITCHES - 1) return read_rate(value, request->switches[at]);
    return is_setting(switches[at].setting, value) && strcpy(request->switches[at], value);
}

/* Parameters of SQLite itself mean nothing here. */
static bool is_standard(const char *key) {
    static const char *const keys[] = {"vfs", "mode", "cache", "psow", "nolock", "immutable"};
    for (size_t i = 0; i < sizeof keys / sizeof *keys; i++) {
        if (strcmp(key, keys[i]) == 0) return true;
    }
    return false;
}

/* Reads one parameter. False if it is unknown, or can't have this value. */
static bool read_parameter(const char *key, const char *value, struct request *request) {
    if (strncmp(key, "fail_", 5) == 0) return read_failure(key + 5, value, request);
    if (strcmp(key, "seed") == 0) return request->has_seed = read_number(value, UINT64_MAX, &request->seed);
    if (strcmp(key, "power_off") == 0) {
        return request->has_power_off = read_number(value, INT64_MAX, &request->power_off);
    }
    if (strcmp(key, "tear") == 0) return read_tear(value, request->settings.tear);
    if (strcmp(key, "keep") == 0) return read_rate(value, request->settings.keep);
    if (strcmp(key, "partial") == 0) return read_rate(value, request->settings.partial);
    if (strcmp(key, "sector") == 0) return read_sector(value, &request->device.sector_size);
    if (strcmp(key, "device") == 0) return read_device(value, &request->device.characteristics);
    for (int i = 0; i < SWITCHES; i++) {
        if (strcmp(key, switches[i].name) == 0) return read_switch(i, value, request);
    }
    return is_standard(key);
}

/* Whether the parameter of this number was given before. SQLite would ignore it. */
static bool is_second(const char *name, int number) {
    for (int i = 0; i < number; i++) {
        if (strcmp(sqlite3_uri_key(name, i), sqlite3_uri_key(name, number)) == 0) return true;
    }
    return false;
}

static int read_request(const char *name, struct request *request) {
    const char *key;
    *request = (struct request){.device = default_device};
    for (int i = 0; (key = sqlite3_uri_key(name, i)); i++) {
        const char *value = sqlite3_uri_parameter(name, key);
        if (is_second(name, i)) return store_refuse(SQLITE_CANTOPEN, "the parameter %.200s is given twice", key);
        if (!read_parameter(key, value, request)) {
            return store_refuse(SQLITE_CANTOPEN, "not a parameter: %.200s=%.200s", key, value);
        }
    }
    return SQLITE_OK;
}

/* Settings. */

/* Starts a file system if none is started, or if the URI has another seed. */
static int start(const struct request *request) {
    bool starts = !store_is_started() || (request->has_seed && !store_is_current(request->seed));
    return starts ? store_start_seed(request->seed) : SQLITE_OK;
}

static void merge(char *now, const char *given) {
    if (given[0]) strcpy(now, given);
}

static void merge_settings(const struct settings *given) {
    merge(settings.write_fails, given->write_fails);
    merge(settings.keep, given->keep);
    merge(settings.tear, given->tear);
    merge(settings.resize_fails, given->resize_fails);
    merge(settings.partial, given->partial);
}

static int configure_writes(void) {
    char line[LINE_SIZE];
    const char *rate = NULL, *keep = settings.keep[0] ? settings.keep : "1 2";
    const char *fails = settings.write_fails[0] ? settings.write_fails : "0 1";
    const char *mode = words_mode(settings.tear[0] ? settings.tear : "none", &rate);
    if (!settings.tear[0] && !settings.write_fails[0]) return SQLITE_OK;
    sqlite3_snprintf(sizeof line, line, "config write %s %s %s", fails, rate ? rate : keep, mode ? mode : settings.tear);
    return blobcrash_vfs_set(line);
}

static int configure_resizes(void) {
    char line[LINE_SIZE];
    if (!settings.resize_fails[0]) return SQLITE_OK;
    sqlite3_snprintf(sizeof line, line, "config resize %s %s", settings.resize_fails,
                     settings.partial[0] ? settings.partial : "0 1");
    return blobcrash_vfs_set(line);
}

static int configure(const struct request *request) {
    char line[LINE_SIZE];
    merge_settings(&request->settings);
    int code = configure_writes();
    if (!code) code = configure_resizes();
    for (int i = 0; i < CALLS && !code; i++) {
        if (!request->fails[i][0]) continue;
        sqlite3_snprintf(sizeof line, line, "config %s %s", calls[i], request->fails[i]);
        code = blobcrash_vfs_set(line);
    }
    for (int i = 0; i < SWITCHES && !code; i++) {
        if (!request->switches[i][0]) continue;
        sqlite3_snprintf(sizeof line, line, "%s %s", switches[i].setting, request->switches[i]);
        code = blobcrash_vfs_set(line);
    }
    return code;
}

int parameters_apply(const char *name, struct device *device) {
    struct request request;
    int code = read_request(name, &request);
    if (!code) code = start(&request);
    if (!code) code = configure(&request);
    if (!code && request.has_power_off) code = blobcrash_vfs_power_off_after((int64_t)request.power_off);
    *device = request.device;
    return code ? SQLITE_CANTOPEN : SQLITE_OK;
}

void parameters_device(const char *name, struct device *device) {
    const char *sector = sqlite3_uri_parameter(name, "sector"),
               *characteristics = sqlite3_uri_parameter(name, "device");
    *device = default_device;
    if (sector) read_sector(sector, &device->sector_size);
    if (characteristics) read_device(characteristics, &device->characteristics);
}

void parameters_reset(void) { memset(&settings, 0, sizeof settings); }
