#include "recorded.h"

#include "env.h"
#include "log.h"
#include "mode.h"
#include "record.h"

#include <leveldb/db.h>
#include <leveldb/write_batch.h>

#include <cstdio>
#include <cstdlib>
#include <fstream>
#include <map>
#include <memory>

namespace {

const int KEYS = 3, LAST_BATCH = 2 * KEYS;

std::string key_of(int batch) { return "k" + std::to_string(batch % KEYS); }
std::string value_of(int batch) { return "value " + std::to_string(batch); }

// What the first batches leave.
std::map<std::string, std::string> rows_after(int batches) {
    std::map<std::string, std::string> rows;
    for (int batch = 1; batch <= batches; batch++) {
        rows[key_of(batch)] = value_of(batch);
        rows["last"] = std::to_string(batch);
    }
    return rows;
}

leveldb::Options options_of(leveldb::Env* env) {
    leveldb::Options options;
    options.env = env;
    options.create_if_missing = true;
    options.compression = leveldb::kNoCompression;
    return options;
}

// Opens the database and writes batches, until a call fails.
bool write_batches(adapters::CrashFiles* files, CrashEnv* env, const Mode& mode, int first, int end) {
    leveldb::DB* opened = nullptr;
    TracedLog log;
    leveldb::Options options = options_of(env);
    options.info_log = &log;
    bool is_open = leveldb::DB::Open(options, "/d", &opened).ok();
    std::unique_ptr<leveldb::DB> db(opened);
    env->jobs.run();
    if (!is_open) return false;
    for (int batch = first; batch < end; batch++) {
        leveldb::WriteBatch changes;
        changes.Put(key_of(batch), value_of(batch));
        changes.Put("last", std::to_string(batch));
        leveldb::WriteOptions how;
        how.sync = mode.syncs;
        if (!db->Write(how, &changes).ok()) return false;
        files->note("acknowledged " + std::to_string(batch));
        env->jobs.run();
    }
    return true;
}

int damage(const std::string& what) {
    printf("%s\n", what.c_str());
    return 1;
}

}  // namespace

// Makes the run on a new disk, which is recorded until its end. Returns whether no call failed.
static bool run(const Mode& mode) {
    char preamble[WORDS_PREAMBLE];
    words_preamble(&mode.disk, 1, preamble);
    adapters::CrashFiles files(adapters::library_disk(preamble));
    files.make_directory("/d");
    files.settle();
    char writes[WORDS_LINE];
    uint64_t draws = 1;
    words_write_setting("sectors512", "0 1", &draws, writes);
    files.set(writes);
    if (mode.disk.lies) files.set("syncs lie");
    CrashEnv env(&files, mode.extra);
    return write_batches(&files, &env, mode, 1, KEYS + 1) && write_batches(&files, &env, mode, KEYS + 1, LAST_BATCH + 1);
}

int recorded_run(const char* script, const char* name) {
    Mode mode;
    if (!mode_read(name, &mode)) {
        fprintf(stderr, "crash: no mode: %s\n", name);
        return 2;
    }
    setenv("BLOBCRASH_RECORD", script, 1);
    // A run that couldn't be recorded leaves an older script, which nobody should check.
    bool is_whole = run(mode) && record_end() == 0 && !record_notes;
    if (!is_whole) remove(script);
    return is_whole ? 0 : 2;
}

int recorded_check(const char* folder, const char* acknowledged) {
    int last = 0;
    std::ifstream numbers(acknowledged);
    for (int number; numbers >> number;) last = number;
    leveldb::DB* opened = nullptr;
    leveldb::Status status = leveldb::DB::Open(options_of(leveldb::Env::Default()), std::string(folder) + "/d", &opened);
    std::unique_ptr<leveldb::DB> db(opened);
    if (!status.ok()) return damage("it can't be opened: " + status.ToString());
    std::map<std::string, std::string> rows;
    std::unique_ptr<leveldb::Iterator> at(db->NewIterator(leveldb::ReadOptions()));
    for (at->SeekToFirst(); at->Valid(); at->Next()) rows[at->key().ToString()] = at->value().ToString();
    if (!at->status().ok()) return damage("it can't be read: " + at->status().ToString());
    int found = rows.count("last") > 0 ? std::stoi(rows["last"]) : 0;
    if (rows != rows_after(found)) return damage("the rows are those of no batch");
    return found < last ? damage("batch " + std::to_string(found) + " is the last, of " + std::to_string(last)) : 0;
}
