// What the drivers of LevelDB and RocksDB have in common: modes, lives that write batches, and what a crash may leave of these. The Mode
// of each driver is a BatchMode, with the columns of its table as `enum Count`.
#ifndef ADAPTERS_BATCHES_H
#define ADAPTERS_BATCHES_H

#include "crash_files.h"
#include "driver.h"
#include "random.h"
#include "words.h"

#include <cstdio>
#include <cstring>
#include <map>
#include <sstream>
#include <string>
#include <utility>
#include <vector>

namespace adapters {

using Rows = std::map<std::string, std::string>;

struct BatchMode {
    words disk = words_default;
    // Each batch is synced; writes and syncs fail; reads and creations fail.
    bool syncs = false, fails = false, fails_reads = false;
};

// Reads the name of a mode: `sync` or `nosync`, and then words that `read_own` or words_read reads. False if it is no name.
template <class Mode>
bool read_mode(const char* name, Mode* mode, bool (*read_own)(const std::string& word, Mode* mode)) {
    std::istringstream all(name);
    std::string word;
    *mode = Mode();
    if (!std::getline(all, word, '-') || (word != "sync" && word != "nosync")) return false;
    mode->syncs = word == "sync";
    while (std::getline(all, word, '-'))
        if (!read_own(word, mode) && !words_read(&mode->disk, word.c_str())) return false;
    return name[strlen(name) - 1] != '-';
}

// Returns whether the promise held that with syncs nothing acknowledged is lost, and without them only the last batches are. A database
// in this mode may be refused, or have other rows.
template <class Mode>
const char* batch_verdict(const Mode& mode, const uint64_t* counts, bool may_be_refused, bool may_differ) {
    bool is_damaged = counts[Mode::CORRUPT] + counts[Mode::WRONG] > 0;
    bool is_refused_alone = counts[Mode::WRONG] == 0 && (!mode.syncs || counts[Mode::LOST] == 0);
    if (!is_damaged && counts[Mode::LOST] == 0) return "held";
    if (!is_damaged && !mode.syncs) return "lost, as allowed";
    bool is_allowed = mode.disk.lies || strcmp(mode.disk.tear, "bytes") == 0 || (may_be_refused && is_refused_alone) || may_differ;
    return is_allowed ? "damaged, as allowed" : DRIVER_BROKEN;
}

// The driver `crash` of these modes and columns.
template <size_t MODES, size_t COLUMNS>
driver driver_of(const char* const (&modes)[MODES], const driver_column (&columns)[COLUMNS]) {
    driver made = {};
    made.name = "crash";
    made.modes = modes;
    made.modes_len = MODES;
    made.columns = columns;
    made.columns_len = COLUMNS;
    return made;
}

// The keys and values of the scenarios, which are those of both databases' own tests.
inline std::string scenario_key(int number) {
    char key[20];
    snprintf(key, sizeof key, "%016d", number);
    return key;
}

inline std::string scenario_value(int number) {
    uint64_t state = static_cast<uint64_t>(number);
    std::string value;
    for (int at = 0; at < 1000; at++) value += static_cast<char>(' ' + random_below(&state, 95));
    return value;
}

// A life: a disk with faults, and the batches that were written.
template <class Mode>
class BatchLife {
  protected:
    BatchLife(const Mode& mode, uint64_t seed, uint64_t* counts, std::unique_ptr<Disk> disk)
        : mode_(mode), counts_(counts), draws_(seed), files_(std::move(disk)), states_(1) {
        tear_ = words_tear(&mode.disk, &draws_);
        longest_value_ = below(2) == 0 ? 200 : 3000;
        files_.make_directory("/d");
        files_.settle();
        if (mode.disk.lies) files_.set("syncs lie");
    }

    const Mode& mode_;
    uint64_t* counts_;
    uint64_t draws_;
    CrashFiles files_;
    std::string tear_, wrong_;
    size_t longest_value_;
    // What each batch left, and the number of the last one that was acknowledged.
    std::vector<Rows> states_;
    uint64_t acknowledged_ = 0;

    static std::unique_ptr<Disk> disk_of(const Mode& mode, uint64_t seed) {
        char lines[WORDS_PREAMBLE];
        words_preamble(&mode.disk, seed, lines);
        return library_disk(lines);
    }

    uint64_t below(uint64_t end) { return random_below(&draws_, end); }

    void set_faults() {
        char line[WORDS_LINE];
        words_write_setting(tear_.c_str(), mode_.fails ? "1 200" : "0 1", &draws_, line);
        files_.set(line);
        if (mode_.fails) files_.set("config sync 1 100");
        if (!mode_.fails_reads) return;
        files_.set("config open 1 200");
        files_.set("config read 1 400");
    }

    void crash() {
        files_.crash();
        counts_[Mode::CRASHES]++;
    }

    void damage(const std::string& what) {
        counts_[Mode::CORRUPT]++;
        wrong_ = what;
    }

    // Takes whether the last batch was acknowledged, and returns it.
    bool acknowledge(bool is_done) {
        if (is_done) {
            acknowledged_ = states_.size() - 1;
            counts_[Mode::BATCHES]++;
        } else if (files_.is_off()) counts_[Mode::IN_WRITE]++;
        return is_done;
    }

    // Compares all rows with those that the last batch left that is found: its number is in the row `last`. Later ones are forgotten.
    // `other` is what else is wrong.
    void compare(const Rows& rows, const std::string& last, const std::string& other = "") {
        uint64_t found = rows.count(last) > 0 ? std::stoull(rows.at(last)) : 0;
        if (found >= states_.size() || rows != states_[found]) {
            counts_[Mode::WRONG]++;
            wrong_ = "the rows are those of no batch; the last one that is found is " + std::to_string(found) + ", of " +
                     std::to_string(acknowledged_);
            return;
        }
        if (found < acknowledged_) {
            counts_[Mode::LOST] += acknowledged_ - found;
            if (mode_.syncs) wrong_ = std::to_string(acknowledged_ - found) + " acknowledged batches are lost";
        } else if (!other.empty()) {
            counts_[Mode::LOST]++;
            wrong_ = other;
        }
        acknowledged_ = found;
        states_.resize(found + 1);
    }

    // Returns what is wrong, or an empty text.
    std::string end() {
        counts_[Mode::FAULTS] += files_.faults();
        counts_[Mode::BROKEN] += !wrong_.empty();
        return wrong_;
    }
};

}  // namespace adapters

#endif
