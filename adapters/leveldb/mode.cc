#include "mode.h"

static bool read_own(const std::string& word, Mode* mode) {
    if (word == "faults") mode->fails = true;
    else if (word == "reads") mode->fails_reads = true;
    else if (word == "paranoid") mode->is_paranoid = true;
    else if (word == "reuse") mode->reuses = true;
    else if (word == "create") mode->extra.after_create = true;
    else if (word == "rename") mode->extra.after_rename = true;
    else return false;
    return true;
}

bool mode_read(const char* name, Mode* mode) { return adapters::read_mode(name, mode, read_own); }

// With `paranoid_checks` a database may be refused.
const char* mode_verdict(const char* name, const uint64_t* counts) {
    Mode mode;
    mode_read(name, &mode);
    return adapters::batch_verdict(mode, counts, mode.is_paranoid, false);
}
