#include "compare.h"

#include "driver.h"
#include "life.h"
#include "mode.h"

#include <cinttypes>
#include <cstdio>
#include <cstdlib>
#include <string>

#include <sys/resource.h>

namespace {

const char* const MODES[] = {"sync", "sync-posix", "sync-checkpoints-posix", "nosync", "nosync-families", "nosync-transactions", "nosync-blobs"};

// Of the lives, which are processes of their own.
double processor_seconds() {
    struct rusage used;
    getrusage(RUSAGE_CHILDREN, &used);
    return static_cast<double>(used.ru_utime.tv_sec + used.ru_stime.tv_sec) +
           static_cast<double>(used.ru_utime.tv_usec + used.ru_stime.tv_usec) / 1e6;
}

void run(const std::string& mode, const char* disk, uint64_t seeds) {
    uint64_t counts[DRIVER_COUNTS] = {};
    double began = processor_seconds();
    for (uint64_t seed = 1; seed <= seeds; seed++) {
        uint64_t one[DRIVER_COUNTS] = {};
        live(mode.c_str(), seed, false, one);
        for (size_t at = 0; at < DRIVER_COUNTS; at++) counts[at] += one[at];
    }
    double seconds = processor_seconds() - began;
    printf("| %-29s | %-7s | %7" PRIu64 " | %7" PRIu64 " | %7" PRIu64 " | %7" PRIu64 " | %7" PRIu64 " | %9.0f |\n", mode.c_str(), disk,
           counts[Mode::CRASHES], counts[Mode::BROKEN], counts[Mode::LOST], counts[Mode::CORRUPT], counts[Mode::WRONG],
           static_cast<double>(counts[Mode::CRASHES]) / seconds);
    fflush(stdout);
}

}  // namespace

int compare(const char* text) {
    char* end;
    uint64_t seeds = strtoull(text, &end, 10);
    if (*text < '1' || *text > '9' || *end != 0) return 2;
    puts("| mode                          | disk    | crashes | broken |    lost | corrupt |   wrong | crashes/s |");
    puts("|-------------------------------|---------|--------:|-------:|--------:|--------:|--------:|----------:|");
    for (const char* mode : MODES) {
        run(mode, "library", seeds);
        run(std::string(mode) + "-simple", "simple", seeds);
    }
    return 0;
}
