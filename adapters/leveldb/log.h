// LevelDB's own log of information: printed with BLOBCRASH_TRACE, and kept out of the disk.
#ifndef BLOBCRASH_LEVELDB_LOG_H
#define BLOBCRASH_LEVELDB_LOG_H

#include <leveldb/env.h>

#include <cstdio>
#include <cstdlib>

class TracedLog : public leveldb::Logger {
  public:
    void Logv(const char* format, va_list words) override {
        if (getenv("BLOBCRASH_TRACE") == nullptr) return;
        vfprintf(stderr, format, words);
        fputc('\n', stderr);
    }
};

#endif
