/* RocksDB: the interface of LevelDB under other names. */
#define USE_ROCKSDB
#include "leveldb.c"
