// One recorded run of LevelDB, and the check of what a crash of it left: `tools/states` makes all of them.
#ifndef BLOBCRASH_LEVELDB_RECORDED_H
#define BLOBCRASH_LEVELDB_RECORDED_H

// Records a short run in this mode to a new script: three batches in a new database, three more after it was opened again. Each that was
// acknowledged has a comment. Returns an exit status.
int recorded_run(const char* script, const char* mode);

// Opens the database below a folder by LevelDB's own Env. Returns 0 if it has the rows of one of the batches, and that isn't before the
// last acknowledged one, of which the file `acknowledged` has the numbers; otherwise 1, and says why.
int recorded_check(const char* folder, const char* acknowledged);

#endif
