/* A store, files and a fork from C++17, over all headers of bindings/c. The last line is `N passed, M failed`. */
#include "explore_files.h"

static void on_line(struct blobcrash_session *session, const char *line, size_t len);
static void on_files_line(struct blobcrash_files *files, const char *line, size_t len);
#define BLOBCRASH_ON_LINE on_line
#define BLOBCRASH_ON_FILES_LINE on_files_line
#include "blobcrash_files_calls.h"
#include "fork.h"

#include <functional>
#include <set>
#include <string>
#include <vector>

static int passed, failed;
static blobcrash_script script;
static std::vector<std::string> lines;

static void on_line(blobcrash_session *session, const char *line, size_t len) { blobcrash_add_line(&script, session, line, len); }
static void on_files_line(blobcrash_files *, const char *line, size_t len) { lines.emplace_back(line == nullptr ? "" : line, len); }

static void tell(bool holds, const char *what) {
    (holds ? passed : failed)++;
    if (!holds) printf("explore_cpp.cc: FAILED: %s\n", what);
}

/* Three bytes that a crash keeps or loses each. */
static void stores() {
    std::set<std::string> found;
    blobcrash_paths paths = {};
    blobcrash_session session = {};
    int status;
    while ((status = blobcrash_next_run(&paths, &session, "config write 0 1 1 2 subset\n")) == BLOBCRASH_EXPLORE_RUN) {
        for (const char *line : {"open p 62", "write 0 0 616263"}) blobcrash_explored_text(&paths, &session, line);
        blobcrash_restart(&paths, &session);
        size_t handle = 0;
        uint64_t size = 0;
        blobcrash_open_blob(&session, "p", 1, "b", 1, &handle, &size);
        std::string left(size, '?');
        if (size > 0) blobcrash_read_at(&session, handle, 0, &left[0], size);
        if (blobcrash_end_run(&paths, &session) == BLOBCRASH_EXPLORE_RUN) found.insert(left);
    }
    tell(status == BLOBCRASH_EXPLORE_END && paths.runs == 8, "a store has eight runs");
    tell(found.count("abc") == 1 && found.count("ab") == 1 && found.count("") == 1, "what a store may have");
    blobcrash_free_paths(&paths);
}

/* A new name, a sector of zeros and one of data, each kept or lost, or the power fails at one of three calls before the crash. */
static void files() {
    std::set<std::string> found;
    blobcrash_paths paths = {};
    blobcrash_files at = {};
    paths.power_losses = 1;
    int status;
    while ((status = blobcrash_next_files_run(&paths, &at, "profile posix\nconfig write 0 1 1 2 sectors 512\n")) == BLOBCRASH_EXPLORE_RUN) {
        blobcrash_file_reply file = blobcrash_explored_path(&paths, &at, BLOBCRASH_F_CREATE, "/f", nullptr, 0);
        blobcrash_explored_files_write(&paths, &at, file.number, 0, reinterpret_cast<const uint8_t *>("text"), 4);
        std::string left;
        std::function<bool()> read = [&] {
            uint64_t descriptor = 0;
            size_t count = 0;
            left.assign(9, '?');
            bool is_there = blobcrash_file_open(&at, "/f", &descriptor) == BLOBCRASH_DONE;
            if (is_there) blobcrash_file_read(&at, descriptor, 0, &left[0], left.size(), &count);
            left.resize(count);
            left += is_there ? "" : "none";
            return true;
        };
        blobcrash_recover_files(&paths, &at, [](void *context) { return (*static_cast<std::function<bool()> *>(context))(); }, &read);
        if (blobcrash_end_files_run(&paths, &at) == BLOBCRASH_EXPLORE_RUN) found.insert(left);
    }
    tell(status == BLOBCRASH_EXPLORE_END && paths.runs == 1 + 2 + 8, "files have eleven runs");
    tell(found == std::set<std::string>({"none", "", "text", std::string(4, 0)}), "what files may have");
    tell(!lines.empty() && lines[0] == "open /f", "the calls of files as lines");
    blobcrash_free_paths(&paths);
}

/* A fork goes on from the same state. */
static void forks() {
    const char *preamble = "seed 7\nconfig write 0 1 1 2 subset\n";
    blobcrash_session session = {}, fork = {};
    size_t handle = 0;
    uint64_t size = 0;
    tell(blobcrash_open_recorded(&session, &script, preamble, strlen(preamble)).status == BLOBCRASH_DONE, "a session is opened");
    blobcrash_open_blob(&session, "p", 1, "b", 1, &handle, &size);
    blobcrash_write_at_sync(&session, handle, 0, "durable", 7);
    tell(blobcrash_fork(&script, &fork, nullptr) == BLOBCRASH_DONE, "it is forked");
    blobcrash_resize(&session, handle, 0);
    tell(blobcrash_size(&fork, handle, &size) == BLOBCRASH_DONE && size == 7, "the fork has its own bytes");
    blobcrash_close(&fork);
    blobcrash_close(&session);
    blobcrash_free_script(&script);
}

int main() {
    stores();
    files();
    forks();
    printf("%d passed, %d failed\n", passed, failed);
    return failed != 0;
}
