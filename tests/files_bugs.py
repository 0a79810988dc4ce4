"""Classic bugs of programs that write files: each is found by `explore` within a second, and the program without it passes in every
profile, with all runs made. The last line is `N passed, M failed`. With the name of a test only that one is run."""

import functools
import os
import sys
import zlib

TOP = os.path.dirname(os.path.dirname(os.path.abspath(__file__)))
sys.path.insert(0, os.path.join(TOP, "bindings", "python"))

from passing import run_tests

from blobcrash import Failed, Injected, PowerLoss, explore

PROFILES = ("ext4", "xfs", "btrfs", "posix")
SETTINGS = ["write 0 1 1 2 sectors 4"]
# How many runs an exploration may have: far less than a second's.
MOST_RUNS = 1000


class Settings:
    """A value in a file, which is replaced by a rename."""

    def __init__(self, files, forgets=""):
        self.files, self.forgets = files, forgets

    def save(self, value):
        with self.files.open("/new", "wb") as file:
            file.write(value)
            if self.forgets != "file":
                self.files.fsync(file)
        self.files.rename("/new", "/settings")
        if self.forgets != "directory":
            self.files.fsync_directory("/")

    def load(self):
        with self.files.open("/settings") as file:
            return file.read()


def saves(files, forgets=""):
    """After a crash the value is the last one that was saved, or the one that was being saved. The first one is saved without a bug."""
    may = [None]
    try:
        for settings, value in ((Settings(files), b"first"), (Settings(files, forgets), b"second")):
            may = [may[-1], value]
            settings.save(value)
            may = [value]
    except PowerLoss:
        pass
    files.restart()
    found = Settings(files).load() if files.exists("/settings") else None
    assert found in may, f"{found} is found, and not {may[-1]}"


class Log:
    """Records in a file that only grows: each has its length in a byte, four bytes of a checksum, and its bytes."""

    def __init__(self, files, checks=True):
        self.files, self.checks = files, checks
        if not files.exists("/log"):
            with files.open("/log", "xb") as file:
                files.fsync(file)
            files.fsync_directory("/")

    def append(self, record):
        with self.files.open("/log", "ab") as file:
            file.write(bytes([len(record)]) + zlib.crc32(record).to_bytes(4, "big") + record)
            self.files.fsync(file)

    def records(self):
        with self.files.open("/log") as file:
            content = file.read()
        found = []
        while content:
            end = 5 + content[0]
            record, sum_ = content[5:end], content[1:5]
            if len(content) < end or content[0] == 0 or (self.checks and zlib.crc32(record).to_bytes(4, "big") != sum_):
                break
            found.append(record)
            content = content[end:]
        return found


def appends(files, checks=True):
    """After a crash the log has each record that was appended, and at most the one that was being appended."""
    tried, acknowledged = [], []
    try:
        log = Log(files, checks)
        for record in (b"seven..", b"letters"):
            tried.append(record)
            log.append(record)
            acknowledged.append(record)
    except PowerLoss:
        pass
    found = files.recover(lambda: Log(files, checks).records())
    assert found in (acknowledged, tried), f"{found} are found, and not {tried}"


def checkpoints(files, retries=False):
    """A page is written to its file before the log that has it is emptied. After a crash it is in one of them. If the fsync of the file
    fails, the log stays. The bug of PostgreSQL until 2018: the fsync is tried again, and the page isn't."""
    page, is_set_up = b"page", False
    try:
        for path, content in (("/data", b"...."), ("/log", page)):
            with files.open(path, "xb") as file:
                file.write(content)
        files.settle()
        is_set_up = True
        files.configure("sync 1 2")
        checkpoint(files, page, retries)
    except (Injected, PowerLoss):
        pass
    files.restart()
    if not is_set_up:
        return
    with files.open("/data") as data, files.open("/log") as log:
        found = data.read(), log.read()
    assert page in found, f"{found} are found, and the page in neither"


def checkpoint(files, page, retries):
    """Writes a page to its file, and empties the log."""
    with files.open("/data", "r+b") as data:
        data.write(page)
        try:
            files.fsync(data)
        except Injected:
            if not retries:
                raise
            files.fsync(data)
    with files.open("/log", "r+b") as log:
        log.truncate(0)
        files.fsync(log)


def explored(body, profile, settings=(), **flags):
    """Explores a body with a power loss at each call. Returns the failure, or `None`."""
    try:
        visited = explore(functools.partial(body, **flags), files=profile, settings=[*SETTINGS, *settings], power_losses=1)
        assert str(visited).endswith("runs, all of them") and visited.runs < MOST_RUNS, visited
        return None
    except Failed as failed:
        assert failed.run < MOST_RUNS, failed
        return failed


def finds(body, profiles, text, **flags):
    """Checks that a bug is found in these profiles, and in no other."""
    for profile in PROFILES:
        failed = explored(body, profile, **flags)
        assert (failed is not None) == (profile in profiles), f"{profile}: {failed}"
        assert failed is None or text in failed.reason, failed


def test_no_sync_before_a_rename():
    # In ext4 the file is as long as it was at the rename, and may have zeros.
    finds(saves, PROFILES, "is found, and not b'second'", forgets="file")


def test_no_sync_of_the_directory():
    finds(saves, PROFILES, "and not b'", forgets="directory")


def test_an_append_without_a_checksum():
    finds(appends, PROFILES, "letters", checks=False)


def test_a_failed_sync_that_is_tried_again():
    # Where a failed sync keeps the bytes unsynced, the second one writes them.
    finds(checkpoints, PROFILES, "the page in neither", settings=["failed_sync drops"], retries=True)
    finds(checkpoints, (), "", settings=["failed_sync keeps"], retries=True)


def test_without_bugs():
    finds(saves, (), "")
    finds(appends, (), "")
    finds(checkpoints, (), "", settings=["failed_sync drops"])


if __name__ == "__main__":
    sys.exit(run_tests(globals(), sys.argv[1:]))
