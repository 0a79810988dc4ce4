"""check.py PROGRAM: whether a program would find what it acknowledged below $STATE, by hand: it reads as much of the program's files as that
takes. Exits with 0 or 1."""

import glob
import hashlib
import os
import re
import sys
import zlib

STATE = os.environ["STATE"]


def content(*names):
    """The bytes of a file, or of the files of a pattern. Empty if there is none."""
    found = b""
    for path in sorted(glob.glob(os.path.join(STATE, *names))):
        with open(path, "rb") as file:
            found += file.read()
    return found


def is_whole(log):
    """Whether a log of Redis has whole commands alone: `*COUNT`, and for each word `$LENGTH` and the word."""
    while log:
        count = re.match(rb"\*(\d+)\r\n", log)
        if count is None:
            return False
        log = log[count.end() :]
        for _ in range(int(count[1])):
            length = re.match(rb"\$(\d+)\r\n", log)
            if length is None or log[length.end() + int(length[1]) :][:2] != b"\r\n":
                return False
            log = log[length.end() + int(length[1]) + 2 :]
    return True


def redis_new(acknowledged):
    """The log has each value."""
    return all(value in content("appendonlydir", "appendonly.aof.1.incr.aof") for value in acknowledged)


def redis_zeros(_):
    """The log has no zeros, at which Redis doesn't start."""
    return b"\0" not in content("appendonlydir", "appendonly.aof.1.incr.aof")


def redis_truncation(acknowledged):
    """The files of the manifest have the key, and each log is whole but the last one, which Redis truncates."""
    names = re.findall(r"file (\S+) seq \d+ type [bi]", content("appendonlydir", "appendonly.aof.manifest").decode())
    logs = [content("appendonlydir", name) for name in names if name.endswith(".incr.aof")]
    has_key = all(any(key in content("appendonlydir", name) for name in names) for key in acknowledged)
    return has_key and all(map(is_whole, logs[:-1]))


def lmdb_new(acknowledged):
    """A page has the value, of a letter 37 times."""
    return not acknowledged or b"1:" + 37 * b"b" in content("store", "data.mdb")


def etcd_new(acknowledged):
    """The log has the value."""
    return not acknowledged or b"acknowledged-value" in content("data", "member", "wal", "*.wal")


def etcd_start(_):
    """If there is a log, it has the entry that names the members."""
    return not os.path.isdir(os.path.join(STATE, "data/member/wal")) or b"peerURLs" in content("data", "member", "wal", "*.wal")


def initdb(acknowledged):
    """All files are there."""
    files = (("PG_VERSION",), ("base", "1", "1259"), ("global", "pg_control"))
    return not acknowledged or all(content("cluster", *names) for names in files)


def postgres_start(_):
    """The lock file isn't empty."""
    return not os.path.exists(os.path.join(STATE, "cluster/postmaster.pid")) or content("cluster", "postmaster.pid") != b""


def has_objects(name):
    """Whether the loose file of an object of git exists and is whole, and so are those of all objects that it names."""
    packed = content("r", ".git", "objects", name[:2], name[2:])
    if not packed:
        return False
    found = zlib.decompress(packed)
    head, body = found.split(b"\0", 1)
    named = []
    if head.startswith(b"commit "):
        named = re.findall(r"^(?:tree|parent) (\w+)$", body.split(b"\n\n")[0].decode(), re.M)
    elif head.startswith(b"tree "):
        named = [each.hex() for each in re.findall(rb"\d+ [^\0]+\0(.{20})", body, re.S)]
    return hashlib.sha1(found).hexdigest() == name and all(map(has_objects, named))


def git_fsync(acknowledged):
    """The commit that the branch names exists with all its objects, and is the acknowledged one."""
    commit = content("r", ".git", "refs", "heads", "main").decode().strip()
    return has_objects(commit) and (not acknowledged or commit == acknowledged[-1].decode())


def number_at(record, at):
    """A number in groups of seven bits, the lowest first, and the offset after it."""
    number = shift = 0
    while record[at] & 128:
        number, shift, at = number | (record[at] & 127) << shift, shift + 7, at + 1
    return number | record[at] << shift, at + 1


def text_at(record, at):
    """A text after its length, and the offset after it."""
    length, at = number_at(record, at)
    return record[at : at + length], at + length


def leveldb_files(manifest):
    """The first log that a manifest names, and its tables. Each edit is a record, with a checksum, its length and its kind before it."""
    log, tables = 0, []
    while len(manifest) > 7 and any(manifest[:7]):
        end = 7 + int.from_bytes(manifest[4:6], "little")
        record, manifest, at = manifest[7:end], manifest[end:], 0
        while at < len(record):
            tag, at = number_at(record, at)
            if tag == 1:
                _, at = text_at(record, at)
            elif tag in (2, 3, 4, 9):
                number, at = number_at(record, at)
                log = number if tag == 2 else log
            else:
                # A table: its level, number and size, and its first and last key.
                assert tag == 7, tag
                _, at = number_at(record, at)
                number, at = number_at(record, at)
                tables.append(number)
                _, at = number_at(record, at)
                for _ in range(2):
                    _, at = text_at(record, at)
    return log, tables


def leveldb_current(_):
    """If there is a CURRENT, the manifest that it names exists."""
    name = content("store", "CURRENT").decode().strip()
    return not name or os.path.exists(os.path.join(STATE, "store", name))


def leveldb_keys(acknowledged):
    """Each key is in a table or a log of the manifest."""
    log, tables = leveldb_files(content("store", content("store", "CURRENT").decode().strip()))
    logs = sorted(int(name[:6]) for name in os.listdir(os.path.join(STATE, "store")) if name.endswith(".log"))
    names = [f"{number:06}.ldb" for number in tables] + [f"{number:06}.log" for number in logs if number >= log]
    found = b"".join(content("store", name) for name in names)
    return all(bytes([len(key)]) + key in found for key in acknowledged)


if __name__ == "__main__":
    with open(os.environ["ACKNOWLEDGED"], "rb") as told:
        sys.exit(not globals()[sys.argv[1]](told.read().split()))
