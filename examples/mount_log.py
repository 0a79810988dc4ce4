#!/usr/bin/env python3
"""
A log of records in a file, for tools/crash_run. An ordinary program: it knows nothing of the layer.

  mount_log.py append [--forget-sync|--forget-directory]   appends records to $MOUNT/log, and acknowledges each in $ACKNOWLEDGED
  mount_log.py check                                       exits with 1 if an acknowledged record is missing

    tools/crash_run --profile posix --work 'examples/mount_log.py append --forget-directory' --check 'examples/mount_log.py check'
    tools/check_program --profile posix --work 'examples/mount_log.py append --forget-directory' --check 'examples/mount_log.py check'
"""

import os
import sys
import zlib

RECORDS = 12


def record(number):
    """Returns a record: a line with its number, some bytes and their checksum."""
    text = f"{number} {'x' * (number * 97 % 400)}"
    return f"{text} {zlib.crc32(text.encode()):08x}\n".encode()


def append(path, acknowledged, forgets):
    """Appends records. Each is acknowledged when it is durable."""
    with open(path, "ab", buffering=0) as log:
        if forgets != "--forget-directory":
            directory = os.open(os.path.dirname(path), os.O_RDONLY)
            os.fsync(directory)
            os.close(directory)
        for number in range(RECORDS):
            log.write(record(number))
            if forgets != "--forget-sync":
                os.fsync(log.fileno())
            with open(acknowledged, "a") as file:
                file.write(f"{number}\n")


def check(path, acknowledged):
    """Returns 1 if an acknowledged record is missing, otherwise 0."""
    with open(acknowledged) as file:
        count = len(file.readlines())
    try:
        with open(path, "rb") as log:
            found = log.read()
    except FileNotFoundError:
        found = b""
    expected = b"".join(record(number) for number in range(count))
    if found.startswith(expected):
        return 0
    print(f"{count} records were acknowledged, and they aren't all there")
    return 1


if __name__ == "__main__":
    LOG = os.path.join(os.environ["MOUNT"], "log")
    if sys.argv[1:] == ["check"]:
        sys.exit(check(LOG, os.environ["ACKNOWLEDGED"]))
    append(LOG, os.environ["ACKNOWLEDGED"], sys.argv[2] if len(sys.argv) > 2 else None)
