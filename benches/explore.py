"""For benches/explore.sh: explores 64 runs as often as the last argument says; with `write` before it makes a hundred typed writes of eight
bytes as often. A run writes six bytes, crashes, and reads what is left."""

import sys

from blobcrash import Library, Store, explore


def body(store):
    log, _ = store.open("wal", b"0")
    log.write(0, b"record")
    store.restart()
    log, size = store.open("wal", b"0")
    return log.read(0, size)


def writes(count):
    with Store(by=Library) as store:
        blob, _ = store.open("p", b"b")
        write, data = blob.write, bytes(8)
        for at in range(count):
            write(at % 64 * 8, data)


if sys.argv[1] == "write":
    writes(100 * int(sys.argv[2]))
else:
    for _ in range(int(sys.argv[1])):
        assert explore(body, settings=["write 0 1 1 2 subset"]).runs == 64
