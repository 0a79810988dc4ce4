"""Times calls from Python, in-process and by a pipe, on standard error. Each figure takes about `argv[1]` seconds."""

import sys
import time

from blobcrash import Library, Program, Store

SECONDS = float(sys.argv[1]) if len(sys.argv) > 1 else 0.5


def tell(name, calls, once):
    rounds, began = 0, time.perf_counter()
    while (taken := time.perf_counter() - began) < SECONDS:
        for _ in range(64):
            once(rounds)
            rounds += 1
    each = taken / (calls * rounds)
    print(f"Python, {name}: {1 / each:.0f} calls/s, {each * 1e9:.0f} ns each", file=sys.stderr)


def times(name, way):
    with Store(by=way) as store:
        blob, _ = store.open("p", b"b")
        tell(f"{name}, size", 1, lambda _: blob.size())
        for length in (8, 512, 4096):
            block = bytes(7 * i % 256 for i in range(length))

            def once(n):
                blob.write(n % 64 * length, block)
                blob.read(n % 64 * length, length)
                if n % 64 == 63:
                    blob.sync()

            tell(f"{name}, write and read of {length} bytes", 2, once)


times("in-process", Library)
times("by pipe", Program)
