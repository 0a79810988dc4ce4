#!/usr/bin/env python3
"""Random lists of calls, in which every fixed byte must be found again: `fixed_bytes.py PROGRAM [LISTS]`, or `fixed_bytes.py --library [LISTS]`
in a session of the library, where all fixed bytes are also compared with the durable bytes of the store after each call.

Which bytes are fixed is known from the calls and the replies alone (docs/PROOFS.md: what fixes a byte, what reaches it). No call is a
`loose` open. Each read, also that of all bytes after each open, must have the fixed bytes and the live ones that are known. A stale
handle makes nothing durable. The last line is `N passed, M failed`; too few calls, faults or compared bytes are a failure.
"""

import collections
import functools
import os
import random
import sys

sys.dont_write_bytecode = True
sys.path.append(os.path.join(os.path.dirname(os.path.dirname(os.path.abspath(__file__))), "bindings", "python"))
from blobcrash.grammar import unhex
from blobcrash.layers import Library
from blobcrash.met import durable_blobs
from random_scripts import Asked

STEPS = 40
FILES = [("p", "62"), ("p", "-"), ("q", "62"), ("q", "-")]
IMAGES = ["4357494300000000" + b"image".hex(), "4357494300000005" + b"of five".hex(), "4357494b", "4357494b000100051de3"]
FOREVER = 2**64
# No write or resize that succeeds reaches further.
FAR = 2**16


class InProcess:
    """A session of the library, asked as `Asked` is. It has the durable bytes too."""

    def __init__(self, preamble):
        self.lines = list(preamble)
        self._session = Library("\n".join([*preamble, ""]).encode())

    def ask(self, line):
        self.lines.append(line)
        return self._session.call(line.encode()).decode().split()

    def durable(self, partition, name):
        found = durable_blobs(self._session, [(partition.encode(), unhex(name))], with_header=False)
        return found[0][2] if found else b""

    def close(self):
        self._session.close()


class Live:
    """The known start of a handle's live bytes, and whether it is all of them."""

    def __init__(self, found):
        self.bytes, self.is_whole = bytearray(found or b""), found is not None

    def forget(self, start):
        del self.bytes[start:]
        self.is_whole = False

    def grow(self, end):
        self.is_whole &= end <= FAR
        if self.is_whole and len(self.bytes) < end:
            self.bytes.extend(bytes(end - len(self.bytes)))

    def write(self, offset, data, is_done):
        if not is_done:
            self.forget(offset)
            return
        self.grow(offset)
        if offset <= len(self.bytes):
            self.bytes[offset : offset + len(data)] = data

    def resize(self, size, is_done):
        if is_done and size > len(self.bytes):
            self.grow(size)
        else:
            self.forget(size)
            self.is_whole = is_done

    def takes(self, read):
        """Whether these can be all live bytes. They are known from now on."""
        known = len(self.bytes)
        is_same = read[:known] == self.bytes[: len(read)]
        more = read[known:]
        is_longer = len(more) > 0
        if is_longer:
            self.bytes.extend(more)
        return is_same and not (is_longer and self.is_whole)


class Handle:
    def __init__(self, file, found):
        self.file, self.live, self.is_current = file, Live(found), True


class List:
    """One list of calls as it goes on."""

    def __init__(self, begin, seed, counts):
        self.chance, self.counts, self.problems = random.Random(seed), counts, []
        preamble = [f"seed {seed}"]
        if self.chance.random() < 0.5:
            preamble += [f"image {partition} {name} {raw}" for (partition, name), raw in zip(FILES, IMAGES)]
        self.run = begin(preamble)
        self.fixed = [{} for _ in FILES]
        self.handles, self.started, self.syncs_succeed = [], {}, True

    def ask(self, line):
        self.compare_durable()
        answer = self.run.ask(line)
        kind = line.split()[0]
        self.counts[kind] += 1
        self.counts[" ".join(answer[1:2]) if answer[0] == "error" else answer[0]] += 1
        if answer[:2] == ["error", "Injected"]:
            self.counts["Injected " + kind] += 1
        return answer

    def expect(self, holds, text):
        if not holds:
            self.problems.append(f"line {len(self.run.lines)}: {self.run.lines[-1]}: {text}")

    # What is fixed.

    def reach(self, file, start, end):
        for fixed in [self.fixed[file]] + [fixed for of, fixed in self.started.values() if of == file]:
            for at in [at for at in fixed if start <= at < end]:
                del fixed[at]

    def fix(self, file, offset, data):
        self.fixed[file].update(enumerate(data, offset))

    def compare(self, file, offset, data, is_all):
        """Compares bytes that were read with the fixed ones."""
        for at, byte in self.fixed[file].items():
            if is_all or offset <= at < offset + len(data):
                self.counts["compared"] += 1
                self.expect(data[at - offset : at - offset + 1] == bytes([byte]), f"the fixed byte {at} isn't found")

    def compare_durable(self):
        """Compares all fixed bytes with the durable ones, after the last call."""
        if isinstance(self.run, InProcess):
            for fixed, (partition, name) in zip(self.fixed, FILES):
                durable = self.run.durable(partition, name) if fixed else b""
                for at, byte in fixed.items():
                    self.counts["durable"] += 1
                    self.expect(durable[at : at + 1] == bytes([byte]), f"the fixed byte {at} of {partition} {name} isn't durable")

    def current(self):
        return [number for number, handle in enumerate(self.handles) if handle is not None and handle.is_current]

    def of(self, number):
        """The handle of a number, if it is current."""
        return self.handles[number] if number in self.current() else None

    def end_handles(self, file=None):
        for handle in self.handles:
            if handle is not None and file in (None, handle.file):
                handle.is_current = False

    # Calls.

    def number(self):
        """Mostly the number of a current handle, else any."""
        current = self.current()
        return self.chance.choice(current) if current and self.chance.random() < 0.9 else self.chance.randrange(len(self.handles) + 1)

    def name(self):
        return " ".join(self.chance.choice(FILES))

    def open(self, file):
        versions = self.chance.choice([""] * 11 + [" 0 9"] * 4 + [" 5 3"])
        answer = self.ask(f"open {FILES[file][0]} {FILES[file][1]}{versions}")
        if answer[0] != "opened":
            return
        number, size = int(answer[1]), int(answer[2])
        self.expect(number == len(self.handles) and all(self.handles[at].file != file for at in self.current()), "another handle is open")
        found = None
        for _ in range(9):
            read = self.ask(f"read {number} 0 {size}")
            if read[0] == "bytes":
                found = bytes.fromhex(read[1].replace("-", ""))
                self.compare(file, 0, found, True)
                self.fix(file, 0, found)
                break
        self.handles.append(Handle(file, found))

    def read(self, number=None, offset=None):
        number = self.number() if number is None else number
        size = self.ask(f"size {number}")
        if size[0] != "size":
            return
        start = self.chance.randrange(24) if offset is None else offset
        read = self.ask(f"read {number} {start} {max(int(size[1]) - start, 0)}")
        handle = self.of(number)
        if read[0] == "bytes" and handle is not None:
            data = bytes.fromhex(read[1].replace("-", ""))
            self.compare(handle.file, start, data, False)
            self.expect(start > 0 or handle.live.takes(data), "other live bytes are read")

    def write(self, sync):
        number, data = self.number(), self.chance.randbytes(self.chance.randrange(12))
        offset = 2**64 - 1 - self.chance.randrange(8192) if self.chance.random() < 0.04 else self.chance.randrange(32)
        is_done = self.ask(f"{'writes' if sync else 'write'} {number} {offset} {data.hex() or '-'}") == ["ok"]
        handle = self.of(number)
        if sync and not data:
            return
        if handle is None:
            self.expect(not (sync and is_done), "a stale handle makes bytes durable")
            return
        handle.live.write(offset, data, is_done)
        self.reach(handle.file, offset, offset + len(data))
        if sync and is_done:
            self.fix(handle.file, offset, data)

    def resize(self):
        number, size = self.number(), 2**64 - 1 if self.chance.random() < 0.04 else self.chance.randrange(48)
        is_done = self.ask(f"resize {number} {size}") == ["ok"]
        handle = self.of(number)
        if handle is not None:
            handle.live.resize(size, is_done)
            self.reach(handle.file, size, FOREVER)

    def sync(self):
        number = self.number()
        if self.chance.random() < 0.5:
            self.read(number, 0)
        is_done = self.ask(f"sync {number}") == ["ok"]
        handle = self.of(number)
        if handle is None:
            self.expect(not is_done, "a stale handle makes bytes durable")
            return
        self.expect(is_done or not self.syncs_succeed, "the sync fails")
        if is_done:
            self.fix(handle.file, 0, handle.live.bytes)

    def start_sync(self):
        """A started sync fixes the bytes from its start on. Whether it succeeded is reported when it is finished."""
        number = self.number()
        answer = self.ask(f"startsync {number}")
        if answer[0] != "started":
            return
        handle = self.of(number)
        if handle is not None:
            fixed = dict(enumerate(handle.live.bytes))
            self.started[int(answer[1])] = handle.file, fixed
            if self.syncs_succeed:
                self.fixed[handle.file].update(fixed)
        if self.chance.random() < 0.7:
            self.finish(int(answer[1]))

    def finish(self, number):
        if self.ask(f"finish {number}") == ["ok"] and number in self.started:
            file, fixed = self.started[number]
            self.fixed[file].update(fixed)

    def close(self):
        number = self.number()
        handle = self.of(number)
        if self.ask(f"close {number}") == ["ok"]:
            self.handles[number] = None
            if handle is not None and self.chance.random() < 0.75:
                self.open(handle.file)

    def remove(self):
        partition, name = self.chance.choice(FILES)
        if self.chance.random() < 0.3:
            name = ""
        if self.ask(f"remove {partition} {name}".rstrip()) == ["ok"]:
            for file, (of, called) in enumerate(FILES):
                if of == partition and name in ("", called):
                    self.reach(file, 0, FOREVER)
                    self.end_handles(file)

    def crash(self):
        """Crashes, and half of the time opens every file again."""
        self.ask("crash")
        if self.chance.random() < 0.5:
            self.ask("reopen")
            self.started.clear()
            self.end_handles()
            for file in range(len(FILES)):
                self.open(file)

    def configure(self):
        rate = lambda: self.chance.choice(["0 1", "0 1", "1 1", "1 4", "3 4", "1 3", "1 2", "1 2"])
        low = lambda: self.chance.choice([rate(), "1 8", "1 8"] + [None] * 5)
        mode = self.chance.choice(["prefix", "subset", f"sectors {self.chance.randrange(1, 7)}"])
        write = f"{self.chance.choice(['0 1', rate()])} {self.chance.choice(['1 1', rate(), rate(), rate()])} {mode}"
        sync = low()
        rates = {"write": self.chance.choice([write] * 7 + [None]), "resize": self.chance.choice([f"{rate()} {rate()}"] * 3 + [None]), "sync": sync}
        rates.update((kind, low()) for kind in ("open", "read", "remove", "scan"))
        self.ask("config clear")
        self.counts[mode.split()[0]] += rates["write"] is not None
        for kind, wanted in rates.items():
            if wanted is not None:
                self.ask(f"config {kind} {wanted}")
        self.syncs_succeed = sync is None or sync.startswith("0")

    def step(self):
        kind = self.chance.choices(
            ["write", "writes", "open", "remove", "admit", "scan", "sync", "startsync", "finish", "resize", "crash", "close", "config", "read"],
            [19, 9, 4, 1, 1, 1, 3, 3, 1, 4, 7, 6, 3, 3],
        )[0]
        if not self.current() and self.chance.random() < 0.75:
            kind = "open"
        calls = {
            "write": lambda: self.write(False),
            "writes": lambda: self.write(True),
            "open": lambda: self.open(self.chance.randrange(len(FILES))),
            "admit": lambda: self.ask(f"admit {self.name()}"),
            "scan": lambda: self.ask(f"scan {self.chance.choice('pq')}"),
            "startsync": self.start_sync,
            "finish": lambda: self.finish(self.chance.randrange(6)),
            "config": self.configure,
        }
        calls.get(kind, lambda: getattr(self, kind)())()

    def play(self):
        self.configure()
        for file in (0, 3):
            self.open(file)
        for _ in range(STEPS):
            self.step()
        for number in self.current():
            self.read(number, 0)
        self.compare_durable()
        self.run.close()


def main(way, lists=300):
    passed, failed, counts = 0, 0, collections.Counter()
    begin = InProcess if way == "--library" else functools.partial(Asked, way)
    for seed in range(lists):
        played = List(begin, seed, counts)
        played.play()
        if played.problems:
            failed += 1
            print(f"fixed_bytes.py: FAILED: list {seed}: {played.problems[0]}")
        else:
            passed += 1
    faults = [f"Injected {kind}" for kind in ("open", "read", "write", "writes", "resize", "sync", "finish", "remove", "scan")]
    met = ["open", "read", "write", "writes", "resize", "sync", "startsync", "finish", "close", "remove", "admit", "scan", "crash", "reopen"]
    too_few = [kind for kind in met + ["NoHandle", "EmptyRange", "BlobMissing", "prefix", "subset", "sectors"] if counts[kind] < lists // 10]
    too_few += [kind for kind in faults if counts[kind] < lists // 50] + ["compared"] * (counts["compared"] < 100 * lists)
    too_few += ["durable"] * (begin is InProcess and counts["durable"] < 1000 * lists)
    if too_few:
        failed += 1
        print(f"fixed_bytes.py: FAILED: the lists had too few of {', '.join(too_few)}")
    print(f"{passed} passed, {failed} failed")
    return int(failed > 0)


if __name__ == "__main__":
    sys.exit(main(sys.argv[1], *map(int, sys.argv[2:])))
