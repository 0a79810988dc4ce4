#!/usr/bin/env python3
"""Runs `log.py` over many seeds, on all processors.

    seeds.py COUNT [--forget-sync] [--from SEED]

On a terminal it shows how many are done. If some fail: how many, the first of them, its script cut to the lines that it takes, and what
that prints, with status 1. After Ctrl-C: how many were done, and with which option to go on. The runs are in-process, by the library; with
the path of a program in BLOBCRASH they use that.
"""

import functools
import multiprocessing
import os
import signal
import sys

import log
import blobcrash


def way():
    """The way to the layer. The library is opened once before there are workers: a clone may compile it now."""
    if "BLOBCRASH" in os.environ:
        return blobcrash.Program
    blobcrash.Store(by=blobcrash.Library).close()
    return blobcrash.Library


def show(seed, reason, script):
    """Prints a failure, cut to the lines that it takes, and its replies with a picture after each crash."""
    short = blobcrash.cut("\n".join(script) + "\n")
    print(f"seed {seed}: {reason}; {len(script)} lines, of which it takes {len(short.splitlines())}:")
    print(short)
    sys.stdout.flush()
    print(blobcrash.explain(short) or "`./blobcrash build explain` builds the program that shows its crashes")


def leave_interrupts():
    """Leaves Ctrl-C to the first process, which ends the others. They end their programs."""
    signal.signal(signal.SIGINT, signal.SIG_IGN)
    signal.signal(signal.SIGTERM, lambda *_: sys.exit())


def main(arguments):
    count, forgets_sync = int(arguments[0]), "--forget-sync" in arguments
    first = int(arguments[arguments.index("--from") + 1]) if "--from" in arguments else 0
    run = functools.partial(log.broken_script, forgets_sync=forgets_sync, by=way())
    broken = {}
    # Ctrl-C is looked at between two seeds: an interrupt inside the pool may keep one of its locks, and then the pool never ends.
    interrupts = []
    signal.signal(signal.SIGINT, lambda *_: interrupts.append(True))
    with multiprocessing.Pool(initializer=leave_interrupts) as pool:
        runs = pool.imap(run, range(first, count), chunksize=8)
        for seed, script in enumerate(blobcrash.counted(runs, count - first, "seeds"), first):
            broken[seed] = script
            if interrupts:
                break
    failing = [seed for seed in broken if broken[seed] is not None]
    if len(broken) < count - first:
        print(f"{len(broken)} seeds of {count - first}; to go on: --from {first + len(broken)}", file=sys.stderr)
        print(f"{len(broken)} seeds, {len(failing)} fail: {failing[:9]}")
        return 130
    if not failing:
        print(f"{len(broken)} seeds, none fails")
        return 0
    print(f"{len(broken)} seeds, {len(failing)} fail")
    show(failing[0], *broken[failing[0]])
    return 1


if __name__ == "__main__":
    sys.exit(main(sys.argv[1:]))
