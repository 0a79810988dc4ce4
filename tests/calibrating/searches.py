"""Random programs on a file system, in several processes."""

import multiprocessing
import os
import queue
import sys
import time

from batches import Worker, alone_of
from cases import random_case
from disks import Refused, end_with

# How many programs run side by side on one file system, and how many on one image one after another.
GROUP, BATCH = 8, 32


def describe(found):
    """A line for a state that is outside."""
    return f"{found.case} | after {found.done}{'+' if found.inside else ''} | {found.state} | {found.how} | {found.alone}"


def save(path, name, groups, seen):
    """Appends the states that programs left to a file, each program with the syncs of the others in its group."""
    cases = {number: alone_of(group, number) for group in groups for number in group}
    lines = []
    for number, found in seen.items():
        for done, inside, state in sorted({(each.done, each.inside, each.state) for each in found}):
            lines.append(f"{name}\t{number}\t{cases[number]}\t{done}\t{int(inside)}\t{state}\n")
    with open(path, "a", encoding="utf-8") as file:
        file.write("".join(lines))


def batches_of(options, index):
    """The first seeds of a process's batches."""
    first = options.first + index * BATCH
    while options.programs is None or first < options.first + options.programs:
        yield first
        first += options.jobs * BATCH


def groups_of(options, first):
    end = first + BATCH if options.programs is None else min(first + BATCH, options.first + options.programs)
    return [{seed: random_case(seed, options.unit) for seed in range(at, min(at + GROUP, end))} for at in range(first, end, GROUP)]


def work(programs, options, index, until, results):
    """A process: checks its batches, and puts what each came to, an error's text, and None at its end."""
    end_with(os.getppid())
    worker = None
    try:
        worker = Worker(options.fs, options.profile, programs)
        for first in batches_of(options, index):
            if time.monotonic() > until:
                break
            groups = groups_of(options, first)
            checked = worker.check(groups, options.crashes, bool(options.save), not options.only_save)
            if options.save:
                save(options.save, options.fs, groups, checked.seen)
            results.put(checked._replace(seen={}))
    except (Refused, OSError) as error:
        results.put(str(error))
    finally:
        if worker is not None:
            worker.close()
        results.put(None)


def search(programs, options):
    """Checks random programs, and prints those of which a state is outside. Returns how many there are. Raises Refused."""
    seconds = options.seconds if options.seconds is not None else float("inf") if options.programs else 60
    began = time.monotonic()
    context = multiprocessing.get_context("fork")
    results = context.Queue()
    workers = [context.Process(target=work, args=(programs, options, index, began + seconds, results)) for index in range(options.jobs)]
    for each in workers:
        each.start()
    count = crashes = outside = 0
    left = options.jobs
    while left:
        try:
            got = results.get(timeout=5)
        except queue.Empty:
            if not any(each.is_alive() for each in workers):
                raise Refused("a process has ended") from None
            continue
        if got is None:
            left -= 1
        elif isinstance(got, str):
            raise Refused(got)
        else:
            count, crashes = count + got.cases, crashes + got.crashes
            for found in {each.case: each for each in got.outside}.values():
                outside += 1
                print(describe(found), flush=True)
    for each in workers:
        each.join()
    took = time.monotonic() - began
    print(f"# {options.fs}: {count} programs, {crashes} crashes, {outside} outside; {took:.0f} s, {60 * count / took:.0f} a minute")
    sys.stdout.flush()
    return outside
