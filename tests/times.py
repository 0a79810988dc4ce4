"""Measures the processor seconds of each crate in a run of ./test.

    times.py watch PID FILE      watches the processes that PID starts, until SIGTERM or the end of PID, and writes FILE: a line for each
                                 crate, with the seconds of its proof, of its must-fail edits (with the proof that they start from) and of
                                 its tests; FILE.now has the crates whose checks run
    times.py table FILE BUDGET   prints FILE as a table, and a warning for each crate more than a fifth above its budget

The seconds are those that the system counts for each process of the prover and compiler. They are read once a second, so the last
second of a process can be missing. A crate that an earlier run proved has no line.
"""

import os
import re
import signal
import sys
import time

KINDS = ("proof", "edits", "tests")
TICKS = os.sysconf("SC_CLK_TCK")


def processes():
    """Returns for each process its parent, its start time and its processor seconds."""
    found = {}
    for name in os.listdir("/proc"):
        if name.isdigit():
            try:
                with open(f"/proc/{name}/stat", encoding="utf-8", errors="replace") as file:
                    fields = file.read().rpartition(")")[2].split()
            except OSError:
                continue
            found[int(name)] = int(fields[1]), int(fields[19]), (int(fields[11]) + int(fields[12])) / TICKS
    return found


def of_crate(number):
    """Returns the crate and the kind of work of a process, or None if it isn't the prover."""
    try:
        with open(f"/proc/{number}/cmdline", "rb") as file:
            words = file.read().decode(errors="replace").split("\0")
        folder = os.path.basename(os.readlink(f"/proc/{number}/cwd"))
    except OSError:
        return None
    if "--crate-name" not in words[:-1] or os.path.basename(words[0]) != "rattle":
        return None
    kind = "edits" if folder.startswith("rt-edit-") else "tests" if "--test" in words else "proof"
    return words[words.index("--crate-name") + 1], kind


def watch(root, path):
    told, seconds = {}, {}

    def write(*_):
        sums = {}
        for work, spent in seconds.values():
            sums[work] = sums.get(work, 0) + spent
        with open(f"{path}.new", "w", encoding="utf-8") as file:
            for crate in sorted({crate for crate, _ in sums}):
                print(crate, *[round(sums.get((crate, kind), 0)) for kind in KINDS], file=file)
        os.replace(f"{path}.new", path)

    def stop(*_):
        write()
        sys.exit(0)

    signal.signal(signal.SIGTERM, stop)
    while os.path.exists(f"/proc/{root}"):
        found, now = processes(), set()
        for number, (_, began, spent) in found.items():
            work, above = None, number
            while above in found and above != root:
                parent, at, _ = found[above]
                # A process that is still a shell or an interpreter can become the prover: ask again next time.
                if told.get((above, at)) is None:
                    told[above, at] = of_crate(above)
                work, above = work or told[above, at], parent
            if work and above == root:
                seconds[number, began] = work, spent
                now.add(work[0])
        with open(f"{path}.now", "w", encoding="utf-8") as file:
            print(*sorted(now), file=file)
        write()
        time.sleep(1)


def read(path):
    found = {}
    with open(path, encoding="utf-8") as file:
        for line in file:
            words = line.partition("#")[0].split()
            if words:
                found[words[0]] = [int(it) for it in words[1:]]
    return found


def table(path, budget):
    times, wanted = read(path), read(budget)
    row = "{:<18} {:>7} {:>7} {:>7} {:>7} {:>7}".format
    print(row("processor seconds", *KINDS, "all", "budget"))
    for crate, spent in times.items():
        print(row(crate, *spent, sum(spent), sum(wanted.get(crate, [])) or "none"))
    print(row("all", *[sum(it) for it in zip(*times.values())] or [0, 0, 0], sum(map(sum, times.values())), sum(map(sum, wanted.values()))))
    for crate, spent in times.items():
        if crate not in wanted:
            print(f"warning: {crate} has no line in {budget}")
        elif sum(spent) > 1.2 * sum(wanted[crate]):
            print(f"warning: {crate} took {sum(spent)} processor seconds, more than a fifth above the {sum(wanted[crate])} of {budget}")


def main(words):
    if len(words) == 3 and words[0] == "watch" and re.fullmatch("[0-9]+", words[1]):
        watch(int(words[1]), words[2])
    elif len(words) == 3 and words[0] == "table":
        table(*words[1:])
    else:
        print(__doc__, file=sys.stderr)
        sys.exit(2)


main(sys.argv[1:])
