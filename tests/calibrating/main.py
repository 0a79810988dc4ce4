"""tools/calibrate: compares what a real file system of this kernel leaves after a power loss with the set of its profile.

    tools/calibrate FS [options]             random programs, until --programs or --seconds
    tools/calibrate FS --program PROGRAM     one program, or each line of a file: every state with how often it was left

FS is ext4, ext4-nodelalloc, xfs or btrfs. A program is `BEFORE -- STEPS`, as `f = A -- append B to f, fsync f`: docs/FILES.md. Prints a
line for each program of which a state is outside: the program, after which step, the state, what the crash kept, and the program with the
syncs of the others that ran beside it. Exit statuses: 1 if a state is outside, 2 for wrong arguments, 3 if root, loop devices, the file
system or one of its tools is missing.
"""

import argparse
import os
import sys
from collections import Counter

sys.dont_write_bytecode = True
sys.path[:0] = [os.path.dirname(os.path.abspath(__file__)), os.path.dirname(os.path.dirname(os.path.abspath(__file__)))]

from batches import Programs, Worker  # noqa: E402
from cases import Case, Follow, valid  # noqa: E402
from disks import KINDS, Refused  # noqa: E402
from files_litmus import SEEN, rows_of  # noqa: E402
from files_steps import parted  # noqa: E402
from rules import Coverage  # noqa: E402
from searches import BATCH, describe, save, search  # noqa: E402
from shrinking import shrink  # noqa: E402

PROFILES = ("ext4", "xfs", "btrfs", "posix")


def parsed():
    """The arguments. The first two are those that tools/calibrate adds."""
    parser = argparse.ArgumentParser(prog="calibrate", description=__doc__, formatter_class=argparse.RawDescriptionHelpFormatter)
    parser.add_argument("mount", help=argparse.SUPPRESS)
    parser.add_argument("trees", help=argparse.SUPPRESS)
    parser.add_argument("fs", choices=list(KINDS), metavar="FS")
    parser.add_argument("--profile", choices=PROFILES, help="compares with the set of another profile")
    parser.add_argument("--programs", type=int, metavar="N", help="stops after N random programs")
    parser.add_argument("--seconds", type=float, metavar="N", help="starts none after N seconds (60, without --programs)")
    parser.add_argument("--first", type=int, default=1, metavar="SEED", help="the seed of the first program (1)")
    parser.add_argument("--unit", type=int, default=4096, choices=(512, 1024, 2048, 4096), help="the bytes of a letter (4096)")
    parser.add_argument("--jobs", type=int, default=2, metavar="N", help="how many processes run side by side (2)")
    parser.add_argument("--crashes", type=int, default=24, metavar="N", help="the crashes of each group of eight programs (24)")
    parser.add_argument("--save", metavar="FILE", help="appends each state that was left to a file, which --compare reads")
    parser.add_argument("--only-save", action="store_true", help="compares nothing, for --save and a --compare later")
    parser.add_argument("--compare", metavar="FILE", help="compares the states of a file again, without the file system")
    parser.add_argument("--program", metavar="PROGRAM", help="a program, a file with one per line, or `litmus`, those of docs/FILES.md")
    parser.add_argument("--coverage", action="store_true", help="with --program or --compare: which states were never left, by rules")
    parser.add_argument("--runs", type=int, default=10, metavar="N", help="how often a program is run (10)")
    parser.add_argument("--shrink", action="store_true", help="makes the program shorter, as long as a state of it is outside")
    return parser.parse_args()


def litmus_cases():
    """The programs of tests/files_litmus.py that were run on real file systems: without writeback, with all that was written, and with the
    last letter of each append."""
    made = []
    for program, before, *_ in rows_of(SEEN):
        for back in (None, "all", "last"):
            made.append(Case(tuple(parted(before, ",")), tuple(with_writeback(parted(before, ","), parted(program, ","), back))))
    return list(dict.fromkeys(made))


def with_writeback(before, steps, back):
    """Steps with writeback after each write: of all of the file, or of its last letter."""
    follow = Follow(before)
    for text in steps:
        yield text
        path, length = follow.written(text)
        if back and length:
            yield f"~back {path} {0 if back == 'all' else length - 1} {length}"


def programs_of(text):
    """The programs of an argument, each with the state that it is to leave, or None. A line of a file is `PROGRAM | STATE | WHY`, or only
    the first of these, or a remark that begins with `#`."""
    if text == "litmus":
        return [(case, None) for case in litmus_cases()]
    lines = [text]
    if os.path.exists(text):
        with open(text, encoding="utf-8") as file:
            lines = [line for line in file if line.strip() and not line.startswith("#")]
    found = []
    for line in lines:
        program, *more = (part.strip() for part in line.split("|"))
        case = Case.parse(program)
        if not valid(case):
            raise ValueError(f"a step fails, or none is a call: {case}")
        found.append((case, more[0] if more else None))
    return found


def run_programs(worker, options):
    """Runs programs and prints what they leave. Returns how many states are outside."""
    programs = programs_of(options.program)
    if options.shrink:
        return sum(shrink_and_print(worker, case, options.crashes) for case, _ in programs)
    totals, coverage = Counter(), Coverage(worker.model)
    # On one image one after another.
    together = max(1, BATCH // options.runs)
    for at in range(0, len(programs), together):
        part = programs[at : at + together]
        groups = [{1 + index * options.runs + run: case} for index, (case, _) in enumerate(part) for run in range(options.runs)]
        found = worker.check(groups, options.crashes, keep_seen=True, compares=False).seen
        if options.save:
            save(options.save, options.fs, groups, found)
        for index, (case, wanted) in enumerate(part):
            all_found = [each for run in range(options.runs) for each in found[1 + index * options.runs + run]]
            totals += print_states(worker, case, all_found)
            coverage.add(case, {each.state for each in all_found if at_end(case, each.done, each.inside)})
            if wanted is not None:
                is_left = any(each.state == wanted for each in all_found)
                totals += Counter(wanted=1, left=is_left)
                print(f"  {'left' if is_left else 'not left'}: {wanted}", flush=True)
    again = f", {totals['left']} of {totals['wanted']} wanted states were left" if totals["wanted"] else ""
    end = f"{totals['seen']} of {totals['states']} states after the last call"
    print(f"# {options.fs}: {len(programs)} programs, {totals['outside']} outside{again}, {end}")
    if options.coverage:
        coverage.print()
    return totals["outside"]


def at_end(case, done, inside):
    """Whether all calls of a case were made."""
    return not inside and done == len(case.calls())


def print_states(worker, case, all_found):
    """Prints each state of a case with how often it was found, and the states of the whole program's set that never were. Returns how many
    are outside, how many of that set were found, and how many it has."""
    counts = Counter((found.done, found.inside, found.state) for found in all_found)
    outside = 0
    print(case)
    for (done, inside, state), count in sorted(counts.items()):
        word = "" if worker.model.is_in(case, done, inside, state) else "OUTSIDE"
        outside += bool(word)
        print(f"  {word:7} after {done}{'+' if inside else ' '} {count:5} {state}", flush=True)
    end = len(case.calls())
    states = worker.model.states(case)
    never = sorted(state for state in states if (end, False, state) not in counts)
    for state in never:
        print(f"  never   after {end}        {state}", flush=True)
    return Counter(outside=outside, seen=len(states) - len(never), states=len(states))


def shrink_and_print(worker, case, crashes):
    """Prints a shorter case of which a state is outside. Returns whether there is one."""
    case, found = shrink(worker, case, crashes)
    print(describe(found[0]) if found else f"nothing is outside: {case}", flush=True)
    return bool(found)


def compare(worker, options):
    """Compares the states of a file. Returns how many are outside."""
    states = outside = 0
    programs, coverage = set(), Coverage(worker.model)
    with open(options.compare, encoding="utf-8") as file:
        for line in file:
            name, number, text, done, inside, state = line.rstrip("\n").split("\t")
            if name != options.fs:
                continue
            states += 1
            programs.add((number, text))
            case = Case.parse(text)
            is_in = worker.model.is_in(case, int(done), inside == "1", state)
            if at_end(case, int(done), inside == "1"):
                coverage.add(case, {state})
            if not is_in:
                outside += 1
                print(f"OUTSIDE | {text} | after {done}{'+' if inside == '1' else ''} | {state}", flush=True)
    print(f"# {options.fs}: {len(programs)} programs, {states} states, {outside} outside")
    if options.coverage:
        coverage.print()
    return outside


def main():
    options = parsed()
    programs = Programs(options.mount, options.trees)
    try:
        if not (options.program or options.compare):
            return int(search(programs, options) > 0)
        worker = Worker(options.fs, options.profile, programs, makes_image=not options.compare)
        try:
            return int((compare if options.compare else run_programs)(worker, options) > 0)
        finally:
            worker.close()
    except Refused as error:
        print(f"calibrate: {options.fs}: {error}", file=sys.stderr)
        return 3
    except ValueError as error:
        print(f"calibrate: {error}", file=sys.stderr)
        return 2


if __name__ == "__main__":
    sys.exit(main())
