#!/usr/bin/env python3
"""Compares the pictures of `blobcrash explain` with the replies that they stand between, on random scripts.

    python3 tests/pictures.py PROGRAM EXPLAIN COUNT [library]

Every other script ends with a line that belongs before the first call, which is a bad call. For each script, `explain` must print the
replies of the plain run and end with its status. After a crash, each byte that a picture shows as kept or lost must be `1` or `0` in
the reply's row of that write, and the counts of the picture must be those of the row. With `library` the library must explain each script
as `explain` does.
Prints the first script that differs, and ends with the status 1 then.
"""
import os
import random
import re
import subprocess
import sys

from random_scripts import random_script

sys.path.insert(0, os.path.join(os.path.dirname(os.path.dirname(os.path.abspath(__file__))), "bindings", "python"))

from blobcrash import BadLine
from blobcrash.whole_scripts import explained

LATE = ["seed 99", "words max", "words 0 1 2", "image p 7a -", "seed 1\nseed 2"]
ITEM = re.compile(r"#   (write (\d+)|durable|resize)(?: to \d+| (\d+)\.\.(\d+))(.*)")
COUNT = re.compile(r"(\d+) (kept|lost|covered)")
HELD = ", durable by a started sync"


def run(program, script):
    done = subprocess.run(program, input=script.encode(), capture_output=True, check=False)
    return done.stdout.decode().splitlines(), done.stderr.decode(), done.returncode


def rows_of(reply):
    """Returns the choices of each write's row in the reply to a crash."""
    return dict(row.split(":") for row in reply.split()[1:])


def counts_agree(row, counts):
    kept, lost, covered = (counts.get(word, 0) for word in ("kept", "lost", "covered"))
    ones, zeros = row.count("1"), row.count("0")
    return kept + lost + covered == len(row) and kept <= ones and lost <= zeros and (covered or kept == ones)


def check_cells(cells, first, offset, row):
    """Checks a stripe of a write: `first` is the position of its first cell."""
    for index in range(0, len(cells), 3):
        cell = cells[index : index + 2]
        if cell.strip() and cell != "==":
            choice = row[first + index // 3 - offset]
            if choice != ("0" if cell == "--" else "1"):
                return f"position {first + index // 3}: {cell}, but its choice is {choice}"
    return None


def check_picture(lines, rows):
    """Checks the picture of one file. Returns what is wrong, or None."""
    offsets, width, first = {}, 6, 0
    for line in lines:
        item = ITEM.fullmatch(line)
        if item and not item[5].endswith(HELD):
            width = max(width, len(item[1]))
            if item[2] is not None:
                counts = {word: int(count) for count, word in COUNT.findall(item[5])}
                if counts != {"covered": int(item[4]) - int(item[3])} and not counts_agree(rows.get(item[2], ""), counts):
                    return f"{line}: its row is {rows.get(item[2])}"
                offsets[item[2]] = int(item[3])
        elif line.startswith("#   at "):
            first = int(line.split()[2])
        elif line.startswith("#     write "):
            number = line.split()[2]
            wrong = check_cells(line[8 + width :], first, offsets[number], rows.get(number, ""))
            if wrong:
                return f"{line}: {wrong}"
    return None


def check_crashes(lines):
    """Checks the pictures behind each crash. Returns how many there are, and what is wrong, or None."""
    checked, rows, files = 0, {}, []
    for line in [*lines, "end"]:
        if line.startswith("# ") and not line.startswith("#  "):
            files.append([])
        if line.startswith("#"):
            files[-1].append(line)
            continue
        for file in files if rows is not None else ():
            checked += 1
            wrong = check_picture(file, rows)
            if wrong:
                return checked, wrong
        rows, files = rows_of(line) if line.startswith("crashed") else None, []
    return checked, None


def explained_by_library(script):
    """What the library writes of a script, as `run`."""
    try:
        return explained(script.encode()).decode().splitlines(), "", 0
    except BadLine as bad:
        return bad.replies.decode().splitlines(), f"line {bad.line}: bad call\n", 2


def main():
    program, explain, count = sys.argv[1], sys.argv[2], int(sys.argv[3])
    has_library = sys.argv[4:] == ["library"]
    pictures = 0
    for seed in range(count):
        script = random_script(program, seed)
        if seed % 2:
            script += random.Random(seed).choice(LATE) + "\n"
        replies, errors, status = run([program], script)
        lines, explain_errors, explain_status = run([explain], script)
        wrong = None
        if [line for line in lines if not line.startswith("#")] != replies:
            wrong = "other replies than the plain run"
        elif (explain_errors, explain_status) != (errors, status):
            wrong = f"status {explain_status} and {explain_errors!r}, the plain run's are {status} and {errors!r}"
        elif has_library and explained_by_library(script) != (lines, explain_errors, explain_status):
            wrong = "the library explains it in another way"
        else:
            checked, wrong = check_crashes(lines)
            pictures += checked
        if wrong:
            print(f"{script}\npictures.py: seed {seed}: {wrong}")
            return 1
    print(f"pictures.py: {count} scripts, {pictures} pictures of crashes")
    return 0 if pictures else 1


if __name__ == "__main__":
    sys.exit(main())
