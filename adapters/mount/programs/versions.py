#!/usr/bin/env python3
"""Version control: versions.py prepare|work|check hg|fossil|svn|brz. A commit is an operation; the repository is judged, not the files."""

import os
import re

from driver import DAMAGED, MOUNT, SCRATCH, judge_numbers, main, run, value, work

TREE, FILE = f"{MOUNT}/tree", os.path.join(SCRATCH, "file")
# The commands that make a repository, commit, verify, and print the messages of the commits.
KINDS = {
    "hg": (["hg init TREE"], ["cp FILE TREE/f", "hg --cwd TREE commit -q -A -u n -m N"], ["hg -R TREE verify -q"],
           "hg -R TREE log --template {desc}\\n"),
    "fossil": (["mkdir TREE", "fossil new -A n TREE/r", "mkdir TREE/t", "fossil open --workdir TREE/t TREE/r"],
               ["cp FILE TREE/t/f", "fossil add f", "fossil commit --no-warnings -m N"], ["fossil test-integrity -R TREE/r"],
               "fossil timeline -R TREE/r -n 0 -t ci -F %c"),
    "svn": (["svnadmin create TREE"], ["svnmucc -U file://TREE -m N put FILE f"], ["svnadmin verify -q TREE"], "svn log -q -v file://TREE"),
    "brz": (["brz init -q TREE"], ["cp FILE TREE/f", "brz add -q TREE", "brz commit -q -m N TREE"], ["brz check TREE"],
            "brz log --line TREE"),
}
ENVIRONMENT = {**os.environ, "HOME": SCRATCH, "LC_ALL": "C.UTF-8", "BRZ_EMAIL": "n <n@localhost>", "USER": "n", "FOSSIL_HOME": SCRATCH}


def run_all(commands, number=0):
    """Runs commands. Returns the text of the last one, or None if one fails."""
    said = ""
    for command in commands:
        words = [re.sub(r"\bN\b", f"n{number}", word).replace("TREE", TREE).replace("FILE", FILE) for word in command.split()]
        where = f"{TREE}/t" if words[:2] in (["fossil", "add"], ["fossil", "commit"]) else "/"
        said = None if said is None else run(*words, cwd=where, env=ENVIRONMENT)
    return said


def commit(kind, number):
    """Makes a commit."""
    with open(FILE, "w", encoding="ascii") as file:
        file.write(f"{value(number)}\n")
    return run_all(KINDS[kind][1], number) is not None


def check(kind):
    """The repository is whole, and has the acknowledged commits."""
    if run_all(KINDS[kind][2]) is None:
        return DAMAGED
    said = run_all([KINDS[kind][3]])
    return DAMAGED if said is None else judge_numbers(sorted(int(number) for number in re.findall(r"\b[nr](\d+)\b", said) if number != "0"))


if __name__ == "__main__":
    main({"prepare": lambda kind: run_all(KINDS[kind][0]) is None, "work": lambda kind: work(lambda number: commit(kind, number), 12),
          "check": check})
