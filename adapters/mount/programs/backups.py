#!/usr/bin/env python3
"""Backups: backups.py prepare|work|check restic|borg. A backup of a file is an operation; the check restores all of them."""

import os
import re

from driver import DAMAGED, MOUNT, SCRATCH, judge_numbers, main, run, value, work

REPO, FILE = f"{MOUNT}/repo", os.path.join(SCRATCH, "source")
ENVIRONMENT = {**os.environ, "HOME": SCRATCH, "RESTIC_REPOSITORY": REPO, "RESTIC_PASSWORD": "p", "BORG_REPO": REPO, "BUP_DIR": REPO,
               "BORG_UNKNOWN_UNENCRYPTED_REPO_ACCESS_IS_OK": "yes", "BORG_RELOCATED_REPO_ACCESS_IS_OK": "yes"}
# The commands that make a repository, back FILE up as N, check, and list the backups.
KINDS = {
    "restic": ("restic init", "restic backup -q --no-cache --tag nN --host n FILE", "restic check --no-cache --read-data", "restic snapshots --no-cache"),
    "borg": ("borg init -e none", "borg create ::nN FILE", "borg check --verify-data", "borg list"),
}


def command(kind, which, number=0):
    """Runs a command of a kind."""
    words = KINDS[kind][which].replace("nN", f"n{number}").replace("FILE", FILE).split()
    return run(*words, env=ENVIRONMENT)


def back_up(kind, number):
    """Backs the file up."""
    with open(FILE, "w", encoding="ascii") as file:
        file.write(value(number))
    return command(kind, 1, number) is not None


def check(kind):
    """The repository is whole, and has the acknowledged backups. Locks are removed first."""
    run(*(["restic", "unlock", "-q", "--remove-all", "--no-cache"] if kind == "restic" else ["borg", "break-lock"]), env=ENVIRONMENT)
    if command(kind, 2) is None:
        return DAMAGED
    said = command(kind, 3)
    return DAMAGED if said is None else judge_numbers(sorted(int(number) for number in re.findall(r"\bn(\d+)\b", said)))


if __name__ == "__main__":
    main({"prepare": lambda kind: command(kind, 0) is None, "work": lambda kind: work(lambda number: back_up(kind, number), 8), "check": check})
