#!/usr/bin/env python3
"""Git: git.py prepare|work|check [fsync]. With `fsync` it runs at core.fsync=all."""

import os
import subprocess

from driver import DAMAGED, HELD, LOST, MOUNT, acknowledge, last_acknowledged, main

COMMITS = 15
FSYNC = ["-c", "core.fsync=all", "-c", "core.fsyncMethod=fsync"]
WHO = ["-c", "user.name=n", "-c", "user.email=n@localhost", "-c", "gc.auto=0", "-c", "safe.directory=*"]


def git(mode, *words):
    """Runs git. Returns its status and what it printed."""
    environment = {**os.environ, "GIT_CONFIG_NOSYSTEM": "1", "HOME": "/nonexistent", "LC_ALL": "C"}
    ran = subprocess.run(["git", "-C", MOUNT, *WHO, *(FSYNC if mode else []), *words], stdout=subprocess.PIPE,
                         stderr=subprocess.STDOUT, universal_newlines=True, errors="replace", env=environment)
    return ran.returncode, ran.stdout


def commit(mode, number):
    """Makes a commit. Returns whether git says that it did."""
    with open(f"{MOUNT}/f{number % 5}", "a", encoding="ascii") as file:
        file.write("".join(f"{number} {line}\n" for line in range(number * 37 % 300)) + f"{number}\n")
    for words in (("add", "-A"), ("commit", "-q", "-m", str(number))):
        status, said = git(mode, *words)
        if status:
            print(said[:300])
            return False
    return True


def prepare(mode=""):
    """Makes a repository with one commit, numbered 0."""
    return 0 if git(mode, "init", "-q", "-b", "main")[0] == 0 and commit(mode, 0) else 1


def make_commits(mode=""):
    """A commit an operation."""
    for number in range(1, COMMITS + 1):
        if not commit(mode, number):
            return LOST
        acknowledge(number)
    return HELD


def check(mode=""):
    """The repository is whole, and has the acknowledged commits. Locks are removed first, as git says."""
    for folder, _, names in os.walk(f"{MOUNT}/.git"):
        for name in names:
            if name.endswith(".lock"):
                os.unlink(os.path.join(folder, name))
    for words in (("fsck", "--full", "--no-dangling"), ("log", "--format=%s"), ("status", "--short")):
        status, said = git(mode, *words)
        if status:
            print(f"git {words[0]}: {said[:400]}")
            return DAMAGED
        if words[0] == "log":
            found = [int(line) for line in said.split()]
    last = last_acknowledged()
    if found != list(range(found[0], -1, -1)) or found[0] > last + 1:
        print(f"damaged: the commits {found}")
        return DAMAGED
    if found[0] < last:
        print(f"lost: the commits {found[0] + 1} to {last}")
        return LOST
    return HELD


if __name__ == "__main__":
    main({"prepare": prepare, "work": make_commits, "check": check})
