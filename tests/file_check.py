"""`check --files` of the Python package: reasons that were written by hand, and random scripts of files, of which it must find the bad line at
which a run of the program ends. The last line is `N passed, M failed`."""

import os
import random
import subprocess
import sys

TESTS = os.path.dirname(os.path.abspath(__file__))
sys.path.insert(0, os.path.join(os.path.dirname(TESTS), "bindings", "python"))

from blobcrash import check, program

SEEDS = 300
LINES = (
    "create /a # is 0\ncreate_at 1 n\nopen /a\nopen_truncated /a\nopen_inode 2\nclose 0\nread 0 0 9\nread /a 0 9\nwrite 0 0 6162\nwrite /a 0 -\n"
    "truncate 0 1\nsize /a\nfsync 0\nfdatasync /a\nfsyncdir /\nfsyncdir_at 1\nsync\nlink /a /b\nlink_at 2 1 c\nunlink /a\nunlink_at 1 n\n"
    "rename /a /b\nrename /a /b noreplace\nrename_at 1 a 1 b exchange\nmkdir /d\nmkdir_at 1 e\nrmdir /d\nrmdir_at 1 e\nlistdir /\nlistdir_at 1\n"
    "find /a\nfind_at 1 a\ninode_of 0\nsettle\ncommit\ntree\ncrash\nprofile posix\nedits any\nkeep 1 2\nspace 100 9\nfailed_sync drops\nsyncs lie\n"
    "failed_write prefix\nconfig write 0 1 1 2 prefix\nconfig clear\n# a comment\n\ncreate \"\"\ncreate /\\x20\nwords 0 max\nseed 7"
).split("\n")
TOKENS = 'create rename tree words seed keep profile /a a 0 1 2 18446744073709551616 00 zz 6 - "" /\\x2 /a\\y20 #x noreplace ext4 lie max -1 é'.split(" ")
REASONS = [
    ("wirte 0 0 61", "`wirte`: no such call; did you mean `write`?"),
    ("frob", "`frob`: no such call"),
    ("create", "a token is missing: `create PATH`"),
    ("create /a /b", "`/b`: a token too many: `create PATH`"),
    ("create /a\\x2", "`/a\\x2`: in a path, a byte that isn't printable ASCII, and a backslash, is `\\xNN`"),
    ("write 0 0 6", "`6`: bytes are hex, two digits each, or `-` for none"),
    ("read 0 -1 1", "`-1`: this is a number"),
    ("write /a 18446744073709551616 00", "`18446744073709551616`: the greatest number is 18446744073709551615"),
    ("rename /a /b swap", "`swap`: a rename ends in `noreplace`, `exchange` or nothing"),
    ("keep 2 1", "a rate is a fraction from 0 to 1"),
    ("profile zfs", "`zfs`: a profile is ext4, xfs, btrfs or posix"),
    ("syncs lies", "`syncs` is honest or lie"),
    ("edits log", "`edits` is prefix, any or logged"),
    ("config write 1 2", "a token is missing: `config write FN FD RN RD MODE`"),
    ("sync\nseed 1", "`seed`: a preamble line precedes all calls"),
    ("seed 1\nseed 2", "`seed`: a script has one seed"),
]


def ended(script):
    """What a run of a script writes to standard error, and its status."""
    run = subprocess.run([f"{program()}_files"], input=script, stdout=subprocess.DEVNULL, stderr=subprocess.PIPE, check=False)
    return run.stderr, run.returncode


def agrees(script):
    """Whether a run ends as the check says."""
    faults = check(script, files=True)
    return ended(script) == ((f"line {faults[0].line}: bad call\n".encode(), 2) if faults else (b"", 0))


def random_script(chance):
    """Lines of which some have a token more, less or another one."""
    lines = [chance.choice(LINES[-2:]) for _ in range(chance.randrange(3))] + [chance.choice(LINES) for _ in range(chance.randrange(8))]
    for at, line in enumerate(lines):
        if chance.randrange(4) == 0:
            tokens = line.split(" ")
            where = chance.randrange(len(tokens) + 1)
            tokens[where : where + chance.randrange(2)] = [chance.choice(TOKENS)] * chance.randrange(2)
            lines[at] = " ".join(tokens)
    return "\n".join(lines).encode() + (b"\xff" if chance.randrange(30) == 0 else b"")


def main():
    failed = []
    for line, why in REASONS:
        found = [fault.why for fault in check(line, files=True)]
        if found != [why] or not agrees(line.encode()):
            failed.append(f"{line!r}: {found} and {ended(line.encode())}")
    for line in LINES:
        if check(line, files=True) or not agrees(line.encode()):
            failed.append(f"{line!r}: {check(line, files=True)} and {ended(line.encode())}")
    explored = [(fault.line, fault.why) for fault in check("words 0\ntree\n", files=True, explored=True)]
    if explored != [(1, "`words`: `explore` draws the words itself")]:
        failed.append(f"an explored script: {explored}")
    for seed in range(SEEDS):
        script = random_script(random.Random(seed))
        if not agrees(script):
            failed.append(f"seed {seed}: {script!r}: {check(script, files=True)} and {ended(script)}")
    for text in failed:
        print(f"file_check.py: {text}")
    print(f"{len(REASONS) + len(LINES) + 1 + SEEDS - len(failed)} passed, {len(failed)} failed")
    return int(bool(failed))


if __name__ == "__main__":
    sys.exit(main())
