"""Random programs on files in Python, made again by `blobcrash files` from their lines: each call has the same reply, and the same tree is
left. The last line is `N passed, M failed`.

    file_scripts.py PROGRAM [FIRST COUNT]
"""

import random
import subprocess
import sys

from files_model import PROFILES
from files_random import step, steps_of, tree

from blobcrash import Files

RATES = ["write 1 9 1 2 sectors 4", "sync 1 9", "read 1 9", "resize 1 9 1 2", "open 1 9"]


def hex_of(text):
    return text.hex() or "-"


def flat(found, above=""):
    """The paths of a tree as the line of a script has them."""
    for name, status, last in found:
        path = f"{above}/{name}"
        if isinstance(last, bytes):
            yield f"{path}={hex_of(last)}"
        else:
            yield f"{path}/"
            yield from flat(last, path)


def run(seed, profile):
    """A random program with faults and crashes. Returns its lines and the tree that it leaves."""
    chance = random.Random(seed)
    with Files(0, profile=profile) as files:
        steps = steps_of(chance, 12, files)
    with Files(seed, profile=profile, settings=RATES) as files:
        for number, (word, *arguments) in enumerate(steps):
            try:
                step(files, word, arguments, bytes([97 + number]))
            except OSError:
                pass
            if chance.random() < 0.2:
                files.restart()
            elif number % 5 == 4:
                files.commit()
        files.settle()
        files.configure("clear")
        return files.script, list(flat(tree(files)))


def replies_wanted(lines):
    """What the comments of the lines say of the replies: the number of a descriptor, or the name of a refusal."""
    for line in lines:
        call, _, told = line.partition(" # is ")
        if not call.startswith("#") and not call.startswith("seed"):
            yield told


def check(program, seed, profile):
    lines, wanted = run(seed, profile)
    ran = subprocess.run([program], input="\n".join([*lines, "tree", ""]), stdout=subprocess.PIPE, text=True, check=False)
    replies = ran.stdout.splitlines()
    assert ran.returncode == 0 and replies, (seed, profile, ran.returncode, len(replies), len(lines))
    assert replies[-1] == " ".join(["tree", *wanted]), (seed, profile, replies[-1], wanted)
    told = list(replies_wanted(lines))
    assert len(told) == len(replies) - 1, (seed, profile, len(told), len(replies))
    for reply, of_line in zip(replies, told):
        if of_line.isdigit():
            assert reply == f"opened {of_line}", (seed, profile, reply, of_line)
        elif of_line:
            assert reply.startswith(f"error {of_line}"), (seed, profile, reply, of_line)
        else:
            assert not reply.startswith("error"), (seed, profile, reply)


def main(program, first=0, count=60):
    passed = failed = 0
    for seed in range(int(first), int(first) + int(count)):
        for profile in PROFILES:
            try:
                check(program, seed, profile)
                passed += 1
            except AssertionError as error:
                failed += 1
                print(f"file_scripts.py: {error}")
    print(f"{passed} passed, {failed} failed")
    return failed > 0


if __name__ == "__main__":
    sys.exit(main(*sys.argv[1:]))
