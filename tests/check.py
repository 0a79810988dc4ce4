"""`check` of the Python package: the reasons of tests/reasons.tsv, and random scripts, of which it must find the bad line at which a run
of the program ends. The last line is `N passed, M failed`."""

import os
import random
import re
import subprocess
import sys
import time

TESTS = os.path.dirname(os.path.abspath(__file__))
sys.path.insert(0, os.path.join(os.path.dirname(TESTS), "bindings", "python"))

from blobcrash import BadLine, check, program
from blobcrash.grammar import tokens_of

SEEDS = 300
# Tokens of which some are right in each place.
TOKENS = (
    "words seed image open loose admit close read write writes resize size sync startsync finish remove scan crash reopen config p 62 - 0 1 2 "
    "max 00 65535 65536 18446744073709551615 18446744073709551616 prefix subset sectors clear # #x 1/2 -1 6 zz \r \t \xa0 CRASH"
).split(" ")
LINES = (
    b"open p 62\nopen p 62 0 3\nloose q -\nadmit p 62\nclose 0\nread 0 0 1\nwrite 0 0 6162\nwrites 0 0 -\nresize 0 4\nsize 0\nsync 0\nstartsync 0\n"
    b"finish 0\nremove p\nremove p 62\nscan p\ncrash\nreopen\nconfig write 1 8 1 2 subset\nconfig write 0 1 1 2 sectors 16\nconfig sync 1 2\n"
    b"config resize 1 2 0 1\nconfig clear\n\n# a comment\n  # another"
).split(b"\n")
ESCAPES = {b"r": b"\r", b"t": b"\t"}
PREAMBLE = b"words 0 max\nseed 7\nimage p 62 43574943".split(b"\n")


def ended(script):
    """What a run of a script writes to standard error, and its status."""
    run = subprocess.run([program()], input=script, stdout=subprocess.DEVNULL, stderr=subprocess.PIPE)
    return run.stderr, run.returncode


def reasons():
    """The rows of tests/reasons.tsv."""
    with open(os.path.join(TESTS, "reasons.tsv"), "rb") as file:
        for row in file.read().splitlines():
            if not row.startswith(b"# Lines") and not row.startswith(b"# are"):
                line, why = row.split(b"\t")
                yield re.sub(rb"\\(x..|r|t)", lambda found: ESCAPES.get(found[1]) or bytes.fromhex(found[1][1:].decode()), line), why


def broken(chance, line):
    """A line with a token more, less or another one."""
    tokens = line.decode().split(" ")
    at = chance.randrange(len(tokens) + 1)
    tokens[at : at + chance.randrange(2)] = [chance.choice(TOKENS)] * chance.randrange(2)
    data = " ".join(tokens).encode()
    return data + b"\xff" if chance.randrange(20) == 0 else data


def random_script(chance):
    lines = [chance.choice(PREAMBLE) for _ in range(chance.randrange(4))] + [chance.choice(LINES) for _ in range(chance.randrange(12))]
    lines = [broken(chance, line) if chance.randrange(4) == 0 else line for line in lines]
    return b"\n".join(lines) + b"\n" * chance.randrange(2)


def agrees(script):
    """Whether a run ends as the check says."""
    faults = check(script)
    return ended(script) == ((f"line {faults[0].line}: bad call\n".encode(), 2) if faults else (b"", 0))


def is_read_at_once():
    """Whether long tokens, right and wrong ones, take time by their length alone. A second for each is many times what they take."""
    longest = [("write 0 0", 32000), ("write 0 0", 32001), ("open p", 32001), ("admit p", 32001), ("remove p", 32001)]
    for first, length in longest:
        for last in ("", " ", " x"):
            began = time.monotonic()
            try:
                is_call = tokens_of(f"{first} {'a' * length}{last}") != []
            except BadLine:
                is_call = False
            if time.monotonic() - began > 1 or is_call != (length % 2 == 0 and last != " x"):
                return False
    return True


def main():
    failed = [] if is_read_at_once() else ["a long token takes too long, or is read wrongly"]
    rows = list(reasons())
    for line, why in rows:
        faults = [fault.why.encode() for fault in check(line)]
        if faults != [why] or not agrees(line):
            failed.append(f"{line!r}: {faults} and {ended(line)}")
    order = b"seed 1\n# a comment\nseed 2\nwords 1\nopen p 62\nseed 3\nfrob\nimage p 63 -\ncrash"
    whys = [(3, "`seed`: a script has one seed"), (6, "`seed`: a preamble line precedes all calls"), (7, "`frob`: no such call")]
    whys.append((8, "`image`: a preamble line precedes all calls"))
    if [tuple(fault) for fault in check(order)] != whys or not agrees(order):
        failed.append(f"the order of a script: {check(order)} and {ended(order)}")
    for seed in range(SEEDS):
        script = random_script(random.Random(seed))
        if not agrees(script):
            failed.append(f"seed {seed}: {script!r}: {check(script)} and {ended(script)}")
    for text in failed:
        print(f"check.py: {text}")
    print(f"{len(rows) + 2 + SEEDS - len(failed)} passed, {len(failed)} failed")
    return int(bool(failed))


if __name__ == "__main__":
    sys.exit(main())
