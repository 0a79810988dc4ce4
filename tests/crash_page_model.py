#!/usr/bin/env python3
"""The states that a page shows, against the replies of the program: `crash_page_model.py PROGRAM [COUNT]`.

Each worked script, and COUNT random ones: each read has the bytes that the handle has in the model, each open the size, and after
each crash the durable bytes are those that `explain` shows. Each can be drawn as a picture. The last line is `N passed, M failed`.
"""

import glob
import os
import re
import subprocess
import sys

sys.dont_write_bytecode = True
TOP = os.path.dirname(os.path.dirname(os.path.abspath(__file__)))
sys.path.insert(0, os.path.join(TOP, "bindings", "python"))
sys.path.insert(0, os.path.join(TOP, "tests"))
from random_scripts import random_script

from blobcrash_page.model import Model
from blobcrash_page.picture import picture
from blobcrash_page.script import Script
from blobcrash_page.state import State


def explained(program, text):
    return subprocess.run([program + "_explain", "--json"], input=text.encode(), stdout=subprocess.PIPE, stderr=subprocess.DEVNULL).stdout.decode()


def lengths_after(step):
    """The lengths after a crash or a failed write, by the names that `explain` shows. Names of more than a line are left out."""
    lengths = {}
    for last, remark in zip([""] + step.remarks, step.remarks):
        found = re.match(r"(\S+) ([0-9a-f]*): length \d+ before, (\d+) after$", remark)
        if found and len(last) < 78:
            lengths[(found.group(1), found.group(2))] = int(found.group(3))
    return lengths


def shown_after(step):
    """The bytes after a crash that `explain` shows, if it shows one file: offset and value of each."""
    at, shown = None, {}
    if len([remark for remark in step.remarks if ": length " in remark]) != 1:
        return {}
    for remark in step.remarks:
        if remark.startswith("  at "):
            at = int(remark[5:])
        elif remark.startswith("    after") and at is not None:
            cells = remark[9:].split()
            shown.update({at + i: int(cell, 16) for i, cell in enumerate(cells)})
    return shown


def problems_of(program, text):
    """How the model of a script differs from its replies."""
    told = explained(program, text)
    script = Script(text, told)
    model = Model(script)
    problems = list(model.problems)
    try:
        picture(text, told)
    except ValueError as error:
        if "a picture shows blobs of up to 4096 bytes" not in str(error):
            problems.append(f"its picture: {error}")
    state = State()
    for lane in range(len(model.lanes)):
        state._begin(lane, "")
        state._end(lane)
    for call, (step, row) in enumerate(zip(script.steps, model.rows)):
        for change in row.changes:
            state.apply(change, call, model.data, step.answer)
        names = {(lane.partition, lane.name.hex()): state.lanes[lane.index].durable for lane in model.lanes}
        for name, length in lengths_after(step).items():
            if len(names.get(name) or b"") != length:
                problems.append(f"line {step.line}: {name} has {length} bytes, and {len(names.get(name) or b'')} in the model")
        for offset, byte in shown_after(step).items():
            name = next(iter(lengths_after(step)), None)
            if name in names and bytes(names[name] or b"")[offset : offset + 1] != bytes([byte]):
                problems.append(f"line {step.line}: byte {offset} of {name} is {byte:02x}")
    return problems


def main(program, count=300):
    passed = failed = reads = 0
    scripts = [(name, open(name, "rb").read().decode(errors="replace")) for folder in ("examples", "tests/scripts", "tests/pictures")
               for name in sorted(glob.glob(os.path.join(TOP, folder, "*.script")))]
    scripts += [(f"random script {seed}", None) for seed in range(count)]
    for name, text in scripts:
        if text is None:
            text = random_script(program, int(name.split()[-1]))
        reads += text.count("\nread ")
        problems = problems_of(program, text)
        if problems:
            failed += 1
            print(f"crash_page_model.py: FAILED: {os.path.basename(name)}: {problems[0]}")
        else:
            passed += 1
    print(f"{reads} reads")
    print(f"{passed} passed, {failed} failed")
    return int(failed > 0)


if __name__ == "__main__":
    sys.exit(main(sys.argv[1], *map(int, sys.argv[2:])))
