"""The numbers and structs of files in Python are those of the C header. The last line is `N passed, M failed`."""

import ctypes
import os
import re
import subprocess
import sys
import tempfile

TOP = os.path.dirname(os.path.dirname(os.path.abspath(__file__)))
sys.path.insert(0, os.path.join(TOP, "bindings", "python"))

from passing import run_tests

from blobcrash import PROFILES, foreign, foreign_files
from c_numbers import word_of

HEADER = os.path.join(TOP, "bindings", "c", "blobcrash_files.h")
NAMES = {
    "mkdir": "MAKE_DIRECTORY",
    "rmdir": "REMOVE_DIRECTORY",
    "listdir": "LIST",
    "fsyncdir": "SYNC_DIRECTORY",
    "fsync": "SYNC",
    "fdatasync": "SYNC_DATA",
    "sync": "SYNC_ALL",
}


def test_the_numbers_of_the_header():
    with open(HEADER, encoding="utf-8") as file:
        text = file.read()
    with open(os.path.join(TOP, "bindings", "c", "blobcrash.h"), encoding="utf-8") as file:
        text += file.read()
    numbers = {name: int(value) for name, value in re.findall(r"^ *BLOBCRASH_(\w+) = (\d+)", text, re.M)}
    kinds = foreign.kinds(foreign.W_FILE_KINDS)
    assert len(kinds) == 35, kinds
    for word, number in kinds.items():
        of, at = word[: -len("_at")] if word.endswith("_at") else word, "_AT" if word.endswith("_at") else ""
        assert numbers["F_" + NAMES.get(of, of.upper()) + at] == number, word
    for number, refusal in foreign_files.REFUSALS.items():
        name = re.sub("(?!^)([A-Z])", r"_\1", refusal.name).upper()
        assert numbers[("F_" if number >= 64 else "E_") + name] == number, name
    refusals = {number for name, number in numbers.items() if name.startswith("F_") and number >= 64}
    assert refusals == {number for number in foreign_files.REFUSALS if number >= 64}


def test_the_words_of_the_library():
    assert tuple(word_of(3, number) for number in range(len(PROFILES))) == PROFILES
    assert all(word_of(2, number) == refusal.name for number, refusal in foreign_files.REFUSALS.items())
    assert word_of(3, len(PROFILES)) is None and word_of(5, foreign_files.REFUSES) == "noreplace"


def test_the_structs_of_the_header():
    structs = {
        "blobcrash_files": foreign.Session,
        "blobcrash_file_call": foreign.Asked,
        "blobcrash_file_reply": foreign.FileReply,
        "blobcrash_kept_run": foreign.KeptRun,
    }
    lines, own = [], []
    for name, struct in structs.items():
        lines.append(f'printf("%zu\\n", sizeof(struct {name}));')
        own.append(str(ctypes.sizeof(struct)))
        for field, _ in struct._fields_:
            lines.append(f'printf("%zu %zu\\n", offsetof(struct {name}, {field}), sizeof(((struct {name} *)0)->{field}));')
            own.append(f"{getattr(struct, field).offset} {getattr(struct, field).size}")
    text = f'#include "{HEADER}"\n#include <stdio.h>\nint main(void) {{\n' + "\n".join(lines) + "\nreturn 0; }\n"
    with tempfile.TemporaryDirectory() as folder:
        source, program = os.path.join(folder, "layouts.c"), os.path.join(folder, "layouts")
        with open(source, "w", encoding="utf-8") as file:
            file.write(text)
        subprocess.run([os.environ.get("CC", "cc"), "-std=c11", "-o", program, source], check=True)
        printed = subprocess.run([program], stdout=subprocess.PIPE, check=True).stdout.decode().split("\n")[:-1]
    assert printed == own


if __name__ == "__main__":
    sys.exit(run_tests(globals(), sys.argv[1:]))
