"""The numbers and structs of the package for Python are those of the C headers, and so are the numbers and functions of the library's
sources, all of them: bindings/c/numbers.c and bindings/c/files.c have what each number does. The last line is `N passed, M failed`."""

import ctypes
import os
import re
import subprocess
import sys
import tempfile

TOP = os.path.dirname(os.path.dirname(os.path.abspath(__file__)))
sys.path.insert(0, os.path.join(TOP, "bindings", "python"))

from blobcrash import foreign
from blobcrash.calls import Call

HEADERS = os.path.join(TOP, "bindings", "c")
CRATES = os.path.join(TOP, "crates")
# The source files of a crate that have numbers, each with what precedes their names in the header.
STATUSES = {"ran.rt": "", "refusals.rt": "E_", "effect.rt": ""}
SESSIONS = {"kinds.rt": "", "headers.rt": "H_", "debts.rt": "DEBT_"}
FILES = {"kinds.rt": "F_", "refusals.rt": "F_"}
WORDS = {"names.rt": "W_"}
TREES = {"choice.rt": ""}
# Names that the header has otherwise.
OTHERWISE = {"E_BLOB_CLOSED": "E_CLOSED", "DEBT_CLOSE_OPEN": "DEBT_CLOSE"}
# The kinds of typed calls that have other words in a script.
KINDS = {"loose": "OPEN_LOOSE", "startsync": "START_SYNC", "remove": "REMOVE_BLOB", "remove partition": "REMOVE_PARTITION"}
KINDS.update({"writes": "WRITE_SYNC", "config": "CONFIGURE"})
# The calls that may change what a crash leaves, by their words.
CHANGES = {"open", "loose", "admit", "write", "writes", "resize", "sync", "startsync", "finish", "remove"}
# A call of each kind.
CALLS = [Call(word, 7, 1, 2, "a-B_9", b"\0n\xff") for word in foreign.kinds(foreign.W_KINDS) if word not in ("config", "remove")]
CALLS += [Call("remove", partition="p", name=b""), Call("remove", partition="p"), Call("scan", partition="no name"), Call("admit", name=b"")]
STRUCTS = {
    "blobcrash_session": foreign.Session,
    "blobcrash_ran": foreign.Ran,
    "blobcrash_script_ran": foreign.ScriptRan,
    "blobcrash_choice": foreign.Choice,
    "blobcrash_explorer": foreign.Explorer,
    "blobcrash_branch": foreign.Branch,
    "blobcrash_asked": foreign.Asked,
    "blobcrash_typed_reply": foreign.TypedReply,
    "blobcrash_power_state": foreign.PowerState,
}


def numbers_of(header):
    """The enumerators of the header by their names without `BLOBCRASH_`."""
    with open(os.path.join(HEADERS, header), encoding="utf-8") as file:
        return {name: int(number) for name, number in re.findall(r"^ *BLOBCRASH_(\w+) = (\d+)", file.read(), re.M)}


def numbers_in(crate, sources):
    """The constants of source files of the library, by their names in a header."""
    found = {}
    for source, before in sources.items():
        with open(os.path.join(CRATES, crate, "src", source), encoding="utf-8") as file:
            for name, number in re.findall(r"^pub const (\w+): u32 = (\d+);", file.read(), re.M):
                found[OTHERWISE.get(before + name, before + name)] = int(number)
    return found


def declared():
    """The functions that the headers of the library declare."""
    found = set()
    for header in ("blobcrash.h", "blobcrash_files.h"):
        with open(os.path.join(HEADERS, header), encoding="utf-8") as file:
            text = re.sub(r"/\*.*?\*/", "", file.read(), flags=re.S)
        found |= set(re.findall(r"^[a-z][\w ]*[ *](blobcrash_\w+)\(", text, re.M))
    return found


def exported():
    """The functions that the library's sources export."""
    found, folder = set(), os.path.join(CRATES, "blob_c", "src")
    for name in os.listdir(folder):
        with open(os.path.join(folder, name), encoding="utf-8") as file:
            found |= set(re.findall(r'no_mangle\)\]\s*pub extern "C" fn (\w+)', file.read()))
    return found


def named():
    """The upper-case whole numbers of the module."""
    return {name: value for name, value in vars(foreign).items() if name.isupper() and type(value) is int}


def layouts():
    """The size of each struct, and the offset and the size of each field, as the C compiler has them."""
    lines = []
    for name, struct in STRUCTS.items():
        lines.append(f'printf("%zu\\n", sizeof(struct {name}));')
        for field, _ in struct._fields_:
            lines.append(f'printf("%zu %zu\\n", offsetof(struct {name}, {field}), sizeof(((struct {name} *)0)->{field}));')
    text = '#include "blobcrash.h"\n#include <stdio.h>\nint main(void) {\n' + "\n".join(lines) + "\nreturn 0; }\n"
    with tempfile.TemporaryDirectory() as folder:
        source, program = os.path.join(folder, "layouts.c"), os.path.join(folder, "layouts")
        with open(source, "w", encoding="utf-8") as file:
            file.write(text)
        subprocess.run([os.environ.get("CC", "cc"), "-std=c11", "-I", HEADERS, "-o", program, source], check=True)
        return subprocess.run([program], stdout=subprocess.PIPE, check=True).stdout.decode().split("\n")[:-1]


def own_layouts():
    """The same, as `ctypes` has it."""
    lines = []
    for struct in STRUCTS.values():
        lines.append(str(ctypes.sizeof(struct)))
        for field, _ in struct._fields_:
            at = getattr(struct, field)
            lines.append(f"{at.offset} {at.size}")
    return lines


def word_of(table, number):
    """A word of the library's tables."""
    room = ctypes.create_string_buffer(64)
    ran = foreign.function("word")(table, number, room, len(room))
    return room.raw[: ran.len].decode() if ran.status == foreign.DONE else None


def line_of(call):
    """The line of a call, as the library has it."""
    kind = foreign.REMOVE_PARTITION if call.word == "remove" and call.name is None else foreign.kinds(foreign.W_KINDS)[call.word]
    asked, room = foreign.Asked(kind, call.number, call.first or 0, call.last or 0), ctypes.create_string_buffer(256)
    partition, name = call.partition.encode(), call.name or b""
    ran = foreign.function("line_of")(asked, partition, len(partition), name, len(name), room, len(room))
    return room.raw[: ran.len].decode() if ran.status == foreign.DONE else None


def main():
    checks = [(f"{name} is {value}", numbers_of("blobcrash.h").get(name) == value) for name, value in named().items()]
    checks.append(("sixteen numbers are compared", len(checks) == 16))
    own = {**foreign.kinds(foreign.W_KINDS), "remove partition": foreign.REMOVE_PARTITION}
    kinds = {KINDS.get(word, word.upper()): number for word, number in own.items()}
    checks.append(("the kinds", len(kinds) == 18 and {name: numbers_of("blobcrash.h").get(name) for name in kinds} == kinds))
    checks.append(("which calls change what a crash leaves", {word for word in foreign.kinds(foreign.W_KINDS) if foreign.changes(word)} == CHANGES))
    checks.append(("the lines of calls", len(CALLS) == 19 and [str(call) for call in CALLS] == list(map(line_of, CALLS))))
    for crates, header in (
        ({"blob_statuses": STATUSES, "blob_sessions": SESSIONS, "blob_file_sessions": WORDS, "blob_tree": TREES}, "blobcrash.h"),
        ({"blob_file_sessions": FILES}, "blobcrash_files.h"),
    ):
        numbers = {}
        for crate, sources in crates.items():
            numbers.update(numbers_in(crate, sources))
        checks.append((f"the numbers of {header}", len(numbers) > 40 and numbers == numbers_of(header)))
    checks.append(("the functions", len(exported()) > 30 and exported() == declared()))
    checks.append(("the structs", own_layouts() == layouts()))
    for what, holds in checks:
        if not holds:
            print(f"c_numbers.py: FAILED: {what}")
    failed = sum(not holds for _, holds in checks)
    print(f"{len(checks) - failed} passed, {failed} failed")
    return int(failed > 0)


if __name__ == "__main__":
    sys.exit(main())
