"""The library that tools/unproved compiles: its exports are what the C headers declare, and the worked scripts have their outputs over it.
Arguments: the folder of the library. The last line is `N passed, M failed`."""

import os
import sys
from pathlib import Path

TOP = Path(__file__).resolve().parent.parent
sys.path.insert(0, str(TOP / "tools"))

from c_numbers import declared
from crates import toolchain
from releasing import needs

from blobcrash import BadLine, run

SCRIPTS = TOP / "tests" / "scripts"
MARK = "blobcrash_unproved"


def replies(script):
    """What the library prints for a script, with its status and its message."""
    try:
        return run(script.read_bytes()), 0, b""
    except BadLine as bad:
        return bad.replies, 2, f"line {bad.line}: bad call\n".encode()


def wanted(script):
    """What is kept beside a script."""
    status, message = script.with_suffix(".status"), script.with_suffix(".err")
    number = int(status.read_text(encoding="ascii")) if status.exists() else 0
    return script.with_suffix(".out").read_bytes(), number, message.read_bytes() if message.exists() else b""


def main(folder):
    library, archive = folder / "libblobcrash.so", folder / "libblobcrash.a"
    os.environ["BLOBCRASH_LIBRARY"] = str(library)
    names = set(needs.names_of(toolchain(), library))
    tests = {
        f"its exports are those of the headers: {sorted(names ^ declared())}": names == declared() | {MARK},
        "a release refuses it": needs.is_unproved(library) and needs.is_unproved(archive) and not needs.is_unproved(TOP / "bindings/c/blobcrash.h"),
    }
    for script in sorted(SCRIPTS.glob("*.script")):
        tests[script.name] = replies(script) == wanted(script)
    failed = [name for name, holds in tests.items() if not holds]
    for name in failed:
        print(f"unproved.py: FAILED: {name}")
    print(f"{len(tests) - len(failed)} passed, {len(failed)} failed")
    return int(bool(failed))


if __name__ == "__main__":
    sys.exit(main(Path(sys.argv[1])))
