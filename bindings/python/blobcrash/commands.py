"""The commands `check`, `judge`, `shrink` and `version` of `python -m blobcrash`."""

from __future__ import annotations

import argparse
import os
import subprocess
import sys
import tempfile
from typing import Callable, List

from .checking import check
from .cutting import cut, cut_lines, loses
from .errors import BadLine, LibraryMissing
from .file_cutting import FileCutter
from .judging import verdict
from .states import CrashState
from .states_command import check_state


class OutputFailed(Exception):
    """Standard output can't be written."""


def write(data: bytes) -> None:
    """Writes bytes to standard output, all of them. Raises `OutputFailed`."""
    try:
        sys.stdout.buffer.write(data)
        sys.stdout.buffer.flush()
    except (AttributeError, OSError):
        # What is left in the buffer must not fail again at the exit.
        if sys.stdout is not None:
            with open(os.devnull, "wb") as null:
                os.dup2(null.fileno(), sys.stdout.fileno())
        raise OutputFailed from None


def version_command(arguments: List[str]) -> int:
    """Prints the version, and whether the library is proved. Status 1 if there is no library."""
    from . import version

    if arguments:
        print("usage: python -m blobcrash version", file=sys.stderr)
        return 2
    try:
        write(f"{version()}\n".encode())
    except LibraryMissing as error:
        print(error, file=sys.stderr)
        return 1
    return 0


def check_command(arguments: List[str]) -> int:
    """Prints each line of a script that isn't a call, and why. Status 2 if there is one."""
    of_files, explored = "--files" in arguments, "--explored" in arguments
    files = [word for word in arguments if word not in ("--files", "--explored")]
    if len(files) > 1 or any(word.startswith("-") for word in files):
        wrong = next((word for word in files if word.startswith("-")), files[-1])
        print(f"check: `{wrong}` is no option and no second script\nusage: check [--files] [--explored] [FILE]", file=sys.stderr)
        return 2
    faults = check(read(files), files=of_files, explored=explored)
    write("".join(f"line {fault.line}: bad call: {fault.why}\n" for fault in faults).encode())
    if faults:
        print(f"line {faults[0].line}: bad call", file=sys.stderr)
    return 2 if faults else 0


def judge_command(arguments: List[str]) -> int:
    """Prints what a script loses of acknowledged content. Status 1 if it loses some, 2 if it can't be judged or acknowledges nothing."""
    try:
        found = verdict(read(arguments))
        write((found.lost + "\n").encode() if found.lost is not None else b"")
    except BadLine as bad:
        print(bad, file=sys.stderr)
        return 2
    except OutputFailed:
        print("output failed", file=sys.stderr)
        return 2
    except (OSError, MemoryError) as error:
        print(f"judge: {error or 'no memory'}", file=sys.stderr)
        return 2
    if found.nothing is not None:
        print(f"judge: {found.nothing}", file=sys.stderr)
        return 2
    return int(found.lost is not None)


def read(arguments: List[str]) -> bytes:
    """Returns the bytes of the file that is named, or of standard input."""
    if not arguments:
        if sys.stdin is None:
            raise OSError("standard input is closed")
        return sys.stdin.buffer.read()
    with open(arguments[0], "rb") as file:
        return file.read()


def shrink_command(arguments: List[str]) -> int:
    """Prints a short script that still fails. Status 1 if the whole one doesn't, 2 if it can't be read or judged."""
    if not arguments:
        print("usage: shrink SCRIPT [COMMAND [ARGUMENT ..]], or shrink --files SCRIPT -- CHECK [ARGUMENT ..]", file=sys.stderr)
        return 2
    if arguments[0] == "--files":
        return shrink_files_command(arguments[1:])
    with tempfile.TemporaryDirectory() as folder:
        try:
            with open(arguments[0], "rb") as file:
                script = file.read().decode("utf-8", "surrogateescape")
            fails = _command(arguments[1:], os.path.join(folder, "script")) if arguments[1:] else loses
            if not arguments[1:]:
                # A bad line isn't a loss.
                verdict(script)
            if not fails(script):
                print("shrink: the whole script doesn't fail", file=sys.stderr)
                return 1
            write(_shortened(script, fails).encode("utf-8", "surrogateescape"))
        except (BadLine, OSError, MemoryError) as error:
            print(f"shrink: {error or 'no memory'}", file=sys.stderr)
            return 2
        except OutputFailed:
            print("output failed", file=sys.stderr)
            return 2
    return 0


def shrink_files_command(arguments: List[str]) -> int:
    """The same of a record of files, with a check of what a crash leaves: `[--limit N] SCRIPT -- CHECK [ARGUMENT ..]`."""
    parser = argparse.ArgumentParser(prog="shrink --files", usage="shrink --files [--limit N] SCRIPT -- CHECK [ARGUMENT ..]", add_help=False)
    parser.add_argument("--limit", type=int, default=16)
    parser.add_argument("script")
    at = arguments.index("--") if "--" in arguments else len(arguments)
    options, check = parser.parse_args(arguments[:at]), arguments[at + 1 :]
    if not check or options.limit < 1:
        parser.error("wants a CHECK after --, and a limit from 1 on")
    try:
        with open(options.script, encoding="utf-8") as file:
            script = file.read()
        with tempfile.TemporaryDirectory() as work:

            def status_of(state: CrashState) -> int:
                with tempfile.TemporaryDirectory(dir=work) as folder:
                    return check_state(state, check, folder, quiet=True)

            short = FileCutter(script, status_of, options.limit).run()
        if short is None:
            print("shrink: the whole record doesn't fail, or it fails without a crash too", file=sys.stderr)
            return 1
        write(short.encode())
    except (LibraryMissing, OSError, ValueError, MemoryError) as error:
        print(f"shrink: {error or 'no memory'}", file=sys.stderr)
        return 2
    except OutputFailed:
        print("output failed", file=sys.stderr)
        return 2
    return 0


def _command(command: List[str], path: str) -> Callable[[str], bool]:
    """Whether a command ends with a status other than 0. It gets the script on standard input, and in a file in place of `{}`."""
    words = [path if word == "{}" else word for word in command]

    def fails(script: str) -> bool:
        with open(path, "wb") as file:
            file.write(script.encode("utf-8", "surrogateescape"))
        with open(path, "rb") as file:
            run = subprocess.run(words, stdin=file, stdout=subprocess.DEVNULL, stderr=subprocess.DEVNULL)
        return run.returncode != 0

    return fails


def _shortened(script: str, fails: Callable[[str], bool]) -> str:
    """The script cut, or if that can't be done with its lines left out alone."""
    try:
        return cut(script, fails)
    except LibraryMissing:
        why = "the library isn't built: `sh bindings/build.sh`"
    except BadLine:
        why = "it isn't a script"
    except (ValueError, UnicodeError) as error:
        why = str(error)
    print(f"shrink: only lines are left out: {why}", file=sys.stderr)
    return cut_lines(script, fails)
