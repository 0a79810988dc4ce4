"""Shows a run in a browser: reads a script from standard input, runs it, and writes its page to standard output.

    crash_page [--title TEXT] [--explored FILE [--fails TEXT]] < SCRIPT > crash.html
    crash_page --picture < SCRIPT > crash.svg
    crash_page --chart [--fails TEXT] < EXPLORED

The program is the one that `BLOBCRASH` names, or else `blobcrash` at the top of the checkout. If that doesn't exist, as for an
installed package, the library runs the script. `--explored` adds a chart of what `blobcrash explore`
printed, and `--chart` prints it for a terminal. A run fails if its last reply begins with the text of `--fails`.

The status is that of the run, or 2 if there is no page: standard error has the reason.
"""

import os
import subprocess
import sys
from difflib import get_close_matches

from .chart import table
from .explored import exploration
from .page import page
from .picture import picture
from .script import replies_of

TOP = os.path.dirname(os.path.dirname(os.path.dirname(os.path.dirname(os.path.abspath(__file__)))))
USAGE = "usage: crash_page [--title TEXT] [--explored FILE] [--fails TEXT] [--picture | --chart]\n"


def explained(program, script):
    """What the program tells of a script as JSON, what it prints on standard error, and its status."""
    built = program + "_explain"
    command = [built, "--json"] if os.path.exists(built) else [program, "explain", "--json"]
    try:
        ran = subprocess.run(command, input=script, stdout=subprocess.PIPE, stderr=subprocess.PIPE)
    except FileNotFoundError:
        if "BLOBCRASH" in os.environ:
            raise
        return by_library(script)
    return ran.stdout.decode(), ran.stderr.decode(), ran.returncode


def by_library(script):
    """As `explained`. With a library of an earlier version the replies alone."""
    from blobcrash import BadLine, LibraryMissing, run
    from blobcrash.whole_scripts import explained_as_json

    try:
        return explained_as_json(script).decode(), "", 0
    except LibraryMissing:
        pass
    except BadLine as bad:
        return bad.replies.decode(), f"line {bad.line}: bad call\n", 2
    try:
        return run(script).decode(), "", 0
    except BadLine as bad:
        return bad.replies.decode(), f"line {bad.line}: bad call\n", 2


def options_of(arguments):
    """The options by their names. A ValueError names the word that is none."""
    options, left = {"--title": "What a crash left"}, list(arguments)
    while left:
        name = left.pop(0)
        if name in ("--picture", "--chart"):
            options[name] = True
        elif name in ("--title", "--explored", "--fails") and left:
            options[name] = left.pop(0)
        elif name in ("--title", "--explored", "--fails"):
            raise ValueError(f"`{name}` needs an argument")
        else:
            near = get_close_matches(name, ("--picture", "--chart", "--title", "--explored", "--fails"), 1)
            raise ValueError(f"there is no option `{name}`" + (f": did you mean `{near[0]}`?" if near else ""))
    return options


def main(arguments):
    is_help = arguments in (["--help"], ["-h"])
    try:
        options = {} if is_help else options_of(arguments)
    except ValueError as error:
        sys.stderr.write(f"crash_page: {error}\n{USAGE}")
        return 2
    try:
        if is_help:
            write(f"{USAGE}\n{__doc__}")
            return 0
        return show(options)
    except UnicodeDecodeError:
        why = "what was explored isn't UTF-8"
    except (OSError, ValueError, MemoryError) as error:
        why = str(error) or "no memory"
    sys.stderr.write(f"crash_page: {why}\n")
    return 2


def write(text):
    """Writes to standard output, all of it."""
    try:
        sys.stdout.buffer.write(text.encode())
        sys.stdout.buffer.flush()
    except (AttributeError, OSError):
        # What is left in the buffer must not fail again at the exit.
        if sys.stdout is not None:
            with open(os.devnull, "wb") as null:
                os.dup2(null.fileno(), sys.stdout.fileno())
        raise OSError("output failed") from None


def show(options):
    fails = None
    if "--fails" in options:
        fails = lambda replies: bool(replies) and replies[-1].startswith(options["--fails"])
    if sys.stdin is None:
        raise OSError("standard input is closed")
    given = sys.stdin.buffer.read()
    if "--chart" in options:
        write(table(exploration(given.decode(), fails)) + "\n")
        return 0
    chart = None
    if "--explored" in options:
        with open(options["--explored"], encoding="utf-8") as file:
            chart = exploration(file.read(), fails)
    told, errors, status = explained(os.environ.get("BLOBCRASH", os.path.join(TOP, "blobcrash")), given)
    script = given.decode(errors="replace")
    if "--picture" in options:
        shown = picture(script, told)
    else:
        shown = page(script, replies_of(told), told, options["--title"], chart)
    write(shown)
    sys.stderr.write(errors)
    return status


if __name__ == "__main__":
    sys.exit(main(sys.argv[1:]))
