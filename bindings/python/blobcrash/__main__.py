"""Runs a script, from a file or from standard input: `python -m blobcrash [FILE]`. Replies and exit status are the program's.

`python -m blobcrash check [FILE]` says which lines aren't calls, and why; `judge [FILE]` whether acknowledged content is lost;
`shrink SCRIPT [COMMAND ..]` makes a failing script short; `states [options] SCRIPT -- CHECK ..` checks each state that a crash may leave.
`diagnose [options] RECORD -- CHECK ..` names the sync that a run lacks. `version` says whether the library is proved.
"""

import sys
from typing import List

from .commands import OutputFailed, check_command, judge_command, read, shrink_command, version_command, write
from .diagnose_command import diagnose_command
from .errors import BadLine
from .states_command import states_command
from .whole_scripts import run

_COMMANDS = {
    "check": check_command,
    "diagnose": diagnose_command,
    "judge": judge_command,
    "shrink": shrink_command,
    "states": states_command,
    "version": version_command,
    "--version": version_command,
}
# Those that have a usage of their own.
_OWN = (check_command, diagnose_command, shrink_command, states_command)
# Those that print their own help.
_HELPED = (diagnose_command, states_command)
USAGE = (
    "usage: python -m blobcrash [check|judge] [FILE], or shrink SCRIPT [COMMAND ..], or states [options] SCRIPT -- CHECK .., "
    "or diagnose [options] RECORD -- CHECK .., or version"
)
HELP = f"""{USAGE}

Runs a script, from a file or from standard input, and prints its replies.

  check   prints which lines aren't calls, and why; with --files of a script of files, with --explored of one for `explore`
  judge   prints what acknowledged content the script loses
  shrink  prints a short script that still fails: COMMAND ends with a status other than 0, or `judge` finds a loss
  states  runs CHECK on each state in which a crash could have left the run; `states --help` has the options
  diagnose  names the sync that a recorded run lacks; `diagnose --help` has the options
  version prints the version, and whether the library is proved

docs/GUIDE.md has more, docs/FORMATS.md the lines and the replies.
"""


def main(arguments: List[str]) -> int:
    command = _COMMANDS.get(arguments[0]) if arguments else None
    is_help = command not in _HELPED and arguments[0 if command is None else 1 :] in (["--help"], ["-h"])
    most = 1 if command is None else 2
    if command not in _OWN and len(arguments) > most:
        print(f"`{arguments[most]}` is an argument too many; {USAGE}", file=sys.stderr)
        return 2
    try:
        if is_help:
            write(HELP.encode())
            return 0
        return command(arguments[1:]) if command is not None else run_command(arguments)
    except OSError as error:
        print(f"input failed: {error}", file=sys.stderr)
        return 1
    except OutputFailed:
        print("output failed", file=sys.stderr)
        return 1
    except MemoryError:
        print("no memory", file=sys.stderr)
        return 3


def run_command(arguments: List[str]) -> int:
    """Runs a script, and prints the replies."""
    script = read(arguments)
    try:
        write(run(script))
    except BadLine as bad:
        write(bad.replies)
        print(f"line {bad.line}: bad call", file=sys.stderr)
        return 2
    return 0


if __name__ == "__main__":
    sys.exit(main(sys.argv[1:]))
