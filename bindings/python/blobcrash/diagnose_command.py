"""blobcrash diagnose [options] RECORD -- CHECK [ARGUMENT ..]: says which sync a recorded run lacks.

RECORD is the script of a run: a record of the mount or of `Files`, what `store.script` has, or one by hand. After each call that may change
what a crash leaves there is a crash, and CHECK is run on what it leaves, as by `tools/states`: it exits with 0 if all is well. What CHECK
prints isn't shown. Where it fails, the calls are named that were lost, and the fewest added syncs with which no state fails. They are
tried on this record, with this check, and say nothing of other runs. Only the calls before the first crash of the record are diagnosed.

  --superfluous  also names syncs of the run without which no state fails either
  --whole        each write is kept or lost as a whole
  --from LINE    there are crashes after this line and later ones: of files the last `settle`, otherwise the start
  --limit N      at most N outcomes of each crash (100): first none lost, each single loss, all lost, each single call kept, each sector
  --jobs N       how many checks run at once (2)
  --out FOLDER   where a state of each cause is kept (out/diagnose): the script, which ends with the crash, and the files
  --stacks FILE  names the functions in which the calls were made, with file and line if the program has symbols. FILE is of the same run:
                 strace -f -k -y -z -e trace=%file,write,pwrite64,writev,ftruncate,fallocate,fsync,fdatasync -o FILE PROGRAM
  --page FILE    writes a page for a browser: the calls, what was unsynced, the crash, and the missing sync in its place
  --json         prints JSON, an object for each cause, and one at the end

CHECK finds in its environment STATE, SCRIPT and ACKNOWLEDGED, as `tools/states --help` says. Lines are counted as in the file.

Exit statuses: 0 if no state fails; 1 if one does; 2 if the record or the command line is bad; 3 without memory; 130 after Ctrl-C. A
terminal shows how far it is.
"""

from __future__ import annotations

import argparse
import os
import shutil
import sys
import tempfile
from typing import List, Optional

from .as_json import line_of_json
from .call_stacks import Stacks
from .diagnosis import Diagnosis, NothingLost
from .diagnosis_page import page_of
from .diagnosis_text import as_object, as_text, counts_of, summary
from .errors import LibraryMissing
from .progress import Progress
from .recorded_run import RecordedRun
from .replayed import NotMadeAgain
from .state_checks import Checks
from .states import CrashState
from .states_command import IN_MEMORY


def diagnose_command(arguments: List[str]) -> int:
    """Does what the text at the top of this file says. Returns the status."""
    parser = argparse.ArgumentParser(prog="diagnose", usage=(__doc__ or "").split(": ", 1)[0], description=(__doc__ or "").split("\n", 2)[2])
    parser.formatter_class = argparse.RawDescriptionHelpFormatter
    if "--" not in arguments:
        arguments = [*arguments, "--"]
    at = arguments.index("--")
    own, command = arguments[:at], arguments[at + 1 :]
    for name in ("--superfluous", "--whole", "--json"):
        parser.add_argument(name, action="store_true", help=argparse.SUPPRESS)
    for name, default in (("--limit", 100), ("--jobs", 2)):
        parser.add_argument(name, type=int, default=default, help=argparse.SUPPRESS)
    parser.add_argument("--from", dest="since", type=int, help=argparse.SUPPRESS)
    parser.add_argument("--out", default=os.path.join("out", "diagnose"), help=argparse.SUPPRESS)
    parser.add_argument("--page", help=argparse.SUPPRESS)
    parser.add_argument("--stacks", help=argparse.SUPPRESS)
    parser.add_argument("record", help=argparse.SUPPRESS)
    options = parser.parse_args(own)
    if not command or options.jobs < 1 or options.limit < 1:
        parser.error("wants a CHECK after --, and numbers from 1 on")
    try:
        with open(options.record, encoding="utf-8") as file:
            script = file.read()
        traced = None
        if options.stacks is not None:
            with open(options.stacks, encoding="utf-8", errors="replace") as file:
                traced = file.read()
        return _run(script, options, command, traced)
    except (LibraryMissing, OSError, ValueError) as error:
        print(f"diagnose: {error}", file=sys.stderr)
        return 2
    except (MemoryError, NotMadeAgain):
        print("diagnose: no memory", file=sys.stderr)
        return 3


def _run(script: str, options: argparse.Namespace, command: List[str], traced: Optional[str]) -> int:
    run, progress = RecordedRun(script, options.whole), Progress("diagnose")
    with tempfile.TemporaryDirectory(dir=IN_MEMORY if os.path.isdir(IN_MEMORY) else None) as work:
        checks = Checks(command, work, options.jobs)
        step = "the record"

        def told(what: str) -> None:
            nonlocal step
            step = what

        since = run.settled_before(len(run.lines)) if options.since is None else run.line_at(options.since)
        if since and not any(line > since for line in run.places()):
            raise ValueError(f"nothing after line {run.shown[since - 1]} changes what a crash leaves: --from 0 tries all crashes")
        diagnosis = Diagnosis(run, checks, options.limit, since, told, lambda: progress.show(lambda: f"{step}: {checks.count} checks"))
        wrong: Optional[CrashState] = None
        try:
            diagnosis.diagnose()
            if options.superfluous:
                diagnosis.find_superfluous()
        except NothingLost as found:
            wrong = found.state
        except KeyboardInterrupt:
            progress.tell(f"interrupted after {progress.seconds} s: {step}, {checks.count} checks")
            return 130
        finally:
            checks.end()
    progress.clear()
    if traced is not None:
        stacks = Stacks(run, diagnosis.called, traced)
        diagnosis.stack_of = stacks.of
        if stacks.missing:
            print(f"diagnose: {options.stacks}: {stacks.missing}", file=sys.stderr)
    _print(diagnosis, wrong, options, since)
    return int(wrong is not None or bool(diagnosis.causes))


def _print(diagnosis: Diagnosis, wrong: Optional[CrashState], options: argparse.Namespace, since: int) -> None:
    """Prints what was found, keeps a state of each cause, and writes the page."""
    states = [wrong] if wrong is not None else [cause.state for cause in diagnosis.causes]
    kept = [_keep(state, os.path.join(options.out, str(number))) for number, state in enumerate(states, 1)]
    if options.page is not None:
        page = page_of(diagnosis, wrong, kept, since, summary(diagnosis, wrong, options))
        with open(options.page, "w", encoding="utf-8") as file:
            file.write(page)
    if options.json:
        for number, folder in enumerate(kept):
            print(line_of_json(as_object(diagnosis, wrong, number, folder)), end="")
        print(line_of_json(counts_of(diagnosis, wrong, options.superfluous)), end="", flush=True)
        return
    print("\n".join([*as_text(diagnosis, wrong, kept), *summary(diagnosis, wrong, options)]), flush=True)


def _keep(state: CrashState, folder: str) -> str:
    """Keeps a state and its script. Returns the folder."""
    shutil.rmtree(folder, ignore_errors=True)
    os.makedirs(os.path.join(folder, "state"))
    state.write_to(os.path.join(folder, "state"))
    with open(os.path.join(folder, "script"), "w", encoding="utf-8") as file:
        file.write(state.script)
    return folder
