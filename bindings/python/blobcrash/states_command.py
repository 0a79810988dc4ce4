"""tools/states [options] SCRIPT -- CHECK [ARGUMENT ..]: checks every state in which a crash could have left a recorded run.

SCRIPT is the script of a run: what `store.script` has, a record of the mount or of `Files`, or one by hand. A crash is put after each call that
may change what it leaves; the calls before it are made as they were recorded, and of the crash all draws are tried. For each state, each
once, CHECK is run: it exits with 0 if all is well. `docs/GUIDE.md` has an example.

  --files        SCRIPT is a script of files
  --at LINE      only a crash after this line, of those that aren't empty, `words` or `seed`
  --from LINE    only crashes after this line and later ones. Of files without it: from the last `settle` on; --from 0 is all of them
  --since LINE   the same, to go on after an interruption
  --limit N      at most N outcomes of each crash: first none lost, each single loss, all lost, each single draw kept
  --states N     at most N states
  --seconds S    states are looked for S seconds at most
  --whole        each write is kept or lost as a whole
  --proved       the states are those that `blobcrash states` prints: of a store, and without --limit
  --jobs N       how many checks run at once (1)
  --out FOLDER   where failures are kept (out/states): the script, which ends with the crash, and the state
  --json         prints JSON, an object a line

CHECK finds in its environment: STATE, a folder with the state as plain files (of a store PARTITION/NAME, the name in hex, each with its
header), which it may change; with --files MOUNT too, the same folder, for the check of a crash run; SCRIPT, the script up to the crash; ACKNOWLEDGED, a file with the texts of the comments `# acknowledged ..`
before it, a line each.

Exit statuses: 0 if every check does; 1 if one fails; 2 if the script or the command line is bad, as when LINE is none after which a crash
is put; 3 without memory; 130 after Ctrl-C, with the counts so far. A terminal shows how far it is.
"""

from __future__ import annotations

import argparse
import os
import shutil
import subprocess
import sys
import tempfile
from concurrent.futures import FIRST_COMPLETED, Future, ThreadPoolExecutor, wait
from typing import Dict, List, Set

from .as_json import line_of_json
from .errors import LibraryMissing
from .progress import Progress
from .recorded import split_script
from .states import CrashState, CrashStates

# A folder in memory, if there is one.
IN_MEMORY = "/dev/shm"


def written(state: CrashState, folder: str) -> Dict[str, str]:
    """Writes a state below a folder. Returns the environment of its check."""
    places = {name: os.path.join(folder, name.lower()) for name in ("STATE", "SCRIPT", "ACKNOWLEDGED")}
    os.makedirs(places["STATE"])
    state.write_to(places["STATE"])
    with open(places["SCRIPT"], "w", encoding="utf-8") as file:
        file.write(state.script)
    with open(places["ACKNOWLEDGED"], "w", encoding="utf-8") as file:
        file.write("".join(f"{text}\n" for text in state.acknowledged))
    if state.is_files:
        places["MOUNT"] = places["STATE"]
    return {**os.environ, **places}


def check_state(state: CrashState, command: List[str], folder: str, quiet: bool = False) -> int:
    """Writes a state below a folder and runs the command. Returns its status. With `quiet` what it prints isn't shown."""
    out = subprocess.DEVNULL if quiet else None
    return subprocess.run(command, env=written(state, folder), stdin=subprocess.DEVNULL, stdout=out, stderr=out, check=False).returncode


class _Checks:
    """The checks that are under way, and the failures."""

    def __init__(self, command: List[str], options: argparse.Namespace, work: str, progress: Progress) -> None:
        self._command, self._out, self._jobs, self._work = command, options.out, options.jobs, work
        self._is_json, self._progress = options.json, progress
        self._executor = ThreadPoolExecutor(options.jobs)
        self._under_way: Dict["Future[int]", CrashState] = {}
        self._count = 0
        self.failures = 0

    def add(self, state: CrashState) -> None:
        """Begins a check, once fewer than the jobs are under way."""
        while len(self._under_way) >= self._jobs:
            self._take(wait(self._under_way, return_when=FIRST_COMPLETED).done)
        self._count += 1
        folder = os.path.join(self._work, str(self._count))
        self._under_way[self._executor.submit(self._checked, state, folder)] = state

    def first_line(self, line: int) -> int:
        """The least line of a crash of which a check is under way, or this one."""
        return min([line, *(state.line for state in self._under_way.values())])

    def end(self) -> None:
        """Waits for all checks."""
        self._take(wait(self._under_way).done)
        self._executor.shutdown()

    def _checked(self, state: CrashState, folder: str) -> int:
        try:
            return check_state(state, self._command, folder)
        finally:
            shutil.rmtree(folder, ignore_errors=True)

    def _take(self, done: Set["Future[int]"]) -> None:
        for future in done:
            state = self._under_way.pop(future)
            status = future.result()
            if status:
                self._keep(state, status)

    def _keep(self, state: CrashState, status: int) -> None:
        self.failures += 1
        kept = os.path.join(self._out, str(self.failures))
        shutil.rmtree(kept, ignore_errors=True)
        os.makedirs(os.path.join(kept, "state"))
        state.write_to(os.path.join(kept, "state"))
        with open(os.path.join(kept, "script"), "w", encoding="utf-8") as file:
            file.write(state.script)
        self._progress.clear()
        if self._is_json:
            print(line_of_json({"line": state.line, "status": status, "kept": kept}), end="", flush=True)
        else:
            print(f"crash after line {state.line}: the check exits with {status}: {kept}", flush=True)


def states_command(arguments: List[str]) -> int:
    """Does what the text at the top of this file says. Returns the status."""
    parser = argparse.ArgumentParser(prog="states", usage=(__doc__ or "").split(": ", 1)[0], description=(__doc__ or "").split("\n", 2)[2])
    parser.formatter_class = argparse.RawDescriptionHelpFormatter
    if "--" not in arguments:
        arguments = [*arguments, "--"]
    at = arguments.index("--")
    own, command = arguments[:at], arguments[at + 1 :]
    for name in ("--files", "--whole", "--proved", "--json"):
        parser.add_argument(name, action="store_true", help=argparse.SUPPRESS)
    for name, default in (("--at", None), ("--limit", None), ("--states", None), ("--jobs", 1)):
        parser.add_argument(name, type=int, default=default, help=argparse.SUPPRESS)
    parser.add_argument("--seconds", type=float, help=argparse.SUPPRESS)
    parser.add_argument("--from", "--since", dest="since", type=int, help=argparse.SUPPRESS)
    parser.add_argument("--out", default=os.path.join("out", "states"), help=argparse.SUPPRESS)
    parser.add_argument("script", help=argparse.SUPPRESS)
    options = parser.parse_args(own)
    given = [each for each in (options.jobs, options.limit, options.states) if each is not None]
    if not command or min(given) < 1 or (options.seconds is not None and not options.seconds > 0):
        parser.error("wants a CHECK after --, and numbers from 1 on")
    if options.proved and (options.files or options.limit is not None):
        parser.error("--proved is of a store, and without --limit")
    try:
        with open(options.script, encoding="utf-8") as file:
            script = file.read()
        return _run(script, options, command)
    except (LibraryMissing, OSError, ValueError) as error:
        print(f"states: {error}", file=sys.stderr)
        return 2
    except MemoryError:
        print("states: no memory", file=sys.stderr)
        return 3


def first_place(script: str, options: argparse.Namespace) -> int:
    """The line from which on crashes are tried if none is named: of files that of the last `settle`, since all before it is durable."""
    if not options.files or options.at is not None:
        return 0
    return max((number for number, line in enumerate(split_script(script).rest, 1) if line == "settle"), default=0)


def _run(script: str, options: argparse.Namespace, command: List[str]) -> int:
    of = {name: getattr(options, name) for name in ("files", "at", "limit", "whole", "proved", "seconds")}
    since = first_place(script, options) if options.since is None else options.since
    states, progress = CrashStates(script, since=since, most=options.states, **of), Progress("states")
    with tempfile.TemporaryDirectory(dir=IN_MEMORY if os.path.isdir(IN_MEMORY) else None) as work:
        checks = _Checks(command, options, work, progress)

        def so_far() -> str:
            return f"crash {states.crashes} of {states.places}, {states.states} states, {checks.failures} fail"

        try:
            for state in states:
                checks.add(state)
                progress.show(so_far)
            checks.end()
        except KeyboardInterrupt:
            again = f"--since {checks.first_line(states.line)}"
            progress.tell(f"interrupted after {progress.seconds} s: {so_far()}. To go on: {again}")
            return 130
    progress.clear()
    if states.crashes == 0:
        raise ValueError(f"nothing after line {since} changes what a crash leaves: --from 0 tries all crashes")
    if options.json:
        counts = {"crashes": states.crashes, "outcomes": states.outcomes, "states": states.states, "complete": states.complete}
        print(line_of_json({**counts, "fail": checks.failures}), end="")
    else:
        print(f"{states}; {checks.failures} fail")
    if not states.complete and (options.states, options.seconds) != (None, None):
        progress.tell(f"not all crashes were tried. To go on: --since {states.line}")
    return int(checks.failures > 0)
