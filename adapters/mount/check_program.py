"""
tools/check_program --work CMD --check CMD [options]: runs a program once on a mount, and checks every state that a crash could have left.

The run is recorded, by `tools/crash_run --record-only`. Then `tools/states` makes a crash after each of its calls from the workload on, and
runs the check on each state that it may leave. A failure says what its crash lost. If a state fails, `blobcrash diagnose` names the sync that the
run lacks, and writes page.html in --out, a page for a browser.

  --limit N          at most N outcomes of each crash: first none lost, each single loss, all lost, each single draw kept (64)
  --whole            each write is kept or lost as a whole
  --jobs N           how many checks run at once (1)
  --out FOLDER       where the record, the failures and the page are kept (out/check_program)
  --prepare, --from, --start, --work, --check, --timeout, --profile, --tear, --keep, --size, --allow-other   as for tools/crash_run

A check finds the state in the plain folder $MOUNT, which it may change, and in $ACKNOWLEDGED what was acknowledged before the crash. With
--start the program is started there before each check, and killed after it. With --start or --timeout a check of a state that takes longer
fails: a program may wait for a lock that the crash left.
Exit statuses: 0 if every check succeeds; 1 if one fails; 2 for bad options, or if a command fails without a crash; 3 without FUSE; 130 after
Ctrl-C.
"""

import argparse
import json
import os
import shlex
import signal
import subprocess
import sys

import interrupts
from crash_options import TOP
from losses import described

KEPT = os.path.join(TOP if os.path.isdir(os.path.join(TOP, "crates")) else os.getcwd(), "out", "check_program")
PROGRAM = os.path.join(TOP, "blobcrash") if os.path.isdir(os.path.join(TOP, "crates")) else "blobcrash"
PASSED_ON = ("prepare", "from", "start", "work", "check", "timeout", "profile", "tear", "keep", "size")


def parse(words):
    """Returns the options."""
    parser = argparse.ArgumentParser(prog="check_program", usage=__doc__.strip(), add_help=False, allow_abbrev=False)
    parser.add_argument("--limit", type=int, default=64)
    parser.add_argument("--jobs", type=int, default=1)
    parser.add_argument("--out", default=KEPT)
    parser.add_argument("--whole", action="store_true")
    parser.add_argument("--allow-other", action="store_true")
    for name in PASSED_ON:
        parser.add_argument("--" + name, required=name in ("work", "check"))
    options = parser.parse_args(words)
    if options.limit < 1 or options.jobs < 1:
        parser.error("--limit and --jobs are at least 1")
    return options


class Ended:
    """A process that is ended with this one: by SIGINT, at which it removes what it has made."""

    def __init__(self, command, **how):
        with interrupts.held():
            self.process = subprocess.Popen(command, stdin=subprocess.DEVNULL, **how)

    def __enter__(self):
        return self.process

    def __exit__(self, *_):
        if self.process.poll() is None:
            self.process.send_signal(signal.SIGINT)
        self.process.wait()


def record(options):
    """Records the run. Returns the status of crash_run."""
    command = [sys.executable, os.path.join(TOP, "tools", "crash_run"), "--record-only", "--out", options.out]
    for name in PASSED_ON:
        if getattr(options, name) is not None:
            command += ["--" + name, getattr(options, name)]
    with Ended([*command, *(["--allow-other"] if options.allow_other else [])]) as process:
        return process.wait()


def check_of(options):
    """Returns the words of the check of a state."""
    if not options.start and options.timeout is None:
        return ["sh", "-c", options.check]
    program = os.path.join(TOP, "adapters", "mount", "state_check.py")
    return [sys.executable, program, options.start or ":", options.check, options.timeout or "60"]


def search(options, tool, folder, *words):
    """Returns a command that runs the check on states of the record, with these words and a folder of its own."""
    command = [sys.executable, os.path.join(TOP, "tools", tool), *words, "--limit", str(options.limit), "--jobs", str(options.jobs)]
    command += ["--out", os.path.join(options.out, folder), *(["--whole"] if options.whole else [])]
    return [*command, os.path.join(options.out, "run.script"), "--", *check_of(options)]


def states(options):
    """Checks all states of the record. Returns the status of states."""
    command = search(options, "states", "states", "--files", "--json")
    with Ended(command, stdout=subprocess.PIPE, text=True, env={**os.environ, "SEED": "1"}) as process:
        for line in process.stdout:
            if line.startswith("{"):  # else a check has printed it
                show(options, json.loads(line))
        return process.wait()


def show(options, found):
    """Prints a failure, or the counts at the end."""
    if "kept" not in found:
        whole = "all of them" if found["complete"] else f"not all of them: at most {options.limit} outcomes of a crash were tried"
        print(f"{found['crashes']} crashes, {found['outcomes']} outcomes, {found['states']} states, {whole}; {found['fail']} fail", flush=True)
        return
    script = os.path.join(found["kept"], "script")
    lines = [f"crash after line {found['line']}: the check exits with {found['status']}: {found['kept']}"]
    for title, said in zip(("what the crash lost:", "the last calls before it:"), described(PROGRAM, script)):
        lines += [f"  {title}", *(f"    {line}" for line in said)] if said else []
    tool = os.path.join("tools" if os.path.samefile(TOP, ".") else os.path.join(TOP, "tools"), "shrink")
    lines.append(f"  shorter: {shlex.join([tool, '--files', script, '--', *check_of(options)])}")
    print("\n".join(lines), flush=True)


def diagnose(options):
    """Names the sync that the run lacks, and writes the page."""
    page = os.path.join(options.out, "page.html")
    with Ended(search(options, "diagnose", "diagnosis", "--page", page), env={**os.environ, "SEED": "1"}) as process:
        if process.wait() == 1:
            print(f"the page: {page}", flush=True)


def main(words):
    """Runs all. Returns the exit status."""
    if words in (["--help"], ["-h"]):
        print(__doc__.strip())
        return 0
    options = parse(words)
    interrupts.install()
    try:
        with interrupts.interruptible():
            status = record(options) or states(options)
            if status == 1:
                diagnose(options)
            return status
    except KeyboardInterrupt:
        return 130
