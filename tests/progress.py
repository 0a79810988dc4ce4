"""
Runs ./test on a terminal, and shows below its output what runs, how much is left and how long it took last time:

    progress.py FOLDER COMMAND ..

FOLDER has what the run has written so far (out/test). Its output and its status are those of the command.
"""

import os
import re
import select
import shutil
import signal
import subprocess
import sys
import time
from pathlib import Path

ERASE = b"\r\x1b[K"
ENDED = re.compile(rb"^rt: (\w+) (?:proved|is kept: .*)$", re.M)
TRIED = re.compile(rb"^rt: must-fail ", re.M)


def numbers(path, column=1):
    """Returns the number of each line of a file by its first word."""
    try:
        lines = Path(path).read_text(encoding="utf-8").splitlines()
    except OSError:
        return {}
    return {words[0]: int(words[column]) for words in (line.partition("#")[0].split() for line in lines) if len(words) > column}


def span(seconds):
    return f"{round(seconds)} seconds" if seconds < 100 else f"{round(seconds / 60)} minutes"


class Progress:
    """How far a run is, by what it has written so far to its folder, and by its output."""

    def __init__(self, folder):
        self.folder, self.began, self.output = Path(folder), time.monotonic(), b""
        self.budget, self.last = numbers("tests/budget.txt"), numbers("out/test.last")
        lines = Path("crates.txt").read_text(encoding="utf-8").splitlines()
        self.crates = [re.split("[ :]", line)[0] for line in lines if line.partition("#")[0].strip()]
        edits = numbers("tests/budget.txt", 2) if self.folder.name == "test" else {}
        self.edits = len(list(Path("crates").glob("*/must-fail/*.edit"))) if edits else 0
        self.edit_seconds = sum(edits.values()) / max(self.edits, 1)
        # Crates wait for those below them: tools/building.sh estimates proofs in the same way.
        self.speed = {1: 1, 2: 1.7, 3: 1.7}.get(os.cpu_count(), 2.8)

    def of_gate(self):
        ended = {name.decode() for name in ENDED.findall(self.output)} & set(self.crates)
        left = sum(self.budget.get(name, 100) for name in self.crates if name not in ended)
        left += max(self.edits - len(TRIED.findall(self.output)), 0) * self.edit_seconds
        try:
            runs = (self.folder / "times.now").read_text(encoding="utf-8").split()
        except OSError:
            runs = []
        done = f"{len(ended)} of {len(self.crates)} crates, at most {span(left / self.speed)} left"
        return done, self.last.get("gate"), ", ".join(runs)

    def of_scripts(self):
        names = (self.folder / "scripts").read_text(encoding="utf-8").split()
        ended = [name for name in names if (self.folder / name / "seconds").exists()]
        runs = [name for name in names if (self.folder / name).exists() and name not in ended]
        left = [self.last[name] for name in names if name not in ended and name in self.last]
        rest = f", about {span(max(sum(left) / os.cpu_count(), *left))} left" if len(left) > 1 else ""
        shown = [f"{name[len('tests/'):]}{f' ({span(self.last[name])})' if name in self.last else ''}" for name in runs]
        return f"{len(ended)} of {len(names)} scripts{rest}", self.last.get("all"), ", ".join(shown)

    def line(self):
        """Returns the line that is shown."""
        is_gate = not (self.folder / "rt ci/status").exists()
        try:
            done, last, runs = self.of_gate() if is_gate else self.of_scripts()
        except (OSError, ValueError):
            return "test:"
        before = f" ({span(last)} last time{' for the proofs' if is_gate else ''})" if last is not None else ""
        return f"test: {done}; {span(time.monotonic() - self.began)} so far{before}{'; now ' if runs else ''}{runs}"


def write(data):
    sys.stdout.buffer.write(data)
    sys.stdout.buffer.flush()


def follow(progress, output):
    """Shows what is written to `output` until its end, and below it the line."""
    is_at_start, is_shown = True, False
    while True:
        if select.select([output], [], [], 1)[0]:
            data = os.read(output, 65536)
            progress.output += data
            if is_shown or not data:
                write(ERASE if is_shown else b"")
            if not data:
                return
            write(data)
            is_at_start, is_shown = data.endswith(b"\n"), False
        if is_at_start:
            width = shutil.get_terminal_size().columns - 1
            write(ERASE + progress.line()[:width].encode())
            is_shown = True


def main(folder, *command):
    # Ctrl-C reaches the command too, which ends then.
    signal.signal(signal.SIGINT, signal.SIG_IGN)
    started = subprocess.Popen(command, stdout=subprocess.PIPE, preexec_fn=lambda: signal.signal(signal.SIGINT, signal.SIG_DFL))
    for number in (signal.SIGHUP, signal.SIGTERM):
        signal.signal(number, lambda number, _: started.send_signal(number))
    follow(Progress(folder), started.stdout.fileno())
    status = started.wait()
    return 128 - status if status < 0 else status


if __name__ == "__main__":
    sys.exit(main(*sys.argv[1:]))
