"""
SIGINT and SIGTERM at random moments of tools/crash_run, and of the build of the daemon that it begins with: mount_signals.py [SEED]. Nothing is
left: no process, no mount, no folder. The last line is `N passed, M failed`.
"""

import os
import random
import shutil
import signal
import subprocess
import sys
import tempfile
import time

sys.dont_write_bytecode = True
from mount_calls import TOP, check, comes, run_tests  # noqa: E402

DRAW = random.Random(int(sys.argv[1]) if len(sys.argv) > 1 else 1)
MOMENTS = 10


def left(folder):
    """Returns the processes that have a folder in their environment or command, and what is mounted below it."""
    found = []
    for name in os.listdir("/proc"):
        for part in ("environ", "cmdline"):
            try:
                with open(f"/proc/{name}/{part}", "rb") as file:
                    if name.isdigit() and int(name) != os.getpid() and os.fsencode(folder) in file.read():
                        found.append(f"{name} {part}")
            except OSError:
                pass
    with open("/proc/self/mounts", encoding="utf-8", errors="replace") as file:
        return found + [line for line in file if folder in line]


def interrupt(number, by_terminal, builds):
    """
    Ends one run by a signal: to it alone, or to its whole group, as Ctrl-C of a terminal does. With `builds` it has to build the daemon first.
    """
    folder = tempfile.mkdtemp()
    work, check_it = "examples/mount_log.py append; sleep 100", "examples/mount_log.py check"  # in half of the seeds the power stays on
    command = ["tools/crash_run", "--seeds", "90", "--jobs", "3", "--stop-after", "30", "--timeout", "200", "--out", f"{folder}/out"]
    command += ["--work", work, "--check", check_it]
    environment = {**os.environ, "TMPDIR": folder, **({"OUT": f"{folder}/out/build"} if builds else {})}
    with open(f"{folder}.log", "wb") as log:
        run = subprocess.Popen(command, cwd=TOP, env=environment, stdin=subprocess.DEVNULL, stdout=log, stderr=log, start_new_session=True)
        comes(lambda: os.listdir(folder) or run.poll() is not None)  # Python has started, and the first seed
        time.sleep(DRAW.uniform(0, 2))
        (os.killpg if by_terminal else os.kill)(run.pid, number)
        status = run.wait(120)
    with open(f"{folder}.log", encoding="utf-8", errors="replace") as file:
        said = file.read()[-1000:]
    name = f"{signal.Signals(number).name}{' of a terminal' if by_terminal else ''}{' in a build' if builds else ''}"
    check(f"{name}: the status", status in (130, -number) and "Traceback" not in said, (status, said))
    check(f"{name}: no process and no mount", comes(lambda: not left(folder)), left(folder))
    check(f"{name}: no folder", [found for found in os.listdir(folder) if found != "out"] == [], os.listdir(folder))
    shutil.rmtree(folder, ignore_errors=True)
    os.unlink(f"{folder}.log")


def test_signals():
    """Each signal at some moments."""
    for number in (signal.SIGINT, signal.SIGTERM):
        for moment in range(MOMENTS):
            interrupt(number, moment % 2 == 1, False)
            interrupt(number, moment % 2 == 1, True)


if __name__ == "__main__":
    run_tests([test_signals])
