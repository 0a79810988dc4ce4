"""
state_check.py START CHECK SECONDS: starts a program on a state that a crash may have left, and checks it; tools/check_program runs it. Kills what
was started. The exit status is that of the check, or 1 if the program doesn't start, or if a command takes longer.
"""

import subprocess
import sys

sys.dont_write_bytecode = True
from crash_runs import kill_started, reap_orphans  # noqa: E402


def run(command, seconds):
    """Runs a command. Returns its status."""
    try:
        return subprocess.run(["sh", "-c", command], stdin=subprocess.DEVNULL, start_new_session=True, timeout=seconds, check=False).returncode
    except subprocess.TimeoutExpired:
        return 1


def main(start, check, seconds):
    """Does what the text at the top of this file says. Returns the status."""
    reap_orphans()
    try:
        return 1 if run(start, float(seconds)) else run(check, float(seconds))
    finally:
        kill_started(0, 20)


if __name__ == "__main__":
    sys.exit(main(*sys.argv[1:]))
