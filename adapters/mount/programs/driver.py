"""
What the drivers of programs share. A driver has the commands `prepare`, `start`, `work` and `check` of tools/crash_run. Its workload
sets keys one after another: operation N, from 1 on, sets key N % KEYS to `value(N)`, and is acknowledged when the program says that it
is durable. After a crash each key has its last acknowledged value, or that of the one operation which may have been under way.
"""

import os
import subprocess
import sys
import time

# The environment may name fewer operations, for a short record.
KEYS, OPERATIONS = 25, int(os.environ.get("OPERATIONS", "120"))
HELD, LOST, DAMAGED = 0, 1, 2

MOUNT = os.environ.get("MOUNT", "")
ACKNOWLEDGED = os.environ.get("ACKNOWLEDGED", "")
SCRATCH = os.path.dirname(ACKNOWLEDGED)  # outside the mount


def value(number):
    """Returns the value that an operation sets: its number, and up to 900 letters."""
    return f"{number}:{chr(97 + number % 26) * (number * 37 % 900)}"


def acknowledge(number):
    """Notes that an operation is durable."""
    with open(ACKNOWLEDGED, "a", encoding="ascii") as file:
        file.write(f"{number}\n")


def last_acknowledged():
    """Returns the last acknowledged operation, or 0."""
    with open(ACKNOWLEDGED, encoding="ascii") as file:
        return max((int(line) for line in file), default=0)


def work(put, operations=OPERATIONS):
    """Makes the operations, each by `put`, which returns whether the program says that it is durable."""
    for number in range(1, min(operations, OPERATIONS) + 1):
        if not put(number):
            print(f"operation {number} failed")
            return LOST
        acknowledge(number)
    return HELD


def judge_numbers(numbers):
    """The same for operations that each add a number, which `numbers` has in their order."""
    last = last_acknowledged()
    if numbers != list(range(1, len(numbers) + 1)) or len(numbers) > last + 1:
        missing = [number for number in range(1, last + 1) if number not in numbers]
        print(f"{'lost' if missing else 'damaged'}: of {last} acknowledged operations there are {numbers[-30:]}; missing are {missing[-10:]}")
        return LOST if missing else DAMAGED
    if len(numbers) < last:
        print(f"lost: the operations {len(numbers) + 1} to {last}")
        return LOST
    return HELD


def judge(found):
    """Compares the values of all keys with what was acknowledged. Returns the status of a check."""
    last, status = last_acknowledged(), HELD
    for key, text in sorted(found.items()):
        number = int(text.split(":")[0]) if text.split(":")[0].isdigit() else 0
        if text != value(number) or number % KEYS != key or number > last + 1:
            print(f"damaged: key {key} has {text[:40]!r}, of {len(text)} bytes; the last acknowledged operation is {last}")
            return DAMAGED
    for number in range(max(1, last - KEYS + 1), last + 1):
        got = int(found.get(number % KEYS, "0:").split(":")[0])
        if got not in (number, last + 1):
            print(f"lost: operation {number} of {last}; its key has that of {got or 'none'}")
            status = LOST
    return status


def find_program(name, *patterns):
    """Returns the path of a program, also where Debian has some that aren't on the PATH. Exits with 127 if there is none."""
    import glob
    import shutil

    found = shutil.which(name) or max((path for pattern in patterns for path in glob.glob(pattern)), default=None)
    if not found:
        print(f"there is no {name}")
        sys.exit(127)
    return found


def run(*words, **how):
    """Runs a program. Returns what it prints, or None if it fails, and then prints the end of that."""
    # Debian's programs come first, and find Debian's Python.
    how["env"] = {**how.get("env", os.environ), "PATH": f"/usr/sbin:/usr/bin:/sbin:/bin:{os.environ.get('PATH', '')}"}
    ran = subprocess.run(words, **{"stdin": subprocess.DEVNULL, "stdout": subprocess.PIPE, "stderr": subprocess.STDOUT, "cwd": "/",
                                   "encoding": "utf-8", "errors": "replace", **how})
    if ran.returncode:
        print(f"{words[0]} ended with {ran.returncode}: {ran.stdout[-400:]}")
    return None if ran.returncode else ran.stdout


def as_user(name):
    """Returns arguments for a process of another user, if this is root: servers refuse to run as root."""
    if os.getuid() != 0:
        return {}
    import pwd

    user = pwd.getpwnam(name)

    def become():
        os.setgroups([])
        os.setgid(user.pw_gid)
        os.setuid(user.pw_uid)

    return {"preexec_fn": become, "cwd": "/"}


def serve(command, serves, seconds=50, **how):
    """Starts a server, which goes on after this process, and waits until it serves. Returns whether it does."""
    server = subprocess.Popen(command, stdin=subprocess.DEVNULL, start_new_session=True, **how)
    until = time.monotonic() + seconds
    while time.monotonic() < until:
        if server.poll() is not None:
            print(f"the server ended with status {server.returncode}")
            return False
        if serves():
            return True
        time.sleep(0.05)
    print("the server doesn't answer")
    return False


class Shell:
    """A program that reads statements on its standard input, and prints their results."""

    MARK = "#end"

    def __init__(self, command, ending, **how):
        self.ending = ending
        self.process = subprocess.Popen(command, stdin=subprocess.PIPE, stdout=subprocess.PIPE, stderr=subprocess.STDOUT,
                                        universal_newlines=True, bufsize=1, **how)

    def ask(self, statement):
        """Returns the lines that a statement prints, or None if the program ended."""
        lines = []
        try:
            self.process.stdin.write(f"{statement}\n{self.ending}\n")
            self.process.stdin.flush()
        except OSError:
            return None
        for line in self.process.stdout:
            if line.strip() == self.MARK:
                return lines
            lines.append(line.rstrip("\n"))
        print("\n".join(lines[-5:]))
        return None


def pairs(lines):
    """Returns keys and values of lines `key|value`, or None if a line is none."""
    try:
        return {int(line.split("|", 1)[0]): line.split("|", 1)[1] for line in lines}
    except (ValueError, IndexError):
        print("\n".join(lines[:5]))
        return None


def main(commands):
    """Runs a command by its name, with the words after it. Its result is the exit status; None is 0."""
    command = commands.get(sys.argv[1] if len(sys.argv) > 1 else "")
    if not command or not MOUNT:
        print(f"usage: MOUNT=FOLDER ACKNOWLEDGED=FILE {sys.argv[0]} {'|'.join(commands)}", file=sys.stderr)
        sys.exit(2)
    sys.exit(command(*sys.argv[2:]))
