"""Runs of a command on a terminal, for tests: standard error is a terminal, and standard output a file."""

import os
import pty
import select
import signal
import time


class Ended:
    """What a run on a terminal left: its standard output, what the terminal showed, and its status."""

    def __init__(self, out, shown, status):
        self.out, self.shown, self.status = out, shown, status

    @property
    def last(self):
        """What the terminal shows at the end: the lines without those that were overwritten."""
        return [line.rpartition("\r")[2].replace("\x1b[K", "") for line in self.shown.replace("\r\n", "\n").split("\n") if line]


def on_terminal(words, work, given=os.devnull, until=None, kind="xterm"):
    """Runs a command with a terminal as its standard error. Ctrl-C comes when the terminal shows the text `until`."""
    place = os.path.join(work, "stdout")
    child, terminal = pty.fork()
    if child == 0:
        os.dup2(os.open(given, os.O_RDONLY), 0)
        os.dup2(os.open(place, os.O_WRONLY | os.O_CREAT | os.O_TRUNC, 0o600), 1)
        os.environ["TERM"] = kind
        os.execvp(words[0], words)
    began, shown, is_sent = time.monotonic(), b"", False
    while True:
        if until is not None and until.encode() in shown and not is_sent:
            os.write(terminal, b"\x03")
            is_sent = True
        if time.monotonic() - began > 120:
            os.kill(child, signal.SIGKILL)
        try:
            data = os.read(terminal, 65536) if select.select([terminal], [], [], 0.05)[0] else None
        except OSError:
            break
        if data == b"":
            break
        shown += data or b""
    _, status = os.waitpid(child, 0)
    os.close(terminal)
    with open(place, encoding="utf-8") as file:
        return Ended(file.read(), shown.decode(errors="replace"), os.WEXITSTATUS(status) if os.WIFEXITED(status) else -os.WTERMSIG(status))
