"""The workers of tools/crash_run that no other executor is given for. Only the process that starts them needs this file."""

import contextlib
import os
import signal
import socket
import subprocess
import traceback
from concurrent.futures import ThreadPoolExecutor

from mounting import Broken


def _serve(reply_to, lines):
    """Replies to each line. Ends this process."""
    try:
        for line in lines:
            print(reply_to(line), file=lines, flush=True)
        os._exit(0)
    finally:
        traceback.print_exc()
        os._exit(1)


class Workers(ThreadPoolExecutor):
    """Processes of this machine that reply to lines. They are forked: a new Python would compile all sources again."""

    def __init__(self, count, reply_to):
        super().__init__(count)
        self._sockets, self._idle = {}, []
        for _ in range(count):
            ours, its_own = socket.socketpair()
            process = os.fork()
            if process == 0:
                for other in (*self._sockets.values(), ours):
                    other.close()  # a worker ends when nothing has the other end of its socket
                _serve(reply_to, its_own.makefile("rw"))
            its_own.close()
            self._sockets[process] = ours
            self._idle.append(process)

    def run_line(self, line):
        """Gives a line to a worker. Returns the reply as subprocess.run does."""
        if not self._idle:
            raise Broken("a worker has ended")
        process, reply = self._idle.pop(), ""
        with contextlib.suppress(OSError), self._sockets[process].makefile("rw") as lines:
            print(line, file=lines, flush=True)
            reply = lines.readline()
        if reply:
            self._idle.append(process)
        status = 0 if reply else os.waitid(os.P_PID, process, os.WEXITED | os.WNOWAIT).si_status
        return subprocess.CompletedProcess(line, status, reply)

    def end(self):
        """Ends all of them, which unmount and remove what they have made."""
        for process, ours in self._sockets.items():
            os.kill(process, signal.SIGTERM)
            ours.shutdown(socket.SHUT_WR)
        self.shutdown()
        for process in self._sockets:
            os.waitpid(process, 0)
