"""What tools/mountctl, tools/crash_run and the tests share: where a control socket is, its lines, and mounts of their own."""

import contextlib
import hashlib
import os
import re
import shutil
import socket
import stat
import subprocess
import tempfile
import time


class Failed(Exception):
    """What a command says in one line."""


def socket_folder():
    """Returns the folder of this user's control sockets, and makes it. Refuses one that another user may write to."""
    runtime = os.environ.get("XDG_RUNTIME_DIR", "")
    folder = os.path.join(runtime, "blobcrash") if runtime.startswith("/") else f"/tmp/blobcrash-mounts-{os.getuid()}"
    try:
        os.mkdir(folder, 0o700)
    except FileExistsError:
        pass
    except OSError as error:
        raise Failed(f"{folder}: {error.strerror}; --control names another socket") from None
    found = os.lstat(folder)
    if not stat.S_ISDIR(found.st_mode) or found.st_uid != os.getuid() or found.st_mode & 0o077:
        raise Failed(f"{folder}: not a folder of this user alone, with mode 0700; --control names another socket")
    return folder


def whole_path(directory):
    """Returns the absolute path of a folder, without a call on the folder itself: the power of its mount may be off."""
    path = os.path.abspath(directory)
    return os.path.join(os.path.realpath(os.path.dirname(path)), os.path.basename(path))


def socket_of(directory):
    """Returns the path of the control socket of a mount, unless --control names another."""
    name = hashlib.sha256(os.fsencode(whole_path(directory))).hexdigest()[:16]
    return os.path.join(socket_folder(), name + ".socket")


class Broken(Exception):
    """The commands fail without a crash, or there is no mount."""


def plain_folder(prefix):
    """Makes a temporary folder. Its path has no character for which a shell would need quotes, whatever TMPDIR is."""
    for place in (tempfile.gettempdir(), "/tmp", "/var/tmp"):
        if re.fullmatch("[A-Za-z0-9_./+-]+", place) and os.access(place, os.W_OK | os.X_OK):
            return tempfile.mkdtemp(prefix=prefix, dir=place)
    raise Failed("no folder for temporary files has a path without spaces: set TMPDIR")


class Control:
    """A connection to a daemon."""

    def __init__(self, path):
        self._socket = socket.socket(socket.AF_UNIX)
        try:
            self._socket.connect(path)
        except OSError as error:
            self._socket.close()
            raise Failed(f"no daemon has the socket {path}: {error.strerror}") from None
        self._lines = self._socket.makefile("r", encoding="ascii", errors="replace")

    def ask(self, line):
        """Sends a command, and returns its reply without the `ok`. An error of the daemon is raised."""
        sent = os.fsencode(line)
        if b"\n" in sent or len(sent) > 500:
            raise Failed("a command is one line of at most 500 bytes")
        reply = ""
        with contextlib.suppress(OSError):  # a daemon that takes no more clients says so, and closes
            self._socket.sendall(sent + b"\n")
        with contextlib.suppress(OSError):
            reply = self._lines.readline()
        if not reply.endswith("\n"):
            raise Failed("the daemon has ended")
        word, _, rest = reply.strip().partition(" ")
        if word != "ok":
            raise Failed(rest)
        return rest

    def status(self):
        """Returns the numbers of `status` by their names."""
        words = self.ask("status").split()
        return dict(zip(words[::2], words[1::2]))

    def is_off(self):
        """Returns whether the power is off."""
        return self.status()["power"] == "off"

    def end(self):
        """Unmounts, and waits until the daemon has done so."""
        reply = self.ask("umount")
        with contextlib.suppress(OSError):
            self._socket.recv(1)
        return reply

    def close(self):
        """Closes the connection."""
        self._lines.close()
        self._socket.close()

    def __enter__(self):
        return self

    def __exit__(self, *_):
        self.close()


class Mount:
    """A mount on a new folder, with a daemon in the foreground that ends with it."""

    def __init__(self, program, *options):
        self.folder = plain_folder("blobcrash-mount-")
        self.at = os.path.join(self.folder, "mount")
        os.mkdir(self.at)
        self.control = None
        self._log = open(os.path.join(self.folder, "log"), "w+b")
        path = os.path.join(self.folder, "socket")
        command = [program, self.at, "--control", path, "--foreground", *options]
        # Ctrl-C is for this process, which ends the daemon.
        self.daemon = subprocess.Popen(command, stdin=subprocess.DEVNULL, stderr=self._log, start_new_session=True)
        try:
            self._connect(path)
        except Failed:
            self.close()
            raise

    def _connect(self, path):
        for _ in range(2000):
            if self.daemon.poll() is not None:
                raise Failed(self.messages().strip() or "the daemon has ended")
            try:
                self.control = Control(path)
                self.control.status()
                return
            except Failed:
                time.sleep(0.005)
        raise Failed("the daemon doesn't answer")

    def messages(self):
        """Returns what the daemon has printed."""
        self._log.seek(0)
        return self._log.read().decode(errors="replace")

    def ask(self, line):
        """Sends a command, and returns its reply."""
        return self.control.ask(line)

    def close(self):
        """Unmounts, ends the daemon, and removes the folder."""
        try:
            if self.control:
                self.control.end()
                self.control.close()
        except Failed:
            subprocess.run(["umount", "-l", "--", self.at], stderr=subprocess.DEVNULL)
        try:
            self.daemon.wait(20)
        except subprocess.TimeoutExpired:
            self.daemon.kill()
            self.daemon.wait()
        self._log.close()
        shutil.rmtree(self.folder, ignore_errors=True)

    def __enter__(self):
        return self

    def __exit__(self, *_):
        self.close()
