"""
Tests of what reaches the daemon from outside: mount_clients.py PROGRAM. Clients of the control socket that go away or send anything, the
fifo, notes, and where a record may be. The last line is `N passed, M failed`.
"""

import os
import signal
import socket
import subprocess
import sys
import tempfile

sys.dont_write_bytecode = True
from mount_calls import TOP, check, comes, get, put, refusal, refused, run_tests  # noqa: E402
from mounting import Mount  # noqa: E402

PROGRAM = sys.argv[1]


def client_of(mount):
    """Returns a new connection to the control socket."""
    client = socket.socket(socket.AF_UNIX)
    client.connect(os.path.join(mount.folder, "socket"))
    client.settimeout(60)
    return client


def reply_to(mount, data):
    """Returns what the daemon replies to a line."""
    with client_of(mount) as client:
        client.sendall(data)
        try:
            return client.recv(1000)
        except OSError as error:
            return type(error).__name__


def is_stopped(mount):
    """Returns whether the daemon is stopped by a signal."""
    with open(f"/proc/{mount.daemon.pid}/stat", encoding="ascii", errors="replace") as file:
        return file.read().rpartition(")")[2].split()[0] == "T"


def test_early_ends():
    """A client that has gone before its reply is sent: Ctrl-C in a mountctl that waits."""
    with Mount(PROGRAM) as mount:
        put(f"{mount.at}/f", b"bytes", sync=True)
        for sent in (b"", b"status", b"status\n", b"status\n" * 9, b"status\nstat", b"crash\nstatus\n", b"status\n" + b"x" * 505):
            os.kill(mount.daemon.pid, signal.SIGSTOP)
            comes(lambda: is_stopped(mount))
            with client_of(mount) as client:
                client.sendall(sent)
            os.kill(mount.daemon.pid, signal.SIGCONT)
            check(f"a client that sent {sent[:30]!r} and went", refused(mount, "status").startswith("power on"), mount.messages())
        check("the files are there", comes(lambda: refusal(get, f"{mount.at}/f") == b"bytes"))  # no client has waited for the crash


def test_connections():
    """Many connections: one more is told why it isn't served."""
    with Mount(PROGRAM) as mount:
        clients = [client_of(mount) for _ in range(40)]
        check("forty clients", refused(mount, "status").startswith("power on"))
        clients += [client_of(mount) for _ in range(40)]
        command = [os.path.join(TOP, "tools", "mountctl"), os.path.join(mount.folder, "socket"), "status"]
        ran = subprocess.run(command, stdout=subprocess.PIPE, stderr=subprocess.PIPE, text=True)
        said = "mountctl: all connections to the daemon are in use\n"
        check("one too many", (ran.returncode, ran.stdout, ran.stderr) == (1, "", said), (ran.returncode, ran.stderr))
        for client in clients:
            client.close()
        check("and later", comes(lambda: reply_to(mount, b"status\n").startswith(b"ok power on")))


def test_lines():
    """Lines that are no commands."""
    with Mount(PROGRAM) as mount:
        check("a zero byte", reply_to(mount, b"crash\0\n") == b"error: a line with a zero byte\n")
        check("any bytes", reply_to(mount, b"\xff\xfe\n") == b"error: no such command\n")
        check("a line that is too long", reply_to(mount, b"x" * 512 + b"crash\n") in (b"", "ConnectionResetError"))
        check("no crash", "life 1 " in refused(mount, "status"))


def test_fifo():
    """What isn't a line of at most 511 bytes is no command, and neither is its rest."""
    with tempfile.TemporaryDirectory() as folder:
        log = f"{folder}/log"

        def logged():
            with open(log, "rb") as file:
                return file.read()

        with Mount(PROGRAM, "--fifo", f"{folder}/fifo", "--log", log) as mount, open(f"{folder}/fifo", "wb", buffering=0) as fifo:
            for sent in (b"x" * 512, b"x" * 2000, b"lazyfs::clear-cache" * 27, b"lazyfs::clear-cache\0", b"\xff\n", b"\n\n"):
                fifo.write(sent + b"lazyfs::clear-cache\n" if b"\n" not in sent else sent)
            fifo.write(b"lazyfs::help\n")
            check("the command after them", comes(lambda: b"lazyfs::help: ok\n" in logged()), logged())
            check("no crash", "life 1 " in refused(mount, "status"), logged())
            check("seven lines are no commands", logged().count(b"not a command: ") == 7, logged())


def test_notes():
    """Each note is a line of the record that a replay reads; others are refused."""
    with tempfile.TemporaryDirectory() as folder, Mount(PROGRAM, "--record", f"{folder}/record") as mount:
        bad = (b"\xff\xfe", b"a\rb", b"\xc3", b"\xc0\x80", b"\xed\xa0\x80", b"\xf4\x90\x80\x80", b"\xe2\x80\xa8", b"\xc2\x85", b"\x1b[1m", b"\t")
        said = [reply_to(mount, b"note acknowledged " + text + b"\n") for text in bad]
        check("bad notes", said == [b"error: a note is UTF-8 without control characters\n"] * len(bad), said)
        good = ["a", "\u00fc \u20ac \U0001f600 # \\", "\u07ff\u0800\uffff\U00010000\U0010ffff"]
        check("good notes", [refused(mount, f"note {text}") for text in good] == [""] * 3)
        command = [os.path.join(TOP, "tools", "mountctl"), os.path.join(mount.folder, "socket"), "note"]
        ran = subprocess.run([*command, "acknowledged 1\ncrash"], stdout=subprocess.PIPE, stderr=subprocess.PIPE, text=True)
        check("a note of two lines", (ran.returncode, ran.stderr) == (1, "mountctl: a command is one line of at most 500 bytes\n"), ran)
        mount.ask("record stop")
        with open(f"{folder}/record", encoding="utf-8") as file:
            notes = [line for line in file.read().splitlines() if line.startswith("#")]
        check("the record", notes == [f"# {text}" for text in good], notes)


def test_records():
    """A record that would be on the mount is refused, whatever leads there: the daemon would wait for itself."""
    with tempfile.TemporaryDirectory() as folder, Mount(PROGRAM) as mount:
        os.symlink("loop", f"{folder}/loop")
        said = reply_to(mount, f"record {folder}/loop\n".encode())
        check("a loop of links", said == b"error: Too many levels of symbolic links\n", said)
        said = reply_to(mount, f"record {folder}/none/record\n".encode())
        check("a folder that is missing", said == b"error: No such file or directory\n", said)
        os.mkdir(f"{mount.at}/d")
        os.mkdir(f"{folder}/e")
        os.symlink(mount.at, f"{folder}/link")
        os.symlink("../link/d", f"{folder}/e/relative")
        os.symlink(f"{folder}/e/relative/../x", f"{folder}/file")
        mount.ask("crash")
        paths = [f"{folder}/link/record", f"{folder}/e/relative/record", f"{folder}/file", f"{mount.at}/../x", f"{folder}//e/../link/./d/record",
                 f"/proc/self/root{mount.at}/record"]
        said = [reply_to(mount, f"record {path}\n".encode()) for path in paths]
        check("on the mount", said == [b"error: Resource deadlock avoided\n"] * len(paths), said)


if __name__ == "__main__":
    run_tests([test_early_ends, test_connections, test_lines, test_fifo, test_notes, test_records])
