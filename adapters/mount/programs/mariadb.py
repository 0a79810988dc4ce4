#!/usr/bin/env python3
"""MariaDB with InnoDB: mariadb.py prepare|start|work|check. Its files are durable before the server starts."""

import os
import shutil
import subprocess
import sys
import tempfile

from driver import DAMAGED, KEYS, MOUNT, Shell, as_user, find_program, judge, main, pairs, serve, value, work

DATA = f"{MOUNT}/data"
# Of the mount's folder, which the server's user may enter.
SOCKET = os.path.join(os.path.dirname(MOUNT), "mariadb.socket")


def program(name):
    """Returns the path of one of MariaDB's programs."""
    return find_program(name, f"/usr/sbin/{name}", f"/usr/bin/{name}")


def template():
    """Returns the files of a new server outside of the mount, which the first call makes."""
    kept = os.path.join(os.path.dirname(os.path.realpath(__file__)), "..", "..", "..", "out", "mount", "mariadb")
    if not os.path.isdir(kept):
        made = tempfile.mkdtemp()
        os.chmod(made, 0o755)
        folder = os.path.join(made, "data")
        words = [program("mariadb-install-db"), "--no-defaults", f"--datadir={folder}", "--auth-root-authentication-method=normal",
                 "--innodb-log-file-size=8M", "--skip-test-db", *(["--user=mysql"] if os.getuid() == 0 else [])]
        if subprocess.run(words, stdin=subprocess.DEVNULL, stdout=subprocess.DEVNULL).returncode:
            sys.exit(1)
        os.makedirs(os.path.dirname(kept), exist_ok=True)
        subprocess.run(["cp", "-a", folder, kept], check=True)
        shutil.rmtree(made)
    return kept


def command():
    """Returns the client's command."""
    return [program("mariadb"), "--no-defaults", f"--socket={SOCKET}", "-u", "root", "-N", "-B"]


def client():
    """Connects."""
    return Shell([*command(), "-n", "-f"], "select '#end';")


def serves():
    """Whether the server answers."""
    if not os.path.exists(SOCKET):
        return False
    ran = subprocess.run([*command(), "-e", "select 1"], stdin=subprocess.DEVNULL, stdout=subprocess.PIPE, stderr=subprocess.DEVNULL)
    return ran.stdout.strip() == b"1"


def start():
    """Starts the server."""
    if os.getuid() == 0:
        shutil.chown(os.path.dirname(SOCKET), "mysql")
    if os.path.exists(SOCKET):
        os.unlink(SOCKET)
    words = [program("mariadbd"), "--no-defaults", f"--datadir={DATA}", f"--socket={SOCKET}", "--skip-networking",
             "--innodb-buffer-pool-size=8M", "--innodb-log-file-size=8M", "--innodb-flush-log-at-trx-commit=1",
             f"--pid-file={SOCKET}.pid"]
    return 0 if serve(words, serves, **as_user("mysql")) else 1


def prepare():
    """Copies the files, and makes a table."""
    subprocess.run(["cp", "-a", template(), DATA], check=True)
    if start():
        return 1
    opened = client()
    said = opened.ask("create database d; create table d.t(k int primary key, v text, index i (v(20))) engine=innodb;")
    ended = subprocess.run([*command(), "-e", "shutdown"], stdin=subprocess.DEVNULL).returncode
    return 0 if said == [] and ended == 0 else 1


def make_rows():
    """A transaction an operation."""
    opened = client()
    put = "replace into d.t values({}, '{}'); select row_count() > 0;"
    return work(lambda number: opened.ask(put.format(number % KEYS, value(number))) == ["1"])


def check():
    """The table is whole, and has the acknowledged rows."""
    opened = client()
    said = opened.ask("check table d.t extended;")
    if not said or not said[-1].endswith("OK"):
        print("check table:", said)
        return DAMAGED
    found = pairs(opened.ask("select concat(k, '|', v) from d.t;") or [])
    return DAMAGED if found is None else judge(found)


if __name__ == "__main__":
    main({"prepare": prepare, "start": start, "work": make_rows, "check": check})
