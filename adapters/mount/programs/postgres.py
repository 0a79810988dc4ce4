#!/usr/bin/env python3
"""
PostgreSQL: postgres.py prepare|start|work|check, with server settings such as `fsync=off` after it; the cluster is durable before the
server starts. postgres.py initdb|check-initdb: makes a cluster in the mount, and looks whether it starts. postgres.py pgbench SECONDS: for
benches/mount.sh.
"""

import hashlib
import os
import shutil
import signal
import subprocess
import sys
import tempfile
import time

from driver import DAMAGED, HELD, KEYS, LOST, MOUNT, Shell, acknowledge, as_user, find_program, judge, last_acknowledged, main, pairs, \
    serve, value, work

CLUSTER = f"{MOUNT}/cluster"
# An abstract socket leaves no file.
SOCKET = "@blobcrash-" + hashlib.sha256(MOUNT.encode()).hexdigest()[:16]
WHERE = ["-h", SOCKET, "-U", "postgres"]
SERVER = {"listen_addresses": "", "unix_socket_directories": SOCKET, "shared_buffers": "2MB", "max_wal_size": "32MB",
          "min_wal_size": "32MB", "checkpoint_timeout": "30s", "autovacuum_naptime": "1s", "logging_collector": "off"}


def program(name):
    """Returns the path of one of PostgreSQL's programs."""
    return find_program(name, f"/usr/lib/postgresql/*/bin/{name}")


def initdb(folder):
    """Makes a cluster. Returns initdb's status."""
    command = [program("initdb"), "-A", "trust", "-U", "postgres", "-D", folder]
    return subprocess.run(command, stdin=subprocess.DEVNULL, stdout=subprocess.DEVNULL, **as_user("postgres")).returncode


def template():
    """Returns a cluster outside of the mount, which the first call makes."""
    kept = os.path.join(os.path.dirname(os.path.realpath(__file__)), "..", "..", "..", "out", "mount", "cluster")
    if not os.path.isdir(kept):
        made = tempfile.mkdtemp()
        if as_user("postgres"):
            shutil.chown(made, "postgres")
        if initdb(os.path.join(made, "cluster")):
            sys.exit(1)
        os.makedirs(os.path.dirname(kept), exist_ok=True)
        subprocess.run(["cp", "-a", os.path.join(made, "cluster"), kept], check=True)
        shutil.rmtree(made)
    return kept


def prepare(*_):
    """Copies a cluster, and makes a table."""
    subprocess.run(["cp", "-a", template(), CLUSTER], check=True)
    make = b"create table t(k int primary key, v text);\ncreate index i on t(v);\ncreate extension if not exists amcheck;\n"
    ran = subprocess.run([program("postgres"), "--single", "-D", CLUSTER, "postgres"], input=make, stdout=subprocess.DEVNULL,
                         **as_user("postgres"))
    return ran.returncode


def serves():
    """Whether the server answers."""
    ran = subprocess.run([program("psql"), *WHERE, "-XqAtc", "select 1"], stdin=subprocess.DEVNULL, stdout=subprocess.PIPE,
                         stderr=subprocess.DEVNULL)
    return ran.stdout.strip() == b"1"


def start(*settings):
    """Starts the server."""
    words = [word for name, setting in SERVER.items() for word in ("-c", f"{name}={setting}")]
    words += [word for setting in settings for word in ("-c", setting)]
    return 0 if serve([program("postgres"), "-D", CLUSTER, *words], serves, **as_user("postgres")) else 1


def shell():
    """Connects."""
    return Shell([program("psql"), *WHERE, "-XqAt"], r"\echo #end")


def make_rows(*_):
    """A transaction an operation, and checkpoints."""
    opened = shell()
    put = "insert into t values({}, '{}') on conflict (k) do update set v = excluded.v returning k;"

    def put_row(number):
        said = opened.ask(put.format(number % KEYS, value(number)))
        if number % 47 == 0:
            opened.ask("checkpoint;")
        return said == [str(number % KEYS)]

    return work(put_row)


def check(*_):
    """The rows by the table and by the indexes."""
    opened = shell()
    found = pairs(opened.ask("set enable_indexscan=off; set enable_bitmapscan=off; select k, v from t;") or [])
    if found is None:
        return DAMAGED
    said = opened.ask("select bt_index_check('i', true), bt_index_check('t_pkey', true); select 'fine';")
    if not said or said[-1] != "fine":
        print("bt_index_check:", said)
        return DAMAGED
    return judge(found)


def bench(seconds):
    """Prints how many transactions pgbench makes in a second, and stops the server."""
    words = [program("pgbench"), *WHERE]
    subprocess.run([*words, "-i", "-q", "-s", "2", "postgres"], stdout=subprocess.DEVNULL, stderr=subprocess.DEVNULL, check=True)
    ran = subprocess.run([*words, "-T", str(max(2, round(4 * float(seconds)))), "postgres"], stdout=subprocess.PIPE,
                         stderr=subprocess.DEVNULL, universal_newlines=True)
    print(*(line.split()[2] for line in ran.stdout.splitlines() if line.startswith("tps")))
    with open(f"{CLUSTER}/postmaster.pid", encoding="ascii") as file:
        server = int(file.readline())
    os.kill(server, signal.SIGINT)
    while os.path.exists(f"{CLUSTER}/postmaster.pid"):
        time.sleep(0.05)


def make_cluster():
    """Makes a cluster. It is acknowledged when initdb has ended."""
    os.chmod(MOUNT, 0o777)
    if initdb(CLUSTER):
        return LOST
    acknowledge(1)
    return HELD


def check_cluster():
    """A cluster of an initdb that ended starts."""
    if last_acknowledged() == 0:
        return HELD
    if not os.path.isdir(CLUSTER):
        print("lost: the cluster's folder")
        return LOST
    ran = subprocess.run([program("postgres"), "--single", "-D", CLUSTER, "postgres"], input=b"select 1;\n", stdout=subprocess.DEVNULL,
                         **as_user("postgres"))
    return DAMAGED if ran.returncode else HELD


if __name__ == "__main__":
    main({"prepare": prepare, "start": start, "work": make_rows, "check": check, "initdb": make_cluster,
          "check-initdb": check_cluster, "pgbench": bench})
