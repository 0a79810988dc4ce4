#!/usr/bin/env python3
"""
Libraries of keys and values by stores.c: stores.py prepare|folder|work|check LIBRARY[-KIND], where LIBRARY is a file of the folder stores.
Each operation is a transaction or a synced write. `folder` makes only the folder of the store.
"""

import glob
import os
import re
import subprocess
import sys
import tempfile

from driver import DAMAGED, KEYS, MOUNT, OPERATIONS, judge, main, pairs

HERE = os.path.dirname(os.path.realpath(__file__))
OUT = os.path.join(HERE, "..", "..", "..", "out", "mount")
STORE = f"{MOUNT}/store"
INTERPRETERS = {".py": [sys.executable, "-S"], ".rb": ["ruby"], ".pl": ["perl"], ".lua": ["tarantool"], ".escript": ["escript"]}


def compiled(name, commands, sources):
    """Returns the path of what the commands make of sources, if it isn't older than they are. NEW is the folder or file to make."""
    made = os.path.join(OUT, name)
    if not os.path.exists(made) or os.path.getmtime(made) < max(map(os.path.getmtime, sources)):
        os.makedirs(OUT, exist_ok=True)
        new = tempfile.mkdtemp(dir=OUT)
        for command in commands:
            subprocess.run([word.replace("NEW", new) for word in command], check=True)
        os.rename(f"{new}/made", made)
        subprocess.run(["rm", "-rf", new], check=True)
    return made


def program(kind):
    """Returns the command of a library's program, built if it has to be."""
    library = kind.split("-")[0]
    source = glob.glob(os.path.join(HERE, "stores", f"{library}.*"))[0]
    interpreter = INTERPRETERS.get(os.path.splitext(source)[1])
    if interpreter:
        return [*interpreter, source]
    main_file, flags = os.path.join(HERE, "stores.c"), ["-O2", "-Wall", "-Wextra", "-D_DEFAULT_SOURCE", "-c"]
    if source.endswith(".java"):
        compiled("stores-java.jar", [["javac", "-d", "NEW", source], ["jar", "cf", "NEW/made", "-C", "NEW", f"{library}.class"]], [source])
        jars = ":".join(f"/usr/share/java/{name}.jar" for name in ("hsqldb", "h2", "derby"))
        return ["java", "-XX:TieredStopAtLevel=1", "-XX:+UseSerialGC", "-Dderby.stream.error.file=/dev/null", "-cp", f"{OUT}/stores-java.jar:{jars}", library]
    linker = "c++" if source.endswith(".cc") else "cc"
    commands = [["cc", "-std=c11", *flags, "-o", "NEW/main.o", main_file],
                [linker, *([] if linker == "c++" else ["-std=c11"]), *flags, "-o", "NEW/part.o", source],
                [linker, "-o", "NEW/made", "NEW/main.o", "NEW/part.o", f"-l{library}"]]
    return [compiled(f"stores-{library}", commands, [main_file, *glob.glob(os.path.join(HERE, "stores", "*.[ch]*"))])]


def run(kind, *words):
    """Runs it, with its output to ours."""
    return subprocess.run([*program(kind), kind, STORE, *words], stdin=subprocess.DEVNULL).returncode


def prepare(kind):
    """Makes an empty store."""
    return run(kind, "make")


def make_folder(_):
    """Makes an empty folder for the store."""
    os.mkdir(STORE)


def make_keys(kind):
    """An operation each."""
    return run(kind, "work", str(OPERATIONS), str(KEYS), os.environ["ACKNOWLEDGED"])


def check(kind):
    """Checks that all acknowledged keys exist."""
    ran = subprocess.run([*program(kind), kind, STORE, "list"], stdout=subprocess.PIPE, stdin=subprocess.DEVNULL, universal_newlines=True,
                         errors="replace")
    # WiredTiger and Erlang print remarks too.
    lines = [line for line in ran.stdout.splitlines() if line == "end" or re.match(r"\d+\|", line)]
    if ran.returncode or lines[-1:] != ["end"]:
        print("damaged:", ran.returncode, *ran.stdout.splitlines()[-3:])
        return DAMAGED
    found = pairs(lines[:-1])
    return DAMAGED if found is None else judge(found)


if __name__ == "__main__":
    main({"prepare": prepare, "folder": make_folder, "work": make_keys, "check": check})
