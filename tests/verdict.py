"""
Tests tools/verdict over crates of a repository of this test, with a prover that only reads its sources: verdict.py FOLDER. A line `fn NAME:
CONTRACT = BODY` is a function. A crate with the word wrong isn't proved. The last line is `N passed, M failed`.
"""

import json
import os
import shutil
import signal
import subprocess
import sys
import time
from pathlib import Path

TOP = Path(__file__).resolve().parent.parent
FOLDER = Path(sys.argv[1])
REPOSITORY, KIT = FOLDER / "top", FOLDER / "kit"
counts = {True: 0, False: 0}

PROVER = r'''#!/usr/bin/env python3
import json, os, re, sys
from pathlib import Path

if os.environ.get("SLEEPS"):
    os.system("sleep 1000 & sleep 1000")
words = sys.argv[1:]
name = words[words.index("--crate-name") + 1]
with open(os.environ["PROVED"], "a") as log:
    print(words[0], name, file=log)
source = Path([it for it in words if it.startswith("src/")][0]).read_text()
functions = re.findall(r"^fn (\w+): (.*) = (.*)$", source, re.M)
cited = [it.read_text() for it in Path("proofs").glob("*/Answers.antt")]
if "wrong" in source:
    at = "proofs/f/Answers.antt:1:1: error: `g` is not in scope" if "names" in source else "src/lib.rt:1:1: error: not proved"
    print(at, "logic=not-proved", sep="\n")
    sys.exit(1)
print("logic=proved")
if words[0] == "check" or "--statements" not in words:
    words[0] == "check" or Path(words[words.index("-o") + 1]).write_text("object")
    sys.exit(0)
out = Path(words[words.index("-o") + 1])
for part in ("interface/lang/src", "toolchain", "lang/antt/specs", "lang/antt/proofs"):
    (out / part).mkdir(parents=True)
(out / "interface/lang/src/lib.rt").write_text("".join(f"fn {it[0]}\n" for it in functions))
made, parts, own = {}, {}, f"Rattle-{name}"
def add(module, key, text, *imports):
    made.update({key: text} if text is not None else {})
    lines = [f"--@ import {it} - -\n" for it in imports]
    parts[f"part/{module}"] = "".join(lines) + "\n" + (text or "")
add(own, "facade", "all")
for function, contract, body in functions:
    shown = f"{own}-specs.contracts.{function}"
    add(f"{own}.specs.contracts.{function}", f"facade/specs/contracts/{function}", function, shown)
    add(shown, f"specs/contracts/{function}", contract, f"{own}-specs.Words", f"{own}-proofs.{function}.Code", "types.Logic")
    add(f"{own}-proofs.{function}.Code", f"proofs/{function}/Code", body)
for part in ("specs", "proofs"):
    for file in Path(part).glob("*.antt"):
        (out / "lang/antt" / file).write_text(file.read_text())
        add(f"{own}-{part}.{file.stem}", None, None)
        parts[f"part/{own}-{part}.{file.stem}"] += file.read_text()
        shown = json.dumps({"StandsFor": {"children": [], "names": re.findall(r"^pub (\w+)", file.read_text(), re.M)}})
        add(f"{own}.{part}.{file.stem}", f"facade/{part}/{file.stem}", shown, f"{own}-{part}.{file.stem}")
names = [it.stem for it in Path("proofs").glob("*.antt")]
add(f"{own}.proofs", "facade/proofs", json.dumps({"StandsFor": {"children": sorted(names)}}))
made.pop(None, None)
def write(index, data, entries):
    at = 0
    with open(out / index, "w") as lines, open(out / data, "w") as file:
        for key, text in entries.items():
            print(json.dumps([key, at, len(text)]), file=lines)
            at += file.write(text)
write("toolchain/made.json", "lang/antt/made.json", made)
write("toolchain/checked.json", "toolchain/checked.a", parts)
facts = [it for it in source.splitlines() if it.startswith("fact ")]
below = [it.split("=")[1] for it in words if it.startswith("dependency=") and "crates" in it]
sums = {Path(it).parent.parent.name: re.search("^sum (.*)$", next(Path(it).glob("*.rlib/format")).read_text(), re.M)[1] for it in below}
over = [f"over {it} {sum}" for it, sum in sums.items()]
(out / "format").write_text("\n".join([f"crate {name}", *facts, *over, f"sum {abs(hash(source))}"]) + "\n")
'''

FILES = {
    "crates.txt": "low:\nmiddle: low\nprogram: middle\narchive staticlib: low\n",
    "HANDLES": "Handles allowed: none.\n",
    "tests/budget.txt": "low 10 0 0\nmiddle 50 0 0\nprogram 7 0 0\narchive 9 0 0\n",
    "crates/low/src/lib.rt": "fn f: adds = a + b\nfn g: doubles = f(a, a)\n",
    "crates/low/specs/Words.antt": "adds\n",
    "crates/low/proofs/Lib.antt": "pub mod Named\npub mod Own\n",
    "crates/low/proofs/Named.antt": "use Rattle.std.Words.{a}\n\npub named : a\nnamed = refl\n",
    "crates/low/proofs/Own.antt": "own\n",
    "crates/low/must-fail/subtracts.edit": "file: src/lib.rt\nold: a + b\nnew: wrong\n",
    "crates/low/must-fail/halves.edit": "file: src/lib.rt\nold: f(a, a)\nnew: wrong\n",
    "crates/middle/src/lib.rt": "fn h: quadruples = g(g(a))\n",
    "crates/middle/specs/Words.antt": "quadruples\n",
    "crates/middle/proofs/Steps.antt": "use Rattle.low.proofs.Named.{named}\n",
    "crates/program/src/main.rt": "fn main: prints = h(1)\n",
    "crates/archive/src/lib.rt": "fn i: exports = f(1, 2)\n",
}
LINKED = "low: these link its code, so only their own builds tell: program archive\n"
SAME = "low: proved. Its interface is unchanged since HEAD: it can't break a library above.\n" + LINKED
MIDDLE = "middle: proved. Its interface is unchanged since HEAD: it can't break a library above.\n"
MIDDLE += "middle: these link its code, so only their own builds tell: program\n"
ABOVE = "low: to be proved again: middle 50, program 7, archive 9; 66 processor seconds, about 1 minutes here\n"
CHANGED = "low: proved. Its interface has changed since HEAD:\n"
EDITS = "low: 2 of 2 must-fail edits rejected by a goal\n"


def write(path, text):
    (REPOSITORY / path).parent.mkdir(parents=True, exist_ok=True)
    (REPOSITORY / path).write_text(text, encoding="utf-8")


def change(path, old, new):
    text = (REPOSITORY / path).read_text(encoding="utf-8")
    assert old in text
    write(path, text.replace(old, new))


def restore():
    subprocess.run(["git", "-C", REPOSITORY, "checkout", "-q", "--", "crates"], check=True)


def settings_of(log):
    """Returns an environment in which the prover writes to this log."""
    path = f"{KIT}/bin:{os.environ['PATH']}"
    return {**os.environ, "XDG_CACHE_HOME": str(FOLDER / "cache"), "PROVED": str(log), "PATH": path, "PYTHONHASHSEED": "0"}


def run(*words):
    """Runs tools/verdict. Returns its status, its output and the checks that ran, each as `build low`."""
    log = FOLDER / "proved"
    log.write_text("")
    how = {"stdout": subprocess.PIPE, "stderr": subprocess.PIPE, "text": True, "timeout": 120}
    ran = subprocess.run([REPOSITORY / "tools/verdict", *words], env=settings_of(log), check=False, **how)
    return ran.returncode, ran.stdout, log.read_text().splitlines(), ran.stderr


def expect(what, ran, status, output, checks=None):
    is_good = ran[0] == status and ran[1] == output and (checks is None or ran[2] == checks)
    counts[is_good] += 1
    if not is_good:
        print(f"verdict.py: {what}: status {ran[0]}, wanted {status}; checks {ran[2]}, wanted {checks}", *ran[1:], sep="\n")


def make():
    (KIT / "bin").mkdir(parents=True)
    for name, text in (("rattle", PROVER), ("rt", "#!/bin/sh\nexit 2\n")):
        (KIT / "bin" / name).write_text(text, encoding="utf-8")
        (KIT / "bin" / name).chmod(0o755)
    (KIT / "KIT-ID").write_text("kit", encoding="utf-8")
    for path, text in FILES.items():
        write(path, text)
    shutil.copytree(TOP / "tools", REPOSITORY / "tools")
    write("tools/link", "#!/bin/sh\ncp \"$2\" \"$3\"\n")
    author = ["-c", "user.name=test", "-c", "user.email=test@localhost"]
    for words in (["init", "-q"], ["add", "."], [*author, "commit", "-q", "-m", "First"]):
        subprocess.run(["git", *words], cwd=REPOSITORY, check=True)


def test_libraries():
    """Compares with a kept library."""
    expect("sources of the commit", run("low", "--no-edits"), 0, SAME, ["build low"])
    expect("nothing is proved twice", run("low", "--no-edits"), 0, SAME, [])
    change("crates/low/src/lib.rt", "f(a, a)", "2 * a")
    expect("a body", run("low", "--no-edits"), 0, SAME, ["build low"])
    change("crates/low/src/lib.rt", "doubles", "doubles again")
    expect("a contract", run("low", "--no-edits"), 3, CHANGED + "  contract or type g\n" + ABOVE)
    restore()
    change("crates/low/specs/Words.antt", "adds", "adds up")
    expect("a definition", run("low", "--no-edits"), 3, CHANGED + "  specs/Words\n" + ABOVE)
    restore()
    change("crates/low/proofs/Own.antt", "own", "another")
    expect("a lemma that nothing above names", run("low", "--no-edits"), 0, SAME)
    write("crates/low/proofs/New.antt", "new\n")
    expect("a new file of lemmas", run("low", "--no-edits"), 0, SAME)
    (REPOSITORY / "crates/low/proofs/New.antt").unlink()
    for what, old, new in (("its statement", ": a", ": b"), ("its proof", "refl", "sym refl"), ("a clause", "refl", "refl\nnamed b = refl"),
                           ("a line", "refl", "refl\n  where"), ("an import", "{a}", "{b}"), ("a name it uses", "refl", "refl\nrefl = b")):
        change("crates/low/proofs/Named.antt", old, new)
        expect(f"a lemma that a crate above names: {what}", run("low", "--no-edits"), 3, CHANGED + "  proofs/Named\n" + ABOVE)
        restore()
    change("crates/low/proofs/Named.antt", "{a}", "{a, b}")
    change("crates/low/proofs/Named.antt", "refl", "refl\n\n-- more\npub more : b\nmore = refl")
    expect("one more lemma", run("low", "--no-edits"), 0, SAME)
    restore()
    change("crates/low/src/lib.rt", "fn g", "fact inlined g\nfn g")
    expect("a fact", run("low", "--no-edits"), 3, CHANGED + "  fact: fact inlined g\n" + ABOVE)
    restore()
    change("crates/low/src/lib.rt", "fn g", "fn more: adds = b + a\nfn g")
    expect("a new function", run("low", "--no-edits"), 3, CHANGED + "  declarations of src/lib.rt\n  contract or type more\n" + ABOVE)
    restore()
    expect("a program", run("program"), 0, "program: proved. Nothing stands on a program.\nprogram: it has no must-fail edits\n",
           ["build middle", "build program"])


def test_sources():
    """Compares by sources, since no library of the commit is kept."""
    shutil.rmtree(FOLDER / "cache")
    change("crates/low/src/lib.rt", "f(a, a)", "2 * a")
    may = "low: proved. Its interface may have changed since HEAD:\n"
    expect("no kept library", run("low", "--no-edits"), 3, may + "  src/lib.rt\n" + ABOVE)
    restore()
    shutil.rmtree(FOLDER / "cache")
    write("crates/low/src/lib.rt", "fn f(a: u64)\n    ensures { a }\n{\n    a + 1\n}\n")
    author = ["-c", "user.name=test", "-c", "user.email=test@localhost"]
    subprocess.run(["git", *author, "commit", "-q", "-a", "-m", "Second"], cwd=REPOSITORY, check=True)
    change("crates/low/src/lib.rt", "    a + 1\n", "    // plus one\n    let b = { a };\n    b + 1\n")
    unsure = "  unsure: no library of that commit's sources is kept\n"
    expect("a body, without a kept library", run("low", "--no-edits"), 3, may + unsure + ABOVE)
    change("crates/low/src/lib.rt", "{ a }\n{", "{ b }\n{")
    expect("a contract, without a kept library", run("low", "--no-edits"), 3, may + "  src/lib.rt\n" + ABOVE)
    restore()
    subprocess.run(["git", "reset", "-q", "--hard", "HEAD~1"], cwd=REPOSITORY, check=True)


def test_edits():
    expect("edits", run("low"), 0, SAME + EDITS)
    write("crates/low/must-fail/keeps.edit", "file: src/lib.rt\nold: a + b\nnew: b + a\n")
    said = "low: keeps.edit is NOT rejected: it is still proved\n"
    expect("an edit that is still proved", run("low"), 1, SAME + said + EDITS.replace("of 2", "of 3"))
    expect("edits that aren't tried", run("low", "--no-edits"), 0, SAME, [])
    write("crates/low/must-fail/keeps.edit", "file: src/lib.rt\nold: a - b\nnew: b + a\n")
    said = "low: keeps.edit came to no verdict: src/lib.rt has its old text 0 times\n"
    expect("an edit that can't be applied", run("low"), 1, SAME + said + EDITS.replace("of 2", "of 3"))
    write("crates/low/must-fail/keeps.edit", "file: src/lib.rt\nold: a + b\nnew: wrong names\n")
    said = "low: keeps.edit is NOT rejected: only a missing name rejects it: proofs/f/Answers.antt:1:1: error: `g` is not in scope\n"
    expect("an edit that only a name rejects", run("low"), 1, SAME + said + EDITS.replace("of 2", "of 3"))
    (REPOSITORY / "crates/low/must-fail/keeps.edit").unlink()
    change("crates/low/src/lib.rt", "a + b", "wrong")
    expect("a wrong body", run("low"), 1, "", ["build low"])
    restore()


def test_gate():
    """Takes libraries that a whole run of the tests left."""
    built = FOLDER / "built"
    subprocess.run([REPOSITORY / "tools/prove", built, "low"], env=settings_of("/dev/null"), stderr=subprocess.DEVNULL, check=True)
    script = '. "$top/tools/building.sh" && sum_of "$top" low'
    total = subprocess.check_output(["sh", "-c", script], env={**os.environ, "top": str(REPOSITORY)}, text=True)
    out = REPOSITORY / "out"
    (out / "test/rt ci").mkdir(parents=True)
    (out / "gate.began").touch()
    (out / "gate.sums").write_text(f"low {total}", encoding="utf-8")
    left = REPOSITORY / "crates/low/out/rlib"
    shutil.copytree(os.path.realpath(built / "crates/low/out/rlib"), left)
    os.utime(left / "low.rlib")
    (left / "built").unlink()
    (out / "test/rt ci/status").write_text("0\n", encoding="utf-8")
    shutil.rmtree(FOLDER / "cache")
    expect("a library of the gate", run("low", "--no-edits"), 0, SAME, [])
    shutil.rmtree(FOLDER / "cache")
    change("crates/low/src/lib.rt", "f(a, a)", "2 * a")
    expect("a body, with a library of the gate", run("low", "--no-edits"), 0, SAME, ["build low"])
    restore()
    later = lambda: os.utime(left / "low.rlib", (2e9, 2e9))  # noqa: E731
    for what, spoil in (("another command's library", (left / "stamp").touch), ("a later one", later)):
        spoil()
        shutil.rmtree(FOLDER / "cache")
        expect(what, run("low", "--no-edits"), 0, SAME, ["build low"])
        (left / "stamp").unlink(missing_ok=True)


def running():
    """Returns the processes of this test that still run."""
    found = []
    for name in filter(str.isdigit, os.listdir("/proc")):
        try:
            if f"SLEEPS={FOLDER}\0".encode() in Path(f"/proc/{name}/environ").read_bytes():
                found.append(int(name))
        except OSError:
            pass
    return found


def test_signals():
    """A signal leaves no process and no folder."""
    places = {"SLEEPS": str(FOLDER), "TMPDIR": str(FOLDER / "temporary")}
    (FOLDER / "temporary").mkdir()
    shutil.rmtree(FOLDER / "cache", ignore_errors=True)
    for number in (signal.SIGINT, signal.SIGTERM):
        how = {"stdout": subprocess.DEVNULL, "stderr": subprocess.DEVNULL}
        started = subprocess.Popen([REPOSITORY / "tools/verdict", "low"], env={**settings_of("/dev/null"), **places}, **how)
        wait_for(lambda: len(running()) >= 6)
        started.send_signal(number)
        started.wait(timeout=60)
        wait_for(lambda: not running())
        left = [*running(), *os.listdir(FOLDER / "temporary")]
        expect(f"{number!r}: what is left", (started.returncode, str(left), None), 125, "[]")


def wait_for(holds):
    for _ in range(300):
        if holds():
            return
        time.sleep(0.1)


def test_new():
    write("crates.txt", FILES["crates.txt"] + "new:\n")
    write("crates/new/src/lib.rt", "fn f: adds = a + b\n")
    expect("a new crate", run("new"), 3, "new: proved. Its interface has changed since HEAD:\n  the commit has no such crate\n"
           "new: it has no must-fail edits\n")
    restore()


def test_arguments():
    for what, words, status in (("no crate", [], 2), ("an unknown crate", ["none"], 2), ("a static library", ["archive"], 2),
                                ("no commit", ["low", "--since", "none"], 2)):
        expect(what, run(*words), status, "")
    expect("two crates", run("low", "middle", "--no-edits"), 0, SAME
           + MIDDLE)
    change("crates/low/src/lib.rt", "doubles", "doubles again")
    below = "middle: the sources of low below it have changed too: ask for their verdicts\n"
    expect("a change below", run("middle", "--no-edits"), 3, below + MIDDLE)
    restore()
    (KIT / "bin/rt").unlink()
    if not os.path.exists("/opt/rattle/bin/rt"):
        expect("no toolchain", run("low"), 127, "")


make()
test_libraries()
test_sources()
test_edits()
test_gate()
test_signals()
test_new()
test_arguments()
print(f"{counts[True]} passed, {counts[False]} failed")
sys.exit(counts[False] > 0)
