"""The pytest plugin: options, marks, names of files, the fixtures, smaller runs, pictures, and what is no option. It is run by a Python
that has pytest, with the package on its path. The last line is `N passed, M failed`. With the name of a test only that one is run."""

import glob
import os
import re
import subprocess
import sys
import tempfile

from importlib.metadata import distributions

from passing import run_tests

import blobcrash

PICTURES = os.path.join(os.path.dirname(os.path.abspath(__file__)), "pictures")
# Settings by which a crash loses half of the pending bytes, and by which it loses all.
ALL = "by=Library"
HALF = 'settings=["write 0 1 1 2 subset"], by=Library'
LOSES = """
import pytest, sys
from blobcrash import Library

def lose(store, count):
    blob, _ = store.open("p", b"b")
    for at in range(count):
        blob.write(at, b"x")
    store.restart()
    return store.open("p", b"b")[1] < count
"""


# An installed package has its plugin found by pytest.
IS_INSTALLED = any(entry.group == "pytest11" and entry.name == "blobcrash" for each in distributions() for entry in each.entry_points)
PLUGIN = [] if IS_INSTALLED else ["-p", "blobcrash.pytest_plugin"]


class Ran:
    """What pytest printed for a file of tests, and the scripts that it left."""

    def __init__(self, text, *options, **environment):
        with tempfile.TemporaryDirectory() as folder:
            with open(os.path.join(folder, "test_it.py"), "w", encoding="utf-8") as file:
                file.write(LOSES + text)
            command = [sys.executable, "-m", "pytest", "-p", "no:cacheprovider", "--color=no", "-q", "-rA", *PLUGIN]
            # There is no program: what is drawn is drawn by the library.
            environment = {**os.environ, "BLOBCRASH": "/nowhere/blobcrash", "PYTHONDONTWRITEBYTECODE": "1", **environment}
            ran = subprocess.run([*command, *options], cwd=folder, env=environment, stdout=subprocess.PIPE, stderr=subprocess.STDOUT)
            self.status, self.text = ran.returncode, ran.stdout.decode()
            self.scripts = {}
            for path in sorted(glob.glob(os.path.join(folder, "blobcrash-scripts", "*"))):
                with open(path, encoding="utf-8") as file:
                    self.scripts[os.path.basename(path)] = file.read().split("\n")[:-1]
        assert "INTERNALERROR" not in self.text, self.text

    def counted(self, what):
        found = re.search(rf"(\d+) {what}", self.text)
        return int(found.group(1)) if found else 0

    def short(self):
        """The calls of the only smaller run."""
        (script,) = [lines for name, lines in self.scripts.items() if name.endswith(".short.script")]
        return [line for line in script if not line.startswith(("words", "config", "seed", "# choose"))]


def test_files():
    ran = Ran("""
@pytest.mark.blobcrash_files(seeds=8, profile="xfs")
def test_forgets(blobcrash_files):
    for count in range(blobcrash_files.choose(3) + 1):
        blobcrash_files.open(f"/{count}", "xb").close()
    blobcrash_files.restart()
    assert blobcrash_files.exists("/0")

@pytest.mark.blobcrash_files(seeds=8)
def test_syncs(blobcrash_files):
    blobcrash_files.open("/0", "xb").close()
    blobcrash_files.fsync_directory("/")
    blobcrash_files.restart()
    assert blobcrash_files.exists("/0")
""")
    assert ran.counted("passed") >= 8 and 0 < ran.counted("failed") < 8 and ran.status == 1, ran.text
    assert len(ran.scripts) == ran.counted("failed") + 1, ran.scripts.keys()
    script = ran.short()
    assert script[:2] == ["profile xfs", "create /0 # is 0"] and "crash" in script, script
    assert "a smaller run that fails, of 3 calls" in ran.text, ran.text


LOST = ["open p 62", "write 0 0 78", "crash", "close 0", "reopen", "open p 62"]


def test_names_of_files():
    ran = Ran(f"""
@pytest.mark.blobcrash(seeds=1, {ALL})
@pytest.mark.parametrize("name", ["a/b", "a b", "a\\nb", "x" * 300, "é" * 200, "../../up", "..", "", "\\0", "A B"])
def test_loses(blobcrash, name):
    assert not lose(blobcrash, 40)
""", "--blobcrash-shrink", "0")
    assert (ran.counted("failed"), len(ran.scripts), ran.status) == (10, 10, 1), ran.text
    assert all(len(name) < 130 and re.fullmatch("test_it[A-Za-z0-9_.=-]*.script", name) for name in ran.scripts), ran.scripts.keys()


def test_the_command_line_comes_before_the_mark():
    text = "@pytest.mark.blobcrash(seeds=5, by=Library)\ndef test_it(blobcrash):\n    print('seed', blobcrash.seed)\n"
    for options, seeds in (
        ([], range(5)),
        (["--blobcrash-seeds", "3"], range(3)),
        (["--blobcrash-seeds=8"], range(8)),
        (["--blobcrash-seed", "7"], [7]),
        (["--blobcrash-seed", "7", "--blobcrash-seed", "7", "--blobcrash-seed", "0", "--blobcrash-seeds", "2"], [7, 0]),
        (["--blobcrash-seed", str(2**64 - 1)], [2**64 - 1]),
    ):
        ran = Ran(text, *options)
        assert re.findall(r"(?m)^seed (\d+)$", ran.text) == [str(seed) for seed in seeds], (options, ran.text)
        assert all(f"test_it[seed={seed}]" in ran.text for seed in seeds), ran.text
    assert Ran("@pytest.mark.blobcrash(by=Library)\ndef test_it(blobcrash):\n    pass\n").counted("passed") == 20


def test_the_store_chooses_as_that_of_seeds():
    body = "    print('chosen', [blobcrash.choose(1000) for _ in 'abc'])\n"
    ran = Ran("@pytest.mark.blobcrash(seeds=4, by=Library)\ndef test_it(blobcrash):\n" + body)
    chosen = []
    blobcrash.seeds(lambda store: chosen.append([store.choose(1000) for _ in "abc"]), 4, by=blobcrash.Library)
    assert re.findall(r"(?m)^chosen (.*)$", ran.text) == [str(each) for each in chosen], ran.text


def test_a_failure_is_shrunk_and_drawn():
    ran = Ran(f"""
@pytest.mark.blobcrash(seeds=9, {HALF})
def test_loses(blobcrash, tmp_path):
    assert tmp_path.exists()
    print("printed by the test")
    assert not lose(blobcrash, 1 + blobcrash.choose(30)), blobcrash.seed
""")
    assert ran.counted("failed") > 1 and ran.short() == LOST, (ran.text, ran.scripts)
    assert ran.text.count("a smaller run that fails, of 6 calls: ") == 1 and "printed by the test" in ran.text, ran.text
    # By hand: the byte is pending at the crash, and is lost.
    picture = ["crashed 0:0", "# p 62: length 0 before, 0 after", "#   write 0 0..1: 1 lost", "#   at 0", "#     before"]
    assert "\n".join([*picture, "#     write 0  --", "#     after"]) in ran.text, ran.text


def test_other_ways_to_fail():
    """What is raised is no `Exception`, a power loss, an error of a class; a method; what skips with other choices."""
    for statement in ("pytest.fail('lost')", "sys.exit(3)", "raise BaseException('lost')", "raise ValueError"):
        ran = Ran(f"""
class TestIt:
    @pytest.mark.blobcrash(seeds=3, {HALF})
    def test_loses(self, blobcrash):
        count = blobcrash.choose(9)
        if count == 0:
            pytest.skip("nothing to do")
        if lose(blobcrash, count):
            {statement}
""")
        assert ran.counted("failed") and ran.short() == LOST, (statement, ran.text)
    body = "    blobcrash.crash_after(0)\n    lose(blobcrash, 1)\n"
    ran = Ran("@pytest.mark.blobcrash(seeds=1, by=Library)\ndef test_off(blobcrash):\n" + body)
    assert ran.counted("failed") == 1 and "PowerLoss" in ran.text, ran.text


def test_what_cannot_be_shrunk_says_why():
    log = "@pytest.fixture\ndef log(blobcrash):\n    return blobcrash\n\nMARK\n"
    for text, why in (
        (log + "def test_it(blobcrash, log):\n    assert not lose(log, 20)\n", "`log` uses"),
        (log + "def test_it(log):\n    assert not lose(log, 20)\n", "take `blobcrash` itself"),
        ("once = []\nMARK\ndef test_it(blobcrash):\n    once.append(1)\n    assert len(once) > 1\n", "doesn't fail again"),
    ):
        ran = Ran(text.replace("MARK", f"@pytest.mark.blobcrash(seeds=1, {ALL})"))
        assert ran.counted("failed") == 1 and why in ran.text and len(ran.scripts) == 1, (why, ran.text)
    ran = Ran(f"@pytest.mark.blobcrash(seeds=2, words=[1], {ALL})\ndef test_it(blobcrash):\n    assert not lose(blobcrash, 20)\n")
    assert "its mark has `words`" in ran.text, ran.text
    # A test that would retry for ever with other choices.
    ran = Ran(f"""
@pytest.mark.blobcrash(seeds=9, {HALF})
def test_it(blobcrash):
    while blobcrash.choose(3) != 2:
        pass
    assert not lose(blobcrash, 1 + blobcrash.choose(5))
""")
    assert ran.counted("failed") and ran.short() == LOST, ran.text
    ran = Ran(f"@pytest.mark.blobcrash(seeds=2, {HALF})\ndef test_it(blobcrash):\n    assert not lose(blobcrash, 30)\n", "--blobcrash-shrink=0")
    assert "smaller" not in ran.text and len(ran.scripts) == ran.counted("failed"), ran.text


def test_failures_outside_of_the_test():
    ran = Ran("""
@pytest.fixture
def opened(blobcrash):
    blobcrash.open("p", b"b")
    raise OSError("in the fixture")

@pytest.mark.blobcrash(seeds=1, by=Library)
def test_it(blobcrash, opened):
    pass

@pytest.mark.blobcrash(seeds=1, by=Library)
@pytest.mark.xfail(strict=True)
def test_passes(blobcrash):
    blobcrash.crash()
""")
    assert ran.counted("error") == 1 and ran.counted("failed") == 1, ran.text
    assert sorted(lines[-1] for lines in ran.scripts.values()) == ["crash", "open p 62"], ran.scripts


def test_what_cannot_be_written():
    text = f"@pytest.mark.blobcrash(seeds=1, {ALL})\ndef test_it(blobcrash):\n    assert not lose(blobcrash, 30)\n"
    for folder in ("test_it.py", "/proc/nowhere", "/dev/null/x", "a\0b"):
        if "\0" not in folder:
            ran = Ran(text, "--blobcrash-scripts", folder)
            assert "the script of this failure can't be written: " in ran.text and ran.counted("failed") == 1, ran.text
        ran = Ran(text, "--blobcrash-report", folder.replace("\0", ""), "--blobcrash-shrink", "0")
        assert ran.counted("failed") == 1, ran.text


def test_what_is_no_option():
    text = "@pytest.mark.blobcrash(by=Library, **dict(ARGUMENTS))\ndef test_it(blobcrash):\n    pass\n"
    for option in ("--blobcrash-seeds", "--blobcrash-seed", "--blobcrash-shrink"):
        for value in ("-1", "", "٣", str(2**64), "nan", *(["0"] if option == "--blobcrash-seeds" else [])):
            ran = Ran(text.replace("ARGUMENTS", ""), f"{option}={value}")
            assert ran.status == 4 and ran.counted("passed") == 0, (option, value, ran.text)
    ran = Ran("@pytest.mark.blobcrash(5)\ndef test_it(blobcrash):\n    pass\n")
    assert ran.status not in (0, 1, 5) and "seeds=50" in ran.text, ran.text
    for arguments in ("seeds=0", "seeds=-1", "seeds='5'", "seeds=True", "seeds=None", "seeds=1.5"):
        ran = Ran(text.replace("ARGUMENTS", arguments))
        assert ran.status not in (0, 1, 5) and ran.counted("passed") == 0, (arguments, ran.text)
    ran = Ran(text.replace("ARGUMENTS", "seeds=1, frob=1"))
    assert ran.status == 1 and "frob" in ran.text, ran.text


REPLACES = """
def replaces(files):
    for content in (b"old", b"new"):
        with files.open("/new", "wb") as file:
            file.write(content)
        files.rename("/new", "/f")
        if content == b"old":
            files.settle()
    files.restart()
    with files.open("/f") as file:
        assert len(file.read()) == 3
"""


def test_every_profile():
    """By hand, from docs/FILES.md: only on ext4 a file that replaces another is as long as it was at the rename."""
    text = f"{REPLACES}\nMARK\ndef test_it(blobcrash_files):\n    replaces(blobcrash_files)\n"
    for mark in ("", "@pytest.mark.blobcrash_files(seeds=20)", "@pytest.mark.blobcrash_files(profile='all')"):
        ran = Ran(text.replace("MARK", mark), "--blobcrash-shrink=0")
        assert ran.counted("passed") + ran.counted("failed") == 80, (mark, ran.text)
        failed = set(re.findall(r"FAILED test_it.py::test_it\[(\w+)-seed=", ran.text))
        assert failed == {"xfs", "btrfs", "posix"}, (mark, failed)
    for name in ("profile", "files"):
        ran = Ran(text.replace("MARK", f"@pytest.mark.blobcrash_files(seeds=20, {name}='ext4')"))
        assert ran.counted("passed") == 20 and "test_it[seed=19]" in ran.text, ran.text
    ran = Ran(text.replace("MARK", ""), "--blobcrash-seed=3")
    assert [ran.text.count(f"test_it[{profile}-seed=3]") for profile in ("ext4", "xfs", "btrfs", "posix")] >= [1] * 4, ran.text


def test_a_mark_of_another_fixture():
    uses, stores = "(blobcrash_files):\n    pass\n", "(blobcrash):\n    pass\n"
    for text, why in (
        ("@pytest.mark.blobcrash(profile='xfs')\ndef test_it" + uses, "takes `blobcrash_files`, whose mark is `blobcrash_files`"),
        ("@pytest.mark.blobcrash(files='xfs')\n@pytest.mark.blobcrash_files()\ndef test_it" + uses, "takes `blobcrash_files`"),
        ("pytestmark = pytest.mark.blobcrash(files='xfs')\ndef test_it" + uses, "takes `blobcrash_files`"),
        ("@pytest.mark.blobcrash_files(profile='xfs')\ndef test_it" + stores, "takes `blobcrash`, whose mark is `blobcrash`"),
        ("@pytest.mark.blobcrash(seeds=2)\ndef test_it():\n    pass\n", "doesn't take `blobcrash`"),
        ("@pytest.mark.blobcrash_file(seeds=2)\ndef test_it" + uses, "there is no mark `blobcrash_file`"),
        ("@pytest.mark.blobcrash(profile='xfs')\ndef test_it" + stores, "a store has no `profile`"),
        ("@pytest.mark.blobcrash(files='xfs')\ndef test_it" + stores, "a store has no `files`"),
        ("@pytest.mark.blobcrash_files(profile='ext3')\ndef test_it" + uses, "ext4, xfs, btrfs, posix"),
        ("@pytest.mark.blobcrash_files(profile='xfs', files='xfs')\ndef test_it" + uses, "another name"),
    ):
        ran = Ran(text)
        assert ran.status not in (0, 1, 5) and ran.counted("passed") == 0 and why in ran.text, (text, ran.text)
    # A mark of a module may be for its other tests.
    both = "@pytest.mark.blobcrash_files(seeds=2, profile='xfs')\ndef test_files" + uses + "def test_plain():\n    pass\n"
    ran = Ran("pytestmark = pytest.mark.blobcrash(seeds=3, by=Library)\ndef test_store" + stores + both)
    assert ran.counted("passed") == 3 + 2 + 1 and ran.status == 0, ran.text


def test_writes_that_could_not_be_kept():
    text = """
def writes(store, syncs):
    blob, _ = store.open("p", b"b")
    blob.write(0, b"a", sync=syncs)
    store.restart()

MARK
def test_it(blobcrash):
    writes(blobcrash, SYNCS)
"""
    note = "blobcrash: test_it.py::test_it: no unsynced write could be kept: set `write 0 1 1 2 sectors 512`"
    for mark, syncs, wanted in ((ALL, False, 1), (HALF, False, 0), (ALL, True, 0)):
        ran = Ran(text.replace("MARK", f"@pytest.mark.blobcrash(seeds=3, {mark})").replace("SYNCS", str(syncs)))
        assert ran.counted("passed") == 3 and ran.text.split("\n").count(note) == wanted, (mark, syncs, ran.text)
    files = """
MARK
def test_it(blobcrash_files):
    for content in (b"a", b"b"):
        with blobcrash_files.open("/f", "wb" if content == b"a" else "r+b") as file:
            file.write(1024 * content)
        if content == b"a":
            blobcrash_files.settle()
    blobcrash_files.restart()
    with blobcrash_files.open("/f") as file:
        print("left", file.read()[::512])
"""
    ran = Ran(files.replace("MARK", "@pytest.mark.blobcrash_files(seeds=30)"))
    # By hand: each of the two sectors is kept or lost.
    assert set(re.findall("left b'(..)'", ran.text)) == {"aa", "ab", "ba", "bb"} and note not in ran.text, ran.text
    ran = Ran(files.replace("MARK", "@pytest.mark.blobcrash_files(seeds=30, settings=['write 0 1 0 1 prefix'])"))
    assert set(re.findall("left b'(..)'", ran.text)) == {"aa"} and ran.text.split("\n").count(note) == 1, ran.text


def test_pictures():
    """Without the program the report shows what `explain` prints for the scripts of tests/pictures: crashes, failed writes and syncs, and
    resizes that survive."""
    for script in sorted(glob.glob(os.path.join(PICTURES, "*.script"))):
        with open(script, encoding="utf-8") as file, open(script[: -len("script")] + "out", encoding="utf-8") as out:
            lines, shown = file.read().splitlines(), out.read()
        # After the last of these words each is a zero, as in the script.
        words = [word for line in lines if line.startswith("words ") for word in line.split()[1:]] + 64 * ["0"]
        calls = [line for line in lines if not line.startswith(("words", "#"))]
        ran = Ran(f"""
@pytest.mark.blobcrash(seeds=1, words={[2**64 - 1 if word == "max" else int(word) for word in words]}, by=Library)
def test_it(blobcrash):
    for line in {calls}:
        try:
            blobcrash.call(line)
        except OSError:
            pass
    assert False
""")
        assert ran.counted("failed") == 1 and shown in ran.text, (script, ran.text)


def test_a_library_that_cannot_explain():
    """One of an earlier version. There is no program either."""
    lacks = "import blobcrash.foreign\n\nclass Lacks:\n    def __getattr__(self, name):\n        if name == 'blobcrash_explain':\n"
    lacks += "            raise AttributeError(name)\n        return getattr(FUNCTIONS, name)\n\n"
    lacks += "FUNCTIONS = blobcrash.foreign.loaded()\nblobcrash.foreign._functions = Lacks()\n"
    ran = Ran(f"{lacks}\n@pytest.mark.blobcrash(seeds=1, {ALL})\ndef test_it(blobcrash):\n    assert not lose(blobcrash, 2)\n")
    assert ran.counted("failed") == 1 and "no picture of the crashes: " in ran.text and "can't explain" in ran.text, ran.text


if __name__ == "__main__":
    sys.exit(run_tests(globals(), sys.argv[1:]))
