"""The page of `blobcrash diagnose --page`, in a headless Chromium: each call with what was unsynced, the crash, and the missing sync in its
place; a narrow screen, dark colours, hostile names. diagnose.sh runs it. The pictures go to the folder that is the first argument. The last
line is `N passed, M failed`."""

import os
import re
import subprocess
import sys
import tempfile

import browser as browsers
from passing import run_tests

TOP = os.path.dirname(os.path.dirname(os.path.abspath(__file__)))
from blobcrash.called import Called
from blobcrash.recorded_run import RecordedRun
from blobcrash.unsynced import rails_of
from blobcrash_page.timeline import timeline

RENAMED = """profile xfs
# process 7 saver
create /new
write /new 0 74776f
rename /new /settings
fsyncdir /
"""
LOGGED = """profile posix
create /config
write 0 0 6f6c64
fsync 0
fsyncdir /
create /log
write 1 0 61
write 0 0 6e
write 1 1 62
fdatasync 1
"""
STORED = """open p 62
write 0 0 61
sync 0
write 0 1 62
"""
# The rows of the calls, each by its classes, its number and its text, and the rails of each by their classes.
ROWS = """[...document.querySelectorAll(".call")].map((row) => [row.className, row.querySelector(".number").textContent,
  row.querySelector(".said").textContent, [...row.querySelectorAll(".rails i")].map((rail) => rail.className).join(", ")])"""
HOSTILE = '</p><script>window.hacked = 1</script><img src=x onerror="window.hacked = 2"> " onload="window.hacked = 3'
# The browser, once there is one.
STARTED = []
PICTURES = sys.argv[1] if len(sys.argv) > 1 else tempfile.mkdtemp()


def rails(script):
    run = RecordedRun(script)
    return [(rail.of, rail.start, rail.end, rail.changes, rail.slot) for rail in rails_of(run, Called(run), 0)]


def opened(page, name):
    """The browser, which shows a page."""
    os.makedirs(PICTURES, exist_ok=True)
    path = os.path.join(PICTURES, f"{name}.html")
    with open(path, "w", encoding="utf-8") as file:
        file.write(page)
    if not STARTED:
        STARTED.append(browsers.Browser(browsers.find()))
    it = STARTED[0]
    it.errors, it.requests = [], []
    it.size(1280, 800)
    it.open(path)
    return it


def page_of(script, check):
    """The page that the command writes, and what it prints."""
    with tempfile.TemporaryDirectory() as folder:
        with open(f"{folder}/record", "w", encoding="utf-8") as file:
            file.write(script)
        own = ["--page", f"{folder}/page.html", "--out", f"{folder}/out", f"{folder}/record"]
        ran = subprocess.run([sys.executable, "-m", "blobcrash", "diagnose", *own, "--", "sh", "-c", check], stdout=subprocess.PIPE, text=True)
        with open(f"{folder}/page.html", encoding="utf-8") as file:
            return file.read(), ran


def test_rails():
    """By hand. On XFS a sync of the folder settles the names, and no byte of the file."""
    assert rails(RENAMED) == [("names in /", 3, 6, (3, 5), 0), ("/new", 4, None, (4,), 1)], rails(RENAMED)
    first = [("names in /", 2, 5, (2,), 0), ("/config", 3, 4, (3,), 1)]
    later = [("names in /", 6, None, (6,), 0), ("/log", 7, 10, (7, 9), 1), ("/config", 8, None, (8,), 2)]
    assert rails(LOGGED) == first + later, rails(LOGGED)
    assert rails(STORED) == [("p/62", 2, 3, (2,), 0), ("p/62", 4, None, (4,), 0)], rails(STORED)


def test_a_page():
    page, ran = page_of(RENAMED, '[ ! -e "$STATE/settings" ] || grep -q two "$STATE/settings"')
    assert ran.returncode == 1 and "missing: `fsync /new` before line 5" in ran.stdout, ran
    assert not re.search(r"src=|url\(|@import|<script", page), page
    it = opened(page, "renamed")
    assert it.value(ROWS) == [
        ["call other", "1", "profile xfs", ""],
        ["call by", "", "saver[7]", ""],
        ["call change", "3", "create /new", "s0 from changed"],
        ["call change lost", "4", "lost 1 write 0..3 of /new", "s0, s1 from changed lost"],
        ["call missing", "+", "missing 1 fsync /new", "s0, s1 lost, s1 missed"],
        ["call change", "5", "rename /new -> /settings", "s0 changed, s1 lost"],
        ["call crash", "", "The power goes off, and the check fails: lost 1", "s0, s1 lost"],
        ["call sync", "6", "sync fsyncdir /", "s0 to, s1"],
    ], it.value(ROWS)
    assert it.value('[...document.querySelectorAll("a")].filter((it) => !document.querySelector(it.getAttribute("href"))).length') == 0
    assert "With `fsync /new` before line 5 none of" in it.value("document.body.textContent")
    looks(it, os.path.join(PICTURES, "renamed"))
    assert not it.errors and set(it.requests) == {f"file://{os.path.abspath(PICTURES)}/renamed.html"}, (it.errors, it.requests)


def looks(it, path):
    """Nothing is beyond the width of a screen, dark colours are others, and it prints."""
    colours = []
    for width in (390, 1280):
        for is_dark in (False, True):
            it.size(width, 900)
            it.dark(is_dark)
            it.picture(f"{path}-{width}-{'dark' if is_dark else 'light'}.png")
            assert it.value("document.documentElement.scrollWidth") <= width, width
            colours.append(it.value('getComputedStyle(document.querySelector(".cause")).backgroundColor'))
    assert colours[0] != colours[1], colours
    assert len(it.ask("Page.printToPDF", printBackground=True)["data"]) > 10000


def test_no_loss():
    page, ran = page_of("create /f\nunlink /f\n", 'test ! -e "$STATE/f"')
    assert ran.returncode == 1
    it = opened(page, "no_loss")
    rows = it.value(ROWS)
    assert [row[:3] for row in rows] == [
        ["call change", "1", "create /f"],
        ["call crash", "", "The power goes off. Nothing is lost, and the check fails."],
        ["call change", "2", "unlink /f"],
    ], rows


def test_hostile_text():
    call = {"line": 1, "call": HOSTILE, "process": HOSTILE}
    cause = {"cause": 1, "class": HOSTILE, "why": HOSTILE, "lost": [call], "at": {**call, "line": 2}, "syncs": [{"sync": HOSTILE, "before": 2}], "kept": HOSTILE}
    rows = [{"line": line, "text": HOSTILE, "kind": "change", "by": HOSTILE} for line in (1, 2)]
    rail = {"of": HOSTILE, "start": 1, "end": None, "changes": [1], "slot": 0}
    it = opened(timeline({"summary": HOSTILE, "ending": [HOSTILE], "causes": [cause], "rows": rows, "rails": [rail], "since": 0}), "hostile")
    assert it.value("window.hacked") is None and it.value("document.querySelectorAll('script, img, [onload], [onerror]').length") == 0
    it.value("(() => { const it = document.createElement('script'); it.textContent = 'window.hacked = 4'; document.body.append(it); })()")
    assert it.value("window.hacked") is None and len(it.requests) == 1, it.requests
    it.size(390, 900)
    assert it.value("document.documentElement.scrollWidth") <= 390


if __name__ == "__main__":
    try:
        sys.exit(run_tests(globals(), []))
    finally:
        for browser in STARTED:
            browser.close()
