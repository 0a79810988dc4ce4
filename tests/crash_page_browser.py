#!/usr/bin/env python3
"""The page in a headless Chromium: `crash_page_browser.py PROGRAM FOLDER`. Its pictures go to the folder.

The page of each worked script of examples/ is stepped through by keys, and what it shows of each byte is compared with the replies.
Then hostile text, a long run, a narrow screen, the dark colours, print, and what the page may not do. The last line is
`N passed, M failed`.
"""

import glob
import os
import subprocess
import sys

sys.dont_write_bytecode = True
TOP = os.path.dirname(os.path.dirname(os.path.abspath(__file__)))
sys.path.insert(0, os.path.join(TOP, "tests"))
sys.path.insert(0, os.path.join(TOP, "bindings", "python"))
import browser as browsers
from random_scripts import random_script

from blobcrash_page import Exploration, page
from blobcrash_page.script import Script

# The shown bytes of a row of the detail, and of the lane of the chosen row, as one text of hex.
SHOWN = """(() => {
  const bytes = (name) => [...document.querySelectorAll(`#detail [data-row="${name}"] td`)].map((it) => it.textContent).join("");
  const chosen = document.querySelector(".row.chosen");
  return {
    line: (document.querySelector("#detail h2 .number") || {}).textContent,
    rows: Object.fromEntries([...document.querySelectorAll("#detail [data-row]")].map((it) => [it.dataset.row, bytes(it.dataset.row)])),
    lane: chosen ? [...chosen.querySelectorAll(".lane .b")].map((it) => it.textContent).join("") : "",
    lanes: chosen ? chosen.querySelectorAll(".lane").length : 0,
  };
})()"""

# The lines of the reads that the states of the page contradict, asked forwards and then backwards.
CONTRADICTED = """(() => {
  const run = JSON.parse(document.getElementById("run").textContent), calls = new Calls(run), wrong = [];
  const states = new States(calls, run.lanes.length);
  const check = (call) => {
    const words = calls.text(call).split(" "), answer = (calls.reply(call) || "").split(" ");
    if (answer[0] !== "bytes") return;
    const live = states.after(call).handles.get(Number(words[1])).bytes.all(), at = Number(words[2]);
    if (([...live.subarray(at, at + Number(words[3]))].map(hexOf).join("") || "-") !== answer[1]) wrong.push(calls.line(call));
  };
  for (let call = 0; call < calls.length; call++) check(call);
  for (let call = calls.length - 1; call >= 0; call -= 7) check(call);
  return wrong;
})()"""

HOSTILE = """# </script><script>window.hacked = 1</script> " onload="window.hacked = 2
# </style><img src=x onerror="window.hacked = 3"> <!-- ]]> &lt;b&gt; {title} \u2028
image <script>window.hacked=4</script> 3c2f7363726970743e 00
open "onload="window.hacked=5 <b> 3c
open p 3c2f7363726970743e3c7363726970743e
# {0} %s ${1} `x` \\u003c/script>
write 0 0 3c2f7363726970743e
crash
remove <img/src=x/onerror=window.hacked=6>
this is no call <b>
"""


class Checks:
    def __init__(self):
        self.passed = self.failed = 0

    def check(self, is_right, what):
        self.passed += bool(is_right)
        self.failed += not is_right
        if not is_right:
            print(f"crash_page_browser.py: FAILED: {what}")


def run(program, text):
    """The replies of a script, and its explanation as JSON."""
    commands = ([program], [program + "_explain", "--json"])
    return [subprocess.run(it, input=text.encode(), stdout=subprocess.PIPE, stderr=subprocess.DEVNULL).stdout.decode() for it in commands]


def write_page(program, folder, name, text, **more):
    path = os.path.join(folder, name + ".html")
    with open(path, "w", encoding="utf-8") as file:
        file.write(page(text, *run(program, text), **more))
    return path


def check_example(checks, it, program, folder, name):
    """Each call of a worked script, by the key of the next call."""
    with open(name, encoding="utf-8") as file:
        text = file.read()
    name = os.path.basename(name)[: -len(".script")]
    script = Script(text, run(program, text)[1])
    it.errors, it.requests = [], []
    it.open(write_page(program, folder, name, text))
    it.press("Home")
    it.press("ArrowDown")
    it.press("ArrowUp")
    is_right, handles = True, {}
    for step in script.steps:
        for _ in range(40):
            shown = it.value(SHOWN)
            if shown["line"] == f"line {step.line}":
                break
            it.press("ArrowDown")
        is_right &= shown["line"] == f"line {step.line}"
        rows, answer = shown["rows"], step.answer
        if answer[0] == "bytes":
            start, end = 2 * int(step.words[2]), 2 * int(step.words[2]) + len(answer[1])
            is_right &= rows.get(f"handle-{step.words[1]}", "")[start:end] == answer[1]
            # A current handle alone shows what its lane does.
            if shown["lanes"] == 1 and handles.get(step.words[1]) == "current" and len(answer[1]) <= 64:
                is_right &= shown["lane"][start:end] == answer[1]
        elif answer[0] == "opened":
            is_right &= len(rows.get(f"handle-{answer[1]}", "")) == 2 * int(answer[2])
            handles[answer[1]] = "current"
        elif step.words[0] in ("reopen", "remove", "crash"):
            handles = {}
        after = [remark[9:].replace(" ", "") for remark in step.remarks if remark.startswith("    after")]
        if after:
            is_right &= rows.get("durable") == "".join(after)
        if not is_right:
            break
    it.picture(os.path.join(folder, name + ".png"))
    checks.check(is_right, f"{name}: line {step.line}, {step.text}: {shown}")
    checks.check(not it.errors, f"{name}: {it.errors}")
    checks.check(all(url.startswith("file://" + folder) for url in it.requests), f"{name}: asks for {it.requests}")


def check_hostile(checks, it, program, folder):
    chart = Exploration([("</script><script>window.hacked = 7</script>", 3), ('" onload="window.hacked = 8', 1)], [(2, 1, 2, 0)])
    it.errors, it.requests = [], []
    it.open(write_page(program, folder, "hostile", HOSTILE, title='</title><script>window.hacked = 9</script>"', chart=chart))
    it.press("End")
    for _ in range(12):
        it.press("ArrowUp")
    checks.check(it.value("window.hacked") is None, "hostile text runs")
    checks.check(it.value("document.querySelectorAll('script').length") == 2, "hostile text is a script")
    checks.check(it.value("document.querySelectorAll('img, b, [onload], [onerror]').length") == 0, "hostile text is markup")
    checks.check("<script>window.hacked = 1</script>" in it.value("document.body.textContent"), "a comment is shown as it is")
    checks.check("<img/src=x/onerror=window.hacked=6>" in it.value("document.body.textContent"), "a partition is shown as it is")
    checks.check(len(it.requests) == 1 and not it.errors, f"hostile text asks for {it.requests}: {it.errors}")
    it.picture(os.path.join(folder, "hostile.png"))


def check_limits(checks, it, folder):
    """What the policy of the page refuses, to whatever would get into it."""
    it.open(os.path.join(folder, "hostile.html"))
    it.value("(() => { const it = document.createElement('script'); it.textContent = 'window.hacked = 10'; document.body.append(it); })()")
    checks.check(it.value("window.hacked") is None, "another script runs")
    told = it.ask("Runtime.evaluate", expression="fetch('https://example.invalid/').then(() => 'asked', () => 'refused')", awaitPromise=True, returnByValue=True)
    checks.check(told["result"]["value"] == "refused", "the network is asked")


def check_long_run(checks, it, program, folder):
    calls = "".join(f"write 0 {8 * i} {i:016x}\nsync 0\n" for i in range(4000))
    text = f"config write 0 1 1 2 subset\nopen p 62\n{calls}write 0 40 ffff\ncrash\nreopen\nopen p 62\nread 1 0 64\n"
    it.errors = []
    it.open(write_page(program, folder, "long", text))
    checks.check(it.value("document.querySelectorAll('.row').length") < 120, "more is drawn than is seen")
    checks.check(it.value("document.querySelectorAll('.row.fold').length") == 1, "a long run is folded")
    checks.check(it.value(SHOWN)["line"] == "line 8004", "the first crash is chosen")
    it.picture(os.path.join(folder, "long.png"))
    it.press("Home")
    for _ in range(80):
        if it.value("!!document.querySelector('.row.fold.chosen')"):
            break
        it.press("ArrowDown")
    it.press("Enter")
    checks.check(it.value("document.querySelectorAll('.row.fold').length") == 0, "a fold opens")
    it.value("location.hash = '#L5003'")
    checks.check(it.value("new Promise((done) => setTimeout(done, 50)).then(() => 1)") is not None, "a turn")
    for _ in range(40):
        shown = it.value(SHOWN)
        if shown["line"] == "line 5003":
            break
    checks.check(shown["line"] == "line 5003", f"a link chooses its call: {shown['line']}")
    it.press("End")
    checks.check(it.value(SHOWN)["rows"]["handle-1"][:32] == "0000000000000000" + "0000000000000001", "the end of a long run")
    checks.check(not it.errors, f"a long run: {it.errors}")


def check_random(checks, it, program, folder, count=12):
    for seed in range(1000, 1000 + count):
        it.errors = []
        it.open(write_page(program, folder, "random", random_script(program, seed, calls=120)))
        wrong = it.value(CONTRADICTED)
        checks.check(wrong == [] and not it.errors, f"random script {seed}: lines {wrong}, {it.errors}")


def check_looks(checks, it, program, folder):
    path = os.path.join(folder, "forgotten_sync.html")
    it.size(360, 740)
    it.open(path)
    it.picture(os.path.join(folder, "narrow.png"))
    checks.check(it.value("document.documentElement.scrollWidth") <= 360, "a narrow screen scrolls sideways")
    it.size(1280, 800)
    it.dark(True)
    it.open(path)
    it.picture(os.path.join(folder, "dark.png"))
    dark = it.value("getComputedStyle(document.body).backgroundColor")
    it.dark(False)
    checks.check(dark != it.value("getComputedStyle(document.body).backgroundColor"), "dark colours")
    checks.check(len(it.ask("Page.printToPDF", printBackground=True)["data"]) > 10000, "it prints")


def main(program, folder):
    os.makedirs(folder, exist_ok=True)
    folder = os.path.realpath(folder)
    checks, it = Checks(), browsers.Browser(browsers.find())
    try:
        it.size(1280, 800)
        for name in sorted(glob.glob(os.path.join(TOP, "examples", "*.script"))):
            check_example(checks, it, program, folder, name)
        check_hostile(checks, it, program, folder)
        check_limits(checks, it, folder)
        check_long_run(checks, it, program, folder)
        check_random(checks, it, program, folder)
        check_looks(checks, it, program, folder)
    finally:
        it.close()
    print(f"{checks.passed} passed, {checks.failed} failed")
    return int(checks.failed > 0)


if __name__ == "__main__":
    sys.exit(main(*sys.argv[1:]))
