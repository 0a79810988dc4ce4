"""What `blobcrash explain --json` and `blobcrash files explain --json` print, on random scripts and the worked ones:

    explained.py store PROGRAM EXPLAIN COUNT
    explained.py files FILES COUNT

Each line is an object as Python's `json` prints it. The calls are those of the script, with the replies of a plain run and the remarks of
`explain`. Of a store each draw is made again from the words of the seed, by the rules of docs/FORMATS.md, and so are the runs of failed writes;
those of a crash are compared with its reply. Of files the edits, the runs and the sizes are compared with the replies. The last line is
`N passed, M failed`.
"""

import glob
import json
import os
import re
import subprocess
import sys

from file_pictures import PROFILES, script_of, sizes
from random_scripts import random_script

TOP = os.path.dirname(os.path.dirname(os.path.abspath(__file__)))
sys.path.insert(0, os.path.join(TOP, "bindings", "python"))
from blobcrash.generator import words_of

RATES = {"open": "open", "loose": "open", "read": "read", "sync": "sync", "startsync": "sync", "remove": "remove", "scan": "scan"}


def printed(text, *command):
    """The lines that a command prints for a script."""
    return subprocess.run(command, input=text.encode(), stdout=subprocess.PIPE, stderr=subprocess.DEVNULL).stdout.decode().split("\n")[:-1]


def calls_of(lines, skipped):
    """The number and the text of each line that makes a call."""
    for number, line in enumerate(lines, 1):
        text = line.strip(" ")
        if text and not text.startswith("#") and text.split()[0] not in skipped:
            yield number, text


def objects_of(lines, plain, explained, told, skipped):
    """The objects of each call, after the call itself. Compares calls, replies and remarks with the script and the other outputs."""
    steps = []
    for line in told:
        it = json.loads(line)
        assert json.dumps(it, ensure_ascii=False) == line, line
        if "call" in it:
            steps.append((it, []))
        else:
            assert it["line"] == steps[-1][0]["line"], line
            steps[-1][1].append(it)
    wanted = [*zip(calls_of(lines, skipped), plain)]
    found = [((it["line"], it["call"]), it["reply"]) for it, _ in steps]
    assert found == [((number, text.split(" #")[0].strip(" ")), reply) for (number, text), reply in wanted], (found, wanted)
    assert explained == [line for it, _ in steps for line in [it["reply"], *(f"# {remark}" for remark in it["remarks"])]]
    return steps


def runs(digits, wanted, start):
    """The runs of a digit, as lists."""
    return [[start + found.start(), start + found.end()] for found in re.finditer(f"{wanted}+", digits)]


class Draws:
    """The draws of a run of a store, made from its words."""

    def __init__(self, lines):
        words, seeds = [], []
        for line in lines:
            tokens = line.split()
            if tokens[:1] == ["words"]:
                words += [2**64 - 1 if word == "max" else int(word) for word in tokens[1:]]
            elif tokens[:1] == ["seed"]:
                seeds.append(int(tokens[1]))
        self._words, self._later = words, words_of(seeds[0]) if seeds else None
        self._rates, self._writes, self.made = {}, [], []

    def _word(self):
        if self._words:
            return self._words.pop(0)
        return next(self._later) if self._later else 0

    def _rate(self, rate, kind=None):
        """A draw of a rate. It is one of `made` if it takes a word and has a kind."""
        numerator, denominator = rate
        if numerator in (0, denominator):
            return numerator > 0
        is_true = self._word() * denominator < numerator << 64
        if kind:
            self.made.append({"draw": kind, "among": 2, "outcome": is_true})
        return is_true

    def _fails(self, kind):
        return kind in self._rates and self._rate(self._rates[kind][0], kind)

    def _kept(self, settings, offset, length):
        """Which bytes are kept, as digits."""
        _, rate, mode, *size = settings
        if mode == "sectors":
            kept = {sector: self._rate(rate) for sector in range(offset // size[0], -(-(offset + length) // size[0]))} if length else {}
            return "".join("01"[kept[at // size[0]]] for at in range(offset, offset + length))
        digits = ""
        for _ in range(length):
            is_kept = self._rate(rate)
            digits += "01"[is_kept]
            if mode == "prefix" and not is_kept:
                return digits.ljust(length, "0")
        return digits

    def _configure(self, what, *numbers):
        if what == "clear":
            self._rates = {}
            return
        pairs = [tuple(map(int, numbers[at : at + 2])) for at in (0, 2)[: 2 if what in ("write", "resize") else 1]]
        self._rates[what] = [*pairs, *(int(word) if word.isdigit() else word for word in numbers[4:])]

    def call(self, line, text, reply, told):
        """Makes the draws of a call. Returns them, and the digits of a failed write."""
        self.made, digits = [], None
        word, *rest = text.split()
        if word == "config":
            self._configure(*rest)
        elif word in RATES and reply != "error NoHandle" and reply != "error EmptyRange":
            self._fails(RATES[word])
        elif word in ("write", "writes") and reply != "error NoHandle":
            digits = self._write(line, word, int(rest[1]), 0 if rest[2] == "-" else len(rest[2]) // 2, reply)
        elif word == "resize" and reply != "error NoHandle":
            self._resize(int(rest[1]), told)
        elif word == "reopen" and reply == "ok":
            self._writes = []
        elif word == "crash":
            for row in reply.split()[1:]:
                number, kept = row.split(":")
                _, settings, offset = self._writes[int(number)]
                assert self._kept(settings, offset, len(kept)) == kept, (row, settings)
        return self.made, digits

    def line_of(self, number):
        return self._writes[number][0]

    def _write(self, line, word, offset, length, reply):
        if (word == "writes" and not length) or offset + length >= 2**64:
            return None
        settings = self._rates.get("write")
        if settings and self._fails("write"):
            return self._kept(settings, offset, length) if settings[1][0] else "0" * length
        is_unsynced = word == "writes" and self._fails("sync")
        if settings and settings[1][0] and length and (reply == "ok" and word == "write" or is_unsynced and reply == "error Injected"):
            self._writes.append((line, settings, offset))
        return None

    def _resize(self, length, told):
        if "resize" not in self._rates:
            return
        failure, partial = self._rates["resize"]
        if not self._rate(failure, "resize"):
            self._rate(failure, "survives")
        elif self._rate(partial, "partial"):
            for it in told:
                if it.get("draw") == "size":
                    among = it["among"]
                    index = self._word() * among >> 64
                    assert it["outcome"] in (length + 1 + index, length - among + index), it
                    self.made.append({"draw": "size", "among": among, "outcome": it["outcome"]})


def check_runs(it, digits):
    """Compares the runs of a write with its digits: a covered byte may have either."""
    start, end = it["bytes"]
    covered = {at for run in it["covered"] for at in range(*run)}
    spans = sorted([*it["kept"], *it["lost"], *it["covered"]])
    assert [start, *(span[1] for span in spans)] == [*(span[0] for span in spans), end] and end - start == len(digits), (it, digits)
    shown = "".join("=" if start + at in covered else digit for at, digit in enumerate(digits))
    for name, digit in (("kept", "1"), ("lost", "0"), ("covered", "=")):
        assert it[name] == runs(shown, digit, start), (it, digits)


def check_store(program, explain, text):
    lines = text.split("\n")
    plain, explained, told = printed(text, program), printed(text, explain), printed(text, explain, "--json")
    steps, draws = objects_of(lines, plain, explained, told, ("image", "words", "seed")), Draws(lines)
    for call, objects in steps:
        line, reply = call["line"], call["reply"]
        made, digits = draws.call(line, call["call"], reply, objects)
        drawn = [it for it in objects if "draw" in it]
        assert drawn == [{"line": line, **it} for it in made] == objects[: len(drawn)], (call, drawn, made)
        rows = dict(row.split(":") for row in reply.split()[1:]) if reply.startswith("crashed") else {}
        for it in objects:
            if "kept" in it and it["write"] is None:
                assert it["of"] == line, it
                check_runs(it, digits)
            elif "kept" in it:
                assert it["of"] == draws.line_of(it["write"]), it
                check_runs(it, rows.pop(str(it["write"])))
            elif "live" in it:
                assert it["live"] == next(iter(runs(digits, "1", it["bytes"][0])), None), it
        assert not rows, (call, rows)
        heads = [f"{it['partition']} {it['name']}: length {it['length'][0]} before, {it['length'][1]} after" for it in objects if it.get("length")]
        remarks = "".join(call["remarks"])
        assert remarks.count(": length ") == len(heads) and all(head in remarks for head in heads), call


def check_files(files, lines):
    text = "\n".join([*lines, ""])
    plain, explained, told = printed(text, files), printed(text, files, "explain"), printed(text, files, "explain", "--json")
    steps = objects_of(lines, plain, explained, told, ("words", "seed"))
    for at, (call, objects) in enumerate(steps):
        reply = call["reply"]
        for it in objects:
            if "draw" in it and it["draw"] != "size":
                assert it["outcome"] == (reply == "error Injected") and it["among"] == 2, (call, it)
        if not reply.startswith("crashed"):
            settled = [it for it in objects if "edit" in it]
            assert not settled or len(settled) == objects[-1 - len(settled)]["settled"], call
            continue
        digits, *rows = reply.split()[1:]
        edits = [it["outcome"] == "kept" for it in objects if "edit" in it]
        assert "".join("01"[is_kept] for is_kept in edits) == digits.replace("-", ""), call
        left = [row.split(":")[1:] for row in rows]
        for it in objects:
            if "bytes" in it:
                kept = ",".join(f"{start}..{end}" for start, end in it["kept"]) or "-"
                span = f"{it['bytes'][0]}..{it['bytes'][1]}"
                fits = [row for row in left if row[0] == span and (it["covered"] or row[1] == kept)]
                assert fits or (not it["kept"] and it["lost"] == [it["bytes"]]), (call, it)
                if fits:
                    left.remove(fits[0])
                assert lines[it["of"] - 1].split()[0] in ("write", "truncate"), it
            elif "file" in it and at + 1 < len(steps) and steps[at + 1][0]["call"] == "tree":
                after = sizes(steps[at + 1][0]["reply"])
                assert it["file"] is None or after[it["file"]] == it["after"], (it, after)


def main(kind, *arguments):
    passed = failed = 0
    if kind == "store":
        program, explain, count = arguments
        worked = [name for folder in ("examples", "tests/scripts", "tests/pictures") for name in sorted(glob.glob(f"{TOP}/{folder}/*.script"))]
        cases = [(os.path.basename(name), lambda name=name: check_store(program, explain, open(name, "rb").read().decode(errors="replace"))) for name in worked]
        cases += [(f"seed {seed}", lambda seed=seed: check_store(program, explain, random_script(program, seed))) for seed in range(int(count))]
    else:
        files, count = arguments
        worked = [name for folder in ("examples/files", "tests/file_pictures") for name in sorted(glob.glob(f"{TOP}/{folder}/*.script"))]
        cases = [(os.path.basename(name), lambda name=name: check_files(files, open(name, encoding="utf-8").read().split("\n"))) for name in worked]
        cases += [(f"seed {seed}, {profile}", lambda seed=seed, profile=profile: check_files(files, script_of(seed, profile)))
                  for seed in range(int(count)) for profile in PROFILES]
    for name, check in cases:
        try:
            check()
            passed += 1
        except (AssertionError, KeyError, IndexError) as error:
            print(f"explained.py: FAILED: {name}: {type(error).__name__} {error}")
            failed += 1
    print(f"{passed} passed, {failed} failed")
    return int(failed > 0)


if __name__ == "__main__":
    sys.exit(main(*sys.argv[1:]))
