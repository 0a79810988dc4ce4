"""Tries must-fail edits of a crate, for tools/verdict: a check of the crate with the edit has to reject it by a goal."""

import os
import re
import shutil
import subprocess
import time

from checks import has_memory, options, processors

# A line of a check that says where it stopped, and one that only says that a proof names what the edit took away.
SAID = re.compile(r"(note: )?\S+:\d+:\d+:")
NAMES = re.compile(r"(note: )?(\./)?proofs/.*(has no field|is not in scope|has no `|was not admitted|was rejected, was not checked)")


class BadEdit(Exception):
    """An edit that can't be applied."""


def edited(text, folder):
    """Returns the texts of the files that an edit changes, by their paths in the crate's folder."""
    path, old, texts = None, None, {}
    for line in text.split("\n"):
        word, _, rest = line.partition(": ")
        if word == "file":
            path = rest.strip()
        elif word == "old":
            old = rest
        elif word.rstrip(":") == "new" and path and old:
            if path not in texts:
                try:
                    texts[path] = (folder / path).read_text(encoding="utf-8")
                except OSError as error:
                    raise BadEdit(f"{path} can't be read") from error
            if texts[path].count(old) != 1:
                raise BadEdit(f"{path} has its old text {texts[path].count(old)} times")
            texts[path], old = texts[path].replace(old, rest), None
    if not texts:
        raise BadEdit("it changes no file")
    return texts


def judge(status, output):
    """Returns whether a check rejected an edit by a goal, and what it said, or None if it came to no verdict."""
    lines = output.rstrip("\n").split("\n")
    said = [line for line in lines if SAID.match(line)]
    if status == 0:
        return False, "it is still proved"
    if status != 1 or not lines[-1].startswith("logic=not-proved"):
        return None, f"its check ended with status {status}: {(said or lines)[0][:200]}"
    goals = [line for line in said if not NAMES.match(line)]
    if said and not goals:
        return False, f"only a missing name rejects it: {said[0][:200]}"
    return True, goals[0][:200] if goals else ""


class Edits:
    """The edits of one crate, whose libraries below are in the folder of `crates`. Each check joins the process group `group`."""

    def __init__(self, crate, crates, kit, work, group):
        self.crate, self.crates, self.kit, self.work, self.group = crate, crates, kit, work, group

    def copy(self, name, texts):
        """Makes a copy of the crate's sources with these texts. Returns its folder."""
        folder = self.work / name
        for part in ("src", "specs", "proofs"):
            if (self.crate.folder / part).is_dir():
                shutil.copytree(self.crate.folder / part, folder / part)
        for path, text in texts.items():
            (folder / path).write_text(text, encoding="utf-8")
        return folder

    def start(self, folder, kept, jobs):
        """Starts a check of a folder, over what `kept` has. Its output goes to a file next to the folder."""
        words = [self.kit / "bin/rattle", "check", *options(self.crate, self.crates, self.kit, jobs), "--incremental", kept]
        with folder.with_suffix(".log").open("w", encoding="utf-8") as log:
            how = {"cwd": folder, "stdin": subprocess.DEVNULL, "stdout": log, "stderr": log}
            return subprocess.Popen(words, preexec_fn=lambda: os.setpgid(0, self.group), **how)

    def begin(self, edits):
        """Checks the crate as it is, so that the check of each of several edits proves only what it changes. Returns whether it is
        proved."""
        seed = self.work / "seed"
        seed.mkdir(parents=True)
        return len(edits) == 1 or self.start(self.copy("whole", {}), seed, processors()).wait() == 0

    def start_edit(self, edit):
        folder = self.copy(edit.stem, edited(edit.read_text(encoding="utf-8"), self.crate.folder))
        kept = self.work / f"{edit.stem}.kept"
        shutil.copytree(self.work / "seed", kept, copy_function=link_proved)
        return self.start(folder, kept, 1)

    def run(self, edits):
        """Yields each edit, as its check ends, with whether it is rejected, or None, and what was said."""
        left, running = list(edits), {}
        while left or running:
            if left and (not running or len(running) < processors() and has_memory()):
                edit = left.pop(0)
                try:
                    running[edit] = self.start_edit(edit)
                except BadEdit as error:
                    yield edit, None, str(error)
                continue
            ended = [edit for edit, process in running.items() if process.poll() is not None]
            for edit in ended:
                status = running.pop(edit).returncode
                log = (self.work / edit.stem).with_suffix(".log").read_text(encoding="utf-8", errors="replace")
                shutil.rmtree(self.work / f"{edit.stem}.kept")
                yield (edit, *judge(status, log))
            if not ended:
                time.sleep(0.1)


def link_proved(source, target):
    """Copies a file that a check keeps. Of what it proved a second name is enough: a check replaces such a file, and changes none."""
    if source.endswith(".oantt"):
        os.link(source, target)
    else:
        shutil.copy2(source, target)
