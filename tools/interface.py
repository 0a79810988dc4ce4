"""What of a built library the libraries above it read, for tools/verdict.

Their checks read of its folder NAME.rlib only: `interface` and `below`, the public items without code; the facts of `format`; and the
modules of the logic that the library shows, with all that these import. `Code`, which stands for a function's code, is sealed: no proof
sees what is in it.
"""

import json
import re
from pathlib import Path

from lemmas import only_adds

# Lines of `format` that identify a build, and say nothing of the library.
BUILDS = ("rattle-build", "needs", "over", "checked", "sum")
IMPORT = re.compile(rb"^--@ import (\S+) ", re.M)


class Unsure(Exception):
    """A library that isn't as this tool expects."""


def entries(folder, index, data):
    """Returns the entries of a file of a library by its index: a line for each, with its name, its offset and its length."""
    whole = (folder / data).read_bytes()
    with (folder / index).open(encoding="utf-8") as lines:
        found = [json.loads(line)[:3] for line in lines]
    return {name: whole[at : at + length] for name, at, length in found}


def facts(file):
    """Returns the lines of a library's list that say something of it."""
    lines = file.read_text(encoding="utf-8").splitlines()
    return [line for line in lines if line.split(" ")[0] not in BUILDS]


class Module:
    """A module: its text, and what a check wrote of it."""

    def __init__(self, text, part, key):
        self.text, self.part, self.key = text, part, key

    def is_in(self, other):
        """Returns whether another library has the module too. One of the two is enough: the text of a contract has its file's imports
        too, and what is made of a function's contract has a checksum of its code. A file of lemmas may have more there."""
        if not isinstance(other, Module):
            return False
        if self.text == other.text or self.part == other.part:
            return True
        is_file = self.key.startswith("proofs/") and isinstance(self.text, bytes) and not self.text.startswith(b"{")
        return is_file and only_adds(self.text, other.text)


class Library:
    def __init__(self, folder, name):
        self.folder, self.name = Path(folder), name
        try:
            self.made = entries(self.folder, "toolchain/made.json", "lang/antt/made.json")
            self.parts = entries(self.folder, "toolchain/checked.json", "toolchain/checked.a")
        except (OSError, ValueError, TypeError) as error:
            raise Unsure(f"the library of {name} can't be read: {error}") from error

    def key(self, module):
        """Returns the path of a module's text: of what the library shows, of its definitions, or of its proofs."""
        rest = module[len(f"Rattle-{self.name}") :]
        path = rest.lstrip(".-").replace(".", "/")
        return path if rest.startswith("-") else f"facade/{path}".rstrip("/")

    def text(self, module):
        key = self.key(module)
        if key in self.made:
            return self.made[key]
        try:
            return (self.folder / f"lang/antt/{key}.antt").read_bytes()
        except OSError as error:
            raise Unsure(f"the library of {self.name} has no text of {module}") from error

    def is_lemmas(self, module):
        """Returns whether the library shows a file of lemmas by this module."""
        key = self.key(module)
        return key.startswith("facade/proofs/") and (self.folder / f"lang/antt/{key[len('facade/'):]}.antt").is_file()

    def listed(self, module, are_named):
        """Returns the text that lists the proofs which the library shows, without the files of lemmas that nothing names, or that lists
        what it shows of such a file, without the names, since the file is compared too."""
        text = json.loads(self.text(module))
        for said in text.values():
            said["children"] = [it for it in said["children"] if not self.is_lemmas(f"{module}.{it}") or are_named(it)]
            said.update({it: [] for it in ("names", "unfoldable") if self.is_lemmas(module)})
        return text

    def modules(self, are_named):
        """Returns the modules that other libraries can read, by their paths. Of the files of lemmas these are those whose
        names `are_named`, and what they import."""
        own = {name[len("part/") :]: part for name, part in self.parts.items() if name.startswith(f"part/Rattle-{self.name}")}
        shown = re.compile(rf"Rattle-{self.name}(\..*)?")
        left = [it for it in own if shown.fullmatch(it) and (not self.is_lemmas(it) or are_named(it.partition(".proofs.")[2]))]
        if not left:
            raise Unsure(f"the library of {self.name} shows no module")
        found = {}
        while left:
            module = left.pop()
            if module in found or module.endswith(".Code"):
                continue
            if module not in own:
                raise Unsure(f"the library of {self.name} has no {module}")
            is_list = self.key(module) == "facade/proofs" or self.is_lemmas(module)
            found[module] = Module(self.listed(module, are_named) if is_list else self.text(module), own[module], self.key(module))
            imports = IMPORT.findall(own[module])
            left += [it.decode() for it in imports if re.match(rb"Rattle-%s\b" % self.name.encode(), it)]
        return {self.key(module): it for module, it in found.items()}

    def visible(self, are_named):
        """Returns all that other libraries read, by names."""
        found = self.modules(are_named)
        for part in ("interface", "below"):
            for file in sorted((self.folder / part).rglob("*")):
                if file.is_file():
                    found[str(file.relative_to(self.folder))] = facts(file) if file.name == "format" else file.read_bytes()
        found["format"] = facts(self.folder / "format")
        return found


def label(key):
    """Returns in the words of the sources what a part of a library is of."""
    for start, word in (("specs/contracts/", "contract or type"), ("specs/declared/", "type"), ("specs/", "specs"), ("proofs/", "proofs")):
        if key.startswith(start) and key[len(start) :]:
            path = key[len(start) :]
            is_item = start.startswith(("specs/contracts", "specs/declared"))
            return f"{word} {path.replace('/', '::')}" if is_item else f"{word}/{path}"
    source = re.fullmatch(r"interface/lang/(src/.*)", key)
    below = re.match(r"(?:facade/)?below/(\w+)", key)
    return f"declarations of {source[1]}" if source else f"the interface of {below[1]} below it" if below else key


def differences(now, then):
    """Returns what differs between what two libraries show, in words."""
    found, is_same = {}, True
    for key in sorted(set(now) | set(then)):
        one, other = now.get(key), then.get(key)
        if other.is_in(one) if isinstance(other, Module) else one == other:
            continue
        is_same = False
        if key == "format":
            found.update((f"fact: {line}", None) for line in sorted(set(one) ^ set(other)))
        # What the library shows of a module has its name too, and so has what is made from a contract.
        elif not key.startswith(("facade/specs", "facade/proofs", "interface/toolchain")):
            made = re.fullmatch(r"proofs/(.*)/(Kinds|Met|Reads|Statement|Symbol|TheLaws|TheReach|TheSendSync|TheLaws/TheReach)", key)
            found[f"contract or type {made[1].replace('/', '::')}" if made else label(key)] = None
    return list(found) or ([] if is_same else ["its list of modules"])
