"""The trusted definitions: those of specs/ that the contracts of the program's calls lead to, by the imports of the files, and those that the
contracts of calls on files lead to besides.

    trust.py              compares them with the tables in docs/PROOFS.md, and checks that no two files of one crate's specs/ define a
                          name. The last line is `N passed, M failed`
    trust.py write        writes these tables again, into the page or a copy of it
    trust.py text         prints the definitions of the program with their comments, in reading order
    trust.py text files   prints those of files

A name decides, so a variable with the name of an imported definition counts as a use of it."""

import collections
import difflib
import glob
import itertools
import os
import re
import sys

# The calls that users of the whole program rest on: the file and the function.
CALLS = [
    ("crates/blob_lab_store/src/lab.rt", "new"),
    ("crates/blob_lab_store/src/lab.rt", "run"),
    ("crates/blob_lab_store/src/lab/applying.rt", "apply"),
    ("crates/blob_lab_store/src/lab/applying.rt", "wrapper"),
    ("crates/blob_lab/src/scripts.rt", "serve_script"),
    ("crates/blob_lab/src/resolutions.rt", "serve_resolve"),
]
# Every public function of this crate is a call on files. This type has invariants, which hold before and after each.
FILES = "crates/blob_fs/src"
HELD = "crates/blob_fs/src/file_system.rt"
INVARIANT = re.compile(r"^    ghost \w+: \{(.*)\},$", re.M)
PAGE = "docs/PROOFS.md"
# The tables of the page, each between its head and the comment after it.
HEAD = "files of its `specs/` | definitions |\n|---|---|---|\n"
TABLES = {"program": ("| crate | " + HEAD, "\n\n<!-- end of the table -->"), "files": ("| crate, for files | " + HEAD, "\n\n<!-- end of the table of files -->")}
IMPORT = re.compile(r"^\s*(?:pub )?(?:ghost )?use Rattle\.(\w+)\.specs\.([\w.]+)\.\{([^}]*)\}", re.M)
ALIAS = re.compile(r"^\s*(?:ghost )?use Rattle\.(\w+)\.specs\.([\w.]+) as (\w+)", re.M)
PASSED_ON = re.compile(r"^pub use Rattle\.(\w+)\.specs\.([\w.]+)$", re.M)
WORD = re.compile(r"[A-Za-z_][\w'-]*")
# A line that begins a definition, and one within it that names constructors.
BEGINS = re.compile(r"^(?:abbrev |unfoldable |reducible )*(?:pub )?(?:record |data )?([^\s:({]+)\s*[:({]")
PART = re.compile(r"^\s+(?:pub )?((?:[A-Z][\w'-]* )+):")
MARKED = re.compile(r"^(?:abbrev|unfoldable|reducible|pub|record|data) ")
SIGNED = re.compile(r"^\S+ :")
# A definition within a module of parameters.
WITHIN = re.compile(r"^\s+(?:pub )?(?:abbrev|unfoldable|reducible|record|data) (?:pub )?(?:record |data )?([^\s:({]+)", re.M)


def read(path):
    with open(path, encoding="utf-8") as file:
        return file.read()


def depths():
    """The crates, each after those that it uses."""
    below = {}
    for line in read("crates.txt").splitlines():
        if line.startswith("#"):
            continue
        crate, _, uses = line.partition(":")
        below[crate.split()[0]] = uses.split()
    done = []
    while len(done) < len(below):
        done += sorted(c for c in below if c not in done and not set(below[c]) & below.keys() - set(done))
    return done


class Names:
    """What the names of a file refer to: names that it imports from specs/, and the own names of a file of specs/."""

    def __init__(self, text):
        self.of = {}
        for crate, path, listed in IMPORT.findall(text):
            for item in filter(None, map(str.strip, listed.split(","))):
                there, _, here = item.partition(" as ")
                self.of[(here or there).strip()] = ((crate, path), there.strip())
        self.modules = {alias: (crate, path) for crate, path, alias in ALIAS.findall(text)}

    def used(self, text):
        """What a text names: by a word, by the pieces of an operator `◌>>=◌`, and by a word of a module under its alias."""
        for name in set(WORD.findall(text)) & self.of.keys():
            yield self.of[name]
        for name, meant in self.of.items():
            if "◌" in name and all(piece in text for piece in name.split("◌")):
                yield meant
        for alias, word in re.findall(r"\b(\w+)\.([A-Za-z_][\w'-]*)", text):
            if alias in self.modules:
                yield (self.modules[alias], word)


class Specs:
    """All definitions of specs/, by module (crate and path) and name."""

    def __init__(self):
        self.files, self.names, self.lines, self.part_of, self.passed_on = {}, {}, {}, {}, {}
        self.comments = {}
        for path in sorted(glob.glob("crates/*/specs/**/*.antt", recursive=True)):
            _, crate, _, inner = path.split("/", 3)
            text = read(path)
            for other, name in PASSED_ON.findall(text):
                self.passed_on[crate, name] = (other, name)
            module = (crate, inner[: -len(".antt")].replace("/", "."))
            self.files[module], self.names[module] = path, Names(text)
            self.read_definitions(module, text)

    def read_definitions(self, module, text):
        now, own, comment = None, self.names[module].of, []
        for line in text.split("\n"):
            if line.startswith("--"):
                comment.append(line)
                continue
            if not line.strip() or line.startswith(("use ", "pub use ", "mod ", "pub mod ")):
                comment = []
                continue
            begins = BEGINS.match(line)
            if begins and (MARKED.match(line) or SIGNED.match(line)):
                now = own[begins[1]] = (module, begins[1])
                self.comments[now] = comment
            comment = []
            if now:
                self.lines.setdefault(now, []).append(line)
                parts = PART.match(line)
                for part in parts[1].split() if parts else []:
                    self.part_of[module, part] = own[part] = now

    def known(self, module, name):
        """The definition that a name of a module is, or is a part of; none for other names."""
        while module in self.passed_on:
            module = self.passed_on[module]
        key = self.part_of.get((module, name), (module, name))
        return key if key in self.lines else None

    def leads(self, key):
        """The definitions that a definition names."""
        for meant in self.names[key[0]].used("\n".join(self.lines[key])):
            to = self.known(*meant)
            if to and to != key:
                yield to


def contract(text, function):
    """The clauses of a public function."""
    lines = iter(text.split("\n"))
    for line in lines:
        if re.search(rf"\bpub fn {function}\b", line):
            break
    else:
        sys.exit(f"trust: there is no {function}")
    clauses = []
    if line.endswith("{"):
        return ""
    for line in lines:
        if line.strip() == "{":
            return " ".join(clauses)
        if clauses or re.match(r"\s*(requires|ensures)\b", line):
            clauses.append(line)
    return ""


def clauses_on_files():
    """The paths, each with clauses of one of its functions, or of a type's invariants."""
    for path in sorted(glob.glob(f"{FILES}/**/*.rt", recursive=True)):
        text = read(path)
        yield from ((path, contract(text, function)) for function in re.findall(r"\bpub fn (\w+)", text))
    yield HELD, " ".join(INVARIANT.findall(read(HELD)))


def trusted(specs, stated):
    """The definitions that clauses lead to, each of which is given with the path of its file."""
    found = set()
    for path, clauses in stated:
        for meant in Names(read(path)).used(clauses):
            found.add(specs.known(*meant))
    found.discard(None)
    todo = list(found)
    while todo:
        for to in specs.leads(todo.pop()):
            if to not in found:
                found.add(to)
                todo.append(to)
    return found


def defined_twice(specs):
    """The names that more than one file of a crate's specs/ defines, with these files."""
    paths = collections.defaultdict(set)
    for module, name in specs.lines:
        paths[module[0], name].add(specs.files[module])
    for module, path in specs.files.items():
        for name in WITHIN.findall(read(path)):
            paths[module[0], name].add(path)
    return [(name, sorted(found)) for (_, name), found in sorted(paths.items()) if len(found) > 1]


def order(specs, found):
    """The files of these definitions, each after those that it uses, and files of one crate together if possible."""
    below = collections.defaultdict(set)
    for key in found:
        below[key[0]].update(to[0] for to in specs.leads(key) if to in found and to[0] != key[0])
    todo, done, crate = sorted(below), [], None
    while todo:
        ready = [module for module in todo if not below[module] - set(done)]
        if not ready:
            sys.exit(f"trust: these files lead to one another: {todo}")
        now = min(ready, key=lambda module: (module[0] != crate, CRATES.index(module[0]), module))
        crate = now[0]
        todo.remove(now)
        done.append(now)
    return done


def table(specs, found):
    """The rows of the page: neighbours of one crate in a row, and the count."""
    rows, counts = [], collections.Counter(module for module, _ in found)
    for crate, modules in itertools.groupby(order(specs, found), key=lambda module: module[0]):
        modules = list(modules)
        names = ", ".join(f"`{name}`" for _, name in modules)
        rows.append(f"| `{crate}` | {names} | {sum(counts[module] for module in modules)} |")
    return rows + ["", f"{len(found)} definitions, {sum(len(specs.lines[key]) for key in found)} lines."]


def show(specs, found):
    """Prints the definitions with the comments above them, in reading order."""
    for module in order(specs, found):
        print(f"==== {specs.files[module]}\n")
        for key, lines in specs.lines.items():
            if key in found and key[0] == module:
                print("\n".join(specs.comments.get(key, []) + lines) + "\n")


def compare(name, wanted, page):
    """Compares a table of the page with the wanted one, and returns whether they are the same."""
    begin, end = TABLES[name]
    told = page.partition(begin)[2].partition(end)[0].split("\n")
    if told != wanted:
        print(f"{PAGE} differs from what the contracts of {name} lead to: sh tests/trust.sh write")
        print("\n".join(difflib.unified_diff(told, wanted, "page", "found", lineterm="")))
    return told == wanted


def replaced(name, wanted, page):
    """Returns the page with this table."""
    begin, end = TABLES[name]
    before, _, rest = page.partition(begin)
    return before + begin + "\n".join(wanted) + end + rest.partition(end)[2]


def main(what="", more=""):
    specs = Specs()
    program = trusted(specs, [(path, contract(read(path), function)) for path, function in CALLS])
    found = {"program": program, "files": trusted(specs, clauses_on_files()) - program}
    if what == "text":
        show(specs, found[more or "program"])
        return 0
    page = read(more or PAGE)
    if what == "write":
        for name in TABLES:
            page = replaced(name, table(specs, found[name]), page)
        with open(more or PAGE, "w", encoding="utf-8") as file:
            file.write(page)
        return 0
    passed = sum(compare(name, table(specs, found[name]), page) for name in TABLES)
    twice = defined_twice(specs)
    for name, paths in twice:
        print(f"{name} is defined in {' and '.join(paths)}")
    failed = len(TABLES) - passed + len(twice)
    print(f"{passed + (not twice)} passed, {failed} failed")
    return int(failed > 0)


if __name__ == "__main__":
    os.chdir(os.path.dirname(os.path.dirname(os.path.abspath(__file__))))
    CRATES = depths()
    sys.exit(main(*sys.argv[1:]))
