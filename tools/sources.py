"""How the sources of a crate differ from those of a commit, for tools/verdict."""

import io
import re
import subprocess
import tarfile

from crates import TOP

TOKEN = re.compile(r"""//[^\n]*|"(?:\\.|[^"\\])*"|'(?:\\.|[^'\\])'|\s+|\w+|.""", re.S)
# What stands before the braces of a clause, from the last bracket on.
CLAUSE = re.compile(r".*\b(requires|ensures|decreases|invariant)\b[\s*]*\w*\s*=?\s*", re.S)


def export(revision, folder):
    """Writes the crates of a commit to a folder. Raises a CalledProcessError if there is no such commit."""
    words = ["git", "-C", TOP, "archive", "--format=tar", revision, "crates", "crates.txt", "HANDLES"]
    packed = subprocess.run(words, stdout=subprocess.PIPE, stderr=subprocess.PIPE, check=True).stdout
    with tarfile.open(fileobj=io.BytesIO(packed)) as files:
        files.extractall(folder)
    (folder / ".git").mkdir()


def without_bodies(text):
    """Returns the text of a file without comments and without the bodies of its functions."""
    kept, before, depth, is_function, braces = [], "", 0, False, 0
    for token in TOKEN.findall(text):
        if token.startswith("//"):
            continue
        if braces:
            braces += {"{": 1, "}": -1}.get(token, 0)
            if not is_clause:
                continue
        elif is_function and token == "{" and not depth:
            braces, is_clause = 1, CLAUSE.fullmatch(before)
            is_function = bool(is_clause)
        elif is_function and token == ";" and not depth:
            is_function = False
        elif token == "fn":
            is_function, depth = True, 0
        elif token in "([)]":
            depth += 1 if token in "([" else -1
        before = "" if token in ")}" and not depth else before + token
        kept.append(" " if token.isspace() else token)
    return " ".join("".join(kept).split())


def files_of(crate, part, ending=""):
    found = [it for it in (crate.folder / part).rglob(f"*{ending}") if it.is_file()]
    return {str(it.relative_to(crate.folder)): it.read_text(encoding="utf-8", errors="replace") for it in found}


def differences(now, then, are_named):
    """Returns how a crate differs from that of a commit in what crates above may read, by its sources: the files of definitions, those
    of lemmas whose names `are_named`, and code but for the bodies of functions."""
    found = [] if now.line == then.line else ["its line of crates.txt"]
    for part, ending in (("specs", ".antt"), ("proofs", ".antt"), ("src", ".rt")):
        one, other = files_of(now, part, ending), files_of(then, part, ending)
        for file in sorted(set(one) | set(other)):
            module = file[len("proofs/") : -len(ending)].replace("/", ".")
            if part == "proofs" and not (file == "proofs/Lib.antt" or are_named(module)):
                continue
            texts = one.get(file), other.get(file)
            if part == "src" and None not in texts:
                texts = [without_bodies(it) for it in texts]
            if texts[0] != texts[1]:
                found.append(file)
    return found


def is_same(now, then):
    """Returns whether the crate has exactly the sources of the commit."""
    return now.line == then.line and all(files_of(now, part) == files_of(then, part) for part in ("src", "specs", "proofs"))
