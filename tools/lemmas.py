"""Whether a file of lemmas only has more than before, for tools/verdict."""

import re

DECLARED = re.compile(r"^(?:(?:pub|abbrev|record|data|mod|syntax|infixl?|infixr)\s+)*(\S+)")
IMPORT = re.compile(r"^use\s+([^{}\s]+?)(?:\.\{([^}]*)\})?(?:\s+as\s+\S+)?\s*$", re.M)


def blocks_of(text):
    """Returns the declarations of a file by the name that each begins with: all its lines at the left margin, with those that follow."""
    blocks, name = {}, None
    for line in text.splitlines():
        if not line.strip() or line.startswith(("--", "use ")):
            continue
        if not line[0].isspace():
            name = DECLARED.match(line)[1]
        blocks.setdefault(name, []).append(line)
    return blocks


def imports_of(text):
    """Returns each module that a file names, with the names that it takes."""
    return {(module, name.strip()) for module, names in IMPORT.findall(text) for name in (names or "").split(",")}


def contains(text, name):
    """Returns whether a text has a name, or a part of an operator."""
    return re.search(rf"(?<![\w-]){re.escape(name)}(?![\w-])", text) if re.fullmatch(r"[\w-]+", name) else name in text


def only_adds(then, now):
    """Returns whether `now` has each declaration and import of `then` as it was, and what is new has no name that `then` contains."""
    try:
        before, after = then.decode(), now.decode()
    except UnicodeDecodeError:
        return False
    old, new = blocks_of(before), blocks_of(after)
    # An import in another form isn't read.
    if any(len(IMPORT.findall(it)) != len(re.findall(r"^use\b", it, re.M)) for it in (before, after)):
        return False
    if any(new.get(name) != lines for name, lines in old.items()) or imports_of(before) - imports_of(after):
        return False
    fresh = [name for name in new if name not in old] + [it[1] or it[0] for it in imports_of(after) - imports_of(before)]
    return not any(part and contains(before, part) for name in fresh for part in re.split(r"◌|\s+as\s+", name))
