"""The commands and examples of pages.

    pages.py PAGE              runs each command of a page, `    $ COMMAND`, and compares its output with the lines below it; each
                               indented block of Python that begins with an import, with the module of bindings/python, and compares
                               what it prints if the page says that; and each table of lines with their replies, as a script
    pages.py --listed PAGE ..  checks that tests/pages.list has exactly the commands that the pages name in their text; that each block
                               of a page is run, quoted from a source or tried in a scratch repository; and that no link is dead
    pages.py --ways            the ways by which tests/pages.sh runs commands of the list itself, a line each
    pages.py --scripts [write] checks that the table of tests/README.md has the first comment of each script of tests/, or updates it
    pages.py --scratch FOLDER  makes a repository by the steps of "Set up" in docs/CLIENTS.md, with a test of their blocks
"""

import difflib
import glob
import os
import re
import shutil
import subprocess
import sys

LIST = "tests/pages.list"
RATTLE = "docs/CLIENTS.md"
TESTS = ["tests/README.md", "tests/ROWS.md"]
SCRIPTS = "| script | what it tests |\n|---|---|\n"
COUNTED = re.compile(r" ?The last line is `N passed, M failed`[^.]*\.")
BEGINNINGS = ("./", "cargo ", "cc ", "python3 ", "rt ", "sh ", "tools/")
PYTHON = ("    from ", "    import ")
TRIED = "<!-- tried in a scratch repository -->"
PRINTED = "<!-- printed by the Python above -->"
# The crate of the scratch repository: what the page uses, and what it does with two lists of bytes.
MY_LOG = """#![tactic(auto)]

#[cfg(test)]
mod tests {{
{uses}
use rand_core::SeedableRng;
use std::test::Fail;

#[test]
fn the_page_runs(rt: HostRuntime) -> Result<(), Fail> {{
let alloc = rt.alloc();
let rng = rand_xoshiro::Xoshiro256PlusPlus::seed_from_u64(7);
let first = IoBufs::from_vec(vec![in alloc; 97_u8; 100]?)?;
let second = IoBufs::from_vec(vec![in alloc; 98_u8; 50]?)?;
{body}
let mut front = vec![in alloc; 0_u8; 100]?;
log.read_into(&mut store, 0, front.as_mut_slice())?;
assert!(rt; size >= 100 && front.iter().all(|byte| *byte == 97));
assert!(rt; kept.rows().len() == 1);
Ok(())
}}
}}
"""


def read(page):
    with open(page, encoding="utf-8") as file:
        return file.read().splitlines()


def commands(lines):
    """Pairs of a command and the lines that it is to print."""
    found = []
    for line in lines:
        if line.startswith("    $ "):
            found.append((line[6:], []))
        elif line.startswith("    ") and found and found[-1][1] is not None:
            found[-1][1].append(line[4:])
        elif line.strip() and found and not line.startswith("    "):
            found.append((None, []))
    return [(command, printed) for command, printed in found if command is not None]


def programs(lines):
    """The blocks of Python, each with what it prints if the page says so."""
    found, inside = [], None
    for line in lines:
        if inside is None and line.startswith(PYTHON):
            found.append(([], []))
            inside = found[-1][0]
        elif line == PRINTED:
            inside = found[-1][1]
        elif line.strip() and not line.startswith("    "):
            inside = None
        if inside is not None and line != PRINTED and (inside or line.strip()):
            inside.append(line[4:])
    return [("\n".join(block) + "\n", trimmed(printed)) for block, printed in found]


def tables(lines):
    """The tables of a script's lines and their replies, as pairs of both. A line of the preamble has no reply."""
    found, inside = [], False
    for line in lines:
        if line.startswith("| line | reply |"):
            found.append([])
            inside = True
        elif inside and line.startswith("| `"):
            found[-1].append([cell.strip().strip("`") for cell in line.split("|")[1:3]])
        elif inside and not line.startswith("|"):
            inside = False
    return [([row[0] for row in table], [row[1] for row in table if row[1]]) for table in found]


def blocks(lines):
    """The blocks of code of a page, fenced or indented: each with the line above it, and its lines."""
    found, above, fence, inside = [], "", False, False
    for line in lines:
        starts = line.startswith("```")
        if starts and not fence:
            found.append((above, []))
        if starts or fence:
            fence = fence != starts
            if not starts:
                found[-1][1].append(line)
            above, inside = "", False
        elif line.startswith("    "):
            if not inside:
                found.append((above, []))
            inside = True
            found[-1][1].append(line)
        elif line.strip():
            inside, above = False, line.strip()
        elif inside:
            found[-1][1].append(line)
    return found


def named(lines):
    """The commands that a page names in its text, between backquotes."""
    in_blocks = {line for _, block in blocks(lines) for line in block}
    spans = [span for line in lines if line not in in_blocks for span in re.findall(r"`([^`]+)`", line)]
    return {span.replace("\\|", "|") for span in spans if span.startswith(BEGINNINGS)}


def listed():
    """The list: each command with the way in which it is run, which is a script of this repository or a command of its own."""
    found, command = {}, None
    for line in read(LIST):
        if line.startswith("    "):
            found[command] = line.strip()
        elif line.strip() and not line.startswith("#"):
            command = line
            found[command] = ""
    return found


def anchors(page):
    """The headings of a page, as links name them."""
    heads = [line.lstrip("#").strip().lower() for line in read(page) if line.startswith("#")]
    return {re.sub(r"[^\w\- ]", "", head).replace(" ", "-") for head in heads}


def dead_links(page):
    """The links of a page that lead to no file or to no heading."""
    for target in re.findall(r"\]\(([^)\s]+)\)", "\n".join(read(page))):
        path, _, anchor = target.partition("#")
        file = os.path.normpath(os.path.join(os.path.dirname(page), path)) if path else page
        if "://" not in target and not (os.path.exists(file) and (not anchor or anchor in anchors(file))):
            yield f"{page}: nothing is at {target}"


def first_comment(path):
    """The comment that a script begins with, in one line, without what each of them says of its last line."""
    words = []
    for line in read(path)[1:] if path.endswith(".sh") else []:
        if not line.startswith("#"):
            break
        if not line.startswith("# shellcheck"):
            words.append(line[1:].strip())
    return COUNTED.sub("", " ".join(words)).strip().replace("|", "\\|")


def compare_scripts(write):
    """Compares the table of tests/README.md with the first comment of each script, or updates it."""
    with open(TESTS[0], encoding="utf-8") as file:
        page = file.read()
    before, _, rest = page.partition(SCRIPTS)
    rows = "".join(f"| `{os.path.basename(path)}` | {first_comment(path)} |\n" for path in sorted(glob.glob("tests/*.sh")))
    is_current = rest.startswith(rows + "\n")
    if write:
        with open(TESTS[0], "w", encoding="utf-8") as file:
            file.write(before + SCRIPTS + rows + rest[rest.index("\n\n") + 1 :])
    elif not is_current:
        print(f"{TESTS[0]}: the table isn't that of the scripts' first comments: python3 tests/pages.py --scripts write updates it")
    return int(not (write or is_current))


def is_script(way):
    return os.path.isfile(way)


def compare_with_list(pages):
    """Prints what a page has and no test runs, its dead links, and what the list has in vain."""
    wrong, on_pages, ways = [], set(), listed()
    for page in [*pages, *TESTS]:
        lines = read(page)
        on_pages |= named(lines)
        wrong += dead_links(page)
        wrong += [f"{page}: `{command}` isn't in {LIST}" for command in sorted(named(lines) - set(ways))]
        for above, block in blocks(lines):
            is_run = block[0].startswith(("    $ ", *PYTHON)) or above.startswith(("<!-- quoted: ", TRIED, PRINTED))
            if not is_run:
                wrong.append(f"{page}: no test runs the block that begins with {block[0].strip()}")
    wrong += [f"{LIST}: no page names `{command}`" for command in sorted(set(ways) - on_pages)]
    wrong += [f"{LIST}: `{command}` isn't run" for command, way in ways.items() if not way]
    print("\n".join(wrong), end="\n" if wrong else "")
    return int(bool(wrong))


def scratch(folder):
    """Makes the repository that the steps of docs/CLIENTS.md describe. The page's blocks become the one test of its own crate."""
    lines = read(RATTLE)
    steps = lines[lines.index("## Set up") :]
    text = "\n".join(steps)
    crates = set(re.findall(r"`(blob_\w+)`", next(line for line in steps if line.startswith("1. "))))
    own = re.search(r"`(my_log: [^`]*)`", text)[1]
    below = {name: deps.split() for name, _, deps in (line.partition(":") for line in read("crates.txt"))}
    for crate in sorted(crates | {"blob_names"}):
        shutil.copytree(f"crates/{crate}", f"{folder}/crates/{crate}", ignore=shutil.ignore_patterns("out"))
    shutil.copy("HANDLES", folder)
    with open(f"{folder}/crates.txt", "w", encoding="utf-8") as file:
        file.writelines(f"{crate}: {' '.join(below[crate])}\n" for crate in sorted(crates | {"blob_names"}))
    subprocess.run(["git", "init", "-q", folder], check=True)
    subprocess.run(["rt", "new", "crates/my_log", "start_lib"], cwd=folder, check=True, stdout=subprocess.DEVNULL)
    for part in os.listdir(f"{folder}/crates/my_log"):
        path = f"{folder}/crates/my_log/{part}"
        if part != "src":
            shutil.rmtree(path) if os.path.isdir(path) else os.remove(path)
    with open(f"{folder}/crates.txt", "a", encoding="utf-8") as file:
        file.write(own + "\n")
    tried = [line.strip() for above, block in blocks(steps) if above == TRIED for line in block]
    uses = [line for line in tried if line.startswith("use ")]
    body = [line for line in tried if not line.startswith("use ")]
    with open(f"{folder}/crates/my_log/src/lib.rt", "w", encoding="utf-8") as file:
        file.write(MY_LOG.format(uses="\n".join(uses), body="\n".join(body)))
    return 0


def trimmed(lines):
    lines = [line.rstrip() for line in lines]
    while lines and not lines[-1]:
        lines.pop()
    return lines


def is_of_one_logic(wanted, printed):
    """Whether both are what `rt version` prints, of toolchains that have one logic: then another one proves the same."""
    logics = [re.fullmatch(r"rattle-kit-\S+ logic (\w+)", "\n".join(lines)) for lines in (wanted, printed)]
    return all(logics) and logics[0][1] == logics[1][1]


def differs(what, wanted, run):
    """Whether a run printed something else than was wanted, which is then shown."""
    wanted, printed = trimmed(wanted), trimmed(run.stdout.splitlines())
    if printed == wanted or is_of_one_logic(wanted, printed):
        return False
    print(what)
    print("\n".join(difflib.unified_diff(wanted, printed, "page", "printed", lineterm="")))
    print(run.stderr)
    return True


def main(page):
    lines = read(page)
    how = {"stdout": subprocess.PIPE, "stderr": subprocess.PIPE, "text": True}
    failed = 0
    for command, wanted in commands(lines):
        run = subprocess.run(["sh", "-c", command], **how)
        failed += differs(f"{page}: $ {command}", wanted, run)
    for script, wanted in tables(lines):
        run = subprocess.run(["./blobcrash"], input="\n".join(script), **how)
        failed += differs(f"{page}: a table that begins with {script[0]}", wanted, run)
    environment = dict(os.environ, PYTHONPATH="bindings/python", PYTHONDONTWRITEBYTECODE="1")
    for program, wanted in programs(lines):
        run = subprocess.run([sys.executable, "-c", program], env=environment, **how)
        if run.returncode != 0:
            failed += 1
            print(f"{page}: a block of Python\n{run.stderr}")
        elif wanted:
            failed += differs(f"{page}: what a block of Python prints", wanted, run)
    return int(failed > 0)


if __name__ == "__main__":
    if sys.argv[1] == "--listed":
        sys.exit(compare_with_list(sys.argv[2:]))
    if sys.argv[1] == "--ways":
        print("\n".join(way for way in listed().values() if not is_script(way)))
        sys.exit(0)
    if sys.argv[1] == "--scripts":
        sys.exit(compare_scripts("write" in sys.argv[2:]))
    sys.exit(scratch(sys.argv[2]) if sys.argv[1] == "--scratch" else main(sys.argv[1]))
