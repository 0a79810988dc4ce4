"""Random scripts of files, explained: without its remarks the output is that of the plain run. Each remark agrees with the replies: the
edits of a crash with its digits, the writes with its runs, sizes and names with the trees before and after, and lines with the script.
The last line is `N passed, M failed`.

    file_pictures.py PROGRAM [FIRST COUNT]
"""

import random
import re
import subprocess
import sys

PROFILES = ("ext4", "xfs", "btrfs", "posix")
NAMES = ("/a", "/b", "/d", "/d/a", "/d/e", "/d/e/b")
WORDS = ("create", "create", "mkdir", "link", "unlink", "rename", "exchange", "rmdir", "fsync", "fdatasync", "fsyncdir")
RATES = ("write 0 1 1 2 subset", "write 1 9 1 2 sectors 2", "sync 1 5", "resize 1 4 0 1")


def call(chance):
    """A random call of a script."""
    word, name, to = chance.choice(WORDS), chance.choice(NAMES), chance.choice(NAMES)
    if chance.random() < 0.4:
        data = bytes(chance.choice(b"pqrstu") for _ in range(chance.randrange(1, 6)))
        return f"write {name} {chance.randrange(6)} {data.hex()}"
    if chance.random() < 0.1:
        return f"truncate {name} {chance.randrange(6)}"
    if word in ("link", "rename"):
        return f"{word} {name} {to}"
    return f"rename {name} {to} exchange" if word == "exchange" else f"{word} {name}"


def script_of(seed, profile):
    """A random script with crashes, and a tree before and after each."""
    chance = random.Random(seed)
    lines = [f"seed {seed}", f"profile {profile}", *(f"config {rate}" for rate in RATES)]
    for _ in range(3):
        lines += [call(chance) for _ in range(chance.randrange(4, 25))]
        lines += ["", "config read 0 1", "tree", "crash", "tree"]
    return lines


def ran(program, lines, *words):
    text = "\n".join([*lines, ""])
    found = subprocess.run([program, *words], input=text, stdout=subprocess.PIPE, stderr=subprocess.PIPE, text=True, check=False)
    assert found.returncode == 0 and not found.stderr, found
    return found.stdout.splitlines()


def with_remarks(output):
    """Each reply with its remarks."""
    found = []
    for line in output:
        if line.startswith("# "):
            found[-1][1].append(line[2:])
        else:
            found.append((line, []))
    return found


def sizes(tree):
    """The size of each file of a tree, by its path."""
    files = (item.split("=") for item in tree.split()[1:] if "=" in item)
    return {path: 0 if text == "-" else len(text) // 2 for path, text in files}


def check_edits(script, reply, remarks, profile):
    """Compares the edits of a crash with its digits and with the lines of their calls."""
    told = [re.fullmatch(r"  line (\d+): (\w+) .*: (kept|lost|discarded.*)", remark) for remark in remarks]
    told = [match.groups() for match in told if match and match[2] not in ("write", "zeros")]
    digits = reply.split()[1].replace("-", "")
    assert digits == "".join("1" if fate == "kept" else "0" for _, _, fate in told), (reply, remarks)
    for number, word, _ in told:
        line = script[int(number) - 1]
        assert line.split()[0] == ("rename" if word == "exchange" else word) and line.endswith("exchange") == (word == "exchange"), line
    fates = [fate.split(",")[0] for _, _, fate in told]
    if profile == "posix":
        assert "discarded" not in fates, remarks
    elif "lost" in fates:
        first = fates.index("lost")
        # On btrfs one that gives a name may be kept after a lost one, if the last sync left it unsettled.
        assert "discarded" not in fates[:first] and (profile == "btrfs" or "kept" not in fates[first:]), remarks


def check_writes(script, reply, remarks):
    """Compares each write of a crash, and the zeros of a write or a truncation, with a row of the reply, and with the line of the call."""
    rows = [tuple(row.split(":")[1:]) for row in reply.split()[2:]]
    for remark in remarks:
        match = re.fullmatch(r"  line (\d+): (?:write|zeros) ((\d+)\.\.(\d+)): (.*)", remark)
        if not match:
            continue
        fates = {part.split()[0]: part.split()[1:] or [match[2]] for part in match[5].split("; ")}
        line = script[int(match[1]) - 1].split()
        if ": zeros " in remark:
            assert line[0] in ("write", "truncate"), (remark, line)
        else:
            assert line[0] == "write" and line[2] == match[3] and len(line[3]) // 2 == int(match[4]) - int(match[3]), (remark, line)
        kept = fates["kept"][0] if "kept" in fates else "-"
        fits = [row for row in rows if row[0] == match[2] and ("covered" in fates or row[1] == kept)]
        assert fits, (remark, rows)
        rows.remove(fits[0])


def check_sizes(remarks, before, after):
    """Compares sizes and names with the trees before and after the crash."""
    for remark in remarks:
        match = re.fullmatch(r"(/[^,: ]*)(, which had no name|(?:, which was ([^,: ]*))?): size (\d+) before, (\d+) after", remark)
        if match:
            path, how, was, old, new = match.groups()
            assert after[path] == int(new), (remark, after)
            assert how == ", which had no name" or before[was or path] == int(old), (remark, before)
        match = re.fullmatch(r"(/[^,: ]*): removed, since no name of it was kept", remark)
        assert not match or match[1] in before, (remark, before)


def check_settled(script, number, remarks):
    """Compares the count of the edits that a sync settled with their lines."""
    match = re.fullmatch(r"settled (\d+) of (\d+) edits", remarks[0])
    assert match and int(match[1]) == len(remarks) - 1 and int(match[1]) <= int(match[2]), remarks
    assert script[number].split()[0] in ("fsync", "fdatasync", "fsyncdir"), script[number]


def check(program, seed, profile):
    script = script_of(seed, profile)
    plain, explained = ran(program, script), with_remarks(ran(program, script, "explain"))
    assert plain == [reply for reply, _ in explained], (seed, profile)
    lines = [i for i, line in enumerate(script) if line and not line.startswith("seed")]
    for at, (reply, remarks) in enumerate(explained):
        if reply.startswith("crashed"):
            check_edits(script, reply, remarks, profile)
            check_writes(script, reply, remarks)
            check_sizes(remarks, sizes(explained[at - 1][0]), sizes(explained[at + 1][0]))
        elif remarks:
            check_settled(script, lines[at], remarks)


def main(program, first=0, count=60):
    passed = failed = 0
    for seed in range(int(first), int(first) + int(count)):
        for profile in PROFILES:
            try:
                check(program, seed, profile)
                passed += 1
            except AssertionError as error:
                print(f"file_pictures.py: FAILED: seed {seed}, {profile}: {error}")
                failed += 1
    print(f"{passed} passed, {failed} failed")
    return int(failed > 0)


if __name__ == "__main__":
    sys.exit(main(*sys.argv[1:]))
