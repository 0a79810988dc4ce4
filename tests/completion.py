"""Completions of `blobcrash` in the real bash, fish and zsh: completion.py FOLDER, which has their files. The last line is `N passed, M failed`,
with `, K skipped` after it."""

import os
import pty
import select
import shutil
import signal
import subprocess
import sys
import time

FOLDER = sys.argv[1]
counts = {"passed": 0, "failed": 0, "skipped": 0}
# A command line, words that are among its completions, and words that aren't.
ROWS = [
    ("blobcrash expl", "explain explore", "states"),
    ("blobcrash explore --", "--limit --last --json --help", "--at"),
    ("blobcrash states --", "--at --limit --json --since --jobs", "--last"),
    ("blobcrash files exp", "explain explore", ""),
    ("blobcrash files explore --", "--limit --last --json", ""),
    ("blobcrash mount --profile ", "ext4 xfs btrfs posix", "--seed"),
    ("blobcrash mount --se", "--seed", "--size"),
    ("blobcrash crash-run --tear se", "sectors512 sectors4096", "prefix"),
    ("blobcrash mountctl . cra", "crash crash-after", "settle"),
    ("blobcrash completion ", "bash zsh fish", ""),
    ("blobcrash check --", "--files --help", "--limit"),
    ("blobcrash check here_is_a", "here_is_a_file", ""),
    ("blobcrash build expl", "explain explore", "files"),
]

BASH = """
. "$1"
COMP_WORDS=($2) COMP_CWORD=$((${#COMP_WORDS[@]} - 1))
case $2 in *' ') COMP_WORDS+=('') COMP_CWORD=$((COMP_CWORD + 1)) ;; esac
_blobcrash
printf '%s\\n' "${COMPREPLY[@]}"
"""


def printed(*words):
    return subprocess.run(words, stdout=subprocess.PIPE, stderr=subprocess.STDOUT, text=True, check=False, cwd=FOLDER).stdout


def by_bash(line):
    return printed("bash", "-c", BASH, "bash", os.path.join(FOLDER, "bash"), line).split()


def by_fish(line):
    shown = printed("fish", "--no-config", "-c", 'source $argv[1]; complete -C $argv[2]', os.path.join(FOLDER, "fish"), line)
    return [row.split("\t")[0] for row in shown.splitlines()]


def read_for(terminal, seconds, until=None):
    """What a terminal shows within some seconds, or up to a text."""
    end, shown = time.monotonic() + seconds, ""
    while time.monotonic() < end and (until is None or until not in shown):
        if select.select([terminal], [], [], 0.05)[0]:
            try:
                shown += os.read(terminal, 65536).decode(errors="replace")
            except OSError:
                break
    return shown


def by_zsh(lines):
    """What zsh lists for each line: on a terminal, since its completion needs one."""
    child, terminal = pty.fork()
    if child == 0:
        os.chdir(FOLDER)
        os.environ.update(TERM="dumb", PROMPT="")
        os.execvp("zsh", ["zsh", "-f", "-i"])
    setup = "fpath=($PWD $fpath); autoload -Uz compinit; compinit -u -D; bindkey '^T' list-choices; LISTMAX=1000; echo ready$((1+1))\n"
    os.write(terminal, setup.encode())
    read_for(terminal, 20, "ready2")
    found = []
    for line in lines:
        # Ctrl-T lists, Ctrl-U removes the line.
        os.write(terminal, line.encode() + b"\x14")
        found.append(read_for(terminal, 1.5).replace(line, "", 1).split())
        os.write(terminal, b"\x15\n")
        read_for(terminal, 0.2)
    os.kill(child, signal.SIGKILL)
    os.waitpid(child, 0)
    os.close(terminal)
    return found


def check(shell, found_of):
    """Compares each row."""
    for (line, wanted, others), found in found_of:
        is_right = set(wanted.split()) <= set(found) and not set(others.split()) & set(found)
        counts["passed" if is_right else "failed"] += 1
        if not is_right:
            print(f"completion.py: {shell}: `{line}`: {found}, wanted {wanted}, and not {others}")


def main():
    with open(os.path.join(FOLDER, "here_is_a_file"), "w", encoding="ascii"):
        pass
    for shell, by in (("bash", by_bash), ("fish", by_fish), ("zsh", by_zsh)):
        if not shutil.which(shell):
            is_ci = os.environ.get("CI") == "true"
            counts["failed" if is_ci else "skipped"] += 1
            print(f"completion.py: skipped: there is no {shell}")
        elif shell == "zsh":
            check(shell, zip(ROWS, by_zsh([row[0] for row in ROWS])))
        else:
            check(shell, ((row, by(row[0])) for row in ROWS))
    print(f"{counts['passed']} passed, {counts['failed']} failed" + (f", {counts['skipped']} skipped" if counts["skipped"] else ""))
    return int(counts["failed"] > 0)


if __name__ == "__main__":
    sys.exit(main())
