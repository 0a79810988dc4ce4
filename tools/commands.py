#!/usr/bin/env python3
"""tools/commands.py man|bash|zsh|fish: prints the manual page of `blobcrash`, or its completion for a shell, made from tools/commands.txt."""

import re
import sys
from pathlib import Path
from typing import List, NamedTuple

TOP = Path(__file__).resolve().parent.parent
TABLE = TOP / "tools/commands.txt"


class Row(NamedTuple):
    """An option, or a word of a command: its name, its argument and what it does."""

    name: str
    argument: str
    does: str

    @property
    def choices(self) -> List[str]:
        """The words that the argument may be."""
        return self.argument.split("|") if "|" in self.argument else []

    @property
    def is_path(self) -> bool:
        return self.argument in ("FILE", "FOLDER", "DIR")


class Command(NamedTuple):
    """A form of a command: its usage, what it does and its rows."""

    usage: str
    does: str
    rows: List[Row]

    @property
    def name(self) -> str:
        return self.usage.split(" ")[0]

    @property
    def word(self) -> str:
        """The second word, if it is a word and no argument."""
        words = self.usage.split(" ")
        return words[1] if len(words) > 1 and re.fullmatch("[a-z]+", words[1]) else ""

    @property
    def options(self) -> List[Row]:
        return [row for row in self.rows if row.name.startswith("-")]

    @property
    def words(self) -> List[Row]:
        return [row for row in self.rows if not row.name.startswith("-")]


def commands() -> List[Command]:
    """Returns the forms of all commands, in the order of the table."""
    found: List[Command] = []
    for line in TABLE.read_text(encoding="utf-8").splitlines():
        if line.startswith("#"):
            continue
        left, does = re.split("  +", line.strip(), maxsplit=1)
        if line.startswith(" "):
            name, _, argument = left.partition(" ")
            found[-1].rows.append(Row(name, argument, does))
        else:
            found.append(Command(left, does, []))
    return found


def names() -> List[str]:
    """Returns the names of the commands, each once."""
    return list(dict.fromkeys(command.name for command in commands()))


def of(name: str) -> Command:
    """Returns a command with the rows of all of its forms, each once, and the words after it. Those of `files explore` are its own."""
    forms = [form for form in commands() if form.name == name]
    rows = {row.name: row for form in forms if not form.word for row in form.rows}
    words = [Row(form.word, "", form.does) for form in forms if form.word]
    last = re.findall(r"(?:\[|^| )([a-z]+(?:\|[a-z]+)+)", forms[0].usage)
    words += [Row(word, "", "") for text in last for word in text.split("|")]
    return Command(forms[0].usage, forms[0].does, [*rows.values(), *words])


def roff(text: str) -> str:
    """A text for a manual page."""
    return re.sub(r"`([^`]*)`", r"\\fB\1\\fR", text.replace("\\", r"\e").replace("-", r"\-")).replace("'", r"\(cq")


def bold(text: str) -> str:
    """A usage for a manual page: arguments in capitals are in italics."""
    return " ".join(rf"\fI{roff(word)}\fR" if re.search("[A-Z]", word) else rf"\fB{roff(word)}\fR" for word in text.split(" "))


def version() -> str:
    """Returns the version without its last number."""
    return re.search(r'"blobcrash (\d+\.\d+)', (TOP / "crates/blobcrash/src/main.rt").read_text(encoding="utf-8"))[1]


def man() -> str:
    """Returns the manual page."""
    lines = [f'.TH BLOBCRASH 1 "2026" "blobcrash {version()}" "User Commands"', ".SH NAME", r"blobcrash \- simulates crashes of storage, for tests of recovery",
             ".SH SYNOPSIS", r".B blobcrash", "<", ".I SCRIPT"]
    for command in commands():
        lines += [".br", rf"\fBblobcrash\fR {bold(command.usage)}"]
    lines += [".SH DESCRIPTION", "Without a command it reads a script on standard input, one call a line, and prints one reply a line.",
              "A line", ".B crash", "keeps a random subset of the bytes that were not synced.",
              "Each reply arrives before the next line is due, so that a program can use it by two pipes.", ".SH COMMANDS"]
    for command in commands():
        lines += [".TP", bold(command.usage), f"{roff(command.does[0].upper() + command.does[1:])}."]
        if command.rows:
            lines.append(".RS")
            for row in command.rows:
                lines += [".TP", bold(" ".join(filter(None, row[:2]))), roff(row.does)]
            lines.append(".RE")
    return "\n".join(lines) + "\n" + STATUSES


STATUSES = r""".PP
.B blobcrash
.I COMMAND
.B \-\-help
has more.
.SH EXIT STATUS
Of the commands that run a script:
.TP
.B 0
Every reply was printed, errors among them.
.TP
.B 1
Standard input could not be read, or standard output could not be written.
.TP
.B 2
A line is not a call, or the arguments are wrong.
.TP
.B 3
The program could not allocate memory.
.SH EXAMPLE
.nf
printf 'open p 62\enwrite 0 0 6162\ensync 0\encrash\en' | blobcrash
.fi
.SH SEE ALSO
The pages in
.I docs/
of the repository: FORMATS.md has the lines and the replies, BEHAVIOUR.md what each call does.
"""


def bash() -> str:
    """Returns the completion for bash."""
    arms = []
    for name in names():
        forms = [form for form in commands() if form.name == name]
        for row in {row.name: row for form in forms for row in form.rows if row.argument}.values():
            what = f"words='{' '.join(row.choices)}'" if row.choices else ("paths=1" if row.is_path else "")
            arms.append(f"        {name}:*:{row.name}) {what or ':'} ;;")
        own = [f"*' {form.word} '*) words='{' '.join(row.name for row in form.options)}' ;; " for form in forms if form.word and form.options]
        if own:
            arms.append(f"        {name}:*:*) case \" ${{COMP_WORDS[*]}} \" in {''.join(own)}"
                        f"*) words='{' '.join(row.name for row in of(name).words)} --help' ;; esac ;;")
        whole = of(name)
        words = " ".join([row.name for row in whole.options] + ["--help"])
        if name == "mountctl":
            arms += [f"        {name}:2:*) paths=1 ;;", f"        {name}:3:*) words='{' '.join(row.name for row in whole.words)}' ;;"]
        elif whole.words:
            arms.append(f"        {name}:2:*) words='{' '.join(row.name for row in whole.words)} --help' ;;")
        else:
            arms.append(f"        {name}:*:*) words='{words}' paths={int(takes_path(whole))} ;;")
    return BASH.replace("@NAMES@", " ".join(names())).replace("@ARMS@", "\n".join(arms))


def takes_path(command: Command) -> bool:
    """Whether the command has an argument that is a path."""
    return any(word.strip("[]") in ("FILE", "DIR", "SCRIPT") for form in commands() if form.name == command.name for word in form.usage.split(" "))


BASH = """# Completion of the command blobcrash for bash.
# shellcheck shell=bash

_blobcrash() {
    local word=${COMP_WORDS[COMP_CWORD]} before=${COMP_WORDS[COMP_CWORD - 1]} words='' paths=0
    COMPREPLY=()
    if [ "$COMP_CWORD" -eq 1 ]; then
        words='@NAMES@ --help --version'
    else
        case ${COMP_WORDS[1]}:$COMP_CWORD:$before in
@ARMS@
        esac
    fi
    [[ $paths -eq 0 || $word == -* ]] || mapfile -t COMPREPLY < <(compgen -f -- "$word")
    [[ -z $words ]] || mapfile -t -O "${#COMPREPLY[@]}" COMPREPLY < <(compgen -W "$words" -- "$word")
}
complete -o filenames -F _blobcrash blobcrash
"""


def zsh_text(text: str) -> str:
    """A text in single quotes, in which brackets and colons are plain."""
    return re.sub(r"([\[\]:])", r"\\\1", text).replace("'", "'\\''")


def zsh_action(row: Row) -> str:
    """What completes the argument of a row."""
    if not row.argument:
        return ""
    if row.choices:
        return f":{row.name.strip('-')}:({' '.join(row.choices)})"
    return f":{zsh_text(row.argument.lower())}:{'_files' if row.is_path else ' '}"


def zsh() -> str:
    """Returns the completion for zsh."""
    described = "\n".join(f"        '{name}:{zsh_text(of(name).does)}'" for name in names())
    arms = []
    for name in names():
        whole = of(name)
        options = [f"'{row.name}[{zsh_text(row.does)}]{zsh_action(row)}'" for row in whole.options] + ["'--help[prints the help]'"]
        if name == "mountctl":
            words = " ".join(row.name for row in whole.words)
            options += ["'1:folder:_files -/'", f"'2:command:({words})'", "'*:argument:_files'"]
        elif whole.words:
            options.append(f"'1:word:({' '.join(row.name for row in whole.words)})'")
            rows = {row.name: row for form in commands() if form.name == name and form.word for row in form.options}
            options += [f"'{row.name}[{zsh_text(row.does)}]{zsh_action(row)}'" for row in rows.values()]
        elif takes_path(whole):
            options.append("'*:file:_files'")
        joined = " \\\n                ".join(options)
        arms.append(f"        {name})\n            _arguments \\\n                {joined}\n            ;;")
    return ZSH.replace("@DESCRIBED@", described).replace("@ARMS@", "\n".join(arms))


ZSH = """#compdef blobcrash
# Completion of the command blobcrash for zsh.

_blobcrash() {
    local -a blobcrash_commands
    blobcrash_commands=(
@DESCRIBED@
    )
    if (( CURRENT == 2 )); then
        _describe -t commands command blobcrash_commands
        return
    fi
    local which=$words[2]
    shift words
    (( CURRENT-- ))
    case $which in
@ARMS@
    esac
}

if [[ $zsh_eval_context[-1] == loadautofunc ]]; then _blobcrash "$@"; else compdef _blobcrash blobcrash; fi
"""


def fish_text(text: str) -> str:
    return "'" + text.replace("\\", "\\\\").replace("'", "\\'") + "'"


def fish_row(condition: str, row: Row) -> str:
    """The line of an option."""
    argument = f" -x -a {fish_text(' '.join(row.choices))}" if row.choices else (" -r -F" if row.is_path else " -x") if row.argument else ""
    return f"complete -c blobcrash -n {fish_text(condition)} -l {row.name[2:]}{argument} -d {fish_text(row.does)}"


def fish() -> str:
    """Returns the completion for fish."""
    lines = ["# Completion of the command blobcrash for fish.", "complete -c blobcrash -f"]
    for name in names():
        lines.append(f"complete -c blobcrash -n __fish_use_subcommand -a {name} -d {fish_text(of(name).does)}")
    for name in names():
        whole, seen = of(name), f"__fish_seen_subcommand_from {name}"
        options = whole.options or [row for form in commands() if form.name == name for row in form.options]
        lines += [fish_row(seen, row) for row in {row.name: row for row in options}.values()]
        lines.append(fish_row(seen, Row("--help", "", "prints the help")))
        for row in whole.words:
            described = f" -d {fish_text(row.does)}" if row.does else ""
            lines.append(f"complete -c blobcrash -n {fish_text(seen)} -a {row.name}{described}")
        if takes_path(whole):
            lines.append(f"complete -c blobcrash -n {fish_text(seen)} -F")
    return "\n".join(lines) + "\n"


MADE = {"man": man, "bash": bash, "zsh": zsh, "fish": fish}


def main(words: List[str]) -> int:
    if len(words) != 1 or words[0] not in MADE:
        print(__doc__, file=sys.stderr)
        return 2
    sys.stdout.write(MADE[words[0]]())
    return 0


if __name__ == "__main__":
    sys.exit(main(sys.argv[1:]))
