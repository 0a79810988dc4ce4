"""Runs a script from standard input through the library, a line at a time, or with `--whole` as a whole, or with `--pipe` through
the program. The replies and the exit status are the program's (docs/FORMATS.md). With `--explain` it prints what `blobcrash explain`
prints."""

import sys

from blobcrash import BadLine, Library, Program, run
from blobcrash.whole_scripts import explained


def is_preamble(line):
    word = next((token for token in line.split(b" ") if token), b"#")
    return word.startswith(b"#") or word in (b"image", b"words", b"seed")


def bad_line(number):
    print(f"line {number}: bad call", file=sys.stderr)
    return 2


def by_lines(script, way):
    lines = script.split(b"\n")
    if lines[-1] == b"":
        lines.pop()
    first = next((at for at, line in enumerate(lines) if not is_preamble(line)), len(lines))
    try:
        layer = way(b"".join(line + b"\n" for line in lines[:first]))
    except BadLine as bad:
        return bad_line(bad.line)
    for number, line in enumerate(lines[first:], first + 1):
        try:
            reply = layer.call(line)
        except BadLine:
            # The program has printed it.
            return layer.close() or bad_line(number)
        if reply:
            sys.stdout.buffer.write(reply + b"\n")
    return layer.close() or 0


def whole(script, way):
    try:
        sys.stdout.buffer.write(way(script))
    except BadLine as bad:
        sys.stdout.buffer.write(bad.replies)
        return bad_line(bad.line)
    return 0


if __name__ == "__main__":
    script = sys.stdin.buffer.read()
    if "--whole" in sys.argv:
        sys.exit(whole(script, run))
    if "--explain" in sys.argv:
        sys.exit(whole(script, explained))
    sys.exit(by_lines(script, Program if "--pipe" in sys.argv else Library))
