#!/bin/sh
# Compares the code that pages quote with the sources. A line `<!-- quoted: FILE -->` is followed by a block, fenced or indented. Its lines
# must be consecutive lines of FILE, apart from leading spaces. The last line is `N passed, M failed`.
set -u

top=$(CDPATH='' cd -- "$(dirname -- "$0")/.." && pwd -P)
cd "$top" || exit 1

awk '
function bare(line) { sub(/^[ \t]+/, "", line); sub(/[ \t\r]+$/, "", line); return line }
function finish(    n, lines, line, i, j) {
    state = 0
    while (size > 0 && block[size] == "") size--
    n = 0
    while ((getline line < file) > 0) lines[++n] = bare(line)
    close(file)
    for (i = 1; size > 0 && i + size - 1 <= n; i++) {
        for (j = 1; j <= size && lines[i + j - 1] == block[j]; j++) ;
        if (j > size) { passed++; return }
    }
    failed++
    print "quotes.sh: " FILENAME ": a block that is quoted from " file " does not stand there: " block[1]
}
FNR == 1 && state { finish() }
state == 2 && /^```/ { finish(); next }
state == 3 && !/^    / && !/^$/ { finish() }
state >= 2 { block[++size] = bare($0); next }
/^<!-- quoted: .* -->$/ { file = $3; size = 0; state = 1; next }
state == 1 && /^```/ { state = 2; next }
state == 1 && /^    / { state = 3; block[++size] = bare($0); next }
state == 1 && !/^$/ { finish() }
END {
    if (state) finish()
    if (passed + failed < 8) { failed++; print "quotes.sh: too few blocks are quoted" }
    print passed + 0 " passed, " failed + 0 " failed"
    exit failed > 0
}
' README.md docs/*.md adapters/*/README.md tests/*.md
