#!/bin/sh
# `blobcrash explore`: leaves and outcomes of scripts that were counted by hand, bad lines, the limit, arguments, failing
# streams, and 200 random scripts against brute force over words (explore.py). The last line is `N passed, M failed`.
top=$(CDPATH='' cd -- "$(dirname -- "$0")/.." && pwd -P)
# shellcheck source=tests/counting.sh
. "$top/tests/counting.sh"
line='
'

tell() {
    if [ "$1" -eq 0 ]; then
        pass
    else
        fail "$2: status $status"
        echo "  out: $(head -c 400 "$work/out")"
        echo "  err: $(head -c 400 "$work/err")"
    fi
}

# explore ARGUMENT ..: explores $work/script.
explore() {
    "${program}_explore" "$@" <"$work/script" >"$work/out" 2>"$work/err"
    status=$?
}

# expect NAME STATUS OUTPUT ERRORS: compares what the last `explore` left.
expect() {
    [ "$status" = "$2" ] && [ "$(cat "$work/out"; echo .)" = "$3." ] && [ "$(cat "$work/err")" = "$4" ]
    tell $? "$1"
}

# expect_end NAME LINE: it ends with this line, and nothing went wrong.
expect_end() {
    [ "$status" -eq 0 ] && [ "$(tail -n 1 "$work/out")" = "# $2" ] && [ ! -s "$work/err" ]
    tell $? "$1"
}

need_program explore

# Two bytes over two others, each kept or lost by a draw, or in prefix mode up to the first that is lost.
torn() {
    printf 'config write 0 1 1 2 %s\nopen p 62\nwrites 0 0 6161\nwrite 0 0 6262\ncrash\n' "$1" >"$work/script"
}
replies="ok${line}opened 0 0 0${line}ok${line}ok${line}"
torn subset
explore
expect 'two bytes, subset' 0 "# 1 leaf, first: words 0 0
${replies}crashed 0:11
# 1 leaf, first: words 0 max
${replies}crashed 0:10
# 1 leaf, first: words max 0
${replies}crashed 0:01
# 1 leaf, first: words max max
${replies}crashed 0:00
# 4 leaves, all of them; 4 outcomes$line" ''
torn prefix
explore --last
expect 'two bytes, prefix, the last reply' 0 "# 1 leaf, first: words 0 0
crashed 0:11
# 1 leaf, first: words 0 max
crashed 0:10
# 1 leaf, first: words max
crashed 0:00
# 3 leaves, all of them; 3 outcomes$line" ''
printf 'size 0\n' >>"$work/script"
explore --last
expect 'one outcome of three leaves' 0 "# 3 leaves, first: words 0 0
size 2
# 3 leaves, all of them; 1 outcome$line" ''
printf 'open p 62\n' >"$work/script"
explore
expect 'no draw' 0 "# 1 leaf, which draws no words
opened 0 0 0
# 1 leaf, all of them; 1 outcome$line" ''
: >"$work/script"
explore
expect 'an empty script' 0 "# 1 leaf, which draws no words
# 1 leaf, all of them; 1 outcome$line" ''

# A torn write of eight bytes: one outcome for each number of bytes kept, or for each set of them; of sixteen 2^16.
grep -v '^words' "$top/examples/torn_write_prefix.script" >"$work/script"
explore
expect_end 'eight bytes, prefix' '9 leaves, all of them; 9 outcomes'
explore --limit 9
expect_end 'a limit that is just enough' '9 leaves, all of them; 9 outcomes'
explore --limit 8
expect_end 'a limit that is too low' '8 leaves, not all of them: the limit was reached; 8 outcomes'
explore --last --limit 0
expect_end 'the limit 0' '0 leaves, not all of them: the limit was reached; 0 outcomes'
grep -v '^words' "$top/examples/torn_write_subset.script" >"$work/script"
explore
expect_end 'eight bytes, subset' '256 leaves, all of them; 256 outcomes'
sed 's/6161616161616161/&&/; s/6262626262626262/&&/; s/^read.*/read 1 0 16/' "$work/script" >"$work/longer"
cp "$work/longer" "$work/script"
explore --last
expect_end 'sixteen bytes, subset' '65536 leaves, all of them; 65536 outcomes'

# A bad line, by its number. Nothing is printed of the lines before it.
while IFS='|' read -r number lines; do
    # shellcheck disable=SC2059
    printf "$lines" >"$work/script"
    explore
    expect "bad line: $lines" 2 '' "line $number: bad call"
done <<'ROWS'
1|words 0\nopen p 62\n
2|# a comment\nseed 7\n
2|open p 62\nfrob\n
3|open p 62\n\nsync\n
2|config clear\nimage p 62 -\n
1|\377
2|open p 62\nsize 18446744073709551616
ROWS
printf 'config resize 1 2 1 2\nopen p 62\n' >"$work/script"
explore
expect 'a partial resize' 2 '' "line 1: explore doesn't cover the sizes of partial resizes"
printf 'config resize 1 2 0 2\nopen p 62\nresize 0 4\ncrash\nreopen\nopen p 62\n' >"$work/script"
explore
expect_end 'no partial resize' '3 leaves, all of them; 3 outcomes'

# Arguments and streams.
for words in '--limit' '--limit x' '--limit +1' '--limit 1 --limit 1' '--last --last' '--all' 'explore' '--limit 18446744073709551616' \
    'help help' '--last help' 'help --last'; do
    # shellcheck disable=SC2086
    explore $words
    expect "arguments '$words'" 2 '' 'usage: blobcrash explore [--limit N] [--last]'
done
torn subset
"$top/blobcrash" explore <"$work/script" >/dev/full 2>"$work/err"
status=$?
[ "$status" -eq 1 ] && [ "$(cat "$work/err")" = 'output failed' ]
tell $? 'a full device as output'
"$top/blobcrash" explore <&- >"$work/out" 2>"$work/err"
status=$?
[ "$status" -eq 1 ] && [ "$(cat "$work/err")" = 'input failed' ] && [ ! -s "$work/out" ]
tell $? 'closed input'

if has_python; then
    python3 "$top/tests/explore.py" "$top/blobcrash" 200 >"$work/out" 2>"$work/err"
    status=$?
    [ "$status" -eq 0 ]
    tell $? 'random scripts'
else
    skip 'random scripts, since Python 3.8 is missing'
fi

finish
