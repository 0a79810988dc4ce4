#!/bin/sh
# Tests of the program as a user meets it: replies, arguments, exit statuses, failing streams.
# The last line is `N passed, M failed`.
# shellcheck disable=SC2016,SC2317,SC2119,SC2120
top=$(CDPATH='' cd -- "$(dirname -- "$0")/.." && pwd -P)
# shellcheck source=tests/counting.sh
. "$top/tests/counting.sh"
# shellcheck source=tests/running.sh
. "$top/tests/running.sh"

need_program explain explore

# One line, one reply.
while IFS='|' read -r image reply; do
    printf '%s\n' "$image" >"$work/in"
    run "$top/blobcrash" resolve <"$work/in"
    expect "resolve '$image'" 0 "$reply$line" ''
done <"$top/tests/resolve/replies.txt"

while IFS= read -r image; do
    printf '%s\n' "$image" >"$work/in"
    run "$top/blobcrash" resolve <"$work/in"
    expect "resolve '$image'" 2 '' 'bad image'
done <"$top/tests/resolve/bad_images.txt"

run "$top/blobcrash" resolve </dev/null
expect 'no line' 0 "create$line" ''

printf '4357494300000007' >"$work/in"
run "$top/blobcrash" resolve <"$work/in"
expect 'a line without an end' 0 "valid 0 7 8$line" ''

printf '4357494300000007\r\n' >"$work/in"
run "$top/blobcrash" resolve <"$work/in"
expect 'a carriage return' 2 '' 'bad image'

printf '4357494300000007\nnot hex\n' >"$work/in"
run "$top/blobcrash" resolve <"$work/in"
expect 'later lines are not read' 0 "valid 0 7 8$line" ''

# A region of 4096 bytes: whole, with a byte of the padding set, and one byte short of it.
{ printf '4357494b000100051de2ccc0'; head -c 4084 /dev/zero | od -An -v -tx1 | tr -d ' \n'; } >"$work/region"
run "$top/blobcrash" resolve <"$work/region"
expect 'a whole region' 0 "valid 0 5 4096$line" ''
{ cat "$work/region"; printf '616263'; } >"$work/in"
run "$top/blobcrash" resolve <"$work/in"
expect 'a region and three bytes' 0 "valid 3 5 4096$line" ''
{ head -c 8190 "$work/region"; printf '01'; } >"$work/in"
run "$top/blobcrash" resolve <"$work/in"
expect 'a byte of the padding set' 0 "error BlobCorrupt image 626c6f62 invalid header padding$line" ''
head -c 8190 "$work/region" >"$work/in"
run "$top/blobcrash" resolve <"$work/in"
expect 'a region without its last byte' 0 "create$line" ''

# Arguments, given to the programs: ./blobcrash refuses wrong ones itself (tests/launcher.sh).
usage='usage: blobcrash [resolve]'
for words in 'resolve resolve' 'resolve --' 'Resolve' '--version' 'help help' 'explain' 'explore' 'build'; do
    # shellcheck disable=SC2086
    run "$program" $words </dev/null
    expect "arguments '$words'" 2 '' "$usage"
done
for words in '' 'resolve ' "$(printf '\377')"; do
    run "$program" "$words" </dev/null
    expect 'an argument that no program takes' 2 '' "$usage"
done
for words in more 'help help' 'help more' 'more help' --limit '--json --json' 'more --json'; do
    # shellcheck disable=SC2086
    run "${program}_explain" $words </dev/null
    expect "arguments of explain '$words'" 2 '' 'usage: blobcrash explain [--json]'
done
run "${program}_explain" "$(printf '\377')" </dev/null
expect 'an argument of explain that is not UTF-8' 2 '' 'usage: blobcrash explain [--json]'

# Help. Each program names what it does, and ./blobcrash all of it.
# helps COMMAND..: runs it; what it prints is in $work/help.
helps() {
    run "$@" </dev/null
    cp "$work/out" "$work/help"
    expect "$*: its status" 0 "$(cat "$work/help")$line" ''
}
helps "$program" help
ok 'the program names what it does' test "$(sed -n 's/^  blobcrash \([a-z]*\) .*/\1/p' "$work/help" | tr '\n' ' ')" = ' resolve help version '
cp "$work/help" "$work/all"
helps "$program" --help
ok 'help and --help' cmp "$work/help" "$work/all"
for name in explain explore; do
    helps "${program}_$name" help
    cp "$work/help" "$work/first"
    helps "${program}_$name" --help
    ok "help and --help of $name" cmp "$work/help" "$work/first"
    ok "$name names itself alone" test "$(grep -c '^  blobcrash' "$work/help") $(grep -c "^  blobcrash $name " "$work/help")" = '1 1'
    helps "$top/blobcrash" "$name" --help
    head -n "$(wc -l <"$work/first")" "$work/help" >"$work/own"
    ok "./blobcrash $name --help begins with its help" cmp "$work/own" "$work/first"
done

# The version, with the toolchain that the README names. With another toolchain, which may prove the program as well, this prints a
# note and doesn't fail.
run "$program" version </dev/null
cp "$work/out" "$work/version"
run "$top/blobcrash" version </dev/null
kit=$(sed -n 's/^    \(rattle-kit-[^ ]*\) .*/\1/p' "$top/README.md")
here=$("$(command -v rt || echo /opt/rattle/bin/rt)" version | cut -d ' ' -f 1)
[ "$here" = "$kit" ] || echo "note: the toolchain here is $here, and README.md and \`blobcrash version\` name $kit"
release=$(sed -n 's/^## \([0-9.]*\),.*/\1/p' "$top/CHANGELOG.md" | head -n 1)
expect 'the version by ./blobcrash' 0 "blobcrash $release, proved with $kit$line" ''
cp "$work/version" "$work/out"
expect 'the version' 0 "blobcrash $release, proved with $kit$line" ''

# Scripts.
run "$top/blobcrash" </dev/null
expect 'a script without a line' 0 '' ''

run "$top/blobcrash" <"$top/examples/FIRST.script"
expect 'the first example' 0 "$(cat "$top/crates/blobcrash/stdout")$line" ''

printf 'open p 62\n# x\nread 0 0\n' >"$work/in"
run "$top/blobcrash" <"$work/in"
expect 'a bad line' 2 "opened 0 0 0$line" "line 3: bad call${line}blobcrash: line 3: a token is missing: \`read H OFFSET LEN\`"

# Line by line over pipes: each reply comes before the next line is sent. An answer has ten seconds.
# ask NAME REPLY LINES: sends the lines, of which the last has a reply.
ask() {
    printf '%s\n' "$3" >&4
    timeout 10 head -n 1 <&3 >"$work/out"
    status=$?
    : >"$work/err"
    expect "$1" 0 "$2$line" ''
}
mkfifo "$work/to" "$work/from"
"$top/blobcrash" <"$work/to" >"$work/from" 2>"$work/asked.err" &
asked=$!
exec 4>"$work/to" 3<"$work/from"
ask 'the first line is answered at once' 'opened 0 0 0' 'open p 62'
ask 'a later one too' 'ok' 'write 0 0 6162'
ask 'behind an empty line and a comment' 'size 2' "$line# a comment${line}size 0"
ask 'a crash' 'crashed' 'crash'
printf 'size 0\nsize ' >&4
timeout 10 head -n 1 <&3 >"$work/out"
status=$?
expect 'the front of a line keeps no reply back' 0 "size 2$line" ''
ask 'the rest of that line' 'size 2' '0'
printf 'size 0\n# a comment\n\n' >&4
timeout 10 head -n 1 <&3 >"$work/out"
status=$?
expect 'a comment keeps no reply back' 0 "size 2$line" ''
exec 4>&-
wait "$asked"
status=$?
exec 3<&-
: >"$work/out"
cp "$work/asked.err" "$work/err"
expect 'the end of the talk' 0 '' ''

# A long script.
{ echo 'open p 62'; yes 'size 0' | head -n 199999; } >"$work/in"
run "$top/blobcrash" <"$work/in"
[ "$(sort "$work/out" | uniq -c | tr -s ' ')" = " 1 opened 0 0 0$line 199999 size 0" ] && : >"$work/out"
expect '200,000 lines' 0 '' ''

# Streams that fail.
echo >"$work/in"
run "$top/blobcrash" resolve </
expect 'a directory as input' 1 '' 'input failed'
run "$top/blobcrash" resolve <&-
expect 'closed input' 1 '' 'input failed'
"$top/blobcrash" resolve <"$work/in" >/dev/full 2>"$work/err"
status=$?
: >"$work/out"
expect 'a full device as output' 1 '' 'output failed'
"$top/blobcrash" resolve <"$work/in" >&- 2>"$work/err"
status=$?
expect 'closed output' 1 '' 'output failed'
{ { sleep 0.2; echo; } | { "$top/blobcrash" resolve 2>"$work/err"; echo $? >"$work/status"; }; } | true
until [ -s "$work/status" ]; do sleep 0.1; done
status=$(cat "$work/status")
expect 'a pipe that nobody reads' 1 '' 'output failed'
echo 435 >"$work/in"
"$top/blobcrash" resolve <"$work/in" >/dev/full 2>"$work/err"
status=$?
expect 'a bad image writes nothing' 2 '' 'bad image'

# From elsewhere.
echo 4357494300000007 >"$work/in"
mkdir -p "$work/a place"
ln -s "$top" "$work/a place/to the top"
in_place() { (cd "$work/a place" && CDPATH=/ "./to the top/blobcrash" resolve); }
run in_place <"$work/in"
expect 'from another directory' 0 "valid 0 7 8$line" ''

# A copy with nothing built: the sources answer as the program does.
fresh=$work/fresh
top=$top sh -c '. "$top/tools/building.sh" && copy_crates "$1" blobcrash' sh "$fresh"
cp "$top/blobcrash" "$fresh"
cp -R "$top/tools" "$fresh"
{ cat "$top/examples/FIRST.script"; echo 'no call'; } >"$work/in"
"$program" <"$work/in" >"$work/right" 2>"$work/wrong"
unbuilt() { (unset BLOBCRASH_PROVED && "$fresh/blobcrash" "$@"); }
run unbuilt <"$work/in"
run unbuilt <"$work/in"
sed -i 's/about [0-9]* minutes/about N minutes/' "$work/err"
expect 'a script that the unproved program answers' 2 "$(cat "$work/right")$line" \
    "not proved yet: ./blobcrash build proves and builds it, about N minutes$line$(cat "$work/wrong")"

finish
