#!/bin/sh
# `blobcrash files explain`: it prints tests/file_pictures/NAME.out for each NAME.script, to the byte: a crash in each profile, truncations,
# long names, and the switches, all worked out by hand. Of the scripts of examples/files, of bad lines and of random programs
# (file_pictures.py) it prints what the plain run prints, with the same status, and lines that begin with `# `, none of them wider than 80.
# The last line is `N passed, M failed`.
top=$(CDPATH='' cd -- "$(dirname -- "$0")/.." && pwd -P)
# shellcheck source=tests/counting.sh
. "$top/tests/counting.sh"

need_program files
files=${program}_files

for picture in "$top"/tests/file_pictures/*.script; do
    "$files" explain <"$picture" >"$work/out" 2>"$work/err"
    ok "${picture##*/}" diff "${picture%.script}.out" "$work/out"
done

# same NAME: the script $work/in has the same replies, status and messages, explained or not.
same() {
    "$files" <"$work/in" >"$work/plain" 2>"$work/plain.err"
    wanted=$?
    "$files" explain <"$work/in" >"$work/out" 2>"$work/err"
    status=$?
    grep -v '^# ' "$work/out" >"$work/replies"
    if [ "$status" -eq "$wanted" ] && cmp -s "$work/plain" "$work/replies" && cmp -s "$work/plain.err" "$work/err" &&
        ! grep -q '^# .\{79,\}' "$work/out"; then
        pass
    else
        fail "$1: status $status, wanted $wanted"
        diff "$work/plain" "$work/replies"
    fi
}

for example in "$top"/examples/files/*.script "$top"/tests/file_pictures/*.script; do
    cp "$example" "$work/in"
    same "the replies of ${example##*/}"
done
while IFS= read -r bad; do
    printf 'create /a\nwrite /a 0 61\ncrash\n%s\ntree\n' "$bad" >"$work/in"
    same "after '$bad'"
done <<'BAD'
create
create /a b
write /a 18446744073709551616 00
rename /a /b swap
words 1
open p 61
BAD
printf 'create /\377\n' >"$work/in"
same 'a line that is not UTF-8'
printf 'create /a\ncrash' >"$work/in"
same 'a last line without a line feed'
: >"$work/in"
same 'no line'

# Names of 255 bytes, none of them printable, and offsets near 2^64: the remarks are wrapped, and no call loses the run.
{
    echo 'config write 0 1 1 2 subset'
    long=$(awk 'BEGIN { for (i = 0; i < 255; i++) printf "\\xff" }')
    printf 'create /%s\nwrite 0 0 6162636465666768\nwrite 0 18446744073709551615 61\nwrite 99 0 61\nwrite /none 0 61\n' "$long"
    printf 'truncate 0 18446744073709551615\nlink_at 99 1 x\nlink /%s /b\nrename /b /%s exchange\nfsyncdir_at 99\ncrash\ntree\n' "$long" "$long"
} >"$work/in"
same 'hostile names and numbers'

# A remark that is too wide breaks at a space. A word that is wider than a line, here a path of 100 bytes, breaks where the line ends.
cat >"$work/in" <<'WIDE'
keep 1 1
mkdir /a_directory_with_a_name_of_thirty_letters
create /a_file_with_a_name_of_twenty_eight
rename /a_file_with_a_name_of_twenty_eight /a_directory_with_a_name_of_thirty_letters/another_file
mkdir /0123456789012345678901234567890123456789012345678901234567890123456789012345678901234567890123456789
crash
WIDE
cat >"$work/wanted" <<'WIDE'
ok
ok
opened 0
ok
ok
crashed 1111
# unsettled edits:
#   line 2: mkdir /a_directory_with_a_name_of_thirty_letters: kept
#   line 3: create /a_file_with_a_name_of_twenty_eight: kept
#   line 4: rename /a_file_with_a_name_of_twenty_eight ->
#     /a_directory_with_a_name_of_thirty_letters/another_file: kept
#   line 5: mkdir
#     /0123456789012345678901234567890123456789012345678901234567890123456789012
#     345678901234567890123456789: kept
WIDE
"$files" explain <"$work/in" >"$work/out"
ok 'a remark that is too wide' diff "$work/wanted" "$work/out"

printf 'create /a\ncrash\n' >"$work/in"
for words in 'explain more' 'explain --last' 'explain explain' 'explain --help' 'explain --json --json' --json; do
    # shellcheck disable=SC2086
    "$files" $words <"$work/in" >"$work/out" 2>"$work/err"
    ok "arguments '$words'" [ "$?-$(cat "$work/out" "$work/err")" = '2-usage: blobcrash files [explain [--json] | explore [--limit N] [--last]]' ]
done
"$files" explain <"$work/in" >/dev/full 2>"$work/err"
ok 'an output that is full' [ "$?-$(cat "$work/err")" = '1-output failed' ]
"$files" explain <&- >"$work/out" 2>"$work/err"
ok 'no input' [ "$?-$(cat "$work/out" "$work/err")" = '1-input failed' ]

# The remarks come before the next line is due.
if has mkfifo; then
    mkfifo "$work/in.pipe" "$work/out.pipe"
    "$files" explain <"$work/in.pipe" >"$work/out.pipe" &
    exec 7>"$work/in.pipe" 8<"$work/out.pipe"
    printf 'keep 1 1\ncreate /a\ncrash\n' >&7
    read -r _ <&8
    read -r _ <&8
    read -r first <&8
    read -r second <&8
    read -r third <&8
    exec 7>&-
    ok 'remarks by pipe' [ "$first $second $third" = 'crashed 1 # unsettled edits: #   line 2: create /a: kept' ]
    exec 8<&-
fi

# Four thousand files with unsynced writes, and as many edits: two seconds of a processor are many times what they take.
# shellcheck disable=SC3045
within_two_seconds() { (ulimit -t 2 && exec "$files" explain <"$work/in" >"$work/out"); }
{
    echo 'config write 0 1 1 2 subset'
    seq 0 3999 | awk '{ printf "create /%d\nwrite %d 0 61\n", $1, $1 }'
    echo crash
} >"$work/in"
ok 'many files' within_two_seconds

if ! has_python; then
    skip 'random programs: there is no Python 3.8 or later'
    finish
fi
export PYTHONDONTWRITEBYTECODE=1
add python3 "$top/tests/file_pictures.py" "$files"
add python3 "$top/tests/explained.py" files "$files" 40
finish
