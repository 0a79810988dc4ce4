#!/bin/sh
# `blobcrash files` and `blobcrash files explore`: the scripts of examples/files, whose outcomes were worked out by hand from the rules of
# docs/FILES.md, each call's reply, bad lines, statuses, arguments, failing streams, replies before the next line is due, and random
# programs in Python made again from their records (tests/file_scripts.py). The last line is `N passed, M failed`.
top=$(CDPATH='' cd -- "$(dirname -- "$0")/.." && pwd -P)
# shellcheck source=tests/counting.sh
. "$top/tests/counting.sh"

need_program files
files=${program}_files

for example in "$top"/examples/files/*.script; do
    "$files" explore --last <"$example" >"$work/out" 2>"$work/err"
    ok "${example##*/}" diff "${example%.script}.out" "$work/out"
done

# expect NAME STATUS OUTPUT ERRORS: compares what the last run left.
expect() {
    printf '%s' "$3" >"$work/wanted"
    printf '%s' "$4" >"$work/wanted.err"
    if [ "$status" = "$2" ] && cmp -s "$work/wanted" "$work/out" && cmp -s "$work/wanted.err" "$work/err"; then
        pass
    else
        fail "$1: status $status, wanted $2"
        diff "$work/wanted" "$work/out"
        diff "$work/wanted.err" "$work/err"
    fi
}

# played: runs the script on standard input.
played() {
    "$files" "$@" >"$work/out" 2>"$work/err"
    status=$?
}

# Each line has the call before `=>`, and its reply after it. A call by a path takes the number of a descriptor too; the crash draws
# for the last write, of which it keeps the byte, and for the edit of the last create, which it loses.
cat >"$work/rows" <<'ROWS'
words 0 max => 
profile posix => ok
edits prefix => ok
edits any => ok
edits logged => ok
keep 1 2 => ok
space 4096 10 => ok
config write 0 1 1 2 sectors 1 => ok
create /a => opened 0
create /a => error Exists
write 0 0 616263 => ok
size 0 => size 3
read 0 1 9 => bytes 6263
read 0 9 9 => bytes -
truncate 0 2 => ok
write /a 2 64 => ok
read /a 0 4 => bytes 616264
size /a => size 3
inode_of 0 => inode 2
find /a => found file 2 3
mkdir /d => ok
find /d => found directory 3
mkdir_at 3 e\x20f => inode 4
find_at 3 e\x20f => found directory 4
listdir / => names a d/
listdir_at 3 => names e\x20f/
create_at 4 \x00g => error InvalidName
create_at 4 g => opened 4
rename /a /d/a => ok
rename /d/a /d noreplace => error Exists
rename /nope /d/b exchange => error NotFound
rename_at 3 a 1 a => ok
rename_at 1 a 4 g exchange => ok
link /a /b => ok
link_at 5 3 h => ok
unlink /b => ok
unlink_at 3 h => ok
rmdir /d => error NotEmpty
rmdir_at 3 e\x20f => error NotEmpty
unlink / => error InvalidName
open /d => error IsDirectory
open /a/b => error NotDirectory
rename /d /d/e\x20f/x => error Loop
write 0 5000 00 => error NoSpace
write 7 0 00 => error Stale
open_truncated /a => opened 5
open_inode 2 => opened 6
open_inode 3 => error IsDirectory
open_inode_truncated 3 => error IsDirectory
failed_sync drops => ok
syncs honest => ok
failed_write prefix => ok
failed_write mode => ok
close 6 => ok
close 6 => error Stale
fsync 0 => ok
fdatasync /a => ok
fsyncdir /d => ok
fsyncdir_at 1 => ok
fsyncdir /a => error NotDirectory
sync => ok
settle => ok
tree => tree /a=- /d/ /d/e\x20f/ /d/e\x20f/g=616264
  write   0   0   7a    # tokens are separated by spaces => ok
create /c => opened 8
crash => crashed 0 2:0..1:0..1
ROWS
sed 's/ => .*//' "$work/rows" >"$work/script"
sed -n 's/.* => \(.\)/\1/p' "$work/rows" >"$work/replies"
played <"$work/script"
diff "$work/replies" "$work/out" >"$work/shown" && [ "$status" -eq 0 ] && [ ! -s "$work/err" ] && pass || { fail 'each call'; cat "$work/shown"; }

# Lines that are no calls, alone.
while IFS= read -r line; do
    printf 'mkdir /d\n%s\nsync\n' "$line" >"$work/in"
    played <"$work/in"
    expect "bad line '$line'" 2 "ok
" "line 2: bad call
"
    played explore <"$work/in"
    expect "bad line '$line', explored" 2 '' "line 2: bad call
"
done <<'BAD'
create
create /a /b
create /a b
create /a\x2
create /a\y20
CREATE /a
write 0 0
write 0 0 6
write 0 0 zz
write 0 -1 00
write /a 18446744073709551616 00
read 0 0
truncate /a
rename /a
rename /a /b swap
rename /a /b exchange noreplace
link_at 1 2
keep 2 1
keep 1 0
profile zfs
edits
edits none
failed_sync
failed_sync maybe
syncs lies
failed_write none
space 1
config write 1 2
open p 61
image p 61 00
words 1
seed 1
sync now
tree /
BAD
printf 'seed 1\nseed 2\n' >"$work/in"
played <"$work/in"
expect 'a second seed' 2 '' "line 2: bad call
"
printf 'create /\377\n' >"$work/in"
played <"$work/in"
expect 'a line that is not UTF-8' 2 '' "line 1: bad call
"
printf 'create /a' >"$work/in"
played <"$work/in"
expect 'a last line without a line feed' 0 "opened 0
" ''
printf '# nothing\n\n' >"$work/in"
played explore <"$work/in"
expect 'no call' 0 "# 1 leaf, which draws no words
# 1 leaf, all of them; 1 outcome
" ''
printf 'create /a\ncreate /b\ncrash\n' >"$work/in"
played explore --limit 1 --last <"$work/in"
expect 'a limit' 0 "# 1 leaf, first: words 0 0
crashed 11
# 1 leaf, not all of them: the limit was reached; 1 outcome
" ''
played more <"$work/in"
expect 'an argument' 2 '' "usage: blobcrash files [explain [--json] | explore [--limit N] [--last]]
"
"$files" <"$work/in" >/dev/full 2>"$work/err"
status=$?
: >"$work/out"
expect 'an output that is full' 1 '' "output failed
"
"$files" <&- >"$work/out" 2>"$work/err"
status=$?
expect 'no input' 1 '' "input failed
"

# Each reply comes before the next line is due.
if has mkfifo; then
    mkfifo "$work/in.pipe" "$work/out.pipe"
    "$files" <"$work/in.pipe" >"$work/out.pipe" &
    exec 7>"$work/in.pipe" 8<"$work/out.pipe"
    echo 'create /a' >&7
    read -r first <&8
    echo 'write 0 0 61' >&7
    read -r second <&8
    exec 7>&-
    ok 'replies by pipe' [ "$first $second" = 'opened 0 ok' ]
    exec 8<&-
fi

# The lines of files in Python are made again.
if ! has_python; then
    skip 'lines of files in Python: there is no Python 3.8 or later'
    finish
fi
sh "$top/bindings/build.sh" || give_up "the library can't be built"
export PYTHONDONTWRITEBYTECODE=1
add python3 "$top/tests/file_scripts.py" "$files"
finish
