#!/bin/sh
# tables.sh: that no language has a table of its own of what the library says of calls: their effects, kinds, lines and words, escapes and hex,
# the profiles, and the supply of power. The library has these once (`blobcrash_effect`, `blobcrash_line_of`, `blobcrash_word`). Tests and
# help texts have them too. A file that may have one is named after the pattern, with the reason above it. The last line is
# `N passed, M failed`.
top=$(CDPATH='' cd -- "$(dirname -- "$0")/.." && pwd -P)
# shellcheck source=tests/counting.sh
. "$top/tests/counting.sh"
cd "$top" || exit 1

find bindings/c -name '*.h' >"$work/c"
find adapters \( -name '*.c' -o -name '*.h' -o -name '*.cc' \) ! -name 'test_*' >>"$work/c"
find bindings/python/blobcrash adapters -name '*.py' ! -name 'test_*' >"$work/python"
find bindings/rust/src -name '*.rs' >"$work/rust"
ok 'there are sources in C' test "$(wc -l <"$work/c")" -gt 50
ok 'there are sources in Python' test "$(wc -l <"$work/python")" -gt 50
ok 'there are sources in Rust' test "$(wc -l <"$work/rust")" -gt 30

# has_none LANGUAGE WHAT PATTERN [FILE ..]: no file has the pattern, but these. Doc comments of Rust don't count.
has_none() {
    of=$1
    what=$2
    pattern=$3
    shift 3
    while read -r path; do
        case " $* " in *" $path "*) continue ;; esac
        ! sed '/^ *\/\/[\/!]/d' "$path" | grep -qE -- "$pattern" || echo "$path"
    done <"$work/$of" >"$work/found"
    ok "$of: $what: $(tr '\n' ' ' <"$work/found")" test ! -s "$work/found"
}

has_none c 'a table of words of refusals' 'NameTooLong|"Injected"'
has_none c 'a table of words of calls' '"(open_truncated|fsyncdir_at|startsync|writes)( [A-Z]+)?"'
has_none c 'a table of words of renames' '"[^"]*noreplace'
has_none c 'digits of hex' '0123456789abcdef|%02x'
has_none c 'an escape of a path' '\\\\\\\\x'
# A simple disk makes the calls itself.
has_none c 'a table of effects' 'case BLOBCRASH_(F_)?(LIST|SCAN|INODE_OF)' adapters/rocksdb/simple_disk.cc
# The help of the daemon and of the drivers, and of the header.
has_none c 'names of profiles' 'ext4.*(xfs|btrfs)|"(xfs|posix)"' adapters/mount/main.c adapters/leveldb/crash.cc adapters/rocksdb/crash.cc \
    bindings/c/blobcrash_files.h
# What `tear` may be has words that no line has, such as `whole`.
has_none c 'names of modes' '"(subset|sectors [0-9]+)"' adapters/common/words.c adapters/mount/main.c

has_none python 'a table of numbers of kinds' '"(startsync|open_truncated|fsyncdir_at)": *[0-9]'
has_none python 'a table of effects' '"(loose|open_truncated|rename_at)", *"(admit|link|mkdir_at)"'
# What the tokens of a line are: why a line is bad is said in Python, with the token that is nearest.
has_none python 'a table of lines' '"(startsync|rename_at)": *"(H|number)' bindings/python/blobcrash/shapes.py bindings/python/blobcrash/file_calls.py
# The texts and the numbers of OSErrors. files_header.py compares the names with those of the library.
has_none python 'a table of refusals' '"(TooManyLinks|NotEmpty)", *errno' bindings/python/blobcrash/foreign_files.py
# The type of an argument; what --swarm draws, in a process without the library.
has_none python 'names of profiles' '"ext4", *"xfs"' bindings/python/blobcrash/file_settings.py adapters/mount/crash_swarm.py
# Why a line is bad; what --swarm draws.
has_none python 'names of modes' '"prefix", *"subset"' bindings/python/blobcrash/shapes.py adapters/mount/crash_swarm.py
has_none python 'words of switches' '"(honest|keeps)", *"(lie|drops)"' bindings/python/blobcrash/file_settings.py
# A token that isn't printable, in a message.
has_none python 'an escape of a path' 'x\{[a-z]*:02x\}' bindings/python/blobcrash/shapes.py

has_none rust 'a table of words of calls' '=> *"(startsync|open_truncated|fsyncdir|loose)"'
has_none rust 'a table of words of refusals' '"(NameTooLong|TooManyLinks|GenerationsExhausted|Injected)"'
has_none rust 'a table of words of renames' '"[^"]*noreplace'
has_none rust 'a table of effects' '"loose" *\||Kind::(List|Size) *(\||=>)'
has_none rust 'names of profiles' '"(profile )?(xfs|btrfs)"'
# The mode is a type, which is read from a line and written to one.
has_none rust 'names of modes' '"(subset|prefix)"' bindings/rust/src/config.rs
has_none rust 'an escape of a path' '\\\\x\{'
has_none rust 'a count of changing calls' 'left\.(saturating_sub|map)'

finish
