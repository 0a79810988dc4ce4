#!/bin/sh
# The examples: each examples/NAME.script prints NAME.out to the byte; clients in Go, Java and Node; the log in Python keeps its promise
# over 1,000 seeds, and breaks it if it forgets its sync, which a short script and its replies show; so do replicated nodes in Python and
# Rust, by seeds and over every small run; unmodified code in Python loses what it doesn't sync. The last line is `N passed, M failed`.
top=$(CDPATH='' cd -- "$(dirname -- "$0")/.." && pwd -P)
# shellcheck source=tests/counting.sh
. "$top/tests/counting.sh"

need_program explain
BLOBCRASH=$program
export BLOBCRASH

for example in "$top"/examples/*.script; do
    "$BLOBCRASH" <"$example" >"$work/out"
    ok "${example##*/}" diff "${example%.script}.out" "$work/out"
done

# The first two bytes are kept: a draw with word 0 is true, one with `max` is false.
cat >"$work/piped" <<'REPLIES'
config write 0 1 1 2 prefix => ok
open p 62 => opened 0 0 0
write 0 0 616263 => ok
crash => crashed 0:110
reopen => ok
open p 62 => opened 1 2 0
read 1 0 2 => bytes 6162
REPLIES
# piped TOOL COMMAND..: runs a client, if its language is installed. These languages aren't in .ci/packages, since they are large.
piped() {
    if ! has "$1"; then
        leave_out "the client for $1"
        return
    fi
    what="the client for $1"
    shift
    "$@" >"$work/out" 2>"$work/err" </dev/null
    ok "$what" diff "$work/piped" "$work/out"
}
piped node node "$top/examples/pipe.mjs"
piped java java "$top/examples/Pipe.java"
piped go env GOCACHE="$work/go" GOFLAGS=-mod=mod go run "$top/examples/pipe.go"

if ! has_python; then
    skip 'the log in Python: it needs Python 3.8 or later'
    finish
fi

python3 "$top/examples/seeds.py" 1000 >"$work/kept"
ok 'the log keeps its promise over 1,000 seeds' grep -qx '1000 seeds, none fails' "$work/kept"

sh "$top/bindings/build.sh" || give_up "the library can't be built"
python3 "$top/examples/seeds.py" 1000 --forget-sync >"$work/broken"
ok 'a log that forgets its sync is found out' [ $? -eq 1 ]
ok 'its seed is shown' grep -q '^seed [0-9]*: ' "$work/broken"
sed -n '2,/^$/p' "$work/broken" | sed 1d >"$work/short"
"$top/tools/judge" <"$work/short" >"$work/lost"
ok 'its short script shows the fault' [ $? -eq 1 ]
# By hand: an open, a write, its acknowledgement, a crash and a reopen.
ok 'the script is as short as by hand' [ "$(grep -c . "$work/short")" -eq 5 ]
ok 'its choices are fixed' sh -c '! grep -q "^seed" "$1"' sh "$work/short"
ok 'its replies are shown' grep -q '^crashed' "$work/broken"

# By hand: without a sync the bytes may be lost, so that the file is empty, or has zeros: dbm.dumb can't read an index with zeros. After a
# sync the crash draws for the rename, and on POSIX for the new name.
cat >"$work/unmodified" <<'OUTCOMES'
replaces, ext4: run N fails: JSONDecodeError: Expecting value: line 1 column 1 (char 0)
replaces, xfs: run N fails: JSONDecodeError: Expecting value: line 1 column 1 (char 0)
replaces, btrfs: run N fails: JSONDecodeError: Expecting value: line 1 column 1 (char 0)
replaces, posix: run N fails: JSONDecodeError: Expecting value: line 1 column 1 (char 0)
replaces_synced, ext4: 2 runs, all of them
replaces_synced, xfs: 2 runs, all of them
replaces_synced, btrfs: 2 runs, all of them
replaces_synced, posix: 4 runs, all of them
adds_a_key, ext4: run N fails: null bytes
adds_a_key, xfs: run N fails: AssertionError: a durable key is lost
adds_a_key, btrfs: run N fails: null bytes
adds_a_key, posix: run N fails: null bytes
OUTCOMES
python3 "$top/examples/patched_save.py" 2>"$work/err" | sed 's/run [0-9]* fails/run N fails/; s/[A-Za-z]*: source code string cannot contain //' >"$work/out"
ok 'unmodified code in Python' diff "$work/unmodified" "$work/out"

# nodes NAME COMMAND..: replicated nodes keep their promises, in as many runs as those in Python. With a vote that isn't synced both
# searches find one that votes twice.
nodes() {
    name=$1
    shift
    "$@" >"$work/out" 2>"$work/err"
    ok "$name: replicated nodes" [ $? -eq 0 ]
    ok "$name: all small runs" diff "$work/nodes" "$work/out"
    "$@" --forget-sync >"$work/out" 2>"$work/err"
    ok "$name: a vote that isn't synced" [ $? -eq 1 ]
    for search in seeds explore; do
        ok "$name: $search finds it" grep -q "^$search: run [0-9]* failed: .*votes twice in term [0-9]*\$" "$work/out"
    done
}
printf '%s: %d runs, none breaks a promise\n' seeds 500 explore 915 >"$work/nodes"
nodes Python python3 "$top/examples/replicated.py"
if has cargo "${CC:-cc}"; then
    nodes Rust env CARGO_TARGET_DIR="$top/out/rust" CARGO_NET_OFFLINE=true cargo run --quiet --release \
        --manifest-path "$top/bindings/rust/Cargo.toml" --example replicated --
else
    skip 'replicated nodes in Rust: there is no cargo or no C compiler'
fi
finish
