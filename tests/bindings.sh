#!/bin/sh
# Tests the library and its clients in C, Rust and Python: each worked script has the program's replies, line by line and as a whole; each
# client's log recovers what it acknowledged, and its planted bug is found; the arguments of tests/hostile.tsv are passed on unchanged or
# refused; uses that would hide a bug of the code under test are refused; a thousand random lists keep fixed bytes durable after each call.
# The C clients run under the address sanitizer, a session between threads and forks of one under helgrind. What needs a missing tool is
# skipped, which fails under `CI=true`. The last line is `N passed, M failed`.
top=$(CDPATH='' cd -- "$(dirname -- "$0")/.." && pwd -P)
# shellcheck source=tests/counting.sh
. "$top/tests/counting.sh"

sh "$top/bindings/build.sh" || give_up "the library can't be built"
need_program explain files
explain=${program}_explain
files=${program}_files

# answers NAME COMMAND..: the client's replies, messages and exit statuses are the program's, script by script.
answers() {
    name=$1
    shift
    for script in "$top"/tests/scripts/*.script; do
        want=${script%.script}
        "$@" <"$script" >"$work/out" 2>"$work/err"
        status=$?
        [ -f "$want.err" ] && errors=$want.err || errors=/dev/null
        wanted=0
        [ -f "$want.status" ] && wanted=$(cat "$want.status")
        cmp -s "$work/out" "$want.out" && [ "$(cat "$work/err")" = "$(cat "$errors")" ] && [ "$status" -eq "$wanted" ]
        tell $? "$name: $(basename "$script"): status $status, wanted $wanted"
    done
}

# explains NAME COMMAND..: what the client writes of each worked script is what `blobcrash explain` prints, with its messages and statuses.
explains() {
    name=$1
    shift
    for script in "$top"/tests/scripts/*.script "$top"/tests/pictures/*.script; do
        "$explain" <"$script" >"$work/want" 2>"$work/want.err"
        wanted=$?
        "$@" --explain <"$script" >"$work/out" 2>"$work/err"
        status=$?
        cmp -s "$work/out" "$work/want" && cmp -s "$work/err" "$work/want.err" && [ "$status" -eq "$wanted" ]
        tell $? "$name, explained: $(basename "$script"): status $status, wanted $wanted"
    done
}

# lives NAME COMMAND..: the client's log loses nothing; without its sync it loses a record, which is found.
lives() {
    name=$1
    shift
    "$@" >"$work/out" 2>"$work/err"
    tell $? "$name: the log"
    grep -q 'none was lost' "$work/out"
    tell $? "$name: what the log says"
    "$@" forget-sync >"$work/out" 2>"$work/err"
    [ $? -eq 1 ] && grep -q 'records were acknowledged, and [0-9]* are left of them' "$work/out"
    tell $? "$name: the log that forgets a sync"
}

# replays NAME COMMAND: the calls on files by functions return what they should, and `blobcrash files` makes those of their script again.
replays() {
    "$2" "$work/files.script" >"$work/out" 2>"$work/err"
    tell $? "$1: what each function of files returns"
    "$files" <"$work/files.script" >"$work/err" 2>&1 && [ "$(tail -n 1 "$work/err")" = "$(cat "$work/out")" ]
    tell $? "$1: the script of calls on files"
}

compiler=${CC:-cc}
if has "$compiler"; then
    build="$compiler -std=c11 -Wall -Wextra -Werror -pedantic -O2 -I$top/bindings/c"
    for program in first first_files calls typed numbers handles facts fork files_calls lines log hostile; do
        $build -o "$work/$program" "$top/bindings/c/$program.c" "$top/out/libblobcrash.a" >"$work/out" 2>"$work/err"
        tell $? "C: $program.c"
    done
    "$work/first" >"$work/out" 2>"$work/err"
    [ "$(cat "$work/out")" = '6 of 6 bytes' ]
    tell $? 'C: the example of the page'
    "$work/first_files" >"$work/out" 2>"$work/err"
    [ "$(cat "$work/out")" = 'the name is kept' ]
    tell $? 'C: the example of the page on files'
    "$work/calls" >"$work/out" 2>"$work/err"
    tell $? 'C: what each function answers'
    "$work/typed" >"$work/out" 2>"$work/err"
    tell $? 'C: what each typed call returns'
    "$work/numbers" >"$work/out" 2>"$work/err"
    tell $? 'C: what each number of the header does'
    "$work/handles" >"$work/out" 2>"$work/err"
    tell $? 'C: numbers and memory after many closes'
    "$work/facts" >"$work/out" 2>"$work/err"
    tell $? 'C: effects, lines, words and power'
    "$work/fork" >"$work/out" 2>"$work/err"
    tell $? 'C: forks by a script'
    replays C "$work/files_calls"
    "$work/hostile" "$top/tests/hostile.tsv" >"$work/out" 2>"$work/err"
    tell $? 'C: hostile arguments'
    # The linker passes the allocations of the program and of the library on to the program, which refuses some.
    refusing() {
        name=$1
        shift
        $build "$@" "$top/bindings/c/$name.c" "$top/out/libblobcrash.a" -Wl,--wrap=malloc,--wrap=realloc
    }
    refusing files -o "$work/files" >"$work/out" 2>"$work/err" && "$work/files" >"$work/out" 2>"$work/err"
    tell $? 'C: what each call on files returns'
    refusing fork_session -o "$work/fork_session" >"$work/out" 2>"$work/err" && "$work/fork_session" >"$work/out" 2>"$work/err"
    tell $? 'C: forks of a session'
    refusing fork_files -o "$work/fork_files" >"$work/out" 2>"$work/err" && "$work/fork_files" >"$work/out" 2>"$work/err"
    tell $? 'C: forks of files'
    $build -o "$work/faults" "$top/bindings/c/files_faults.c" "$top/out/libblobcrash.a" >"$work/out" 2>"$work/err" &&
        "$work/faults" >"$work/out" 2>"$work/err"
    tell $? 'C: files that fail'
    answers 'C, line by line' "$work/lines"
    answers 'C, at once' "$work/lines" --whole
    explains C "$work/lines"
    lives C "$work/log"
    "$work/log" forget-sync "$work/lost.script" >"$work/out" 2>"$work/err"
    "$work/lines" <"$work/lost.script" >"$work/out" 2>"$work/err"
    # Each call has a reply, and the last recovery read the whole log.
    [ $? -eq 0 ] && [ "$(wc -l <"$work/out")" -eq "$(grep -cv '^seed ' "$work/lost.script")" ] &&
        awk '/^opened/ { size = $3 } /^bytes/ { read = $2 == "-" ? 0 : length($2) / 2 } END { exit size != read }' "$work/out"
    tell $? 'C: the script of the log that forgets a sync'
    for cxx in g++ clang++; do
        if ! has "$cxx"; then
            leave_out "C++: there is no $cxx"
            continue
        fi
        strict="-Wall -Wextra -Werror -pedantic -I$top/bindings/c"
        # shellcheck disable=SC2086
        $cxx -std=c++17 $strict -o "$work/cpp" "$top/bindings/c/explore_cpp.cc" "$top/out/libblobcrash.a" >"$work/out" 2>"$work/err"
        tell $? "C++ ($cxx): the headers"
        add "$work/cpp"
        # shellcheck disable=SC2086
        $cxx -x c++ -std=c++17 $strict -o "$work/files_calls_cpp" "$top/bindings/c/files_calls.c" -x none "$top/out/libblobcrash.a" \
            >"$work/out" 2>"$work/err"
        tell $? "C++ ($cxx): files_calls.c"
        replays "C++ ($cxx)" "$work/files_calls_cpp"
        printf '#include "blobcrash_files_calls.h"\n#include "explore_files.h"\n#include "blobcrash_calls.h"\n' >"$work/headers.cc"
        # shellcheck disable=SC2086
        $cxx -std=c++11 $strict -fsyntax-only "$work/headers.cc" >"$work/out" 2>"$work/err"
        tell $? "C++11 ($cxx): the headers"
    done
    # A session may move to another thread because the library has no state per thread and calls no other function of the C library.
    if has nm readelf && [ -f "$top/out/libblobcrash.so" ]; then
        nm -D --undefined-only "$top/out/libblobcrash.so" | awk '$1 == "U" { print $2 }' | sed 's/@.*//' | sort -u >"$work/out"
        [ -s "$work/out" ] && ! grep -qvxE 'malloc|realloc|free|memcpy|memmove|memset|memcmp' "$work/out" &&
            ! readelf -SW "$top/out/libblobcrash.so" | grep -qE '\.(tdata|tbss)'
        tell $? 'C: what the library calls, and that it has no state'
    else
        skip 'C: what the library calls: there is no nm, or no shared library'
    fi
    if has valgrind && $build -pthread -o "$work/threads" "$top/bindings/c/threads.c" "$top/out/libblobcrash.a" 2>"$work/err"; then
        valgrind --tool=helgrind --quiet --error-exitcode=3 "$work/threads" >"$work/out" 2>"$work/err"
        tell $? 'C: a session that is handed from thread to thread, and forks of one and of files'
    else
        skip 'C: a session that is handed from thread to thread: there is no valgrind, or no threads'
    fi
    # The library and its clients under the address sanitizer, which also reports leaks.
    if $build -g -fsanitize=address,undefined -o "$work/lines.sanitized" "$top/bindings/c/lines.c" \
        "$top/out/libblobcrash.a" 2>"$work/err" && "$work/lines.sanitized" </dev/null 2>"$work/err"; then
        for program in calls typed numbers handles facts fork files_calls log hostile; do
            $build -g -fsanitize=address,undefined -o "$work/$program.sanitized" "$top/bindings/c/$program.c" \
                "$top/out/libblobcrash.a"
        done
        "$work/calls.sanitized" >"$work/out" 2>"$work/err"
        tell $? 'C, sanitized: what each function answers'
        "$work/typed.sanitized" >"$work/out" 2>"$work/err"
        tell $? 'C, sanitized: what each typed call returns'
        "$work/numbers.sanitized" >"$work/out" 2>"$work/err"
        tell $? 'C, sanitized: what each number of the header does'
        "$work/handles.sanitized" >"$work/out" 2>"$work/err"
        tell $? 'C, sanitized: numbers and memory after many closes'
        "$work/facts.sanitized" >"$work/out" 2>"$work/err"
        tell $? 'C, sanitized: effects, lines, words and power'
        "$work/fork.sanitized" >"$work/out" 2>"$work/err"
        tell $? 'C, sanitized: forks by a script'
        replays 'C, sanitized' "$work/files_calls.sanitized"
        "$work/hostile.sanitized" "$top/tests/hostile.tsv" >"$work/out" 2>"$work/err"
        tell $? 'C, sanitized: hostile arguments'
        for program in files fork_session fork_files; do
            refusing "$program" -g -fsanitize=address,undefined -o "$work/$program.sanitized"
        done
        "$work/files.sanitized" >"$work/out" 2>"$work/err"
        tell $? 'C, sanitized: what each call on files returns'
        "$work/fork_session.sanitized" >"$work/out" 2>"$work/err"
        tell $? 'C, sanitized: forks of a session'
        "$work/fork_files.sanitized" >"$work/out" 2>"$work/err"
        tell $? 'C, sanitized: forks of files'
        answers 'C, sanitized' "$work/lines.sanitized"
        answers 'C, at once, sanitized' "$work/lines.sanitized" --whole
        explains 'C, sanitized' "$work/lines.sanitized"
        lives 'C, sanitized' "$work/log.sanitized"
    else
        skip "the C client under the address sanitizer, which $compiler can't build or start"
    fi
else
    skip "C: there is no $compiler"
fi

if has cargo "$compiler"; then
    run_cargo() { (cd "$top/bindings/rust" && CARGO_TARGET_DIR=$top/out/rust CARGO_NET_OFFLINE=true cargo --quiet "$@"); }
    run_cargo test >"$work/out" 2>"$work/err"
    tell $? 'Rust: cargo test'
    run_cargo check --no-default-features --all-targets >"$work/out" 2>"$work/err"
    tell $? 'Rust: cargo check without features'
    run_cargo build --release --examples >"$work/out" 2>"$work/err"
    tell $? 'Rust: cargo build --examples'
    # Of six bytes each is kept or lost, and only all six are the record.
    [ "$("$top/out/rust/release/examples/first" 2>&1)" = '63 of 64 outcomes lose a part of it' ]
    tell $? 'Rust: the first example'
    answers 'Rust, line by line' "$top/out/rust/release/examples/lines"
    answers 'Rust, at once' "$top/out/rust/release/examples/lines" --whole
    explains Rust "$top/out/rust/release/examples/lines"
    # The crates that Debian has. The folder is copied since cargo writes a lock file to it.
    if [ -n "$(ls -d /usr/share/cargo/registry/proptest-1.* 2>/dev/null)" ]; then
        cp -R "$top/bindings/rust" "$work/rust"
        (cd "$work/rust/proptest" && BLOBCRASH_LIB_DIR=$top/out CARGO_TARGET_DIR=$top/out/rust cargo --quiet test --offline \
            --config 'source.crates-io.replace-with="debian"' --config 'source.debian.directory="/usr/share/cargo/registry"') \
            >"$work/out" 2>"$work/err"
        tell $? 'Rust: the strategy of proptest'
    else
        skip 'Rust: the strategy of proptest: librust-proptest+std-dev is missing'
    fi
    if cargo clippy --version >/dev/null 2>&1; then
        run_cargo clippy --all-targets -- -D warnings >"$work/out" 2>"$work/err"
        tell $? 'Rust: cargo clippy'
    else
        skip 'Rust: there is no cargo clippy'
    fi
    RUSTDOCFLAGS='-D warnings' run_cargo doc >"$work/out" 2>"$work/err"
    tell $? 'Rust: cargo doc'
else
    skip "Rust: there is no cargo or no $compiler"
fi

if has_python && [ -f "$top/out/libblobcrash.so" ]; then
    # Itself, where `python3` is a script that looks for it.
    python=$(python3 -c 'import sys; print(sys.executable)')
    run_python() { PYTHONDONTWRITEBYTECODE=1 "$python" "$@"; }
    answers 'Python, line by line' run_python "$top/bindings/python/lines.py"
    answers 'Python, at once' run_python "$top/bindings/python/lines.py" --whole
    explains Python run_python "$top/bindings/python/lines.py"
    run_python "$top/tests/pictures.py" "$top/out/blobcrash" "$explain" 100 library >"$work/out" 2>"$work/err"
    tell $? 'Python: pictures of random scripts'
    lives Python run_python "$top/bindings/python/log.py"
    add run_python "$top/tests/fixed_bytes.py" --library 1000
    for test in hostile traps; do
        run_python "$top/tests/$test.py" library >"$work/out" 2>"$work/err"
        tell $? "Python: $test.py"
    done
    run_python "$top/tests/c_numbers.py" >"$work/out" 2>"$work/err"
    tell $? 'Python: the numbers of the header'
    export BLOBCRASH="$top/out/blobcrash"
    answers 'Python, by a pipe' run_python "$top/bindings/python/lines.py" --pipe
    for test in hostile traps; do
        run_python "$top/tests/$test.py" pipe >"$work/out" 2>"$work/err"
        tell $? "Python, by a pipe: $test.py"
    done
    run_python "$top/tests/two_ways.py" >"$work/out" 2>"$work/err"
    tell $? 'Python: the two ways'
    run_python "$top/tests/forks.py" >"$work/out" 2>"$work/err"
    tell $? 'Python: forks of a store'
    run_python "$top/tests/file_forks.py" >"$work/out" 2>"$work/err"
    tell $? 'Python: forks of files'
else
    skip "Python: there is no Python 3.8 or later, or no $compiler, which makes its library"
fi

finish
