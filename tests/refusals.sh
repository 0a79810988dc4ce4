#!/bin/sh
# Refuses allocations, and makes reads and writes fail, by a library that is preloaded.
#
# Each public call that allocates is tried with each of its allocations refused, alone and with all later ones. Each call that
# doesn't is tried with every allocation refused. Then whole scripts run with each allocation of the program refused.
# The last line is `N passed, M failed`.
top=$(CDPATH='' cd -- "$(dirname -- "$0")/.." && pwd -P)
# shellcheck source=tests/counting.sh
. "$top/tests/counting.sh"
# In a file system in memory if there is one, since thousands of small files are written.
rmdir "$work"
work=$(mktemp -d -p /dev/shm 2>/dev/null) || work=$(mktemp -d)
if ! has cc; then
    skip 'refused memory and failing streams: they need cc'
    finish
fi
library=$work/refuse.so

# wrong TEXT: counts a failure, and shows what the last run printed.
wrong() {
    fail "$1"
    echo "  out: $(head -c 300 "$work/out")"
    echo "  err: $(head -c 300 "$work/err")"
}

cc -shared -fPIC -O2 -o "$library" "$top/tests/refusals/refuse.c" || give_up "the library can't be built"
need_program explain
tried=$top/crates/test_rows/data/refusals.calls
calls=$("$top/tools/built" test_rows) || give_up "test_rows can't be built"

# under NAME=VALUE.. COMMAND..: runs it with the library, and leaves its status, what it printed and the library's counts.
under() {
    rm -f "$work/counts"
    env LD_PRELOAD="$library" REFUSE_LOG="$work/counts" "$@" >"$work/out" 2>"$work/err"
    status=$?
    counted=x
    refused=x
    [ ! -e "$work/counts" ] || read -r counted refused <"$work/counts"
}

# The counts of a call's line `NAME: N refused, M compared`.
tally() {
    refusals=$(sed -n 's/.*: \([0-9]*\) refused, \([0-9]*\) compared$/\1/p' "$work/out")
    comparisons=$(sed -n 's/.*: \([0-9]*\) refused, \([0-9]*\) compared$/\2/p' "$work/out")
}

# sweep CALL [REFUSE_ON=1]: refuses each request of the call in turn, until it makes so few that none is refused.
sweep() {
    name=$1
    n=0
    while :; do
        n=$((n + 1))
        under REFUSE="$n" ${2:-} "$calls" try "$tried" "$name"
        tally
        if [ "$status" -ne 0 ] || [ -z "$refusals" ]; then
            wrong "'$name' with request $n refused${2:+, and all after it}"
            return
        fi
        [ "$refusals" -ne 0 ] || break
        all_refusals=$((all_refusals + refusals))
        all_comparisons=$((all_comparisons + comparisons))
    done
    if [ "$n" -eq 1 ]; then
        wrong "'$name' takes memory, and no request was refused"
    else
        pass
    fi
}

all_refusals=0
all_comparisons=0
growing=0
steady=0

sed -n 's/^grows //p' "$tried" >"$work/growing"
while IFS= read -r name; do
    growing=$((growing + 1))
    sweep "$name"
    sweep "$name" REFUSE_ON=1
done <"$work/growing"

sed -n 's/^steady //p' "$tried" >"$work/steady"
while IFS= read -r name; do
    steady=$((steady + 1))
    under REFUSE=1 REFUSE_ON=1 "$calls" try "$tried" "$name"
    tally
    if [ "$status" -eq 0 ] && [ "$refusals" = 0 ] && [ "$counted" = 0 ]; then
        pass
    else
        wrong "'$name' takes no memory"
    fi
done <"$work/steady"
echo "refusals.sh: $growing calls that take memory: $all_refusals refusals, $all_comparisons comparisons;" \
    "$steady calls that take none"

# is_call: whether a line of a script has a reply.
is_call='!/^ *(#|image |words |$)/'

# without K: the replies of the script without its Kth call.
without() {
    if [ ! -e "$work/without.$1" ]; then
        awk -v k="$1" "$is_call"' { n++; if (n == k) next } { print }' "$script" >"$work/shorter"
        "$program" <"$work/shorter" >"$work/without.$1"
    fi
    cat "$work/without.$1"
}

# is_front: whether what the last run printed is the first of the right replies, on whole lines.
is_front() {
    head -n "$(wc -l <"$work/out")" "$work/right" | cmp -s - "$work/out"
}

# is_one_refused: whether one call was refused, and the others have the replies that they have without it.
is_one_refused() {
    k=$(awk 'NR == FNR { right[NR] = $0; next } $0 != right[FNR] { print FNR; exit }' "$work/right" "$work/out")
    [ -n "$k" ] && [ "$(sed -n "${k}p" "$work/out")" = 'error Memory' ] || return 1
    without "$k" >"$work/wanted"
    sed "${k}d" "$work/out" | cmp -s - "$work/wanted"
}

# Each request of the program refused in turn, from its first to its last.
refuse_script() {
    script=$1
    rm -f "$work"/without.*
    "$program" <"$script" >"$work/right"
    ended=0
    told=0
    n=0
    while :; do
        n=$((n + 1))
        under REFUSE="$n" REFUSE_ALL=1 "$program" <"$script"
        [ "$refused" = 1 ] || break
        if [ "$status" -eq 3 ] && [ "$(cat "$work/err")" = 'no memory' ] && is_front; then
            ended=$((ended + 1))
        elif [ "$status" -eq 0 ] && [ ! -s "$work/err" ] && is_one_refused; then
            told=$((told + 1))
        else
            wrong "$script with request $n refused: status $status"
        fi
    done
    if [ "$status" -eq 0 ] && [ "$refused" = 0 ] && cmp -s "$work/right" "$work/out" && [ "$told" -gt 0 ]; then
        pass
    else
        wrong "$script with no request refused: status $status"
    fi
    echo "refusals.sh: $(basename "$script"): $ended refusals ended it, $told were a call's"
}

for script in "$top"/tests/refusals/*.script "$top/examples/FIRST.script"; do
    refuse_script "$script"
done

# is_one_explained: whether one call of `explain` was refused, and the others have the replies that they have without it. Its remarks
# aren't compared.
is_one_explained() {
    mv "$work/right" "$work/explained"
    "$program" <"$script" >"$work/right"
    grep -v '^# ' "$work/out" >"$work/replies"
    mv "$work/replies" "$work/out"
    is_one_refused && was=0 || was=1
    mv "$work/explained" "$work/right"
    return "$was"
}

# `explain`: each request of the program refused in turn. Either it ends the program, which has written whole lines of the right
# output from its start; or the output is that of a run without a refusal, with its pictures; or the reply to one call is the refusal.
refuse_explain() {
    script=$1
    rm -f "$work"/without.*
    "${program}_explain" <"$script" >"$work/right"
    ended=0
    same=0
    told=0
    n=0
    while :; do
        n=$((n + 1))
        under REFUSE="$n" REFUSE_ALL=1 "${program}_explain" <"$script"
        [ "$refused" = 1 ] || break
        if [ "$status" -eq 3 ] && [ "$(cat "$work/err")" = 'no memory' ] && is_front; then
            ended=$((ended + 1))
        elif [ "$status" -eq 0 ] && [ ! -s "$work/err" ] && cmp -s "$work/right" "$work/out"; then
            same=$((same + 1))
        elif [ "$status" -eq 0 ] && [ ! -s "$work/err" ] && is_one_explained; then
            told=$((told + 1))
        else
            fail "explain of $script with request $n refused: status $status"
        fi
    done
    if [ "$status" -eq 0 ] && [ "$refused" = 0 ] && cmp -s "$work/right" "$work/out" && [ "$ended" -gt 0 ]; then
        pass
    else
        fail "explain of $script with no request refused: status $status"
    fi
    echo "refusals.sh: explain $(basename "$script"): $ended refusals ended it, $told are replies, $same changed nothing"
}

refuse_explain "$top/tests/refusals/kept.script"

# A read fails at each place: the replies to the lines that were read whole stand.
fail_reads() {
    script=$1
    "$program" <"$script" >"$work/right"
    # for each place, how many calls are whole before it
    LC_ALL=C awk 'BEGIN { n = 0 } { for (i = 0; i <= length($0); i++) print n } '"$is_call"' { n++ } END { print n }' "$script" \
        >"$work/whole"
    n=0
    while read -r whole; do
        n=$((n + 1))
        under REFUSE_SHORT=1 REFUSE_READ="$n" "$program" <"$script"
        head -n "$whole" "$work/right" >"$work/wanted"
        if [ "$status" -ne 1 ] || [ "$(cat "$work/err")" != 'input failed' ] || ! cmp -s "$work/wanted" "$work/out"; then
            wrong "$script with read $n failing: status $status"
            return
        fi
    done <"$work/whole"
    under REFUSE_SHORT=1 REFUSE_READ=$((n + 1)) "$program" <"$script"
    if [ "$status" -eq 0 ] && cmp -s "$work/right" "$work/out"; then
        pass
    else
        wrong "$script in reads of one byte: status $status"
    fi
    echo "refusals.sh: $(basename "$script"): $n failing reads"
}

# fail_writes INPUT SHORT [ARGUMENT]: makes each write fail in turn. What is printed before is a prefix of the right replies.
fail_writes() {
    input=$1
    "$program" ${3:-} <"$input" >"$work/right"
    n=0
    while :; do
        n=$((n + 1))
        under REFUSE_SHORT="$2" REFUSE_WRITE="$n" "$program" ${3:-} <"$input"
        [ "$refused" = 1 ] || break
        if [ "$status" -ne 1 ] || [ "$(cat "$work/err")" != 'output failed' ] ||
            ! head -c "$(wc -c <"$work/out")" "$work/right" | cmp -s - "$work/out"; then
            wrong "$input with write $n failing: status $status"
            return
        fi
    done
    if [ "$status" -eq 0 ] && cmp -s "$work/right" "$work/out" && [ "$n" -gt 1 ]; then
        pass
    else
        wrong "$input in writes of $2 bytes: status $status"
    fi
    echo "refusals.sh: $(basename "$input"): $((n - 1)) failing writes"
}

for script in "$top"/tests/refusals/kept.script "$top/examples/FIRST.script"; do
    fail_reads "$script"
    fail_writes "$script" 1
done

# More replies than a buffer holds, so that writes fail between calls too.
{ printf 'open p 61\nresize 0 5000\n' && yes 'read 0 0 5000' | head -n 6; } >"$work/long.script"
fail_writes "$work/long.script" 1000

# `resolve`: each request of the program refused, each read and each write failing.
printf '4357494300000007\n' >"$work/image"
printf '4357494b000100051de3\n' >"$work/refused image"
fail_resolve_reads() {
    n=0
    while :; do
        n=$((n + 1))
        under REFUSE_SHORT=1 REFUSE_READ="$n" "$program" resolve <"$work/image"
        [ "$refused" = 1 ] || break
        if [ "$status" -ne 1 ] || [ -s "$work/out" ] || [ "$(cat "$work/err")" != 'input failed' ]; then
            wrong "resolve with read $n failing: status $status"
            return
        fi
    done
    # the line has 17 bytes
    if [ "$status" -eq 0 ] && [ "$n" -eq 18 ]; then pass; else wrong "resolve in reads of one byte: status $status"; fi
}

# refuse_resolve INPUT REPLY LEAST: refuses each allocation in turn. One of the program's own ends it; one of the call's is its
# reply, and there are at least LEAST of these.
refuse_resolve() {
    n=0
    told=0
    while :; do
        n=$((n + 1))
        under REFUSE="$n" REFUSE_ALL=1 "$program" resolve <"$1"
        [ "$refused" = 1 ] || break
        if [ "$status" -eq 0 ] && [ "$(cat "$work/out")" = 'error Memory' ] && [ ! -s "$work/err" ]; then
            told=$((told + 1))
        elif [ "$status" -ne 3 ] || [ -s "$work/out" ] || [ "$(cat "$work/err")" != 'no memory' ]; then
            wrong "resolve with request $n refused: status $status"
            return
        fi
    done
    if [ "$status" -eq 0 ] && [ "$(cat "$work/out")" = "$2" ] && [ "$told" -ge "$3" ] && [ "$n" -gt 1 ]; then
        pass
    else
        wrong "resolve with no request refused: status $status, $told refusals told"
    fi
}

fail_resolve_reads
fail_writes "$work/image" 1 resolve
refuse_resolve "$work/image" 'valid 0 7 8' 0
refuse_resolve "$work/refused image" 'error BlobCorrupt image 626c6f62 truncated header: required length 12, raw length 10' 1

finish
