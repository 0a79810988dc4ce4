#!/bin/sh
# Pictures of crashes: `./blobcrash explain` prints tests/pictures/NAME.out for each NAME.script, to the byte. For each worked
# script of tests/scripts it prints what the plain run prints, with the same status, and lines that begin with `# `, none of them
# wider than 80. pictures.py compares random scripts' pictures with the replies. The last line is `N passed, M failed`.
top=$(CDPATH='' cd -- "$(dirname -- "$0")/.." && pwd -P)
# shellcheck source=tests/counting.sh
. "$top/tests/counting.sh"
: >"$work/none"

tell() {
    if [ "$1" -eq 0 ]; then
        pass
    else
        fail "$2"
        head -n 40 "$work/shown"
    fi
}

need_program explain

for worked in "$top"/tests/pictures/*.script; do
    "${program}_explain" <"$worked" >"$work/out" && diff "${worked%.script}.out" "$work/out" >"$work/shown"
    tell $? "${worked##*/}"
done

for worked in "$top"/tests/scripts/*.script; do
    name=${worked%.script}
    wanted=0
    [ ! -e "$name.status" ] || wanted=$(cat "$name.status")
    errors=$work/none
    [ ! -e "$name.err" ] || errors=$name.err
    "${program}_explain" <"$worked" >"$work/out" 2>"$work/err"
    status=$?
    grep -v '^# ' "$work/out" >"$work/replies"
    diff "$name.out" "$work/replies" >"$work/shown" && cmp -s "$work/err" "$errors" && [ "$status" -eq "$wanted" ] &&
        ! grep -q '^# .\{79,\}' "$work/out"
    tell $? "${worked##*/}: status $status, wanted $wanted"
done

if has_python; then
    python3 "$top/tests/pictures.py" "$program" "${program}_explain" 300 >"$work/shown" 2>&1
    tell $? 'pictures of random scripts'
    add python3 "$top/tests/explained.py" store "$program" "${program}_explain" 200
else
    skip 'pictures of random scripts: no python3'
fi

"$top/blobcrash" explain <"$top/examples/FIRST.script" >/dev/full 2>"$work/shown"
[ $? -eq 1 ] && [ "$(cat "$work/shown")" = 'output failed' ]
tell $? 'a full device as output'
"$top/blobcrash" explain <&- >"$work/out" 2>"$work/shown"
[ $? -eq 1 ] && [ "$(cat "$work/shown")" = 'input failed' ] && [ ! -s "$work/out" ]
tell $? 'closed input'

# Two seconds of a processor are many times what these take. Four thousand files took 29 once, each compared with all others, and a
# distant byte 3.6, with each stretch of zeros before it.
# shellcheck disable=SC3045
within_two_seconds() { (ulimit -t 2 && exec "${program}_explain" <"$work/in" >"$work/shown"); }
{
    echo 'config write 0 1 1 2 subset'
    seq 0 3999 | awk '{ printf "open p %08x\nwrite %d 0 61\n", $1, $1 }'
    echo crash
} >"$work/in"
within_two_seconds && [ "$(grep -c '^# p ' "$work/shown")" -eq 4000 ]
tell $? 'four thousand files'
printf 'config write 0 1 1 1 prefix\nopen p 62\nwrite 0 50000000 61\ncrash\n' >"$work/in"
within_two_seconds && grep -q '^#     after .* 61$' "$work/shown"
tell $? 'a byte far beyond the end'

finish
