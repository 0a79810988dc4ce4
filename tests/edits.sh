#!/bin/sh
# edits.sh [CRATE ..]: tries the edits of crates/*/edits, or of these crates alone, each a mistake that the check must reject. `rt ci`
# doesn't try them. `./test --edits` runs this. A copy of the crates has them in must-fail, where `rt must-fail` tries them. One that is
# rejected only by a missing name of a proof file says nothing of a contract, and counts as failed. The last line is `N passed, M failed`.
top=$(CDPATH='' cd -- "$(dirname -- "$0")/.." && pwd -P)
# shellcheck source=tests/counting.sh
. "$top/tests/counting.sh"
rt=$(command -v rt) || rt=/opt/rattle/bin/rt
[ -x "$rt" ] || give_up 'the Rattle toolchain is missing'
cd "$top" || exit

if [ $# -eq 0 ]; then
    for folder in crates/*/edits; do
        [ ! -d "$folder" ] || set -- "$@" "$(basename "$(dirname "$folder")")"
    done
fi
for name; do
    [ -d "crates/$name/edits" ] || give_up "there is no crates/$name/edits"
done
[ $# -gt 0 ] || finish

# The functions are in a shell of their own: they have a folder $work too.
# shellcheck disable=SC2016
top=$top sh -c '. "$top/tools/building.sh" && copy_crates "$@"' sh "$work/copy" "$@" || give_up "the crates can't be copied"
for name; do mv "$work/copy/crates/$name/edits" "$work/copy/crates/$name/must-fail"; done
(cd "$work/copy" && exec "$rt" must-fail "$@") 2>&1 | tee "$work/log"

# told EDIT: what was said of an edit, or nothing.
told() { sed -n "s|^rt: must-fail $1: ||p" "$work/log" | tail -n 1; }
refused=0
for name; do
    for edit in "crates/$name/edits"/*; do
        of=$name/${edit##*/}
        case $(told "$of") in
            'refused, as it must be ('* | 'refused, as it must be: '*', which was rejected, was not checked'*)
                fail "$of isn't rejected by a goal"
                ;;
            'refused, as it must be'*)
                refused=$((refused + 1))
                pass
                ;;
            '') fail "$of isn't tried" ;;
            *) fail "$of isn't rejected" ;;
        esac
    done
done
echo "$own_name: $((passed + failed)) edits, $refused rejected by a goal"
finish
