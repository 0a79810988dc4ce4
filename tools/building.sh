# shellcheck shell=sh disable=SC2154
# Sourced by ./blobcrash, tools/built, tools/prove, test and bindings/build.sh: the crates below a crate, whether a built file is
# current, one build of a file at a time, and what builds keep. `top` is the top of the repository.

# How many versions of a file out/kept has at most. They are used after a change of branch and back.
kept_most=4

# soname: the name by which programs load the shared library. Until 1.0 a minor version may change its functions.
soname() {
    sed -n 's/^const VERSION: &str = "blobcrash \([0-9]*\.[0-9]*\)\..*/libblobcrash.so.\1/p' "$top/crates/blobcrash/src/main.rt"
}

# version: the release and the toolchain that it is proved with, as the program prints them.
version() {
    sed -n 's/^const VERSION: &str = "\(.*\)";$/\1/p' "$top/crates/blobcrash/src/main.rt"
}

# version_here: as `version`, if the program here is proved, and else that it isn't.
version_here() {
    if is_built "$top/out/blobcrash" blobcrash; then version; else version | sed 's/, proved with /, not proved yet with /'; fi
}

# help_of NAME: the help of the program NAME, as it prints it.
help_of() {
    sed -n '/^const HELP: &str = "/,/";$/ { s/^const HELP: &str = "//; s/";$//; p; }' "$top/crates/$1/src/main.rt"
}

# programs: the programs beside blobcrash, a word each: that of WORD is the crate blobcrash_WORD.
programs() {
    for main in "$top"/crates/blobcrash_*/src/main.rt; do
        word=${main#"$top"/crates/blobcrash_}
        echo "${word%/src/main.rt}"
    done
}

# is_private FOLDER: whether FOLDER is a folder of this user, which no other user may read or write.
is_private() {
    [ -n "$(find "$1" -prune -type d -user "$(id -u)" -perm 700 2>/dev/null)" ] && [ -w "$1" ]
}

# cache_folder: prints the folder of this user that has what all clones share: proved libraries and unproved programs. A build takes
# them from there as they are, so it isn't used if another user could have written to it. Its place is outside the repository, since
# `rt ci` refuses sources that it doesn't check.
cache_folder() {
    case ${XDG_CACHE_HOME:-} in
    /*) usual=$XDG_CACHE_HOME/blobcrash ;;
    *) usual=${HOME:+$HOME/.cache/blobcrash} ;;
    esac
    other=${TMPDIR:-/tmp}/blobcrash-$(id -u)
    for folder in ${usual:+"$usual"} "$other"; do
        mkdir -p -- "${folder%/*}" 2>/dev/null || true
        mkdir -m 700 -- "$folder" 2>/dev/null || true
        if is_private "$folder"; then
            [ "$folder" != "$other" ] || echo "blobcrash: ${usual:-the home folder} can't be used; $folder is used instead" >&2
            echo "$folder"
            return
        fi
    done
    echo "blobcrash: ${usual:+$usual and }$other can't be used: not a folder of this user alone, with mode 0700" >&2
    return 1
}

# crates_of TOP NAME ..: the lines of TOP/crates.txt of these crates and of all crates below them, in the file's order.
crates_of() {
    list=$1/crates.txt
    shift
    awk -v names="$*" '
        { line = $0; sub(/#.*/, ""); colon = index($0, ":") }
        colon {
            split(substr($0, 1, colon - 1), words, " ")
            order[++lines] = words[1]; text[words[1]] = line; below[words[1]] = substr($0, colon + 1)
        }
        END {
            count = split(names, needed, " ")
            for (i = 1; i <= count; i++) {
                if (needed[i] in is_needed) continue
                is_needed[needed[i]]
                libraries = split(below[needed[i]], library, " ")
                for (j = 1; j <= libraries; j++) if (library[j] in text) needed[++count] = library[j]
            }
            for (i = 1; i <= lines; i++) if (order[i] in is_needed) print text[order[i]]
        }' "$list"
}

# names_of: reads lines of crates.txt, and prints the names of their crates.
names_of() { sed 's/[ :].*//'; }

# proof_seconds: reads lines of crates.txt, and prints the processor seconds that the proofs of these crates take by
# tests/budget.txt. A crate without a line there counts as 100.
proof_seconds() {
    names_of | {
        [ ! -f "$top/tests/budget.txt" ] || sed 's/#.*//; s/^/budget /' "$top/tests/budget.txt"
        cat
    } | awk '$1 == "budget" { budget[$2] = $3; next } { all += ($1 in budget) ? budget[$1] : 100 } END { print all + 0 }'
}

# about_minutes SECONDS: estimates how long proofs of that many processor seconds take here. Crates wait for those below them,
# so four processors are only 2.8 times as fast as one.
about_minutes() {
    case $(nproc 2>/dev/null || echo 1) in 1) speed=1 ;; 2 | 3) speed=1.7 ;; *) speed=2.8 ;; esac
    echo "$1 $speed" | awk '{ print int($1 / 60 / $2 + 1) }'
}

# copy_crates FOLDER NAME ..: makes FOLDER a repository of these crates and all below them, without build results and must-fail
# edits. Its .git is empty: the toolchain takes the folder that has a .git as the top of a repository.
copy_crates() {
    to=$1
    shift
    mkdir -p "$to/.git" "$to/crates"
    crates_of "$top" "$@" >"$to/crates.txt"
    cp "$top/HANDLES" "$to/HANDLES"
    names_of <"$to/crates.txt" | while read -r needed; do
        mkdir "$to/crates/$needed"
        for part in "$top/crates/$needed"/*; do
            case ${part##*/} in out | must-fail) ;; *) cp -R "$part" "$to/crates/$needed/" ;; esac
        done
    done
}

# sum_of TOP NAME: prints a checksum of the sources of the crate and of all crates below it, and of their lines of crates.txt.
sum_of() (
    cd "$1" || exit
    lines=$(crates_of . "$2")
    folders=
    for needed in $(echo "$lines" | names_of); do
        for part in src specs proofs; do
            [ ! -d "crates/$needed/$part" ] || folders="$folders crates/$needed/$part"
        done
    done
    # shellcheck disable=SC2086
    { echo "$lines"; find HANDLES $folders -type f | LC_ALL=C sort | tr '\n' '\0' | xargs -0 sha256sum; } | sha256sum |
        sed 's/ .*//'
)

# unproved_name TOP NAME KIT: the name of what is compiled from these sources without a proof, by the toolchain KIT and these tools.
unproved_name() {
    echo "$2.$({ sum_of "$1" "$2" && cat "$3/KIT-ID" "$top"/tools/unprov* 2>/dev/null; } | sha256sum | cut -c 1-64)"
}

# find_archive: sets archive to the path of the library for C: the one that BLOBCRASH_ARCHIVE names, or one of the current sources. With
# BLOBCRASH_PROVED that is the proved one, which is built first, else the proved one if it is current, or one without a proof.
find_archive() {
    archive=${BLOBCRASH_ARCHIVE:-}
    [ -z "$archive" ] || return 0
    if [ -n "${BLOBCRASH_PROVED:-}" ]; then
        run sh "$top/bindings/build.sh" >&2 || return
        archive=$top/out/libblobcrash.a
        return
    fi
    work=$(mktemp -d) || return
    run sh "$top/bindings/build.sh" --unproved >"$work/folder" || return
    archive=$(cat "$work/folder")/libblobcrash.a
    clean_up
}

# is_linked FILE ARCHIVE SOURCE ..: whether FILE was linked with the library ARCHIVE, by FILE.archive, and is newer than that and than all
# files of the sources but those in Python.
is_linked() {
    linked=$1
    shift
    [ -f "$linked" ] && [ "$(cat "$linked.archive" 2>/dev/null)" = "$1" ] && [ -z "$(find "$@" -type f ! -name '*.py' -newer "$linked" | head -n 1)" ]
}

# is_built FILE NAME: whether FILE exists and was built from the current sources of the crate NAME. FILE.sum has the checksum of
# the sources that it was built from. Its modification time is that of the last comparison: the checksum is computed again only if
# a source changed after it. If out/kept has a version that was built from the current sources, that becomes FILE.
is_built() {
    [ -f "$1" ] && [ -f "$1.sum" ] || return 1
    [ -n "$(cd "$top" && find crates.txt HANDLES crates \( -name out -o -name must-fail \) -prune -o \
        -cnewer "$1.sum" -print | head -n 1)" ] || return 0
    # Its time is before the sources are read, so that a change during the reading is seen next time. A folder that can't be written
    # is compared each time.
    looked=$1.looked.$$
    cp "$1.sum" "$looked" 2>/dev/null || looked=
    sum=$(sum_of "$top" "$2")
    if [ "$sum" = "$(cat "$1.sum")" ]; then
        [ -z "$looked" ] || mv -f "$looked" "$1.sum"
        return
    fi
    [ -n "$looked" ] || return
    kept=$top/out/kept/${1##*/}.$sum
    back=$1.back.$$
    is_back=1
    [ ! -f "$kept" ] || { cp "$kept" "$back" && place "$1" "$back" "$sum" "$looked" && is_back=0; }
    rm -f "$looked" "$back"
    return "$is_back"
}

# place FILE NEW SUM BEGAN: renames NEW to FILE. NEW was built from sources with the checksum SUM, which were read after BEGAN was
# written.
place() {
    echo "$3" >"$2.sum" && touch -r "$4" "$2.sum" && mkdir -p "$top/out/kept" || return
    mv -f "$2" "$1" && mv -f "$2.sum" "$1.sum" && ln -f "$1" "$top/out/kept/${1##*/}.$3" || return
    # shellcheck disable=SC2012
    ls -t "$top/out/kept/${1##*/}".* | sed "1,${kept_most}d" | while read -r old; do rm -f "$old"; done
}

# What is stopped and removed when the script exits: a process, a folder, a lock. A process that has just been forked may miss a signal.
runs=
work=
held=
clean_up() {
    if [ "$runs" = new ]; then
        runs=${!:-}
        [ "$runs" != "$last" ] || runs=
    fi
    [ -z "$runs" ] || while kill "$runs" 2>/dev/null; do sleep 0.1; done
    [ -z "$work" ] || rm -rf "$work"
    [ -z "$held" ] || rmdir "$held"
    work=
    held=
}
# A second signal doesn't end this.
trap 'trap "" HUP INT TERM; clean_up' EXIT
trap 'trap "" HUP INT TERM; exit 125' HUP INT TERM

# run COMMAND ..: runs it, and stops it if this script is stopped.
run() {
    status=0
    # A signal may come before the new process is known.
    last=${!:-}
    runs=new
    "$@" &
    runs=$!
    wait "$runs" || status=$?
    runs=
    return "$status"
}

# prove_copy NAME CRATE ..: proves these crates in the copy $work/copy. The log is out/NAME.log. If something isn't proved, its last
# lines go to standard error.
prove_copy() {
    log=$top/out/$1.log
    shift
    work=$(mktemp -d) || return
    status=0
    run "$top/tools/prove" "$work/copy" "$@" 9>&- || status=$?
    cp "$work/copy/log" "$log" 2>/dev/null || : >"$log"
    [ "$status" -eq 0 ] || grep -v ': proved$' "$log" | tail -n 60 >&2
    return "$status"
}

# lock NAME: waits until no other process builds NAME. Start processes with `9>&-` under it, so that they don't hold the lock.
lock() {
    if command -v flock >/dev/null 2>&1; then
        exec 9>"$top/out/$1.lock"
        flock 9
        return
    fi
    waits_for=$top/out/$1.lock.d
    if ! mkdir "$waits_for" 2>/dev/null; then
        echo "$1: waiting for another build; if there is none, remove $waits_for" >&2
        until mkdir "$waits_for" 2>/dev/null; do sleep 1; done
    fi
    held=$waits_for
}

unlock() {
    if [ -n "$held" ]; then
        rmdir "$held"
        held=
    else
        exec 9>&-
    fi
}
