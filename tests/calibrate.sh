#!/bin/sh
# calibrate.sh [FS] [SECONDS]: what ext4, XFS and btrfs of this kernel leave after power losses lies in the sets of their profiles: random
# programs from a fixed seed for SECONDS (20) on each file system, and those of tests/calibrating/found. A state that one file system
# leaves is outside the profile of another, so the comparison can fail. --coverage prints what was worked out by hand. Skipped, with
# CI=true too, without root, loop devices, or a file system of the kernel: no package brings them. The last line is `N passed, M failed`.
top=$(CDPATH='' cd -- "$(dirname -- "$0")/.." && pwd -P)
# shellcheck source=tests/counting.sh
. "$top/tests/counting.sh"
PATH=$PATH:/usr/sbin:/sbin
kinds=${1:-ext4 ext4-nodelalloc xfs btrfs}
seconds=${2:-20}

# calibrate FS WHAT OPTION ..: counts whether all states are inside. Returns 1 if something is missing.
calibrate() {
    kind=$1
    what=$2
    shift 2
    "$top/tools/calibrate" "$kind" "$@" >"$work/out" 2>"$work/err"
    status=$?
    if [ "$status" -eq 3 ]; then
        leave_out "$kind: $(tail -n 1 "$work/err")"
        return 1
    fi
    sed -n 's/^# //p' "$work/out"
    tell "$status" "$kind: a state of $what is outside of its profile"
    return 0
}

# told FS PROFILE PROGRAM STEPS STATE: counts whether a state that FS leaves is in the set of its profile, and outside that of PROFILE.
told() {
    printf '%s\t1\t%s\t%s\t0\t%s\n' "$1" "$3" "$4" "$5" >"$work/state"
    "$top/tools/calibrate" "$1" --compare "$work/state" >"$work/out" 2>"$work/err"
    tell "$?" "$1: a state that it leaves is outside of its profile"
    outside "$1" "$2" "$1 isn't told from $2"
}

# outside FS PROFILE WHY: counts whether the state that is saved is outside of PROFILE.
outside() {
    "$top/tools/calibrate" "$1" --profile "$2" --compare "$work/state" >"$work/out" 2>"$work/err"
    if [ $? -eq 1 ] && grep -q '^OUTSIDE' "$work/out"; then pass; else tell 1 "$3"; fi
}

# fault FS PROGRAM STEPS STATE: counts whether a state that FS leaves by a fault (docs/FILES.md) is reported.
fault() {
    printf '%s\t1\t%s\t%s\t0\t%s\n' "$1" "$2" "$3" "$4" >"$work/state"
    outside "$1" "$1" "$1: half of $2 is in its profile"
}

# covered FS PROGRAM CALLS STATE ..: counts whether --coverage prints what was worked out by hand for these states of a program.
covered() {
    type=$1
    program=$2
    calls=$3
    shift 3
    cat >"$work/wanted"
    for state in "$@"; do printf '%s\t1\t%s\t%s\t0\t%s\n' "$type" "$program" "$calls" "$state"; done >"$work/state"
    "$top/tools/calibrate" "$type" --compare "$work/state" --coverage 2>"$work/err" | sed 1d >"$work/out"
    ok "the coverage of $program" diff "$work/wanted" "$work/out"
}

if [ "$(id -u)" -ne 0 ]; then
    leave_out 'real file systems: only root can mount them'
    finish
fi
if ! has_python; then
    skip 'there is no Python 3.8 or later'
    finish
fi
mkdir "$work/temporary"
TMPDIR=$work/temporary
export TMPDIR
for kind in $kinds; do
    type=${kind%-*}
    if ! has "mkfs.$type"; then
        skip "$kind: there is no mkfs.$type (Debian: e2fsprogs, xfsprogs, btrfs-progs)"
        continue
    fi
    found=$top/tests/calibrating/found
    calibrate "$kind" 'a program that was found' --program "$found/$type.txt" --runs 3 || continue
    calibrate "$kind" 'a program of the mount' --program "$found/programs.txt" --runs 2
    calibrate "$kind" 'a random program' --seconds "$seconds"
    case $kind in
    ext4)
        told ext4 xfs 'f = A -- t = BB, rename t f, ~commit' 2 'f=00'
        covered ext4 'f = AA -- append BB to f' 1 f=AA f=AAB <<'END'
never | f = AA -- append BB to f | f=AA0 | 1 sectors, 8 zeros
never | f = AA -- append BB to f | f=AA00 | 8 zeros
never | f = AA -- append BB to f | f=AA0B | 1 sectors, 8 holes
never | f = AA -- append BB to f | f=AAB0 | 1 sectors, 8 zeros
never | f = AA -- append BB to f | f=AABB | none
# 1 programs: 2 of 7 states were left
# rule 1 sectors: 1 of 4 states that need it
# rule 8 holes: 0 of 1 states that need it
# rule 8 zeros: 0 of 3 states that need it
END
        ;;
    xfs) told xfs ext4 'f = A -- t = BB, rename t f, ~commit' 2 'f=' ;;
    btrfs)
        told btrfs xfs 'mkdir e -- rename e d, create d/a, fsync d/a' 3 'e/ e/a='
        fault btrfs 'mkdir d, f = A -- create d/g, link f d/h, exchange d/h d/g, rename f k, fsync /' 5 'd/ d/g=A k=A'
        fault btrfs 'mkdir d, mkdir e, d/b = AA, c = AA -- e/b = BB, fdatasync e/b, rename e/b d/b, rename d/b c, ~sync' 4 'c=BB d/ d/b=AA e/'
        fault btrfs 'b = A -- create c, fsync c, rename b c, ~sync' 3 'b=A'
        fault btrfs 'a = A, link a b, c = B -- rename c b, fsync a' 2 'a=A c=B'
        fault btrfs 'mkdir e -- rename e d, fsync d, rmdir d, ~sync' 3 'e/'
        fault btrfs 'b = AAA -- link b a, truncate a, append B to b, fsync /' 4 'a=A b=A'
        covered btrfs '-- create a, create b, create c, fsync c' 4 'b= c=' <<'END'
never |  -- create a, create b, create c, fsync c | a= b= c= | none
never |  -- create a, create b, create c, fsync c | a= c= | 5 edits, 7 sync
never |  -- create a, create b, create c, fsync c | c= | 7 sync
# 1 programs: 1 of 4 states were left
# rule 5 edits: 1 of 2 states that need it
# rule 5 logged: 1 of 1 states that need it
# rule 7 sync: 1 of 3 states that need it
END
        ;;
    esac
done
ok 'no temporary folder is left' [ -z "$(ls "$TMPDIR")" ]
finish
