#!/bin/sh
# Runs the program blobcrash, or the program or tool that the first argument names. It finds them from its own place, so that the folder
# can be moved. bindings/install.sh installs it as bin/blobcrash.
set -eu

prefix=$(dirname -- "$(dirname -- "$(readlink -f -- "$0")")")
own=blobcrash
tools=$prefix/share/blobcrash/tools
# shellcheck disable=SC2034
leaves_out=build
# shellcheck source=tools/door.sh
. "$tools/door.sh"

show_version() { "$prefix/libexec/blobcrash/blobcrash" version; }

help_of() { "$prefix/libexec/blobcrash/$1" help; }

completion() {
    case $1 in
    bash) cat "$prefix/share/bash-completion/completions/blobcrash" ;;
    zsh) cat "$prefix"/share/zsh/*/_blobcrash ;;
    fish) cat "$prefix/share/fish/vendor_completions.d/blobcrash.fish" ;;
    esac
}

build_program() { refuse 'an installed program is built already'; }

find_program() { program=$prefix/libexec/blobcrash/$1; }

# The tools find the program and the library by these.
find_tool() {
    program=$tools/$1
    case $1 in
    mount | mountctl | crash_run | check_program)
        if [ ! -x "$program" ]; then
            echo "blobcrash: the mount isn't installed (the package blobcrash-mount of a release)" >&2
            exit 127
        fi
        ;;
    *) need_python "\`$1\`" ;;
    esac
    : "${BLOBCRASH:=$prefix/libexec/blobcrash/blobcrash}"
    if [ -z "${BLOBCRASH_LIBRARY:-}" ]; then
        for library in "$prefix"/lib/libblobcrash.so.* "$prefix"/lib/*/libblobcrash.so.*; do
            [ ! -f "$library" ] || BLOBCRASH_LIBRARY=$library
        done
    fi
    export BLOBCRASH ${BLOBCRASH_LIBRARY:+BLOBCRASH_LIBRARY}
}

door "$@"
