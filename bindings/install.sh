#!/bin/sh
# bindings/install.sh PREFIX: installs the headers, both libraries, `blobcrash.pc`, the programs and the tools in Python with their manual
# page and completions, and the mount, if libfuse 3 is installed. PREFIX is an absolute path of letters, digits and `/._+-`, since it is
# written into `blobcrash.pc`. With DESTDIR they are put below $DESTDIR$PREFIX, for a package. Builds first what isn't built; see out/*.log.
set -eu

top=$(CDPATH='' cd -- "$(dirname -- "$0")/.." && pwd -P)
case $#:${1:-} in
1:*[!A-Za-z0-9/._+-]*) prefix= ;;
1:/*) prefix=${1%/} ;;
*) prefix= ;;
esac
case $prefix in
/*) ;;
*)
    echo "usage: bindings/install.sh PREFIX, an absolute path of letters, digits and /._+-" >&2
    exit 2
    ;;
esac
to=${DESTDIR:-}$prefix

# shellcheck source=tools/building.sh
. "$top/tools/building.sh"

for word in '' $(programs); do
    # shellcheck disable=SC2086
    "$top/blobcrash" build $word
done
sh "$top/bindings/build.sh"
work=$(mktemp -d)
tools='door.sh commands.txt check diagnose judge shrink states crash_page watch'
mount_tools='mount mountctl crash_run check_program'
if ! daemon=$(BLOBCRASH_ARCHIVE=$top/out/libblobcrash.a sh "$top/adapters/mount/build.sh" 2>"$work/said"); then
    echo "install.sh: without the mount: $(tail -n 1 "$work/said")" >&2
    mount_tools=
fi
# Other users read what is installed.
umask 022
version=$("$top/out/blobcrash" version | sed 's/^blobcrash \([0-9.]*\).*/\1/')

# put MODE FILE TO: replaces a file in one step, so that a program that has it loaded isn't disturbed.
put() {
    mkdir -p "$(dirname -- "$3")"
    cp "$2" "$3.new.$$"
    chmod "$1" "$3.new.$$"
    mv -f "$3.new.$$" "$3"
}

for name in blobcrash $(programs | sed 's/^/blobcrash_/'); do
    put 755 "$top/out/$name" "$to/libexec/blobcrash/$name"
done
put 755 "$top/bindings/launcher.sh" "$to/bin/blobcrash"
for tool in $tools $mount_tools; do
    case $tool in *.*) mode=644 ;; *) mode=755 ;; esac
    put "$mode" "$top/tools/$tool" "$to/share/blobcrash/tools/$tool"
done
for module in blobcrash/*.py blobcrash_page/*.py blobcrash_page/*.js blobcrash_page/*.css; do
    for found in "$top/bindings/python/"$module; do
        put 644 "$found" "$to/share/blobcrash/bindings/python/${module%/*}/${found##*/}"
    done
done
for header in "$top"/bindings/c/*.h; do
    # What tests share isn't installed.
    case $header in *checks.h) continue ;; esac
    put 644 "$header" "$to/include/blobcrash/${header##*/}"
done
put 644 "$top/out/libblobcrash.a" "$to/lib/libblobcrash.a"
put 755 "$top/out/libblobcrash.so" "$to/lib/libblobcrash.so.$version"
ln -sf "libblobcrash.so.$version" "$to/lib/$(soname)"
ln -sf "$(soname)" "$to/lib/libblobcrash.so"
# made KIND FILE: installs what tools/commands.py makes of the table of commands.
made() {
    python3 "$top/tools/commands.py" "$1" >"$work/made"
    put 644 "$work/made" "$to/share/$2"
}
made man man/man1/blobcrash.1
made bash bash-completion/completions/blobcrash
made zsh zsh/site-functions/_blobcrash
made fish fish/vendor_completions.d/blobcrash.fish

if [ -n "$mount_tools" ]; then
    put 755 "$daemon" "$to/libexec/blobcrash/blobcrash_mount"
    for module in "$top"/adapters/mount/*.py; do
        put 644 "$module" "$to/share/blobcrash/adapters/mount/${module##*/}"
    done
    cat >"$work/build.sh" <<'BUILD'
#!/bin/sh
# The daemon of the mount is built.
echo "$(CDPATH='' cd -- "$(dirname -- "$0")/../../../.." && pwd -P)/libexec/blobcrash/blobcrash_mount"
BUILD
    put 755 "$work/build.sh" "$to/share/blobcrash/adapters/mount/build.sh"
fi

mkdir -p "$to/lib/pkgconfig"
cat >"$to/lib/pkgconfig/blobcrash.pc" <<PC
prefix=$prefix
includedir=\${prefix}/include/blobcrash
libdir=\${prefix}/lib

Name: blobcrash
Description: An in-memory blob store that simulates crashes
Version: $version
Cflags: -I\${includedir}
Libs: -L\${libdir} -lblobcrash
PC
echo "install.sh: blobcrash $version is in $to" >&2
