"""The folder of a release: what bindings/install.sh installs, and the Rust crate, examples, pages and licences beside it."""

import os
import re
import shutil
import subprocess
from pathlib import Path

from crates import TOP, crates_in
from releasing.archives import set_modes
from releasing.needs import toolchain_tool

# Distributions have libfuse 3 by different names, so that it is linked in.
FUSE_LIBS = "-Wl,-Bstatic -lfuse3 -Wl,-Bdynamic -lpthread -ldl"
# Its licence, as Debian has it.
FUSE_LICENCE = ("/usr/share/doc/libfuse3-dev/copyright", "/usr/share/common-licenses/LGPL-2.1")
# The address of the project in what describes packages, until the maker of a release gives one.
NO_URL = "https://blobcrash.invalid"
# What a user copies and changes, below share/doc/blobcrash/examples.
C_EXAMPLES = ("first.c", "first_files.c", "log.c", "explore_log.c", "files.c", "files_faults.c", "files_checks.h",
              "memory_checks.h", "explore_files.c")


def install(work):
    """Installs into a new folder, and returns the part of it that is /usr on the target. The mount's daemon is built without what a debugger
    reads, which has paths."""
    environment = {**os.environ, "DESTDIR": str(work / "installed"), "BLOBCRASH_PROVED": "1",
                   "OUT": str(work / "mount"), "CFLAGS": "-g0", "FUSE_LIBS": FUSE_LIBS}
    subprocess.run(["sh", TOP / "bindings/install.sh", "/usr"], env=environment, check=True)
    return work / "installed/usr"


def strip(kit, *files):
    """Removes from programs and shared libraries what no loader reads."""
    for file in files:
        toolchain_tool(kit, "llvm-strip", "--strip-unneeded", "--remove-section=.comment", file)


def copy(source, target):
    target.parent.mkdir(parents=True, exist_ok=True)
    ignored = shutil.ignore_patterns("__pycache__", "target", "Cargo.lock")
    shutil.copytree(source, target, ignore=ignored) if source.is_dir() else shutil.copy(source, target)


def add_rust(tree, library):
    """Adds the Rust crate, which links the static library that `lib` in it is a link to."""
    crate = tree / "share/blobcrash/rust"
    for name in ("Cargo.toml", "build.rs", "src", "examples", "proptest"):
        copy(TOP / "bindings/rust" / name, crate / name)
    (crate / "lib").mkdir()
    target = os.path.relpath(tree / library, crate / "lib")
    (crate / "lib/libblobcrash.a").symlink_to(target)


def add_documents(tree):
    """Adds the pages and the examples."""
    documents = tree / "share/doc/blobcrash"
    for name in ("README.md", "CHANGELOG.md", "docs"):
        copy(TOP / name, documents / name)
    copy(TOP / "examples", documents / "examples")
    for name in C_EXAMPLES:
        copy(TOP / "bindings/c" / name, documents / "examples/c" / name)
    # The licence of libfuse wants that a user can link the mount with another one.
    for source in sorted([*(TOP / "adapters/mount").glob("*.[ch]"), *(TOP / "adapters/common").glob("record.[ch]")]):
        copy(source, documents / "mount" / source.name)


def linked_crates(kit):
    """Returns the names of the crates of this repository that the programs and the library link, and those of the toolchain."""
    crates = crates_in(TOP)
    roots = [it for it in crates.values() if it.name == "blob_c" or it.name.split("_")[0] == "blobcrash"]
    own = {crate.name: crate for root in roots for crate in [root, *root.below]}
    todo, theirs = ["std", *(name for it in own.values() for name in it.libraries if name not in crates)], set()
    while todo:
        name = todo.pop()
        if name not in theirs:
            theirs.add(name)
            todo += re.findall(r"^dep (\w+)$", (kit / f"rlibs/{name}.rlib/format").read_text(encoding="utf-8"), re.M)
    return sorted(own), sorted(theirs)


def add_licences(tree, kit):
    """Adds the licence, and those of the toolchain's crates that are linked in."""
    documents = tree / "share/doc/blobcrash"
    for name in ("LICENSE", "NOTICE"):
        copy(TOP / name, documents / name)
    for name in linked_crates(kit)[1]:
        for file in sorted((kit / "rattle" / name).glob("LICENSE*")):
            copy(file, documents / "licenses" / name / file.name)
    for file in map(Path, FUSE_LICENCE):
        if file.exists():
            copy(file, documents / "licenses/libfuse3" / file.name)


def binaries(tree):
    """Returns the programs and shared libraries of a folder."""
    return sorted([*(tree / "libexec/blobcrash").iterdir(), *(it for it in tree.rglob("*.so*") if not it.is_symlink())])


def set_url(file, url):
    """Gives a file that describes a package the address of the project."""
    file.write_text(file.read_text(encoding="utf-8").replace(NO_URL, url), encoding="utf-8")


def make(kit, work, url):
    """Makes the folder of a release."""
    tree = install(work)
    strip(kit, *binaries(tree))
    add_rust(tree, "lib/libblobcrash.a")
    set_url(tree / "share/blobcrash/rust/Cargo.toml", url)
    add_documents(tree)
    add_licences(tree, kit)
    set_modes(tree)
    return tree


def make_movable(tree):
    """Changes the file for pkg-config so that it finds the folder wherever it is."""
    file = tree / "lib/pkgconfig/blobcrash.pc"
    file.write_text(re.sub(r"(?m)^prefix=.*", "prefix=${pcfiledir}/../..", file.read_text(encoding="utf-8")), encoding="utf-8")
