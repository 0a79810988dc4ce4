"""The Debian packages: the programs, the mount, the shared library, and what programs in C and Rust are built with."""

import hashlib
import shutil
import textwrap
from dataclasses import dataclass, field
from pathlib import Path
from typing import Dict

from releasing.archives import files_in, gzipped, set_modes, write_deb
from releasing.needs import glibc_of, names_of
from releasing.tree import binaries

LIBRARIES = "lib/x86_64-linux-gnu"
SUMMARY = "in-memory blob store that simulates crashes"
ABOUT = """An in-memory store for tests of crash recovery. It can fail any call, and a crash keeps a random subset of the bytes that were
not synced, drawn from a seed. What a crash may leave is proved."""
COPYRIGHT = """Format: https://www.debian.org/doc/packaging-manuals/copyright-format/1.0/
Upstream-Name: blobcrash
Comment: The licences of the libraries that are linked in are the files
 /usr/share/doc/blobcrash/licenses/CRATE/LICENSE* of the package blobcrash.

Files: *
Copyright: 2026 The Zofemiru developers
License: Apache-2.0
Comment: A port of the storage layer of commonware-runtime and of its tests
 (https://crates.io/crates/commonware-runtime, MIT OR Apache-2.0, by the authors
 of the Commonware monorepo), taken under the Apache License, Version 2.0.

License: Apache-2.0
 On Debian systems, the complete text of the Apache License, Version 2.0, is in
 /usr/share/common-licenses/Apache-2.0.
"""


@dataclass
class Package:
    """A package: its files are in `folder`, its other control files in `control`."""

    name: str
    about: str
    fields: Dict[str, str]
    folder: Path
    control: Dict[str, str] = field(default_factory=dict)

    def put(self, tree, *paths):
        """Moves files and folders of the tree into the package."""
        for path in paths:
            target = self.folder / "usr" / path
            target.parent.mkdir(parents=True, exist_ok=True)
            shutil.move(tree / path, target)

    def document(self, version, commit):
        """Adds the licence, and a changelog that says where to read what changed."""
        documents = self.folder / "usr/share/doc" / self.name
        documents.mkdir(parents=True, exist_ok=True)
        (documents / "copyright").write_text(COPYRIGHT, encoding="utf-8")
        entry = f"blobcrash ({version}) unstable; urgency=medium\n\n  * What changed is in CHANGELOG.md of the package blobcrash.\n\n" \
                f" -- {commit.author}  {commit.time:%a, %d %b %Y %H:%M:%S +0000}\n"
        (documents / "changelog.gz").write_bytes(gzipped(entry))

    def write_control(self, version, author, url):
        """Writes the folder DEBIAN, with the size and the sums of the files."""
        all_paths = files_in(self.folder)
        files = [path for path in all_paths if (self.folder / path).is_file() and not (self.folder / path).is_symlink()]
        size = sum(-(-(self.folder / path).stat().st_size // 1024) for path in files) + len(all_paths) - len(files)
        about = textwrap.fill(" ".join(f"{ABOUT} {self.about}".split()), 78, initial_indent=" ", subsequent_indent=" ")
        source = {} if self.name == "blobcrash" else {"Source": "blobcrash"}
        lines = {"Package": self.name, **source, "Version": version, "Architecture": "amd64", "Maintainer": author,
                 "Installed-Size": size, "Priority": "optional", "Homepage": url, **self.fields}
        sums = (f"{hashlib.md5((self.folder / path).read_bytes()).hexdigest()}  {path}\n" for path in files)
        texts = {"control": "".join(f"{key}: {value}\n" for key, value in lines.items()) + about + "\n", "md5sums": "".join(sums), **self.control}
        (self.folder / "DEBIAN").mkdir()
        for name, text in texts.items():
            (self.folder / "DEBIAN" / name).write_text(text, encoding="utf-8")


def move_libraries(tree):
    """Moves the libraries to the folder of this architecture, and changes the files that name them."""
    (tree / "lib").rename(tree / "libraries")
    (tree / "lib").mkdir()
    (tree / "libraries").rename(tree / LIBRARIES)
    file = tree / LIBRARIES / "pkgconfig/blobcrash.pc"
    file.write_text(file.read_text(encoding="utf-8").replace("libdir=${prefix}/lib\n", f"libdir=${{prefix}}/{LIBRARIES}\n"), encoding="utf-8")
    link = tree / "share/blobcrash/rust/lib/libblobcrash.a"
    link.unlink()
    link.symlink_to(f"../../../../{LIBRARIES}/libblobcrash.a")


def library_package(kit, tree, version, soname, folder):
    """Makes the package of the shared library."""
    name = soname.replace(".so.", "")
    file = tree / LIBRARIES / f"libblobcrash.so.{version}"
    fields = {"Section": "libs", "Depends": needs_of(kit, file), "Multi-Arch": "same",
              "Description": f"{SUMMARY} - library"}
    symbols = "".join(f" {symbol}@Base {version}\n" for symbol in names_of(kit, file))
    control = {"shlibs": f"libblobcrash {soname.rpartition('.so.')[2]} {name} (>= {version})\n", "triggers": "activate-noawait ldconfig\n",
               "symbols": f"{soname} {name} (>= {version})\n* Build-Depends-Package: libblobcrash-dev\n{symbols}"}
    package = Package(name, "This package has the shared library.", fields, folder / name, control)
    package.put(tree, f"{LIBRARIES}/{soname}", f"{LIBRARIES}/{file.name}")
    # As Debian has it.
    (package.folder / "usr" / LIBRARIES / file.name).chmod(0o644)
    return package


def development_package(tree, version, library, folder):
    """Makes the package with what programs are built with, out of what the package of the library has left."""
    name = "libblobcrash-dev"
    fields = {"Section": "libdevel", "Depends": f"{library} (= {version})", "Suggests": "blobcrash, pkg-config", "Multi-Arch": "same",
              "Description": f"{SUMMARY} - development files"}
    about = "This package has the headers, the static library, a file for pkg-config and the crate for Rust."
    package = Package(name, about, fields, folder / name)
    (tree / "share/doc" / name / "examples").mkdir(parents=True)
    shutil.move(tree / "share/doc/blobcrash/examples/c", tree / "share/doc" / name / "examples/c")
    package.put(tree, "include", LIBRARIES, "share/blobcrash/rust", f"share/doc/{name}")
    (tree / "lib").rmdir()
    return package


def needs_of(kit, *files):
    """Returns the C library that these files need, as a dependency."""
    return "libc6 (>= {}.{})".format(*glibc_of(kit, *files)[:2])


def mount_package(kit, tree, version, folder):
    """Makes the package of the mount. Its daemon needs a newer C library than the programs do."""
    name, daemon = "blobcrash-mount", "libexec/blobcrash/blobcrash_mount"
    needs = f"blobcrash (= {version}), {needs_of(kit, tree / daemon)}, python3:any (>= 3.8)"
    fields = {"Section": "devel", "Depends": needs, "Recommends": "fuse3", "Description": f"{SUMMARY} - mount"}
    about = "This package has a mount for any program, and what takes programs through power losses on it."
    package = Package(name, about, fields, folder / name)
    documents = tree / "share/doc" / name
    (documents / "licenses").mkdir(parents=True)
    for path in ("mount", "licenses/libfuse3"):
        if (tree / "share/doc/blobcrash" / path).exists():
            shutil.move(tree / "share/doc/blobcrash" / path, documents / path)
    tools = [f"share/blobcrash/tools/{tool}" for tool in ("mount", "mountctl", "crash_run", "check_program")]
    package.put(tree, daemon, *tools, "share/blobcrash/adapters", f"share/doc/{name}")
    return package


def program_package(kit, tree, version, library, folder):
    """Makes the package of the programs, out of what the other packages have left."""
    page = tree / "share/man/man1/blobcrash.1"
    page.with_name("blobcrash.1.gz").write_bytes(gzipped(page.read_text(encoding="utf-8")))
    page.unlink()
    (tree / "share/zsh/site-functions").rename(tree / "share/zsh/vendor-completions")
    # Debian has the licence already.
    (tree / "share/doc/blobcrash/LICENSE").unlink()
    needs = f"{library} (= {version}), {needs_of(kit, *binaries(tree))}, python3:any (>= 3.8)"
    fields = {"Section": "devel", "Depends": needs, "Suggests": "blobcrash-mount", "Description": SUMMARY}
    about = "This package has the programs, which run scripts, and the tools in Python."
    package = Package("blobcrash", about, fields, folder / "blobcrash")
    package.put(tree, *sorted(it.name for it in tree.iterdir()))
    return package


def write_packages(kit, tree, version, soname, commit, url, work, folder):
    """Writes the packages of a tree, which they take apart."""
    move_libraries(tree)
    library = library_package(kit, tree, version, soname, work)
    packages = [library, development_package(tree, version, library.name, work)]
    # A draft may have no mount.
    if (tree / "libexec/blobcrash/blobcrash_mount").exists():
        packages.append(mount_package(kit, tree, version, work))
    for package in (*packages, program_package(kit, tree, version, library.name, work)):
        package.document(version, commit)
        package.write_control(version, commit.author, url)
        set_modes(package.folder)
        write_deb(package.folder, folder / f"{package.name}_{version}_amd64.deb", commit.seconds)
