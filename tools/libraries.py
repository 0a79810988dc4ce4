"""The built libraries that builds keep and take, for tools/prove and tools/verdict."""

import contextlib
import hashlib
import os
import shutil
import subprocess
import sys
import time
from pathlib import Path

from crates import TOP, shell

# How many versions of a library are kept, at least, unless none has used them for a month.
KEPT_MOST = 2
OLD_SECONDS = 30 * 24 * 3600
# Another build may be using a version that was used since. A build says so again whenever a crate is proved.
KEPT_SECONDS = 3600


def version_of(crate, kit):
    """Returns a name for the library that these sources give over these versions of the libraries below."""
    total = hashlib.sha256((kit / "KIT-ID").read_bytes() if (kit / "KIT-ID").exists() else b"")
    total.update(repr((crate.line, [(below.name, below.version) for below in crate.below])).encode())
    for part in ("src", "specs", "proofs"):
        for file in sorted((crate.folder / part).rglob("*")):
            if file.is_file():
                total.update(repr((str(file.relative_to(crate.folder)), file.read_bytes())).encode())
    return total.hexdigest()


def new_version():
    """Returns a name that no other built library has."""
    return f"{time.time_ns()} {os.getpid()}"


class Gate:
    """The libraries that the last whole run of `./test` left in crates/*/out/rlib: it notes the checksum of each crate's sources before."""

    def __init__(self, top=TOP):
        self.top, self.sums, self.span = top, {}, (0, 0)
        with contextlib.suppress(OSError, ValueError):
            self.span = [(top / "out" / name).stat().st_mtime for name in ("gate.began", "test/rt ci/status")]
            self.sums = dict(line.split() for line in (top / "out/gate.sums").read_text(encoding="utf-8").splitlines())

    def library(self, crate):
        """Returns the folder of the crate's library if it was built in that run, from these sources, over the libraries that this build
        takes for those below. Otherwise returns None."""
        folder = self.top / "crates" / crate.name / "out/rlib"
        built = folder / f"{crate.name}.rlib"
        try:
            began, ended = self.span
            # Other commands leave a stamp, or come after that run.
            if crate.name not in self.sums or (folder / "stamp").exists() or not began <= built.stat().st_mtime <= ended:
                return None
            if shell("sum_of", crate.folder.parent.parent, crate.name).strip() != self.sums[crate.name]:
                return None
            return folder if all(self.is_equal(below) for below in crate.below) else None
        except OSError:
            return None


    def is_equal(self, crate):
        """Returns whether the library that this build takes has the checksums of the one of that run."""
        path = f"out/rlib/{crate.name}.rlib/format"
        return (crate.folder / path).read_bytes() == (self.top / "crates" / crate.name / path).read_bytes()


def link_or_copy(source, target):
    """Gives a file of the gate a second name, since the gate replaces such a file and never changes it."""
    try:
        os.link(source, target)
    except OSError:
        shutil.copy2(source, target)


class Kept:
    """The libraries that builds keep: FOLDER/CRATE/VERSION. Without a folder none is kept."""

    def __init__(self, folder, kit, gate=None):
        self.folder, self.kit, self.gate = folder, kit, gate
        # Those that this build uses.
        self.used = []

    def place(self, crate):
        return self.folder / crate.name / version_of(crate, self.kit)

    def take(self, crate):
        """Takes a library that an earlier build kept, or the gate left. Returns whether there is one."""
        if not self.folder or crate.is_program or any(below.version is None for below in crate.below):
            return False
        kept = self.place(crate)
        try:
            # A library that is built again from the same sources needn't be the same to the byte, so those above it have other versions.
            if self.gate and not kept.exists():
                left = self.gate.library(crate)
                if left:
                    self.store(left, kept, new_version(), link_or_copy)
            version = (kept / "built").read_text(encoding="utf-8")
            os.utime(kept)
            (crate.folder / "out").mkdir(exist_ok=True)
            (crate.folder / "out/rlib").symlink_to(kept)
        except OSError:
            return False
        crate.version = version
        self.used.append(kept)
        return True

    def store(self, built, kept, version, copy=shutil.copy2):
        """Stores a built library. Raises an OSError if that isn't possible, unless another build has stored one meanwhile."""
        new = kept.with_suffix(f".{os.getpid()}")
        try:
            kept.parent.mkdir(parents=True, exist_ok=True)
            shutil.copytree(built, new, copy_function=copy)
            (new / "built").write_text(version, encoding="utf-8")
            new.rename(kept)
        except (OSError, shutil.Error):
            shutil.rmtree(new, ignore_errors=True)
            if not kept.exists():
                raise

    def keep(self, crate):
        """Keeps a library that was just built, unless there is no room. If another build kept one meanwhile, that is used from here on."""
        crate.version = new_version()
        if not self.folder:
            return
        built = crate.folder / "out/rlib"
        try:
            self.store(built, self.place(crate), crate.version)
        except OSError as error:
            print(f"prove: {crate.name} isn't kept for later builds: {error}", file=sys.stderr)
            return
        own = built.rename(built.with_name("own"))
        if self.take(crate):
            shutil.rmtree(own)
        else:
            own.rename(built)

    def touch(self):
        """Says that this build still uses its libraries."""
        for kept in self.used:
            with contextlib.suppress(OSError):
                os.utime(kept)

    def remove_old(self):
        """Removes old versions that no build has used for a while."""
        for crate in self.folder.glob("*") if self.folder else ():
            ages = sorted((time.time() - it.stat().st_mtime, it) for it in crate.glob("*"))
            for count, (age, version) in enumerate(ages):
                if age > (KEPT_SECONDS if count >= KEPT_MOST else OLD_SECONDS):
                    # In one step, so that no build finds a part of it.
                    gone = version.rename(version.with_name(f"gone.{os.getpid()}"))
                    shutil.rmtree(gone, ignore_errors=True)


def shared_folder():
    """Returns the folder of libraries that clones share, or None if there is none."""
    try:
        return Path(shell("cache_folder").strip()) / "libraries"
    except subprocess.CalledProcessError:
        print("prove: no library is kept for later builds", file=sys.stderr)
        return None
