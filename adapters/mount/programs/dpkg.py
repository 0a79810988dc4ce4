#!/usr/bin/env python3
"""dpkg: dpkg.py prepare|work|check. An operation installs a version of one of three packages, each with two files."""

import glob
import os

from driver import DAMAGED, HELD, LOST, MOUNT, SCRATCH, last_acknowledged, main, run, value, work

PACKAGES = 3
# Images of containers set force-unsafe-io, by which it doesn't sync files.
DPKG = ["dpkg", "--no-force-unsafe-io", f"--root={MOUNT}", "--force-not-root", "--force-script-chrootless", "--log=/dev/null"]


def prepare():
    """Makes an empty database."""
    for folder in ("info", "updates", "parts"):
        os.makedirs(f"{MOUNT}/var/lib/dpkg/{folder}")
    for name in ("status", "available"):
        with open(f"{MOUNT}/var/lib/dpkg/{name}", "w", encoding="ascii"):
            pass


def install(number):
    """Builds a package with the value of an operation, and installs it."""
    name, built = f"p{number % PACKAGES}", os.path.join(SCRATCH, "package")
    os.makedirs(f"{built}/DEBIAN", exist_ok=True)
    for path in glob.glob(f"{built}/file*"):
        os.unlink(path)
    for path, text in (("DEBIAN/control", f"Package: {name}\nVersion: {number}\nArchitecture: all\nMaintainer: n <n@localhost>\nDescription: n\n"),
                       (f"file-{name}", value(number)), (f"file-{name}-too", value(number))):
        with open(f"{built}/{path}", "w", encoding="ascii") as file:
            file.write(text)
    return run("dpkg-deb", "-b", built, f"{built}.deb") is not None and run(*DPKG, "-i", f"{built}.deb") is not None


def check():
    """Each package whose installation was acknowledged is installed, with both of its files, unless the next operation replaces it."""
    last = last_acknowledged()
    if run(*DPKG, "--audit") is None:
        return DAMAGED
    for number in range(max(1, last - PACKAGES + 1), last + 1):
        name = f"p{number % PACKAGES}"
        said = run("dpkg-query", f"--admindir={MOUNT}/var/lib/dpkg", "-W", "-f", "${Version} ${db:Status-Status}", name) or ""
        for path in (f"{MOUNT}/file-{name}", f"{MOUNT}/file-{name}-too"):
            text = open(path, encoding="ascii", errors="replace").read() if os.path.exists(path) else ""
            if text not in (value(number), value(number + PACKAGES) if number + PACKAGES == last + 1 else None):
                print(f"damaged: {path} has {text[:30]!r}, of {len(text)} bytes; dpkg has {said}, and {last} operations are acknowledged")
                return DAMAGED
        if said != f"{number} installed" and number + PACKAGES != last + 1:
            print(f"lost: {name} is {said}, after operation {number}")
            return LOST
    return HELD


if __name__ == "__main__":
    main({"prepare": prepare, "work": lambda: work(install, 15), "check": check})
