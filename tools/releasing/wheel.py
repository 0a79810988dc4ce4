"""The wheel of the Python package, with the shared library in it."""

import os
import shutil
import subprocess
import sys
import zipfile

from crates import TOP
from releasing.archives import write_zip
from releasing.tree import copy, set_url

BUILD = "import sys; from setuptools.build_meta import build_wheel; print(build_wheel(sys.argv[1]))"


def python_with_setuptools():
    """Returns the first Python that can build a wheel, or None."""
    for python in (sys.executable, shutil.which("python3"), "/usr/bin/python3"):
        for modules in ("setuptools, wheel", "setuptools.command.bdist_wheel"):
            if python and subprocess.run([python, "-c", f"import {modules}"], stderr=subprocess.DEVNULL).returncode == 0:
                return python
    return None


def write_wheel(work, library, platform, folder, time, url):
    """Writes the wheel with this shared library and this address to a folder. Returns its path."""
    python = python_with_setuptools()
    if not python:
        raise ValueError("no Python here has setuptools and wheel (Debian: python3-setuptools, python3-wheel)")
    source = work / "python"
    shutil.copytree(TOP / "bindings/python", source, ignore=shutil.ignore_patterns("__pycache__", "build", "*.egg-info"))
    # setuptools adds them by their names.
    for name in ("LICENSE", "NOTICE"):
        copy(TOP / name, source / name)
    set_url(source / "pyproject.toml", url)
    environment = {**os.environ, "BLOBCRASH_LIBRARY": str(library), "BLOBCRASH_PLATFORM": platform, "PYTHONDONTWRITEBYTECODE": "1",
                   "SOURCE_DATE_EPOCH": str(int(time.timestamp()))}
    made = work / "wheel"
    made.mkdir()
    ran = subprocess.run([python, "-W", "ignore", "-c", BUILD, str(made)], cwd=source, env=environment, text=True, capture_output=True)
    if ran.returncode:
        raise ValueError(f"the wheel can't be built: {ran.stderr.strip()[-2000:]}")
    (built,) = made.glob("*.whl")
    with zipfile.ZipFile(built) as packed:
        # The list of all files comes last, as wheels have it.
        names = sorted(packed.namelist(), key=lambda name: (name.endswith("/RECORD"), name))
        write_zip({name: packed.read(name) for name in names}, folder / built.name, time)
    return folder / built.name
