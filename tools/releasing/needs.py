"""What a built file needs of the machine that it runs on."""

import re
import subprocess

# The lowest tag of wheels that has a number: PEP 600.
LOWEST = (2, 17)


def toolchain_tool(kit, tool, *words):
    """Runs a tool of the toolchain's clang. Returns what it prints."""
    ran = subprocess.run([tool, *map(str, words)], executable=kit / "toolchain/bin/clang", stdout=subprocess.PIPE, text=True, check=True)
    return ran.stdout


def symbols_of(kit, file):
    """Returns the symbols that a program or shared library takes from others, each with its version as `read@GLIBC_2.2.5`."""
    return sorted(toolchain_tool(kit, "llvm-nm", "-D", "--undefined-only", "-j", file).split())


def names_of(kit, library):
    """Returns the names that a shared library exports."""
    return sorted(toolchain_tool(kit, "llvm-nm", "-D", "--defined-only", "-j", library).split())


def is_unproved(file):
    """Returns whether a library, or what is linked with it, was compiled without a proof: tools/unproved adds a symbol to it."""
    return b"blobcrash_unproved" in file.read_bytes()


def glibc_of(kit, *files):
    """Returns the lowest version of glibc that has all symbols which these files take from it."""
    found = [re.search(r"@+GLIBC_([0-9.]+)$", symbol) for file in files for symbol in symbols_of(kit, file)]
    return max((tuple(map(int, it[1].split("."))) for it in found if it), default=(2, 2, 5))


def libraries_of(kit, file):
    """Returns the shared libraries that the loader looks for, sorted."""
    said = toolchain_tool(kit, "llvm-readelf", "--dynamic-table", file)
    return sorted(re.findall(r"\(NEEDED\) +Shared library: \[(.*)\]", said))


def wheel_platform(kit, library):
    """Returns the platform tag of a wheel with this shared library. It may take symbols from the C library alone."""
    others = set(libraries_of(kit, library)) - {"libc.so.6"}
    if others:
        raise ValueError(f"{library} needs {', '.join(others)}, which a wheel can't take from every distribution")
    return "manylinux_{}_{}_x86_64".format(*max(glibc_of(kit, library)[:2], LOWEST))


def paths_in(file, *paths):
    """Returns which of these paths of the machine that built a file are in it."""
    data = file.read_bytes()
    return [path for path in paths if path.encode() in data]
