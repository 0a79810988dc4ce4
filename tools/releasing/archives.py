"""Archives whose bytes depend on their files alone: sorted, owned by root, of one time, without paths."""

import gzip
import hashlib
import io
import lzma
import os
import subprocess
import tarfile
import zipfile


def files_in(folder):
    """Returns the paths of all files, links and folders below a folder, sorted, relative to it."""
    found = []
    for at, folders, files in os.walk(folder):
        found += [os.path.relpath(os.path.join(at, name), folder) for name in folders + files]
    return sorted(found)


def sum_of(file):
    """Returns the SHA-256 of a file."""
    with open(file, "rb") as opened:
        return hashlib.sha256(opened.read()).hexdigest()


def set_modes(folder):
    """Gives each file and folder the mode of its kind, and only programs that of a program."""
    for path in [".", *files_in(folder)]:
        path = os.path.join(folder, path)
        if not os.path.islink(path):
            runs = os.path.isdir(path) or os.stat(path).st_mode & 0o100
            os.chmod(path, 0o755 if runs else 0o644)


def write_tar(folder, top, file, time):
    """Writes a folder as FILE, a .tar.xz whose paths begin with `top`."""

    def plain(member):
        member.uid = member.gid = 0
        member.uname = member.gname = "root"
        member.mtime = time
        return member

    with lzma.open(file, "wb", preset=6) as packed, tarfile.open(fileobj=packed, mode="w", format=tarfile.GNU_FORMAT) as tar:
        for path in [".", *files_in(folder)]:
            tar.add(os.path.join(folder, path), os.path.normpath(os.path.join(top, path)), recursive=False, filter=plain)


def write_zip(files, file, time):
    """Writes FILE, a zip archive, with these files: a dictionary from paths to bytes, in its order."""
    with zipfile.ZipFile(file, "w", zipfile.ZIP_DEFLATED) as packed:
        for path, data in files.items():
            member = zipfile.ZipInfo(path, time.timetuple()[:6])
            member.compress_type = zipfile.ZIP_DEFLATED
            member.create_system = 3
            member.external_attr = (0o100755 if path.endswith(".so") else 0o100644) << 16
            packed.writestr(member, data)


def gzipped(text):
    """Returns a text as the bytes of a .gz without a name and a time."""
    packed = io.BytesIO()
    with gzip.GzipFile(filename="", mode="wb", fileobj=packed, compresslevel=9, mtime=0) as file:
        file.write(text.encode())
    return packed.getvalue()


def write_deb(folder, file, time):
    """Writes FILE, a Debian package, of a folder with its DEBIAN/control. One thread packs, since several make other bytes."""
    for path in [".", *files_in(folder)]:
        os.utime(os.path.join(folder, path), (time, time), follow_symlinks=False)
    words = ["dpkg-deb", "--root-owner-group", "-Zxz", "--threads-max=1", "--build", folder, file]
    subprocess.run(words, check=True, stdout=subprocess.DEVNULL, env={**os.environ, "SOURCE_DATE_EPOCH": str(time)})
