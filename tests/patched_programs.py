"""Unmodified programs for `patched.py`, which runs each on a real folder and on files. A program takes the path of an empty folder and
returns what it saw: results, and of an error its kind, its errno and its paths."""

import configparser
import csv
import dbm.dumb
import fcntl
import gzip
import json
import os
import pathlib
import pickle
import shelve
import shutil
import stat
import tempfile
import zipfile


def seen(root, call, *arguments, **named):
    """What a call returns or raises, with the name of the folder left out."""
    try:
        found = call(*arguments, **named)
    except Exception as error:
        paths = [getattr(error, name, None) for name in ("filename", "filename2")]
        paths = [os.fspath(path) if isinstance(path, os.PathLike) else path for path in paths]
        plain = [os.fsdecode(path).replace(root, "") if isinstance(path, (str, bytes)) else path for path in paths]
        return type(error).__name__, getattr(error, "errno", None), plain
    return found.replace(root, "") if isinstance(found, str) else found


def modes(root):
    path = root + "/f"
    for mode in ("r", "x", "w", "a", "r+", "w+", "a+", "x+", "rb", "wb", "ab", "r+b", "q", "rw", "U"):
        for buffering in (-1, 0, 1, 3):

            def use():
                with open(path, mode, buffering) as file:
                    data = "ab\n" if "b" not in mode else b"ab\n"
                    return [seen(root, getattr(file, name), *rest) for name, *rest in uses(data)] + [file.mode]

            yield mode, buffering, seen(root, use), os.path.exists(path)


def uses(data):
    return (
        ("readable",), ("writable",), ("seekable",), ("isatty",), ("tell",), ("write", data), ("tell",), ("seek", 0), ("read", 2),
        ("readline",), ("read",), ("truncate", 2), ("tell",), ("seek", 0), ("read",), ("seek", 5), ("flush",), ("write", data), ("seek", -9),
        ("readlines",), ("writelines", [data, data]),
    )  # fmt: skip


def texts(root):
    path = root + "/t"
    with open(path, "w", encoding="latin-1", newline="\r\n") as file:
        file.write("ä\nb\n")
        print("c", file=file)
    with open(path, "rb") as file:
        yield file.read()
    yield seen(root, open, path, encoding="nothing"), seen(root, lambda: open(path, encoding="ascii").read())
    with open(path, encoding="latin-1", newline="") as file:
        yield list(file), file.name == path, file.closed
    yield file.closed, seen(root, file.read)
    yield seen(root, open, path, "rb", encoding="ascii"), seen(root, open, root), seen(root, open, root, "w"), seen(root, open, path + "/x")
    with open(path, "wb", buffering=4) as file:
        file.write(b"abc")
        yield os.path.getsize(path)
        file.write(b"defgh")
        yield os.path.getsize(path)
    yield os.path.getsize(path)


def descriptors(root):
    path, flags = root + "/f", ("O_RDONLY", "O_WRONLY", "O_RDWR")
    for more in (0, os.O_CREAT | os.O_EXCL, os.O_CREAT, os.O_CREAT | os.O_TRUNC, os.O_APPEND, os.O_TRUNC, os.O_DIRECTORY, os.O_SYNC):
        for name in flags:
            fd = seen(root, os.open, path, getattr(os, name) | more)
            if not isinstance(fd, int):
                yield name, more, fd
                continue
            calls = (
                (os.write, b"abcdef"), (os.lseek, 2, 0), (os.read, 3), (os.pwrite, b"XY", 1), (os.pread, 9, 0), (os.lseek, -1, 1), (os.lseek, 0, 2),
                (os.lseek, -1, 0), (os.lseek, 0, 9), (os.ftruncate, 5), (os.ftruncate, -1), (os.fsync,), (os.fdatasync,), (os.isatty,), (os.write, b""),
                (os.get_inheritable,), (os.pread, 9, 0), (os.truncate, 4),
            )  # fmt: skip
            yield name, more, [seen(root, call, fd, *rest) for call, *rest in calls], os.fstat(fd).st_size
            other = os.dup(fd)
            os.close(fd)
            yield seen(root, os.lseek, other, 0, 1), seen(root, os.fstat, fd)[:2], seen(root, os.close, fd)
            os.close(other)
    yield [seen(root, os.open, root, getattr(os, name)) for name in flags[1:]], seen(root, os.open, root, os.O_CREAT), [
        seen(root, os.open, root + "/no/f", os.O_CREAT), seen(root, os.open, path + "/", os.O_RDONLY), seen(root, os.open, path, os.O_DIRECTORY)
    ]  # fmt: skip


def names(root):
    a, b, d = root + "/a", root + "/b", root + "/d"
    pathlib.Path(a).write_bytes(b"a")
    calls = (
        (os.mkdir, d), (os.mkdir, d), (os.mkdir, d + "/x/y"), (os.mkdir, root), (os.makedirs, d + "/p/q"), (os.makedirs, d + "/p/q"),
        (os.link, a, b), (os.link, a, b), (os.link, a, d + "/no/b"), (os.link, d, b + "2"), (os.path.samefile, a, b), (os.rename, b, d), (os.rename, d, a),
        (os.rename, a, a), (os.rename, b, d + "/b"), (os.replace, d + "/b", a), (os.replace, b + "9", a), (os.rename, d, d + "/p/z"), (os.unlink, d),
        (os.rmdir, a), (os.rmdir, d), (os.rmdir, root + "/none"), (os.remove, b), (os.readlink, a), (os.access, a, os.R_OK), (os.access, b, os.F_OK),
        (os.access, a, os.X_OK), (os.access, d, os.X_OK), (os.chmod, a, 0o644), (os.utime, a), (os.chmod, b, 1), (os.truncate, a, 3),
        (os.truncate, b, 3), (os.path.exists, d), (os.path.isfile, a), (os.path.isdir, a), (os.path.islink, a), (os.path.realpath, a), (os.path.getsize, a),
        (os.renames, d + "/p/q", root + "/n/m"), (os.removedirs, root + "/none/x"), (os.path.lexists, d), (os.mkdir, root + "/s/"), (os.rmdir, root + "/s/"),
        (os.unlink, a + "/"), (os.stat, a + "/"), (os.path.exists, root + "//a"), (os.path.exists, root + "/d/../a"), (os.path.exists, root + "/./n"),
    )  # fmt: skip
    for call, *rest in calls:
        found = seen(root, call, *rest)
        yield call.__name__, found
    yield sorted(os.listdir(root)), sorted(os.listdir(os.fsencode(root))), seen(root, os.listdir, a), seen(root, os.listdir, root + "/none")
    yield sorted((top.replace(root, ""), sorted(folders), sorted(files)) for top, folders, files in os.walk(root))
    with os.scandir(root) as entries:
        yield sorted((e.name, e.path.replace(root, ""), e.is_dir(), e.is_file(), e.is_symlink(), e.stat().st_size * e.is_file()) for e in entries)
    yield stat.S_ISDIR(os.stat(root).st_mode), stat.S_ISREG(os.lstat(a).st_mode), os.stat(a).st_ino == os.lstat(a).st_ino


def paths(root):
    top = pathlib.Path(root)
    config = top / "one" / "config.json"
    yield seen(root, config.write_text, "{}"), seen(root, config.parent.mkdir), seen(root, config.write_text, "{}"), config.read_text()
    yield config.exists(), config.is_file(), config.parent.is_dir(), config.stat().st_size, config.with_suffix(".x").exists()
    yield seen(root, config.touch), seen(root, (top / "empty").touch), seen(root, (top / "empty").touch, exist_ok=False)
    (top / "two" / "three").mkdir(parents=True)
    (top / "two" / "three" / "x.json").write_bytes(b"\0" * 9)
    yield sorted(str(p)[len(root) :] for p in top.rglob("*")), sorted(p.name for p in top.glob("*/*.json")), sorted(p.name for p in top.iterdir())
    config.rename(top / "moved")
    (top / "moved").replace(top / "empty")
    yield (top / "empty").read_bytes(), seen(root, (top / "moved").unlink), seen(root, (top / "two").rmdir), seen(root, (top / "two" / "four").rmdir)
    with (top / "empty").open("a") as file:
        file.write("more")
    yield (top / "empty").read_text(), (top / "empty").samefile(top / "empty"), str((top / "two" / ".." / "empty").resolve()).replace(root, "")


def trees(root):
    os.makedirs(root + "/a/b")
    for name, data in (("/a/f", b"12"), ("/a/b/g", b"345" * 9999)):
        with open(root + name, "wb") as file:
            file.write(data)
    yield shutil.copytree(root + "/a", root + "/c").replace(root, ""), sorted(os.listdir(root + "/c")), os.path.getsize(root + "/c/b/g")
    for copy in (shutil.copyfile, shutil.copy, shutil.copy2):
        yield copy(root + "/a/f", root + "/x").replace(root, ""), open(root + "/x", "rb").read()
    yield seen(root, shutil.copyfile, root + "/a/none", root + "/x"), shutil.move(root + "/x", root + "/a/b").replace(root, "")
    yield seen(root, shutil.rmtree, root + "/none"), shutil.rmtree(root + "/a"), sorted(os.listdir(root)), seen(root, shutil.copytree, root + "/c", root)
    with tempfile.TemporaryDirectory() as real:
        yield bool(shutil.move(root + "/c", real + "/c")), open(real + "/c/f").read(), os.listdir(root)
        yield bool(shutil.copytree(real + "/c", root + "/back")), sorted(os.listdir(root + "/back")), os.path.getsize(root + "/back/b/g")
        yield seen(root, os.rename, real + "/c/f", root + "/f")[:2] if not root.startswith("/tmp") else ("OSError", 18)


def folders(root):
    os.makedirs(root + "/d/e")
    top = os.open(root + "/d", os.O_RDONLY | os.O_DIRECTORY)
    fd = os.open("f", os.O_CREAT | os.O_WRONLY, dir_fd=top)
    yield os.write(fd, b"123"), os.close(fd), os.stat("f", dir_fd=top).st_size, sorted(os.listdir(top)), seen(root, os.read, top, 1)[:2]
    yield os.rename("f", "e/g", src_dir_fd=top, dst_dir_fd=top), os.link("e/g", "h", src_dir_fd=top, dst_dir_fd=top), os.mkdir("m", dir_fd=top)
    yield os.rmdir("m", dir_fd=top), os.unlink("h", dir_fd=top), os.access("e/g", os.F_OK, dir_fd=top), os.fsync(top), os.fdatasync(top)
    yield seen(root, os.stat, "none", dir_fd=top), seen(root, os.write, top, b"x")[:2], os.path.samestat(os.fstat(top), os.stat(root + "/d"))
    yield [(base.replace(root, ""), sorted(d), sorted(f)) for base, d, f, _ in os.fwalk(root)], os.close(top)
    yield os.stat in os.supports_dir_fd, os.listdir in os.supports_fd, os.stat in os.supports_follow_symlinks


def formats(root):
    with open(root + "/j", "w") as file:
        json.dump({"a": [1, None]}, file)
    with open(root + "/p", "wb") as file:
        pickle.dump(("x", 1), file)
    with open(root + "/c", "w", newline="") as file:
        csv.writer(file).writerows([["a", "b,c"], ["d", 1]])
    with gzip.open(root + "/z.gz", "wt") as file:
        file.write("text\n" * 100)
    with zipfile.ZipFile(root + "/z.zip", "w") as archive:
        archive.writestr("in/side", "content")
        archive.write(root + "/j", "j")
    config = configparser.ConfigParser()
    config["s"] = {"k": "v"}
    with open(root + "/i", "w") as file:
        config.write(file)
    yield json.load(open(root + "/j")), pickle.load(open(root + "/p", "rb")), list(csv.reader(open(root + "/c", newline="")))
    yield gzip.open(root + "/z.gz", "rt").read()[-6:], configparser.ConfigParser().read(root + "/i") == [root + "/i"]
    with zipfile.ZipFile(root + "/z.zip") as archive:
        yield archive.namelist(), archive.read("in/side"), archive.testzip()


def databases(root):
    with dbm.dumb.open(root + "/db", "c") as db:
        db[b"a"], db["b"] = b"1", "2" * 600
        del db[b"a"]
    with dbm.dumb.open(root + "/db", "r") as db:
        yield list(db.keys()), db[b"b"][:3], sorted(os.listdir(root))
    with shelve.Shelf(dbm.dumb.open(root + "/sh", "c")) as shelf:
        shelf["k"] = {"v": [1]}
    with shelve.Shelf(dbm.dumb.open(root + "/sh", "r")) as shelf:
        yield dict(shelf)


def temporaries(root):
    with tempfile.NamedTemporaryFile("w+", dir=root) as file:
        file.write("abc")
        file.seek(0)
        yield file.read(), os.path.exists(file.name), len(os.listdir(root))
    yield os.path.exists(file.name), os.listdir(root)
    with tempfile.NamedTemporaryFile(dir=root, delete=False) as file:
        file.write(b"kept")
    yield open(file.name, "rb").read(), os.unlink(file.name)
    fd, path = tempfile.mkstemp(dir=root)
    with os.fdopen(fd, "w") as file:
        yield file.write("by fdopen"), file.fileno() == fd
    yield open(path).read(), os.replace(path, root + "/final"), os.listdir(root)
    with tempfile.TemporaryDirectory(dir=root) as folder:
        os.mkdir(folder + "/x")
        pathlib.Path(folder, "x", "f").write_text("f")
        yield len(os.listdir(root))
    with tempfile.TemporaryFile(dir=root) as file:
        yield file.write(b"nameless"), file.seek(2), file.read(), sorted(os.listdir(root))


def locks(root):
    with open(root + "/l", "w") as one, open(root + "/l") as other:
        shared, exclusive = fcntl.LOCK_SH | fcntl.LOCK_NB, fcntl.LOCK_EX | fcntl.LOCK_NB
        for file, kind in ((one, shared), (other, shared), (one, exclusive), (other, fcntl.LOCK_UN), (one, exclusive), (other, shared)):
            yield seen(root, fcntl.flock, file, kind)
        yield seen(root, fcntl.lockf, one, exclusive)
    with open(root + "/l") as other:
        yield seen(root, fcntl.flock, other.fileno(), exclusive)


PROGRAMS = (modes, texts, descriptors, names, paths, trees, folders, formats, databases, temporaries, locks)
