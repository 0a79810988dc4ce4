"""Bodies as users write them, for `mypy --strict`: what is wrong has a comment, without which mypy reports it, and one that isn't needed is
reported too."""

import os
from typing import Iterator, Union

from blobcrash import (
    PROFILES,
    CrashStates,
    Explored,
    ExploredFiles,
    ExploredStore,
    Failed,
    Files,
    PowerLoss,
    Profile,
    SeededFiles,
    SeededStore,
    Store,
    explore,
    patched,
    seeds,
    shrink,
)


def of_store(store: ExploredStore) -> int:
    blob, size = store.open("p", b"b")
    blob.write(0, b"x" * store.choose(3))
    store.restart()
    return len(blob.read(0, size))


def of_any_store(store: Store) -> None:
    store.configure("write 0 1 1 2 subset")


def of_files(files: ExploredFiles) -> bytes:
    with files.open("/f", "wb") as file:
        file.write(b"x" * files.choose(3))
        files.fsync(file)
    try:
        files.recover(of_any_files, files)
    except PowerLoss:
        pass
    return files.open("/f").read()


def of_any_files(files: Files) -> None:
    with patched(files, "/disk") as root, open(os.path.join(root, "f"), "w") as file:
        file.write("text")
    kept = files.restart()
    assert [inode for inode, _ in kept.places] and len(kept.edits) > 0


def by_seed(files: SeededFiles) -> None:
    files.note(f"{files.seed} {files.choose(2)}")


def of_both(store: Union[ExploredStore, SeededStore]) -> None:
    store.choose(2)


def searches() -> Iterator[Explored]:
    yield explore(of_store, settings=["write 0 1 1 2 subset"], power_losses=1, under="")
    yield explore(of_any_store)
    yield explore(of_both, runs=10)
    yield explore(of_files, profile="xfs")
    yield explore(of_any_files, profile="all", seconds=1.5)
    yield explore(of_any_files, files=True)
    yield explore(lambda files: files.choose(2), profile="ext4")
    for profile in PROFILES:
        yield explore(of_files, profile=profile)
    seeds(by_seed, 100, profile="posix")
    seeds(of_both, range(9), settings=["sync 1 8"])
    try:
        explore(of_files, profile=_profile())
    except Failed as failed:
        smaller: Failed = shrink(of_files, failed, profile="xfs")
        print(smaller.path, smaller.cause, failed.script[0])


def _profile() -> Profile:
    return "btrfs"


def states() -> None:
    for state in CrashStates("profile ext4\ncreate /f\n"):
        print(state.script)


def with_files() -> int:
    with Files(7, profile="xfs", settings=["keep 1 2"]) as files, SeededFiles(3, profile="xfs") as seeded:
        return files.stat("/").size + seeded.choose(2)


def mistakes() -> None:
    explore(of_files)  # type: ignore[arg-type]
    explore(of_store, profile="xfs")  # type: ignore[call-overload]
    explore(of_files, profile="xfs ")  # type: ignore[call-overload]
    explore(of_files, profile="ext5", seconds=1)  # type: ignore[call-overload]
    explore(of_files, profile="xfs", image=[])  # type: ignore[call-overload]
    explore(by_seed, profile="xfs")  # type: ignore[call-overload]
    seeds(by_seed, 100)  # type: ignore[arg-type]
    Files(profile="all")  # type: ignore[arg-type]
    explore(of_store, settings="write 0 1 1 2 subset", seed="7")  # type: ignore[call-overload]
