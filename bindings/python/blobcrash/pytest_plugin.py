"""A pytest plugin: a test that takes `blobcrash` gets a store, once for each of some seeds.

    @pytest.mark.blobcrash(settings=["write 1 8 1 2 subset"])
    def test_recovers(blobcrash):
        ...

A test that takes `blobcrash_files` gets `Files`, with the arguments of the mark `blobcrash_files`: once for each seed in each profile,
unless the mark has a `profile`. A mark that no fixture of its test knows is an error.

The store has `seed` and `choose`, as that of `seeds`. The seed is in the test's name. If a test fails, its script is written to a file.
The first failing seed of a test is shrunk: the test is called again with fewer and smaller choices, and a smaller run that fails is
written to a second file. The report has the files' paths and a picture of the crashes. With `--blobcrash-report FOLDER` it also has the
path of a page that shows the run in a browser. The arguments of the mark are `seeds`, how many there are, and those of `Store`. Options
of the command line come before the mark. At the end a line names each test that passed and had unsynced writes that no crash could keep.
"""

from __future__ import annotations

import argparse
from typing import Any, Dict, Iterator, List, Sequence, Tuple

import pytest

from .failures import page_writer
from .file_settings import ALL, PROFILES, profile_asked
from .grammar import number
from .pytest_report import show
from .seeding import SeededFiles, SeededStore
from .unkept import note_of

# The fixtures, each with what a test gets. The mark with its arguments has the same name.
_FIXTURES: Dict[str, Any] = {"blobcrash": SeededStore, "blobcrash_files": SeededFiles}
_SEEDS = 20
_SECONDS = 10.0


def _whole(what: str, first: int) -> Any:
    """A type of an option: a whole number from `first` on."""

    def of(text: str) -> int:
        if not text.isascii() or not text.isdigit() or not first <= int(text) < 2**64:
            raise argparse.ArgumentTypeError(f"{what} is a number from {first} to 2^64 - 1, not {text!r}")
        return int(text)

    return of


def _seconds(text: str) -> float:
    try:
        seconds = float(text) if text.isascii() else -1.0
    except ValueError:
        seconds = -1.0
    if not 0 <= seconds < 1e9:
        raise argparse.ArgumentTypeError(f"a number of seconds is at least 0, not {text!r}")
    return seconds


def pytest_addoption(parser: Any) -> None:
    group = parser.getgroup("blobcrash")
    seeds, seed = _whole("a number of seeds", 1), _whole("a seed", 0)
    group.addoption("--blobcrash-seeds", type=seeds, metavar="N", help=f"run each test of `blobcrash` with N seeds from 0 ({_SEEDS})")
    group.addoption("--blobcrash-seed", type=seed, action="append", metavar="SEED", help="run it with this seed alone; may be repeated")
    group.addoption("--blobcrash-scripts", default="blobcrash-scripts", metavar="FOLDER", help="where scripts of failures are written")
    group.addoption("--blobcrash-report", metavar="FOLDER", help="write a page of each failure for a browser to this folder")
    shrinks = f"look this long for a smaller run of a test's first failure ({_SECONDS:g}); 0 for not at all"
    group.addoption("--blobcrash-shrink", type=_seconds, default=_SECONDS, metavar="SECONDS", help=shrinks)


def pytest_configure(config: Any) -> None:
    for name, what in (("blobcrash", "store"), ("blobcrash_files", "files")):
        config.addinivalue_line("markers", f"{name}(seeds=N, **arguments): how many seeds a test runs with, and the arguments of its {what}")
    if config.getoption("--blobcrash-report") is not None:
        try:
            page_writer("--blobcrash-report")
        except ImportError as error:
            raise pytest.UsageError(str(error)) from None


def _arguments(node: Any, fixture: str) -> Dict[str, Any]:
    marker = node.get_closest_marker(fixture)
    if marker is not None and marker.args:
        raise pytest.UsageError(f"{node.nodeid}: the arguments of the mark `{fixture}` have names, as `seeds=50`")
    return dict(marker.kwargs) if marker else {}


def _check_marks(metafunc: Any) -> None:
    """Refuses a mark that no fixture of a test knows. That of a class or of a module may be for its other tests, unless this one has no
    other."""
    node = metafunc.definition
    taken = [fixture for fixture in _FIXTURES if fixture in metafunc.fixturenames]
    own = {marker.name for marker in node.own_markers}
    marks = {marker.name for marker in node.iter_markers() if marker.name.startswith("blobcrash")}
    for name in sorted(marks - set(taken)):
        if name not in _FIXTURES:
            raise pytest.UsageError(f"{node.nodeid}: there is no mark `{name}`: the marks are `{'` and `'.join(_FIXTURES)}`")
        if name in own or (taken and not marks & set(taken)):
            takes = f"takes `{taken[0]}`, whose mark is `{taken[0]}`" if taken else f"doesn't take `{name}`"
            raise pytest.UsageError(f"{node.nodeid}: the mark `{name}` is that of the fixture `{name}`, and the test {takes}")


def _profiles_of(node: Any, fixture: str) -> Sequence[str]:
    """The profiles of a test: those of all, unless its mark names one. None of a store."""
    arguments = _arguments(node, fixture)
    named = [name for name in ("profile", "files") if name in arguments]
    if fixture == "blobcrash":
        if named:
            raise pytest.UsageError(f"{node.nodeid}: a store has no `{named[0]}`: take the fixture `blobcrash_files`, with its mark")
        return ()
    try:
        asked = profile_asked(arguments.get("profile"), arguments.get("files")) or ALL
    except (TypeError, ValueError) as error:
        raise pytest.UsageError(f"{node.nodeid}: {error}") from None
    return PROFILES if asked == ALL else (asked,)


def _seeds_of(node: Any, fixture: str) -> Sequence[int]:
    """The seeds of a test: those of the command line, or as many as it says, or as the mark says."""
    option, arguments = node.config.getoption, _arguments(node, fixture)
    if option("--blobcrash-seed"):
        return list(dict.fromkeys(option("--blobcrash-seed")))
    if option("--blobcrash-seeds") is not None:
        return range(option("--blobcrash-seeds"))
    try:
        count = number(arguments.get("seeds", _SEEDS), "a number of seeds")
    except (TypeError, ValueError) as error:
        raise pytest.UsageError(f"{node.nodeid}: {error}") from None
    if count == 0:
        raise pytest.UsageError(f"{node.nodeid}: a number of seeds is at least 1")
    return range(count)


def pytest_generate_tests(metafunc: Any) -> None:
    _check_marks(metafunc)
    for fixture in _FIXTURES:
        if fixture in metafunc.fixturenames:
            seeds, profiles = _seeds_of(metafunc.definition, fixture), _profiles_of(metafunc.definition, fixture)
            runs = [(seed, profile) for profile in profiles or (None,) for seed in seeds]
            ids = [f"{profile}-seed={seed}" if len(profiles) > 1 else f"seed={seed}" for seed, profile in runs]
            metafunc.parametrize(fixture, runs, indirect=True, ids=ids)


def _opened(request: Any, fixture: str) -> Iterator[Any]:
    """What a fixture gives to a test."""
    seed, profile = getattr(request, "param", (0, PROFILES[0] if fixture == "blobcrash_files" else None))
    arguments = _arguments(request.node, fixture)
    for name in ("seeds", *(("profile", "files") if profile else ())):
        arguments.pop(name, None)
    with _FIXTURES[fixture](seed, **{**arguments, **({"profile": profile} if profile else {})}) as store:
        request.node._blobcrash = fixture, store
        yield store


@pytest.fixture
def blobcrash(request: Any) -> Iterator[SeededStore]:
    """A store, with the seed of the test."""
    yield from _opened(request, "blobcrash")


@pytest.fixture
def blobcrash_files(request: Any) -> Iterator[SeededFiles]:
    """Files, with the seed of the test."""
    yield from _opened(request, "blobcrash_files")


def _with_report(item: Any, call: Any) -> Iterator[None]:
    outcome: Any = yield
    report = outcome.get_result()
    made: Tuple[Any, Any] = getattr(item, "_blobcrash", (None, None))
    fixture, store = made
    if fixture is not None and call.when in ("setup", "call") and report.failed:
        lines: List[str] = show(item, call, fixture, store, _arguments(item, fixture))
        report.sections.append(("blobcrash", "\n".join(lines)))
    elif store is not None and call.when == "call" and report.passed:
        report.blobcrash_met = store._unsynced.met


pytest_runtest_makereport = pytest.hookimpl(hookwrapper=True)(_with_report)


def pytest_terminal_summary(terminalreporter: Any) -> None:
    """Names the tests that passed and had unsynced writes that no crash could keep."""
    met: Dict[str, int] = {}
    for report in terminalreporter.stats.get("passed", []):
        test = report.nodeid.split("[")[0]
        met[test] = met.get(test, 0) | getattr(report, "blobcrash_met", 0)
    for test, seen in met.items():
        if note_of(seen):
            terminalreporter.write_line(f"blobcrash: {test}: {note_of(seen)}")
