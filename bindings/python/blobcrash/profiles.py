"""A search in each profile of files, `profile="all"`: docs/FILES.md."""

from __future__ import annotations

import time
from typing import Any, Callable, Dict, Iterable, List, Mapping, Optional, Union

from .errors import NoRuns
from .failures import Failed
from .file_settings import PROFILES
from .progress import Kind, Progress, in_profile
from .results import Part, of_profiles

# Takes a profile and its seconds, and returns what a search came to.
Search = Callable[[str, Optional[float]], Any]


def in_each(search: Search, parts: Mapping[str, List[Any]], seconds: float, kind: Kind) -> Any:
    """Searches in each profile that has a part, of which each has a share of the time that is left. Returns what they came to.

    Raises `Failed` after all of them, with the first failure, if one has failed. `NoRuns` if no run has ended in any.
    """
    progress, until, names = Progress(kind.name), time.monotonic() + seconds, tuple(parts)
    found: Dict[str, Any] = {}
    for at, profile in enumerate(names):
        share = max(0.0, until - time.monotonic()) / (len(names) - at)
        try:
            with in_profile(profile):
                found[profile] = search(profile, None if share == float("inf") else share)
        except Failed as failed:
            found[profile] = failed
        except NoRuns as none:
            found[profile] = kind.result_of(Part(0, list(none.rest)))
        except KeyboardInterrupt as error:
            interrupt: Any = error
            found[profile] = getattr(error, "found", None) or kind.result_of(Part(0, parts[profile]))
            found.update((left, kind.result_of(Part(0, parts[left]))) for left in names[at + 1 :])
            interrupt.found = _summed(found, kind)
            kind.tell(interrupt, progress)
            raise
    for each in found.values():
        if isinstance(each, Failed):
            first = Failed(each.path, each.script, each.reason, each.run, each.stopped, found)
            first.cause = each.cause
            raise first from each.__cause__
    if not any(each.runs for each in found.values()):
        raise NoRuns(tuple(rest_of(found)))
    return _summed(found, kind)


def _summed(found: Dict[str, Any], kind: Kind) -> Any:
    """The sum of what a search came to in the profiles in which it didn't fail."""
    part = Part(0, [])
    for each in found.values():
        part = part if isinstance(each, Failed) else part.plus(each)
    return of_profiles(kind.result_of(part._replace(rest=rest_of(found))), found)


def rest_of(found: Dict[str, Any]) -> List[Any]:
    """What is left of each profile: seeds, each once, or paths, after the name of their profile."""
    every = [(profile, left) for profile, each in found.items() if not isinstance(each, Failed) for left in each.rest]
    if all(isinstance(left, int) for _, left in every):
        return sorted({left for _, left in every})
    return [f"{profile}:{left}" for profile, left in every]


def paths_of(under: Union[str, Iterable[str]]) -> Dict[str, List[str]]:
    """The subtrees of each profile that `under` names, as `rest_of` does. An empty path is that of all profiles."""
    paths: Dict[str, List[str]] = {}
    for text in [under] if isinstance(under, str) else under:
        profile, colon, path = text.partition(":")
        if text and not (colon and profile in PROFILES):
            raise ValueError(f"with all profiles a path begins with the name of one, as `xfs:0/2`, not {text!r}")
        for name in [profile] if text else PROFILES:
            paths.setdefault(name, []).append(path)
    if not paths:
        raise ValueError("there is nothing to explore: no subtrees")
    return paths
