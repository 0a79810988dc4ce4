"""Profiles and settings of files."""

from __future__ import annotations

from typing import Any, Iterable, List, Literal, Optional, Sequence, Tuple, Union, get_args

from .errors import BadLine
from .grammar import needs_draws, setting_tokens, text_of
from .shapes import MAX

Profile = Literal["ext4", "xfs", "btrfs", "posix"]
# What a search may be asked for.
Asked = Union[Profile, Literal["all"]]
PROFILES: Tuple[Profile, ...] = get_args(Profile)
# Which unsettled edits a crash keeps in a profile, a word of the setting `edits`. In the others it is a prefix.
_KEPT_EDITS = {"posix": "any", "btrfs": "logged"}
# Asks a search for a run of each.
ALL = "all"
# What the files of a search begin with, as a mount does, if no setting is one of writes: a crash keeps half of the unsynced sectors.
TORN_WRITES = "write 0 1 1 2 sectors 512"
# The switches with what each may be.
SWITCHES = {
    "edits": ("prefix", "any", "logged"),
    "failed_sync": ("keeps", "drops"),
    "syncs": ("honest", "lie"),
    "failed_write": ("mode", "prefix"),
}


def kept_edits(tokens: Sequence[str], before: str) -> str:
    """Which unsettled edits a crash keeps after a line, of which these are the tokens."""
    if tokens[0] == "profile":
        return _KEPT_EDITS.get(tokens[1], "prefix")
    return tokens[1] if tokens[0] == "edits" else before


def one_of(words: Sequence[str]) -> str:
    """A choice of words, as `a, b or c`."""
    return f"{', '.join(words[:-1])} or {words[-1]}"


def profile_of(profile: Any) -> str:
    """The name of a profile. Raises `TypeError` or `ValueError`."""
    name = text_of(profile, "a profile")
    if name not in PROFILES:
        also = ", or `all` of a search" if name == ALL else ""
        raise ValueError(f"{name!r} is no profile: it is one of {', '.join(PROFILES)}{also}")
    return name


def profile_asked(profile: Any, files: Any) -> Optional[str]:
    """The profile that a search is asked for, by its argument `profile` or by the other name of it, `files`: `True` is ext4. `None` if the
    search is of stores. Raises `TypeError` or `ValueError`."""
    if profile is None or profile is False:
        profile = files
    elif files is not None and files is not False:
        raise TypeError("`files` is another name of `profile`: give one of them")
    if profile is None or profile is False:
        return None
    if profile is True:
        return PROFILES[0]
    return ALL if isinstance(profile, str) and profile == ALL else profile_of(profile)


def torn_unless_set(settings: Iterable[str]) -> Iterable[str]:
    """The settings of the files of a search."""
    if isinstance(settings, str):
        return settings
    settings = tuple(settings)
    has_writes = any(isinstance(setting, str) and setting.split()[:1] == ["write"] for setting in settings)
    return settings if has_writes else (TORN_WRITES, *settings)


def refuse_of_stores(images: Iterable[Any], allow_stale: Any) -> None:
    """Raises `TypeError` for arguments that files don't have."""
    if tuple(images) or allow_stale:
        raise TypeError("`images` and `allow_stale` are arguments of stores, and not of files")


def file_setting_tokens(setting: str) -> List[str]:
    """The tokens of the line of a setting: `keep N D`, `space BYTES FILES`, a switch, or one of a store, which becomes a `config` line.

    Raises `BadLine` if it is none.
    """
    words = text_of(setting, "a setting").split(" ")
    words = [word for word in words if word]
    if words[:1] == ["keep"]:
        _numbers(setting, words)
        if int(words[2]) == 0 or int(words[1]) > int(words[2]):
            raise BadLine(f"bad setting: {setting!r}: a rate is a fraction from 0 to 1")
        return words
    if words[:1] == ["space"]:
        _numbers(setting, words)
        return words
    if words and words[0] in SWITCHES:
        if len(words) != 2 or words[1] not in SWITCHES[words[0]]:
            raise BadLine(f"bad setting: {setting!r}: `{words[0]}` is {one_of(SWITCHES[words[0]])}")
        return words
    return setting_tokens(setting)


def file_setting_line(setting: str) -> Tuple[str, bool]:
    """The line of a setting, and whether it needs draws. Raises `BadLine` if it is none."""
    tokens = file_setting_tokens(setting)
    if tokens[0] == "keep":
        return " ".join(tokens), 0 < int(tokens[1]) < int(tokens[2])
    return " ".join(tokens), tokens[0] == "config" and needs_draws(tokens)


def _numbers(setting: str, words: List[str]) -> None:
    if len(words) != 3 or not all(word.isascii() and word.isdigit() and int(word) <= MAX for word in words[1:]):
        raise BadLine(f"bad setting: {setting!r}: `{words[0]}` takes two numbers from 0 to 2^64 - 1")
