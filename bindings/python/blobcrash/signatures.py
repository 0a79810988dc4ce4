"""The types of `explore` and `seeds`: a body takes a store, or with a profile files."""

from __future__ import annotations

from typing import Any, Callable, Iterable, Literal, Optional, Protocol, Tuple, Union, overload

from .file_settings import Asked
from .follow import ExploredFiles, ExploredStore
from .results import Explored, Seeded
from .seeding import SeededFiles, SeededStore

_Image = Tuple[str, bytes, bytes]
_OverFiles = Union[Literal[True], Asked]
_OverStores = Optional[Literal[False]]


class Explores(Protocol):
    """The type of `explore`."""

    @overload
    def __call__(
        self,
        body: Callable[[ExploredStore], object],
        *,
        profile: _OverStores = None,
        files: _OverStores = None,
        settings: Iterable[str] = (),
        images: Iterable[_Image] = (),
        power_losses: int = 0,
        seed: Optional[int] = None,
        runs: Optional[int] = None,
        seconds: Optional[float] = None,
        calls_per_run: int = ...,
        under: Union[str, Iterable[str]] = "",
        executor: Any = None,
        report: Optional[str] = None,
        by: Any = ...,
        allow_stale: bool = False,
    ) -> Explored:
        ...

    @overload
    def __call__(
        self,
        body: Callable[[ExploredFiles], object],
        *,
        profile: _OverFiles,
        settings: Iterable[str] = (),
        power_losses: int = 0,
        seed: Optional[int] = None,
        runs: Optional[int] = None,
        seconds: Optional[float] = None,
        calls_per_run: int = ...,
        under: Union[str, Iterable[str]] = "",
        executor: Any = None,
        by: Any = ...,
    ) -> Explored:
        ...

    @overload
    def __call__(
        self,
        body: Callable[[ExploredFiles], object],
        *,
        files: _OverFiles,
        settings: Iterable[str] = (),
        power_losses: int = 0,
        seed: Optional[int] = None,
        runs: Optional[int] = None,
        seconds: Optional[float] = None,
        calls_per_run: int = ...,
        under: Union[str, Iterable[str]] = "",
        executor: Any = None,
        by: Any = ...,
    ) -> Explored:
        ...


class Seeds(Protocol):
    """The type of `seeds`."""

    @overload
    def __call__(
        self,
        body: Callable[[SeededStore], object],
        which: Union[int, Iterable[int]],
        *,
        profile: _OverStores = None,
        files: _OverStores = None,
        seconds: Optional[float] = None,
        executor: Any = None,
        report: Optional[str] = None,
        settings: Iterable[str] = (),
        images: Iterable[_Image] = (),
        by: Any = ...,
        allow_stale: bool = False,
    ) -> Seeded:
        ...

    @overload
    def __call__(
        self,
        body: Callable[[SeededFiles], object],
        which: Union[int, Iterable[int]],
        *,
        profile: _OverFiles,
        seconds: Optional[float] = None,
        executor: Any = None,
        settings: Iterable[str] = (),
        by: Any = ...,
    ) -> Seeded:
        ...

    @overload
    def __call__(
        self, body: Callable[[SeededFiles], object], which: Union[int, Iterable[int]], *, files: _OverFiles, **arguments: Any
    ) -> Seeded:
        ...
