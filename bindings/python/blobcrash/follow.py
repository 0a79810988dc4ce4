"""A run that follows a path of choices: docs/GUIDE.md."""

from __future__ import annotations

from array import array
from functools import lru_cache
from typing import Any, Callable, Iterable, List, Optional, Sequence, Tuple, TypeVar

from .bounds import Bounded, Bounds, RunEnded
from .calls import Reply
from .file_library import files_way
from .file_settings import torn_unless_set
from .file_system import Files
from .foreign import DRAWS, changes, having
from .grammar import MAX, number_of_branches
from .layers import InTurn, Library
from .met import Met, State, blobs_of, durable_blobs, frozen, place, settings_of
from .paths import CHOICE, DRAW, POWER, SIZE, Choice, draws_of
from .power import PowerLoss, powered
from .store import Store
from .traversal import Traversal


class NotDeterministic(RuntimeError):
    """The body of an exploration made other calls, or other choices, than before on the same path."""

    @classmethod
    def by(cls, what: str) -> NotDeterministic:
        """The error that says how."""
        return cls(
            f"the body isn't deterministic: {what}. Along the same choices it must make the same calls: it may use no clock, no random "
            "numbers of its own (use `store.choose`), and nothing that an earlier run has changed"
        )


class MoreWords(BaseException):
    """A run took all words that it was given. It has to be made again, with more."""


def called(body: Callable[..., Any], store: Any) -> Tuple[Any, Optional[BaseException]]:
    """Calls a body with the store of its run, and closes that. Returns what it returned, and what it raised."""
    try:
        return body(store), None
    except (Exception, PowerLoss) as error:
        return None, error
    except (MoreWords, RunEnded):
        return None, None
    finally:
        store.close()


@lru_cache(maxsize=None)
def _further(room: int) -> array[int]:
    """The words of a run after those of its path."""
    return array("Q", [*[0] * room, MAX])


class Run:
    """The choices of one run. It follows a path, and then takes the first branch of each choice.

    `taken` are all of them, and `made` says of each how many calls there were, with the one that drew it. With a seed the draws are the
    seed's, and aren't choices. `bounds` end the run, and so does a state after a restart that is in `met`.

    It is the layer of its store or its files: it counts calls and draws, and turns the power off at the calls that it chooses.
    """

    is_short = False
    error: Optional[NotDeterministic] = None

    def __init__(
        self,
        along: Traversal,
        room: int,
        losses: int,
        seed: Optional[int] = None,
        bounds: Optional[Bounds] = None,
        met: Optional[Met] = None,
    ) -> None:
        self._along = along
        self.planned = along.planned
        self.bounds = bounds or Bounds()
        self.met = {} if met is None else met
        self.words: Sequence[int] = array("Q", along.draws()) + _further(room)
        self.made: List[int] = []
        self.calls: List[Any] = []
        self.seed = seed
        self.losses = losses
        # How many words were left when draws were counted last.
        self.left = len(self.words)
        along.begin(self.left)

    def take(self, layer: Any, of_files: bool, is_in_turn: bool) -> Any:
        """Takes the layer that makes its calls. Returns itself."""
        self._layer = layer = powered(layer)
        self._of_files, self._is_in_turn = of_files, is_in_turn
        self._apply = layer.apply
        self._words_left: Any = getattr(layer, "words_left", None)
        # With a seed no draws are counted.
        self._drawing = having(DRAWS, of_files) if self.seed is None else ()
        return self

    @property
    def is_off(self) -> bool:
        """Whether the power is off."""
        return bool(self._layer.is_off)

    @property
    def inode_at(self) -> Any:
        """The function of a layer of files that returns the inode of an open file, if it has one."""
        return getattr(self._layer, "inode_at", None)

    def cut_after(self, calls: int) -> None:
        """Turns the power off after this number of calls that may change what a crash leaves."""
        self._layer.cut_after(calls)

    def close(self) -> None:
        """Ends the layer, unless the next run does."""
        if not self._is_in_turn:
            self._layer.close()

    def apply(self, asked: Any) -> Any:
        """Makes a call. If a resize of a blob fails and the size is another one, that was drawn from those between the old one and the
        new."""
        word = asked.word
        if self.losses and changes(word, self._of_files) and not self._layer.is_off and self.fails():
            self._layer.cut_after(0)
        self.calls.append(asked)
        draws = word in self._drawing
        before = self._layer.tracked_size(asked.number) if word == "resize" and draws else None
        try:
            reply = self._apply(asked)
        except PowerLoss:
            self.calls.pop()
            raise
        if draws:
            left = self._words_left()
            if left != self.left:
                self.count(left, self._sizes(asked, before, reply))
        return reply

    def _sizes(self, asked: Any, before: Optional[int], reply: Any) -> int:
        """Returns among how many sizes a resize drew one."""
        if before is None or reply != Reply("error Injected") or self._layer.tracked_size(asked.number) == before:
            return 0
        return abs(int(asked.first) - before) - 1

    def state(self, images: Iterable[Tuple[str, bytes, bytes]]) -> State:
        """The durable bytes of all blobs, and the settings."""
        crashes = sum(call.word == "crash" for call in self.calls)
        return durable_blobs(self._layer, blobs_of(self.calls, images)), settings_of(self.calls), crashes, self.losses, self._layer.left

    @property
    def taken(self) -> List[Choice]:
        """The choices of the run so far."""
        return self._along.taken

    def choose(self, kind: str, of: int) -> int:
        """The branch of the next choice."""
        branch = self._along.choose(kind, of)
        if self._along.differs:
            raise self._differs((kind, of))
        self.made.append(len(self.calls))
        self.bounds.check(self._along.made)
        return branch

    def fails(self) -> bool:
        """Chooses whether the power goes off at a call."""
        self.losses -= (off := self.choose(POWER, 2))
        return bool(off)

    def arrive(self, state: State) -> None:
        """Ends the run if an earlier one came to this state by other choices.

        Within the path the run is one of those that go on from here. All of them are made, in this search or in others.
        """
        if self._along.made >= self.planned:
            taken = tuple(self.taken)
            if self.met.setdefault(state, taken) != taken:
                self.bounds.end_met()

    def count(self, left: int, sizes: int = 0) -> None:
        """Counts the draws of a call, after which `left` words are left. With `sizes` the last one drew one of that many."""
        if left == 0:
            self.is_short = True
            self.bounds.check(len(self.words))
            raise MoreWords
        self.left = left
        along = self._along
        along.count(left, sizes)
        made = along.made
        more = made - len(self.made)
        if along.differs:
            draws = more - bool(sizes)
            raise self._differs(*[(DRAW, 2)] * draws, *[(SIZE, sizes)] * bool(sizes))
        self.made += [len(self.calls)] * more
        self.bounds.check(made)

    def draws(self) -> Sequence[int]:
        """The words of the draws that were made. If the run is short, all that it was given."""
        return self.words if self.is_short else draws_of(self.taken)

    def _differs(self, *made: Tuple[str, int]) -> NotDeterministic:
        """The error of choices that differ from those of the path. Each is a kind and a number of branches."""
        planned = enumerate(self._along.path[len(self.made) :], len(self.made))
        at, was, now = next((at, was, now) for (at, was), now in zip(planned, made) if (was[0], was[2]) != now)
        self.error = NotDeterministic.by(f"choice {at} of the path was {_named(was)}, and is {_named((now[0], 0, now[1]))}")
        return self.error


def _named(choice: Choice) -> str:
    return {CHOICE: f"`choose({choice[2]})`", SIZE: f"one of {choice[2]} drawn sizes"}.get(choice[0], choice[0])


def _line_of(words: Iterable[int]) -> str:
    return "words " + " ".join("max" if word == MAX else str(word) for word in words)


_Own = TypeVar("_Own", bound="OnPath")


class OnPath(Bounded):
    """What the stores and the files of explored runs share. It stands before the class that makes the calls."""

    _is_search = True
    _has_draws = True
    # The run, once there is one.
    _run: Any = None
    _unsynced: Any

    def _over(self, way: Any) -> Any:
        """Takes the way of all runs. Returns one that keeps the preamble that they have in common."""
        self._way, self._is_in_turn, self._pushes = way, isinstance(way, InTurn), hasattr(way, "push_words")
        return self._keep

    def _keep(self, preamble: bytes) -> None:
        self._preamble = preamble

    def on(self: _Own, run: Run) -> _Own:
        """Returns the store, or the files, of a run, with the same arguments."""
        other = object.__new__(type(self))
        other._run, other._bounds = run, run.bounds
        other._thread = other._owner = self._thread
        other._lines, other._opened, other._unsynced = self._lines[:], {}, self._unsynced.again()
        other._copy(self)
        if run.seed is not None:
            layer = self._way(self._preamble)
        elif self._pushes:
            layer = self._way(self._preamble)
            layer.push_words(run.words)
        else:
            layer = self._way(f"{_line_of(run.words)}\n".encode() + self._preamble)
        other._layer = run.take(layer, self._of_files, self._is_in_turn)
        return other

    def _copy(self, other: Any) -> None:
        """Takes the arguments of the other store, or of the other files."""
        raise NotImplementedError

    def end(self) -> None:
        """Ends the session that all runs had in turn."""
        if self._is_in_turn:
            self._way.close()

    def _words_line(self) -> List[str]:
        """The words of the draws of the run so far."""
        words = () if self._run is None or self._run.seed is not None else self._run.draws()
        return [_line_of(words)] if words else []

    def choose(self, branches: int) -> int:
        """Returns a number below `branches`. Every one is tried, together with the outcomes of the draws."""
        branches = number_of_branches(branches)
        self._count()
        branch: int = self._run.choose(CHOICE, branches) if branches > 1 else 0
        self.note(f"choose({branches}) is {branch}")
        return branch

    def _unusable(self) -> Exception:
        if self._closed:
            return ValueError("the store's run has ended: each run of the body is given a store of its own")
        return super()._unusable()


class ExploredStore(OnPath, Store):
    """The store of one run."""

    def __init__(
        self,
        seed: Optional[int],
        settings: Iterable[str],
        images: Iterable[Tuple[str, bytes, bytes]],
        by: Any = None,
        allow_stale: bool = False,
    ) -> None:
        self._images = images
        super().__init__(seed, settings=settings, images=images, by=self._over(by or Library), allow_stale=allow_stale)

    def _copy(self, other: Any) -> None:
        self._images, self._allow_stale, self._direct = other._images, other._allow_stale, None

    def _expect(self, value: Any) -> None:
        # With a seed what follows depends on how many words were drawn.
        if self._run.seed is None:
            self._run.arrive((place(), frozen(value), self._layer.state(self._images)))

    def push_words(self, words: Iterable[int]) -> None:
        """Raises `ValueError`: the words of a run are those of its path."""
        raise ValueError("the words of an explored run are given by its path")


class ExploredFiles(OnPath, Files):
    """The files of one run."""

    def __init__(self, seed: Optional[int], settings: Iterable[str], profile: Any, by: Any = None) -> None:
        super().__init__(seed, profile=profile, settings=torn_unless_set(settings), by=self._over(files_way(by)))

    def _copy(self, other: Any) -> None:
        self._draws_edits, self._restarts = other._draws_edits, 0
