"""What a crash draws for: unsynced writes and edits, and the outcomes of these draws in the order of their losses."""

from __future__ import annotations

from typing import Any, Dict, Iterator, List, NamedTuple, Optional, Sequence, Set, Tuple

from .file_calls import Kept
from .grammar import MAX

# Of each unit which of its draws lose, as the bits of a number.
Lost = Tuple[int, ...]
# A unit by the line that made it, and which one of that line it is.
Key = Tuple[int, int]
# The words of calls that free names alone, or truncate.
_REMOVALS = frozenset(("unlink", "rmdir", "unlink_at", "rmdir_at", "truncate", "open_truncated", "open_inode_truncated"))


class Row(NamedTuple):
    """What a crash kept of a write or an edit: a digit for each byte. An edit has neither an inode nor an offset."""

    write: int
    kept: str
    inode: Optional[int]
    offset: Optional[int]


class Unit(NamedTuple):
    """An unsynced write, or an edit that nothing settled, with the number of draws of a crash for it."""

    key: Key
    is_edit: bool
    draws: int
    is_prefix: bool
    inode: Optional[int]
    offset: int
    length: int
    # An edit that binds no name: a removal or a truncation.
    is_removal: bool = False
    # An edit that frees a name which the log of the syncs has.
    is_followed: bool = False

    @property
    def line(self) -> int:
        return self.key[0]

    @property
    def all(self) -> int:
        """All draws."""
        return (1 << self.draws) - 1

    def words(self, lost: int) -> List[int]:
        """The words by which a crash loses these draws."""
        if self.is_prefix and lost:
            return [0] * _first(lost) + [MAX]
        return [MAX if lost >> at & 1 else 0 for at in range(self.draws)]


def is_alone(unit: Unit, alone_to: int) -> bool:
    """Whether a crash may lose what is before an edit, and not the edit: it binds a name, or the log follows it, and it was made up to the
    line `alone_to`. With the greatest number that is so of each edit."""
    return alone_to == MAX or (unit.line <= alone_to and (unit.is_followed or not unit.is_removal))


def is_in_log(unit: Unit, alone_to: int) -> bool:
    """Whether a crash keeps such an edit only with all edits before it that the log follows: it is a removal."""
    return alone_to != MAX and unit.line <= alone_to and unit.is_followed and unit.is_removal


def rows_of(reply: Any) -> List[Row]:
    """The rows of the reply to a crash."""
    if isinstance(reply, Kept):
        placed = zip(reply.writes, reply.places)
        return [Row(write, kept, inode, None if inode is None else at) for (write, kept), (inode, at) in placed]
    rows = (row.split(":") for row in reply.decode().split(" ")[1:])
    return [Row(int(write), kept, None, None) for write, kept in rows]


def unit_of(row: Row, key: Key, is_files: bool, mode: Sequence[str], text: str) -> Unit:
    """The unit of a row. `text` is the line that made it, `mode` that of its writes."""
    length = len(row.kept)
    if is_files and row.inode is None:
        return Unit(key, True, 1, False, None, 0, length, text.split()[0] in _REMOVALS)
    offset = row.offset if row.offset is not None else int(text.split()[2])
    if mode[0] == "sectors":
        size = int(mode[1])
        return Unit(key, False, (offset + length - 1) // size - offset // size + 1, False, row.inode, offset, length)
    return Unit(key, False, length, mode[0] == "prefix", row.inode, offset, length)


def words_of_outcome(units: Sequence[Unit], lost: Lost) -> List[int]:
    """The words by which a crash loses this."""
    return [word for unit, bits in zip(units, lost) for word in unit.words(bits)]


def canonical(units: Sequence[Unit], lost: Lost, alone_to: int) -> Lost:
    """The same outcome with all that is lost with it: of a write in the mode `prefix` the rest, each edit after a lost one that isn't lost
    alone, and each removal in the log after a lost edit that the log follows."""
    found, is_after, is_behind = [], False, False
    for unit, bits in zip(units, lost):
        if unit.is_edit:
            is_with = is_after and not is_alone(unit, alone_to) or is_behind and is_in_log(unit, alone_to)
            is_behind = is_behind or (unit.is_followed and bits != 0)
            bits = 1 if bits or is_with else 0
            is_after = is_after or bits != 0
        elif unit.is_prefix and bits:
            bits = unit.all & ~((1 << _first(bits)) - 1)
        found.append(bits)
    return tuple(found)


def outcomes(units: Sequence[Unit], alone_to: int, limit: Optional[int]) -> Iterator[Lost]:
    """Yields outcomes, each once, at most `limit`: none lost; each unit lost alone; all lost; each kept alone; each draw of a write lost
    alone, and kept alone; then more and more units lost, and then draws."""
    seen: Set[Lost] = set()
    for lost in _in_order(units, alone_to):
        lost = canonical(units, lost, alone_to)
        if lost not in seen:
            if limit is not None and len(seen) >= limit:
                return
            seen.add(lost)
            yield lost


def count_outcomes(units: Sequence[Unit], alone_to: int) -> int:
    """How many outcomes there are."""
    # With none lost, and with the first one lost at each place: then those later that aren't lost with it, in any way. `after` and `behind`
    # are the ways from an edit on, without and with a lost one before it that the log follows.
    count, after, behind = 1, 1, 1
    for unit in reversed([unit for unit in units if unit.is_edit]):
        count += behind if unit.is_followed else after
        if is_in_log(unit, alone_to):
            after += behind
        elif is_alone(unit, alone_to):
            after, behind = after + (behind if unit.is_followed else after), 2 * behind
    for unit in units:
        if not unit.is_edit:
            count *= unit.draws + 1 if unit.is_prefix else 1 << unit.draws
    return count


def _in_order(units: Sequence[Unit], alone_to: int) -> Iterator[Lost]:
    none, every = [0] * len(units), [unit.all for unit in units]

    def changed(base: List[int], change: Dict[int, int]) -> Lost:
        return tuple(change.get(at, bits) for at, bits in enumerate(base))

    yield tuple(none)
    for at, unit in enumerate(units):
        yield changed(none, {at: unit.all})
    yield tuple(every)
    for at in range(len(units)):
        yield changed(every, {at: 0})
    for at, unit in enumerate(units):
        for draw in range(unit.draws if unit.draws > 1 else 0):
            yield changed(none, {at: 1 << draw})
            yield changed(none, {at: unit.all & ~(1 << draw)})
    wholes = [(at, unit.all) for at, unit in enumerate(units)]
    for chosen in _several(wholes, [_alone(units, at, alone_to) for at, _ in wholes]):
        yield changed(none, dict(chosen))
    draws = [(at, 1 << draw) for at, unit in enumerate(units) for draw in range(unit.draws)]
    if len(draws) == len(units):
        return
    for chosen in _several(draws, [(at,) if units[at].is_prefix else _alone(units, at, alone_to) for at, _ in draws]):
        change: Dict[int, int] = {}
        for at, bit in chosen:
            change[at] = change.get(at, 0) | bit
        yield changed(none, change)


def _alone(units: Sequence[Unit], at: int, alone_to: int) -> Tuple[int, ...]:
    """The group of which a crash that loses two parts loses the same as one that loses the first: the edits that aren't lost alone, and the
    removals in the log. Empty for what is in no group."""
    if not units[at].is_edit:
        return ()
    if not is_alone(units[at], alone_to):
        return (-1,)
    return (-2,) if is_in_log(units[at], alone_to) else ()


def _several(parts: Sequence[Tuple[int, int]], groups: Sequence[Tuple[int, ...]]) -> Iterator[List[Tuple[int, int]]]:
    """Yields lists of parts, shorter ones first, of each group at most one. So k edits in order give k lists of one, and not 2^k."""
    last = {group: at for at, group in enumerate(groups) if group}
    free = [sum(not group for group in groups[at:]) for at in range(len(groups) + 1)]

    def chosen(start: int, count: int, taken: Tuple[Tuple[int, ...], ...]) -> Iterator[List[Tuple[int, int]]]:
        if count == 0:
            yield []
            return
        for at in range(start, len(parts)):
            if free[at] + sum(end >= at and group not in taken for group, end in last.items()) < count:
                return
            if groups[at] not in taken:
                for rest in chosen(at + 1, count - 1, (*taken, groups[at]) if groups[at] else taken):
                    yield [parts[at], *rest]

    for count in range(1, free[0] + len(last) + 1):
        yield from chosen(0, count, ())


def _first(bits: int) -> int:
    """The first of some draws."""
    return (bits & -bits).bit_length() - 1


def runs(digits: str, wanted: str, offset: int) -> List[Tuple[int, int]]:
    """The runs of a digit in a row, as the first byte and the one after the last."""
    found, at = [], 0
    while at < len(digits):
        end = at
        while end < len(digits) and digits[end] == digits[at]:
            end += 1
        if digits[at] == wanted:
            found.append((offset + at, offset + end))
        at = end
    return found
