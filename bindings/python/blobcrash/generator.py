"""The numbers of a seed: those of SplitMix64, which decide each `choose`, and the words of the line `seed N`, which are those of
xoshiro256++ with a state that SplitMix64 fills from the seed (docs/FORMATS.md)."""

from __future__ import annotations

from typing import Iterator

from .grammar import MAX


def mixed_of(seed: int) -> Iterator[int]:
    """Yields the numbers of SplitMix64, without end."""
    while True:
        seed = (seed + 0x9E3779B97F4A7C15) & MAX
        word = ((seed ^ (seed >> 30)) * 0xBF58476D1CE4E5B9) & MAX
        word = ((word ^ (word >> 27)) * 0x94D049BB133111EB) & MAX
        yield word ^ (word >> 31)


def words_of(seed: int) -> Iterator[int]:
    """Yields the words of the line `seed N`, without end."""
    mixed = mixed_of(seed)
    state = [next(mixed) for _ in range(4)]
    while True:
        yield (_rotated((state[0] + state[3]) & MAX, 23) + state[0]) & MAX
        shifted = (state[1] << 17) & MAX
        state[2] ^= state[0]
        state[3] ^= state[1]
        state[1] ^= state[2]
        state[0] ^= state[3]
        state[2] ^= shifted
        state[3] = _rotated(state[3], 45)


def _rotated(word: int, by: int) -> int:
    return ((word << by) | (word >> (64 - by))) & MAX
