"""The cover of a node's care minterms, from docs/COVERS.md alone."""

from __future__ import annotations

from bisect import insort
from collections.abc import Iterable, Set
from typing import NamedTuple


class Cube(NamedTuple):
    """A mask and values inside it; cubes are ordered by mask, then by values."""

    mask: int
    values: int

    def holds(self, y: int) -> bool:
        """Whether minterm y agrees with the values on every bit of the mask."""
        return y & self.mask == self.values

    def without(self, i: int) -> Cube:
        """The larger cube, with the literal on fanin i dropped."""
        return Cube(self.mask & ~(1 << i), self.values & ~(1 << i))


def cover(function: int, f: int, care: Set[int]) -> list[Cube]:
    """The cover of a function of f fanins on its care minterms, ascending."""
    on = [y for y in sorted(care) if function >> y & 1]
    off = [y for y in sorted(care) if not function >> y & 1]
    return without_redundant(first_cubes(f, on, off), on)


def first_cubes(f: int, on: list[int], off: list[int]) -> list[Cube]:
    """Step 1: each on-minterm that is in no cube yet gets one, as large as it grows."""
    cubes: list[Cube] = []
    for y in on:
        if not any(cube.holds(y) for cube in cubes):
            insort(cubes, grown(Cube(2**f - 1, y), f, off))
    return cubes


def grown(cube: Cube, f: int, off: list[int]) -> Cube:
    """The cube after each literal, from fanin 0 upward, was dropped where that is possible."""
    for i in range(f):
        larger = cube.without(i)
        if not any(larger.holds(y) for y in off):
            cube = larger
    return cube


def without_redundant(cubes: list[Cube], on: list[int]) -> list[Cube]:
    """Step 2: in list order, cubes are struck whose on-minterms all lie in others still there."""
    left = list(cubes)
    for cube in cubes:
        others = [other for other in left if other != cube]
        mine = [y for y in on if cube.holds(y)]
        if all(any(other.holds(y) for other in others) for y in mine):
            left = others
    return left


def covered(cubes: Iterable[Cube], f: int) -> int:
    """The function of f fanins that is 1 exactly in the cubes."""
    listed = list(cubes)
    return sum(1 << y for y in range(2**f) if any(cube.holds(y) for cube in listed))


def literal_count(cubes: Iterable[Cube]) -> int:
    """The number of ones in the masks."""
    return sum(cube.mask.bit_count() for cube in cubes)
