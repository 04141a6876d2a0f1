"""The search for a care minterm that is not yet listed, from docs/SEARCH.md alone.

Each look goes place by place as the document says. What an assignment shows, and whether a block is
seen dull, does not change during an examination, so it is computed for many at once and kept.
"""

from __future__ import annotations

from collections import deque
from collections.abc import Set
from dataclasses import dataclass
from functools import lru_cache
from typing import Protocol

from contexts import Context
from network import Lanes, ThreeValuedLanes, minterm, outputs, values, walk

FOUND = 1
SPENT = 2
NONE = 3
MOST_BUDGET = 65536
# Assignments or blocks are computed so many at a time.
CHUNK_BITS = 8
CHUNK = 1 << CHUNK_BITS
MOST_KEPT = 1 << 13


@dataclass(frozen=True)
class Answer:
    """What a look gives: its kind, below what all is settled, and the assignment if found."""

    kind: int
    upto: int
    assignment: int | None = None


class Finder(Protocol):
    """What a board asks for a care minterm."""

    def look(self, context: Context, listed: Set[int], start: int, budget: int) -> Answer:
        """One look from `start` (the document's *from*, which is a word of Python)."""


# What an assignment shows --------------------------------------------------------------------


@lru_cache(MOST_KEPT)
def shown(context: Context, assignment: int) -> int | None:
    """The minterm that a leaf assignment shows, None if no root differs; one at a time."""
    network, target = context.network, context.target
    if outputs(network, assignment) == outputs(network, assignment, target):
        return None
    return minterm(values(network, assignment), context.fanins)


def is_dull(shows: int | None, listed: Set[int]) -> bool:
    """Whether an assignment that shows this minterm shows none that is not listed."""
    return shows is None or shows in listed


@lru_cache(64)
def counting_bit(bit: int, lanes: int) -> int:
    """The lanes whose own number has this bit."""
    return sum(1 << lane for lane in range(lanes) if lane >> bit & 1)


def numbered_bit(bit: int, chunk: int, lanes: int) -> int:
    """This bit of the number of each lane, where the lanes of a chunk are numbered on."""
    if bit < CHUNK_BITS:
        return counting_bit(bit, lanes)
    return (1 << lanes) - 1 if chunk >> bit - CHUNK_BITS & 1 else 0


@lru_cache(MOST_KEPT)
def shown_in_chunk(context: Context, chunk: int) -> list[int | None]:
    """What the assignments from CHUNK * chunk on show, in their order."""
    lanes = min(CHUNK, context.size)
    leaves = [numbered_bit(i, chunk, lanes) for i in range(context.k)]
    return shown_in_lanes(context, leaves, lanes)


def shown_in_lanes(context: Context, leaves: list[int], lanes: int) -> list[int | None]:
    """What the assignment in each lane shows, if the leaves have these values."""
    network, logic = context.network, Lanes(lanes)
    as_is = walk(logic, network, leaves)
    inverted = walk(logic, network, leaves, context.target)
    differ = 0
    for root in network.outputs:
        differ |= as_is[root] ^ inverted[root]
    fanins = [as_is[signal] for signal in context.fanins]
    return [
        lane_bits(fanins, lane) if differ >> lane & 1 else None for lane in range(lanes)
    ]


def lane_bits(rows: list[int], lane: int) -> int:
    """The number whose bit i is that of row i in this lane."""
    return sum((row >> lane & 1) << i for i, row in enumerate(rows))


# Counting ------------------------------------------------------------------------------------


class Counting:
    """Goes upward, settling dull assignments one by one."""

    def look(self, context: Context, listed: Set[int], start: int, budget: int) -> Answer:
        """The tests before each place, in the document's order."""
        p = start
        while True:
            if p == context.size:
                return Answer(NONE, p)
            if p - start >= budget:
                return Answer(SPENT, p)
            if not is_dull(shown_in_chunk(context, p // CHUNK)[p % CHUNK], listed):
                return Answer(FOUND, p, p)
            p += 1


# Implication ---------------------------------------------------------------------------------


@dataclass(frozen=True)
class Block:
    """What the three-valued walk says of a block.

    `agree`: every root is known in both walks and has the same value in both. `minterm`: the one
    that the target's fanins read, None if not all of them are known.
    """

    agree: bool
    minterm: int | None


@lru_cache(MOST_KEPT)
def blocks_in_chunk(context: Context, j: int, chunk: int) -> list[Block]:
    """The blocks of 2^j assignments from block CHUNK * chunk on, in their order."""
    lanes = min(CHUNK, context.size >> j)
    network, logic = context.network, ThreeValuedLanes(lanes)
    leaves = [
        logic.unknown if i < j else logic.known(numbered_bit(i - j, chunk, lanes))
        for i in range(context.k)
    ]
    as_is = walk(logic, network, leaves)
    inverted = walk(logic, network, leaves, context.target)
    disagree = 0
    for root in network.outputs:
        can_be_0, can_be_1 = as_is[root][0] | inverted[root][0], as_is[root][1] | inverted[root][1]
        disagree |= can_be_0 & can_be_1
    fanins = [as_is[signal] for signal in context.fanins]
    unknown = 0
    for can_be_0, can_be_1 in fanins:
        unknown |= can_be_0 & can_be_1
    read = [can_be_1 for _, can_be_1 in fanins]
    return [
        Block(not disagree >> lane & 1, None if unknown >> lane & 1 else lane_bits(read, lane))
        for lane in range(lanes)
    ]


def seen_dull(context: Context, listed: Set[int], p: int, j: int) -> bool:
    """Whether block j at place p, which 2^j divides, is seen dull."""
    number = p >> j
    block = blocks_in_chunk(context, j, number // CHUNK)[number % CHUNK]
    return block.agree or (block.minterm is not None and block.minterm in listed)


def largest_dull_block(context: Context, listed: Set[int], p: int) -> int | None:
    """The largest j whose block at p is seen dull, None if not even that of j = 0 is."""
    for j in range(context.k, -1, -1):
        fits = p % 2**j == 0 and p + 2**j <= context.size
        if fits and seen_dull(context, listed, p, j):
            return j
    return None


class Implication:
    """Goes upward, settling blocks; a block is not cut to the budget."""

    def look(self, context: Context, listed: Set[int], start: int, budget: int) -> Answer:
        """The tests before each place, then the blocks from the largest downward."""
        p = start
        while True:
            if p == context.size:
                return Answer(NONE, p)
            if p - start >= budget:
                return Answer(SPENT, p)
            j = largest_dull_block(context, listed, p)
            if j is None:
                return Answer(FOUND, p, p)
            p += 2**j


# Pattern -------------------------------------------------------------------------------------

WORD_BITS = 64
WORD_MASK = (1 << WORD_BITS) - 1
MOST_FRUITLESS = 10


class Pattern:
    """A front that tries 64 drawn assignments in a round."""

    def __init__(self, seed: int, below: Finder) -> None:
        self._z = seed if seed != 0 else 1
        self._fruitless = 0
        self._below = below

    def look(self, context: Context, listed: Set[int], start: int, budget: int) -> Answer:
        """At most one round, then the finder below."""
        if not listed:
            self._fruitless = 0
        if self._fruitless < MOST_FRUITLESS:
            drawn = self._round(context, listed)
            if drawn is not None:
                self._fruitless = 0
                return Answer(FOUND, start, drawn)
            self._fruitless += 1
        return self._below.look(context, listed, start, budget)

    def _round(self, context: Context, listed: Set[int]) -> int | None:
        """The assignment of the lowest lane that is not dull, None if the round is fruitless."""
        leaves = [self._next_word() for _ in range(context.k)]
        for lane, shows in enumerate(shown_in_lanes(context, leaves, WORD_BITS)):
            if not is_dull(shows, listed):
                return lane_bits(leaves, lane)
        return None

    def _next_word(self) -> int:
        """The generator's next word, which is also its new state."""
        self._z ^= self._z << 13 & WORD_MASK
        self._z ^= self._z >> 7
        self._z ^= self._z << 17 & WORD_MASK
        return self._z


# Recall --------------------------------------------------------------------------------------

MOST_RECALLED = 16


class Recall:
    """A front that tries the latest finds of the finder below again."""

    def __init__(self, below: Finder) -> None:
        # The newest is at the left; appending there beyond the length drops the oldest.
        self._store: deque[int] = deque(maxlen=MOST_RECALLED)
        self._below = below

    def look(self, context: Context, listed: Set[int], start: int, budget: int) -> Answer:
        """The stored assignments, newest first, then the finder below."""
        for stored in self._store:
            assignment = stored % context.size
            if not is_dull(shown(context, assignment), listed):
                return Answer(FOUND, start, assignment)
        answer = self._below.look(context, listed, start, budget)
        if answer.assignment is not None:
            self._store.appendleft(answer.assignment)
        return answer
