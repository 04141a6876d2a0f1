"""Values of a network, in several logics, from docs/LOGICS.md alone.

One walk over the nodes serves every logic, as the document has it. Beside the logics of the
document there is one that is only a faster way to have another: `ThreeValuedLanes` is the logic of
three-valued bits, many at a time.
"""

from __future__ import annotations

from collections.abc import Sequence
from typing import Protocol, TypeVar

from job import Job

Value = TypeVar("Value")
# A three-valued bit: 0, 1, or unknown.
Bit3 = int | None
# Three-valued bits in many lanes: those that may be 0, and those that may be 1.
Rails = tuple[int, int]

# Logics --------------------------------------------------------------------------------------


class Logic(Protocol[Value]):
    """What a walk needs: two constants, `pick`, and how a value is inverted."""

    zero: Value
    one: Value

    def pick(self, s: Value, h: Value, l: Value) -> Value:
        """h where s is 1, l where s is 0."""

    def invert(self, value: Value) -> Value:
        """The opposite value, for the node whose value is inverted."""


class PlainBits:
    """0 and 1."""

    zero = 0
    one = 1

    def pick(self, s: int, h: int, l: int) -> int:
        """h if s is 1, else l."""
        return h if s == 1 else l

    def invert(self, value: int) -> int:
        """The other bit."""
        return 1 - value


class Lanes:
    """Numbers of `count` bits, one plain bit for each lane; with 64 lanes these are words."""

    def __init__(self, count: int) -> None:
        self.zero = 0
        self.one = (1 << count) - 1

    def pick(self, s: int, h: int, l: int) -> int:
        """Bit by bit."""
        return s & h | l & ~s

    def invert(self, value: int) -> int:
        """Every bit inverted."""
        return value ^ self.one


class ThreeValued:
    """0, 1 and unknown (None)."""

    zero = 0
    one = 1

    def pick(self, s: Bit3, h: Bit3, l: Bit3) -> Bit3:
        """h or l if s is known; the common value if both are known and equal; else unknown."""
        if s is not None:
            return h if s == 1 else l
        return h if h is not None and h == l else None

    def invert(self, value: Bit3) -> Bit3:
        """The other bit; what is unknown stays so."""
        return None if value is None else 1 - value


class ThreeValuedLanes:
    """Three-valued bits in `count` lanes; a lane that may be both is unknown in it.

    In each lane `pick` gives what that of `ThreeValued` gives: with s unknown the result may be
    what h may be and what l may be, which is one value only if both are known and equal.
    """

    def __init__(self, count: int) -> None:
        self._all = (1 << count) - 1
        self.zero = (self._all, 0)
        self.one = (0, self._all)
        self.unknown = (self._all, self._all)

    def pick(self, s: Rails, h: Rails, l: Rails) -> Rails:
        """Lane by lane."""
        return s[1] & h[0] | s[0] & l[0], s[1] & h[1] | s[0] & l[1]

    def invert(self, value: Rails) -> Rails:
        """What may be 0 may be 1 now, and the other way round."""
        return value[1], value[0]

    def known(self, bits: int) -> Rails:
        """The value that is known in each lane."""
        return self._all ^ bits, bits


# The walk ------------------------------------------------------------------------------------


def walk(
    logic: Logic[Value], network: Job, inputs: Sequence[Value], inverted: int | None = None
) -> list[Value]:
    """The value of every signal, with the value of node `inverted` inverted if there is one."""
    values = list(inputs)
    for n, node in enumerate(network.nodes):
        fanins = [values[signal] for signal in node.fanins]
        value = function_value(logic, node.function, len(fanins), fanins)
        values.append(logic.invert(value) if n == inverted else value)
    return values


def function_value(logic: Logic[Value], function: int, f: int, fanins: Sequence[Value]) -> Value:
    """The value of a function of the first f of these fanins.

    A constant function is not walked down: `pick(s, c, c)` is c in each logic. This is also where
    the descent ends, as every function of no fanins is constant.
    """
    if function == 0:
        return logic.zero
    if function == (1 << (1 << f)) - 1:
        return logic.one
    half = 1 << (f - 1)
    upper = function_value(logic, function >> half, f - 1, fanins)
    lower = function_value(logic, function & (1 << half) - 1, f - 1, fanins)
    return logic.pick(fanins[f - 1], upper, lower)


# Values of a network -------------------------------------------------------------------------


def bits_of(assignment: int, count: int) -> list[int]:
    """The low `count` bits of an assignment, bit 0 first; the others are ignored."""
    return [assignment >> i & 1 for i in range(count)]


def values(network: Job, assignment: int, inverted: int | None = None) -> list[int]:
    """The value of every signal under an assignment."""
    return walk(PlainBits(), network, bits_of(assignment, network.inputs), inverted)


def outputs(network: Job, assignment: int, inverted: int | None = None) -> int:
    """The outputs for an assignment, output j as bit j."""
    found = values(network, assignment, inverted)
    return sum(found[signal] << j for j, signal in enumerate(network.outputs))


def minterm(found: Sequence[int], fanins: Sequence[int]) -> int:
    """The minterm that a node with these fanins reads among the values of all signals."""
    return sum(found[signal] << i for i, signal in enumerate(fanins))
