"""Makes the example jobs in the folder `examples`, from well known circuits.

    python3 reference/examples.py            writes the files
    python3 reference/examples.py --check    says whether the files are what this would write

The circuits are written as a designer would write them and not as small as they could be: signals
that exclude one another, values computed in two ways, constants fed into general logic, outputs
that never change. That is the freedom that a reduction has to find. Circuits with an arithmetic
meaning are tried against that meaning before they are written.
"""

from __future__ import annotations

import argparse
import random
import sys
from collections.abc import Callable, Sequence
from dataclasses import dataclass
from pathlib import Path

from job import Job, Node, evaluate, read, write

FOLDER = Path(__file__).resolve().parent.parent / "examples"
TRIALS = 300


# Building ------------------------------------------------------------------------------------


def function_of(f: int, rule: Callable[..., object]) -> int:
    """The function of f fanins that is 1 where `rule`, called with their values, is true."""
    function = 0
    for minterm in range(2**f):
        if rule(*(minterm >> i & 1 for i in range(f))):
            function |= 1 << minterm
    return function


class Builder:
    """Collects a network, one signal at a time; every method that makes a signal returns it."""

    def __init__(self) -> None:
        self._inputs = 0
        self._nodes: list[Node] = []
        self._outputs: list[int] = []

    def input(self) -> int:
        """A primary input; all of them come before the first node, as signals are numbered so."""
        assert not self._nodes
        self._inputs += 1
        return self._inputs - 1

    def inputs(self, count: int) -> list[int]:
        """Several primary inputs, in a number the one worth 1 first."""
        return [self.input() for _ in range(count)]

    def node(self, fanins: Sequence[int], function: int) -> int:
        """A node with any function."""
        self._nodes.append(Node(list(fanins), function))
        return self._inputs + len(self._nodes) - 1

    def rule(self, fanins: Sequence[int], rule: Callable[..., object]) -> int:
        """A node that is 1 where `rule`, called with the values of the fanins, is true."""
        return self.node(fanins, function_of(len(fanins), rule))

    def constant(self, value: int) -> int:
        """A node without fanins."""
        return self.node([], value)

    def not_(self, signal: int) -> int:
        """The signal inverted."""
        return self.rule([signal], lambda value: not value)

    def and_(self, *signals: int) -> int:
        """Whether all the signals are 1."""
        return self.rule(signals, lambda *values: all(values))

    def or_(self, *signals: int) -> int:
        """Whether one of the signals is 1."""
        return self.rule(signals, lambda *values: any(values))

    def nor(self, *signals: int) -> int:
        """Whether none of the signals is 1."""
        return self.rule(signals, lambda *values: not any(values))

    def xor(self, *signals: int) -> int:
        """Whether an odd number of the signals is 1."""
        return self.rule(signals, lambda *values: sum(values) % 2)

    def mux(self, select: int, if_0: int, if_1: int) -> int:
        """One of two signals, as the first one says."""
        return self.rule([select, if_0, if_1], lambda s, a, b: b if s else a)

    def majority(self, a: int, b: int, c: int) -> int:
        """Whether two of three signals are 1."""
        return self.rule([a, b, c], lambda *values: sum(values) >= 2)

    def cube(self, literals: dict[int, int]) -> int:
        """Whether each of the signals has the value that it is listed with."""
        wanted = tuple(literals.values())
        return self.rule(list(literals), lambda *values: values == wanted)

    def and_or(self, *pairs: tuple[int, int]) -> int:
        """Whether both signals of some pair are 1, in one node: four pairs at most."""
        fanins = [signal for pair in pairs for signal in pair]
        return self.rule(fanins, lambda *v: any(x and y for x, y in zip(v[::2], v[1::2])))

    def output(self, *signals: int) -> None:
        """Makes the signals outputs, in this order."""
        self._outputs.extend(signals)

    def job(self) -> Job:
        """The network."""
        return Job(self._inputs, self._nodes, self._outputs)


# Numbers as bits, for what the circuits mean --------------------------------------------------


def number(bits: Sequence[int]) -> int:
    """The number whose bits these are, the one worth 1 first."""
    return sum(bit << i for i, bit in enumerate(bits))


def bits(value: int, count: int) -> list[int]:
    """The low `count` bits of a number, the one worth 1 first."""
    return [value >> i & 1 for i in range(count)]


# The circuits --------------------------------------------------------------------------------


def j1() -> Job:
    """The example of the job format: the exclusive OR of an AND and an OR."""
    b = Builder()
    x, y = b.inputs(2)
    b.output(b.xor(b.and_(x, y), b.or_(x, y)))
    return b.job()


def j1_meaning(values: list[int]) -> list[int]:
    """Whether the inputs differ."""
    return [values[0] ^ values[1]]


def adder16() -> Job:
    """A carry-select adder of 16 bits in blocks of 4, with skip paths, flags and a parity check.

    Each block is there twice, for a carry-in of 0 and of 1, as the same logic fed by a constant.
    The skip path and the parity check, which never raises its alarm, are redundant.
    """
    b = Builder()
    a_bits, b_bits, carry = b.inputs(16), b.inputs(16), b.input()
    zero, one = b.constant(0), b.constant(1)
    propagate = [b.xor(x, y) for x, y in zip(a_bits, b_bits)]
    generate = [b.and_(x, y) for x, y in zip(a_bits, b_bits)]
    sums: list[int] = []
    carries = [carry]
    for low in range(0, 16, 4):
        block = slice(low, low + 4)
        sums_0, carries_0 = ripple(b, propagate[block], generate[block], zero)
        sums_1, carries_1 = ripple(b, propagate[block], generate[block], one)
        sums += [b.mux(carry, s0, s1) for s0, s1 in zip(sums_0, sums_1)]
        selected = [b.mux(carry, c0, c1) for c0, c1 in zip(carries_0, carries_1)]
        carries += selected
        skip = b.and_(*propagate[block], carry)
        carry = b.or_(selected[3], skip)
    overflow = b.xor(carries[15], carry)
    is_zero = b.and_(b.nor(*sums[:8]), b.nor(*sums[8:]))
    parities = [parity16(b, group) for group in (a_bits, b_bits, carries[:16], sums)]
    b.output(*sums, carry, overflow, is_zero, b.xor(*parities))
    return b.job()


def ripple(
    b: Builder, propagate: list[int], generate: list[int], carry: int
) -> tuple[list[int], list[int]]:
    """The sums of a ripple-carry block, and the carry out of each of its bits."""
    sums, carries = [], []
    for p, g in zip(propagate, generate):
        sums.append(b.xor(p, carry))
        carry = b.or_(g, b.and_(p, carry))
        carries.append(carry)
    return sums, carries


def parity16(b: Builder, signals: list[int]) -> int:
    """The parity of 16 signals."""
    return b.xor(b.xor(*signals[:8]), b.xor(*signals[8:]))


def adder16_meaning(values: list[int]) -> list[int]:
    """Sum, carry, overflow, zero, and the alarm that is always 0."""
    x, y, carry = number(values[:16]), number(values[16:32]), values[32]
    total = x + y + carry
    overflow = (x & 0x7FFF) + (y & 0x7FFF) + carry >> 15 ^ total >> 16
    return bits(total, 17) + [overflow, int(total & 0xFFFF == 0), 0]


def alu8() -> Job:
    """An ALU of 8 bits with ten operations; six of the sixteen operation codes are unused.

    At most one decoded line is on. Adder and subtracter are separate, as if written by two people.
    """
    b = Builder()
    x, y, carry_in, code = b.inputs(8), b.inputs(8), b.input(), b.inputs(4)
    lines = [b.cube(dict(zip(code, bits(operation, 4)))) for operation in range(10)]
    total, carry = add8(b, x, y, carry_in)
    difference, borrow = subtract8(b, x, y, carry_in)
    left, right = [carry_in, *x[:7]], [*x[1:], carry_in]
    result = []
    for i in range(8):
        both, either = b.and_(x[i], y[i]), b.or_(x[i], y[i])
        differ = b.and_(either, b.not_(both))
        values = [total[i], difference[i], both, either, differ, b.not_(either)]
        values += [x[i], b.not_(x[i]), left[i], right[i]]
        pairs = list(zip(lines, values))
        parts = [b.and_or(*pairs[:4]), b.and_or(*pairs[4:8]), b.and_or(*pairs[8:])]
        result.append(b.or_(*parts))
    carries = (lines[0], carry), (lines[1], borrow), (lines[8], x[7]), (lines[9], x[0])
    is_zero = b.and_(b.nor(*result[:4]), b.nor(*result[4:]))
    is_unused = b.and_(b.nor(*lines[:5]), b.nor(*lines[5:]))
    b.output(*result, b.and_or(*carries), is_zero, b.xor(*result), is_unused)
    return b.job()


def add8(b: Builder, x: list[int], y: list[int], carry: int) -> tuple[list[int], int]:
    """Sum and carry, from full adders made of simple gates."""
    sums = []
    for p, q in zip(x, y):
        total, carry = full_adder(b, p, q, carry)
        sums.append(total)
    return sums, carry


def subtract8(b: Builder, x: list[int], y: list[int], borrow: int) -> tuple[list[int], int]:
    """Difference and borrow, with the borrow as a sum of three products."""
    differences = []
    for p, q in zip(x, y):
        differences.append(b.xor(p, q, borrow))
        inverted = b.not_(p)
        borrow = b.or_(b.and_(inverted, q), b.and_(inverted, borrow), b.and_(q, borrow))
    return differences, borrow


def full_adder(b: Builder, x: int, y: int, z: int) -> tuple[int, int]:
    """Sum and carry of three bits, from five gates; the OR never reads 1 twice."""
    half = b.xor(x, y)
    return b.xor(half, z), b.or_(b.and_(x, y), b.and_(half, z))


def half_adder(b: Builder, x: int, y: int) -> tuple[int, int]:
    """Sum and carry of two bits."""
    return b.xor(x, y), b.and_(x, y)


def alu8_meaning(values: list[int]) -> list[int]:
    """The result of the operation, its carry, and whether it is zero, odd in parity, or unused."""
    x, y, carry, code = number(values[:8]), number(values[8:16]), values[16], number(values[17:])
    answers = [
        (x + y + carry, x + y + carry >> 8),
        (x - y - carry, int(x - y - carry < 0)),
        (x & y, 0),
        (x | y, 0),
        (x ^ y, 0),
        (~(x | y), 0),
        (x, 0),
        (~x, 0),
        (2 * x + carry, x >> 7),
        (x // 2 + 128 * carry, x & 1),
    ]
    result, carry_out = answers[code] if code < 10 else (0, 0)
    result &= 0xFF
    return bits(result, 8) + [carry_out, int(result == 0), result.bit_count() % 2, int(code >= 10)]


def mult8() -> Job:
    """An array multiplier of 8 by 8 bits, each row added to the rows before by ripple carry."""
    b = Builder()
    x, y = b.inputs(8), b.inputs(8)
    products = [[b.and_(p, q) for p in x] for q in y]
    total = products[0]
    for shift, row in enumerate(products[1:], 1):
        total = add_row(b, total, row, shift)
    b.output(*total)
    return b.job()


def add_row(b: Builder, total: list[int], row: list[int], shift: int) -> list[int]:
    """`total` with the row, shifted by `shift`, added to it; the carry becomes the highest bit."""
    sums = total[:shift]
    sum_bit, carry = half_adder(b, total[shift], row[0])
    sums.append(sum_bit)
    for i, bit in enumerate(row[1:], shift + 1):
        if i < len(total):
            sum_bit, carry = full_adder(b, total[i], bit, carry)
        else:
            sum_bit, carry = half_adder(b, bit, carry)
        sums.append(sum_bit)
    return sums + [carry]


def mult8_meaning(values: list[int]) -> list[int]:
    """The product."""
    return bits(number(values[:8]) * number(values[8:]), 16)


def comparator24() -> Job:
    """Compares two numbers of 24 bits and hands on the greater one; it uses all 48 inputs.

    A tree decides which is greater, less or equal; at each of its nodes exactly one of the three
    holds. A borrow chain decides a second time, and both answers are used.
    """
    b = Builder()
    x, y = b.inputs(24), b.inputs(24)
    parts = [compare_bits(b, p, q) for p, q in zip(x, y)]
    parts = [compare_parts(b, parts[low : low + 4]) for low in range(0, 24, 4)]
    parts = [compare_parts(b, parts[:3]), compare_parts(b, parts[3:])]
    greater, less, equal = compare_parts(b, parts)
    borrow = b.constant(0)
    for p, q in zip(x, y):
        borrow = b.majority(b.not_(p), q, borrow)
    is_less = b.or_(less, borrow)
    low = [b.mux(borrow, p, q) for p, q in zip(x[:12], y[:12])]
    high = [b.rule([greater, less, p, q], take_greater) for p, q in zip(x[12:], y[12:])]
    b.output(*low, *high, greater, is_less, equal)
    b.output(b.or_(greater, equal), b.or_(is_less, equal), b.or_(greater, is_less))
    return b.job()


def compare_bits(b: Builder, x: int, y: int) -> tuple[int, int, int]:
    """Whether x is greater than y, less, or equal."""
    return b.cube({x: 1, y: 0}), b.cube({x: 0, y: 1}), b.rule([x, y], lambda p, q: p == q)


def compare_parts(b: Builder, parts: list[tuple[int, int, int]]) -> tuple[int, int, int]:
    """The comparison of numbers from those of their parts, the lowest part first, four at most."""
    greater = [part[0] for part in parts]
    less = [part[1] for part in parts]
    equal = [part[2] for part in parts]
    return first_above(b, greater, equal), first_above(b, less, equal), b.and_(*equal)


def first_above(b: Builder, holds: list[int], equal: list[int]) -> int:
    """Whether some part has `holds` and all parts above it are equal, in one node."""
    count = len(holds)

    def rule(*values: int) -> bool:
        part, above = values[:count], values[count:]
        return any(part[i] and all(above[i:]) for i in range(count))

    return b.rule(holds + equal[1:], rule)


def take_greater(greater: int, less: int, x: int, y: int) -> int:
    """A bit of the greater number; of equal numbers both bits are the same."""
    if greater == less:
        return x | y
    return x if greater else y


def comparator24_meaning(values: list[int]) -> list[int]:
    """The greater number, and the six relations."""
    x, y = number(values[:24]), number(values[24:])
    relations = [x > y, x < y, x == y, x >= y, x <= y, x != y]
    return bits(max(x, y), 24) + [int(relation) for relation in relations]


def priority32() -> Job:
    """Grants the lowest of 32 requests, in four groups that can be disabled, and encodes it.

    Grants exclude one another, so the alarm for two grants never rises. The number of the granted
    request is encoded from the grants and once more from the requests.
    """
    b = Builder()
    requests, enables = b.inputs(32), b.inputs(4)
    active = [b.and_(request, enables[i // 8]) for i, request in enumerate(requests)]
    groups = [active[low : low + 8] for low in range(0, 32, 8)]
    some = [b.or_(*group) for group in groups]
    chosen = [lowest(b, some[: g + 1]) for g in range(4)]
    local = [[lowest(b, group[: k + 1]) for k in range(8)] for group in groups]
    grants = [b.and_(grant, chosen[g]) for g in range(4) for grant in local[g]]
    index = [
        b.or_(encoded(b, grants, bit), encoded_in_groups(b, groups, chosen, bit))
        for bit in range(5)
    ]
    alarm = b.or_(two_of(b, chosen), *(two_of(b, group) for group in local))
    b.output(*grants, *index, b.or_(*chosen), alarm)
    return b.job()


def lowest(b: Builder, signals: list[int]) -> int:
    """Whether the last of the signals is 1 and all before it are 0."""
    return b.cube({signal: int(signal == signals[-1]) for signal in signals})


def two_of(b: Builder, signals: list[int]) -> int:
    """Whether more than one of the signals is 1."""
    return b.rule(signals, lambda *values: sum(values) > 1)


def encoded(b: Builder, grants: list[int], bit: int) -> int:
    """One bit of the number of the grant that is 1."""
    numbered = [grant for i, grant in enumerate(grants) if i >> bit & 1]
    return b.or_(b.or_(*numbered[:8]), b.or_(*numbered[8:]))


def encoded_in_groups(b: Builder, groups: list[list[int]], chosen: list[int], bit: int) -> int:
    """The same bit from the requests: which group is chosen, or the lowest request in its group."""
    if bit >= 3:
        return b.or_(*(chosen[g] for g in range(4) if g >> bit - 3 & 1))

    def rule(*values: int) -> int:
        return values.index(1) >> bit & 1 if any(values) else 0

    return b.and_or(*((chosen[g], b.rule(groups[g], rule)) for g in range(4)))


def priority32_meaning(values: list[int]) -> list[int]:
    """The grants, the number of the granted request, whether there is one, and no alarm."""
    requests, enables = values[:32], values[32:]
    active = [i for i in range(32) if requests[i] and enables[i // 8]]
    if not active:
        return [0] * 39
    return bits(1 << active[0], 32) + bits(active[0], 5) + [1, 0]


def control() -> Job:
    """Control logic of a made-up machine: decoded lines, then two planes of products and sums.

    Of the 32 operation codes 20 are used, and of the 16 states 12. Some products are contained in
    another product of the same sum, and the lines of one decoder exclude one another.
    """
    draw = Draw(30)
    b = Builder()
    code, state, flags = b.inputs(5), b.inputs(4), b.inputs(21)
    lines = [b.cube(dict(zip(code, bits(i, 5)))) for i in range(20)]
    lines += [b.cube(dict(zip(state, bits(i, 4)))) for i in range(12)]
    products = []
    for i in range(80):
        literals = draw.literals([lines[i % 32]], flags, 1 + draw.below(4))
        products.append(b.cube(literals))
        products.append(b.cube(draw.literals([], flags, 2) | literals))
    sums = [b.or_(*draw.dealt(products, s, 44)) for s in range(44)]
    products = [
        b.cube(draw.literals([sums[i % 44]], sums + flags, 2 + draw.below(4))) for i in range(110)
    ]
    sums = [b.or_(*draw.dealt(products, s, 40)) for s in range(40)]
    # The last level holds a new value or the flag that stood there before, as an enable says.
    held = [b.mux(sums[i], sums[(i + 7) % 40], flags[i % 21]) for i in range(40)]
    b.output(*held)
    return b.job()


class Draw:
    """Random choices; only random() is used, which is the same in every version of Python."""

    def __init__(self, seed: int) -> None:
        self._rng = random.Random(seed)

    def below(self, limit: int) -> int:
        """A number below the limit."""
        return int(self._rng.random() * limit)

    def literals(self, certain: list[int], others: list[int], count: int) -> dict[int, int]:
        """The certain signals wanted to be 1, and `count` of the others with either value."""
        literals = {signal: 1 for signal in certain}
        while len(literals) < len(certain) + count:
            literals.setdefault(others[self.below(len(others))], self.below(2))
        return literals

    def dealt(self, signals: list[int], hand: int, hands: int) -> list[int]:
        """One of several hands that together hold all signals, with up to four signals more."""
        dealt = signals[hand * len(signals) // hands : (hand + 1) * len(signals) // hands]
        more = [signals[self.below(len(signals))] for _ in range(self.below(5))]
        return list(dict.fromkeys(dealt + more))


# The files -----------------------------------------------------------------------------------


# What the outputs are for given values of the inputs.
Meaning = Callable[[list[int]], list[int]]


@dataclass(frozen=True)
class Example:
    """A circuit and, if it has one, what its outputs mean in terms of its inputs."""

    build: Callable[[], Job]
    meaning: Meaning | None


EXAMPLES = [
    Example(j1, j1_meaning),
    Example(adder16, adder16_meaning),
    Example(alu8, alu8_meaning),
    Example(mult8, mult8_meaning),
    Example(comparator24, comparator24_meaning),
    Example(priority32, priority32_meaning),
    Example(control, None),
]


def trial_values(rng: random.Random, trial: int, count: int) -> list[int]:
    """Values for `count` inputs, in turn random, with few ones, and with two like halves.

    Equal numbers, zeros and lone requests would hardly occur among random values alone.
    """
    values = rng.getrandbits(count)
    if trial % 3 == 1:
        values &= rng.getrandbits(count) & rng.getrandbits(count) & rng.getrandbits(count)
    if trial % 3 == 2:
        half = bits(values, count // 2)
        return (half + half + [0])[:count]
    return bits(values, count)


def tried(example: Example) -> Job:
    """The example's job, found to be accepted and to mean what it should."""
    job = example.build()
    assert read(write(job)) == job, f"{example.build.__name__} is refused"
    if example.meaning is not None:
        try_meaning(job, example.meaning)
    return job


def try_meaning(job: Job, meaning: Meaning) -> None:
    """Compares the outputs with what they should be, for some values of the inputs."""
    rng = random.Random(0)
    for trial in range(TRIALS):
        values = trial_values(rng, trial, job.inputs)
        signals = evaluate(job, values)
        found = [signals[output] for output in job.outputs]
        assert found == meaning(values), f"{meaning.__name__} is not met on {values}"


def main() -> int:
    """Reads the command line; the answer is the exit status."""
    parser = argparse.ArgumentParser(description="Makes the example jobs.")
    parser.add_argument("--check", action="store_true", help="only compare with the files there")
    check = parser.parse_args().check
    good = True
    for example in EXAMPLES:
        job = tried(example)
        data = write(job)
        path = FOLDER / f"{example.build.__name__}.job"
        if not check:
            FOLDER.mkdir(exist_ok=True)
            path.write_bytes(data)
        same = path.is_file() and path.read_bytes() == data
        good = good and same
        sizes = f"{job.inputs} inputs, {len(job.nodes)} nodes, {len(job.outputs)} outputs"
        print(f"{path.name}: {sizes}, {len(data)} bytes{'' if same else ', the file differs'}")
    return 0 if good else 1


if __name__ == "__main__":
    sys.exit(main())
