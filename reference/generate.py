"""Files to compare two readers of jobs with: good jobs, damaged ones and extreme ones.

Everything is made from a seed, so that a difference can be made again. There are two sorts of file:

- aimed files, whose outcome is known from how they are made. They hold the reference reader itself
  to the document, and they see to it that every cause occurs at every kind of field;
- stray files, damaged without regard to the outcome: they find what nobody aimed at.
"""

from __future__ import annotations

import random
from collections.abc import Callable, Iterator
from dataclasses import dataclass
from itertools import combinations

from job import (
    Job,
    Node,
    Refusal,
    fanin_place,
    function_length,
    function_place,
    head_length,
    length_place,
    offset_place,
    output_place,
    record_length,
    record_starts,
    word,
    word_bytes,
    write,
    write_node,
)

DEFAULT_COUNT = 5000


@dataclass(frozen=True)
class Aimed:
    """A file whose outcome is known: the refusal, or None if the file is a job."""

    label: str
    data: bytes
    refusal: Refusal | None


def cases(seed: int = 0, count: int = DEFAULT_COUNT) -> Iterator[tuple[str, bytes]]:
    """All files, each with a label.

    Aimed and systematic files are always there, whatever `count` is, since without them some causes
    and places would be missing; random ones follow until there are `count` files in all.
    """
    made = 0
    for case in aimed(seed):
        yield case.label, case.data
        made += 1
    for label, data in systematic_strays():
        yield label, data
        made += 1
    rng = random.Random(seed)
    for i in range(count - made):
        yield random_stray(rng, i)


def aimed(seed: int = 0) -> Iterator[Aimed]:
    """The files whose outcome is known, in the order of the checks."""
    rng = random.Random(seed)
    yield from good_shapes(rng)
    yield from good_limits(rng)
    yield from good_random(rng)
    yield from short_files()
    yield from cut_files(rng)
    yield from bad_counts(rng)
    yield from bad_outputs(rng)
    yield from bad_pairs(rng)
    yield from sums_past_16_bits()
    yield from bad_ends(rng)
    yield from bad_lengths(rng)
    yield from bad_fanins(rng)
    yield from bad_functions(rng)
    yield from several_faults(rng)


# Building blocks -----------------------------------------------------------------------------


def j1() -> Job:
    """The example of the document."""
    return Job(2, [Node([0, 1], 0x8), Node([0, 1], 0xE), Node([2, 3], 0x6)], [4])


def random_node(rng: random.Random, own: int, f: int) -> Node:
    """A node of f fanins whose own signal is `own`; signal 0 has to be a constant."""
    f = f if own > 0 else 0
    return Node([rng.randrange(own) for _ in range(f)], rng.getrandbits(2**f))


def random_job(
    rng: random.Random, inputs: int, nodes: int, outputs: int, fanins: range = range(9)
) -> Job:
    """A job of these sizes, each node with a number of fanins out of `fanins`."""
    made = [random_node(rng, inputs + n, rng.choice(fanins)) for n in range(nodes)]
    return Job(inputs, made, [rng.randrange(inputs + nodes) for _ in range(outputs)])


def uniform_job(rng: random.Random, f: int, nodes: int = 5) -> Job:
    """A small job whose nodes all have f fanins, with more than two of everything."""
    return random_job(rng, 8, nodes, 5, range(f, f + 1))


def mixed_job(rng: random.Random) -> Job:
    """A small job with a node of each number of fanins."""
    nodes = [random_node(rng, 4 + f, f) for f in range(9)]
    return Job(4, nodes, [12, 0, 5, 5])


def full_job(rng: random.Random, f: int = 8) -> Job:
    """A job with as many inputs, nodes and outputs as there may be; with f = 8 the longest."""
    return random_job(rng, 48, 480, 48, range(f, f + 1))


def positions(count: int) -> Iterator[tuple[str, int]]:
    """The first, a middle and the last of `count` things, each once, with its name."""
    named = {0: "first"}
    named.setdefault(count - 1, "last")
    named.setdefault(count // 2, "middle")
    for position in sorted(named):
        yield named[position], position


def put(data: bytes, place: int, new: bytes) -> bytes:
    """The file with the bytes from `place` on replaced by `new`."""
    return data[:place] + new + data[place + len(new) :]


def put_word(data: bytes, place: int, number: int) -> bytes:
    """The file with the word at `place` replaced."""
    return put(data, place, word_bytes(number))


def put_function(job: Job, n: int, function: int) -> Job:
    """The job with another function for node n."""
    changed = Node(job.nodes[n].fanins, function)
    return Job(job.inputs, job.nodes[:n] + [changed] + job.nodes[n + 1 :], job.outputs)


def put_fanin(job: Job, n: int, i: int, signal: int) -> Job:
    """The job with another signal as fanin i of node n."""
    fanins = list(job.nodes[n].fanins)
    fanins[i] = signal
    changed = Node(fanins, job.nodes[n].function)
    return Job(job.inputs, job.nodes[:n] + [changed] + job.nodes[n + 1 :], job.outputs)


def in_line(inputs: int, outputs: list[int], records: list[bytes]) -> bytes:
    """A file whose pairs are in line, whatever its records are.

    An offset above 65,535 cannot be written; its low 16 bits are, as in a writer that wraps.
    """
    head = bytes([inputs, len(outputs)]) + word_bytes(len(records))
    due = head_length(len(records), len(outputs))
    for record in records:
        head += word_bytes(due & 0xFFFF) + word_bytes(len(record))
        due += len(record)
    return head + b"".join(word_bytes(signal) for signal in outputs) + b"".join(records)


def put_record(job: Job, n: int, record: bytes) -> bytes:
    """The job's file with other bytes as record n, and all pairs in line with that."""
    records = [write_node(node) for node in job.nodes]
    records[n] = record
    return in_line(job.inputs, job.outputs, records)


def starts(job: Job) -> list[int]:
    """Where each record of the job starts."""
    return list(record_starts(job))


# Good jobs -----------------------------------------------------------------------------------


def good(label: str, job: Job) -> Aimed:
    """The file of a job, which has to be accepted."""
    return Aimed(f"good: {label}", write(job), None)


def good_shapes(rng: random.Random) -> Iterator[Aimed]:
    """Small jobs that show one thing each."""
    yield good("J1", j1())
    yield good("the shortest job", Job(1, [], [0]))
    yield good("no inputs, one constant", Job(0, [Node([], 1)], [0]))
    yield good("no inputs", random_job(rng, 0, 20, 3))
    yield good("no nodes", Job(5, [], [4, 0, 2]))
    yield good("one output repeated", Job(2, [Node([0, 1], 6)], [2, 2, 2]))
    yield good("outputs that are inputs", Job(3, [Node([2], 1)], [2, 3, 0, 2]))
    yield good("one signal as all fanins", Job(1, [Node([0] * 8, 1 << 255 | 1)], [1]))
    yield good("each number of fanins", mixed_job(rng))
    for f in range(3):
        for function in range(2 ** 2**f):
            yield good(f"f = {f}, function {function}", Job(f + 1, [Node([0] * f, function)], [0]))
    for f in range(9):
        yield good(f"f = {f}, five nodes", uniform_job(rng, f))
        yield good(f"f = {f}, zero function", put_function(uniform_job(rng, f), 2, 0))
        ones = 2 ** 2**f - 1
        yield good(f"f = {f}, full function", put_function(uniform_job(rng, f), 2, ones))


def good_limits(rng: random.Random) -> Iterator[Aimed]:
    """Jobs with as much of something as there may be."""
    yield good("the longest job", full_job(rng))
    yield good("480 constants", full_job(rng, 0))
    yield good("480 nodes, no inputs", random_job(rng, 0, 480, 1))
    yield good("480 nodes", random_job(rng, 5, 480, 3))
    yield good("48 inputs", random_job(rng, 48, 3, 2))
    yield good("48 inputs, no nodes", Job(48, [], [47]))
    yield good("48 inputs and outputs, no nodes", Job(48, [], list(range(48))))
    yield good("48 outputs", random_job(rng, 2, 7, 48))
    # Each fanin is the highest signal that may stand there, and so is the output.
    chain = [Node([47 + n] * (n % 9), rng.getrandbits(2 ** (n % 9))) for n in range(480)]
    yield good("480 nodes in a chain", Job(48, chain, [527]))


def good_random(rng: random.Random) -> Iterator[Aimed]:
    """Jobs of random sizes."""
    for i in range(250):
        job = random_job(rng, rng.randint(1, 8), rng.randint(0, 8), rng.randint(1, 5))
        yield good(f"random small job {i}", job)
    for i in range(100):
        sizes = rng.randint(1, 48), rng.randint(0, 120), rng.randint(1, 48)
        most = rng.randint(0, 8)
        yield good(f"random job {i}", random_job(rng, *sizes, range(most + 1)))
    for i in range(20):
        sizes = rng.randint(0, 48), rng.randint(300, 480), rng.randint(1, 48)
        yield good(f"random large job {i}", random_job(rng, *sizes))


# Refused files, in the order of the checks ---------------------------------------------------


def bad(label: str, data: bytes, number: int, place: int) -> Aimed:
    """A file that has to be refused."""
    return Aimed(f"bad: {label}", data, Refusal(number, place))


def short_files() -> Iterator[Aimed]:
    """Files of 0 to 5 bytes."""
    for length in range(4):
        for name, source in ("zeros", bytes(4)), ("ones", b"\xff" * 4), ("J1", write(j1())):
            yield bad(f"{length} bytes of {name}", source[:length], 1, length)
    yield bad("4 zeros", bytes(4), 2, 1)
    yield bad("5 zeros", bytes(5), 2, 1)
    yield bad("4 bytes of ones", b"\xff" * 4, 2, 0)
    yield bad("5 bytes of ones", b"\xff" * 5, 2, 0)
    yield bad("4 bytes, one output", bytes([1, 1, 0, 0]), 1, 4)
    yield bad("5 bytes, one output", bytes([1, 1, 0, 0, 0]), 1, 5)
    yield bad("4 bytes, 49 inputs", bytes([49, 1, 0, 0]), 2, 0)
    yield bad("4 bytes, 49 outputs", bytes([1, 49, 0, 0]), 2, 1)
    yield bad("4 bytes, 481 nodes", bytes([1, 1, 0xE1, 1]), 2, 2)
    yield bad("4 bytes, all that there may be", bytes([48, 48, 0xE0, 1]), 1, 4)


def cut_refusal(job: Job, length: int) -> Refusal:
    """What a job's file is refused with if only `length` of its bytes are there."""
    if length < head_length(len(job.nodes), len(job.outputs)):
        return Refusal(1, length)
    ends = [s + record_length(len(node.fanins)) for s, node in zip(starts(job), job.nodes)]
    first = next(n for n, end in enumerate(ends) if end > length)
    return Refusal(3, length_place(first))


def cut_files(rng: random.Random) -> Iterator[Aimed]:
    """Files that end too early: small jobs at every byte, the longest one at chosen bytes."""
    for name, job in ("J1", j1()), ("mixed job", mixed_job(rng)), ("no nodes", Job(3, [], [0, 2])):
        data = write(job)
        for length in range(len(data)):
            yield Aimed(f"cut: {name} at {length}", data[:length], cut_refusal(job, length))
    job = full_job(rng)
    data = write(job)
    outputs, records = output_place(480, 0), head_length(480, 48)
    chosen = [4, 5, 6, 7, 8, 1000, 1001, 1002, 1003]
    chosen += [around + d for around in (outputs, records) for d in (-2, -1, 0, 1, 2)]
    chosen += [outputs + 48, outputs + 49, records + 48, records + 49, records + 50]
    chosen += [len(data) // 2, len(data) - 50, len(data) - 49, len(data) - 48, len(data) - 1]
    for length in chosen:
        yield Aimed(f"cut: longest job at {length}", data[:length], cut_refusal(job, length))


def bad_counts(rng: random.Random) -> Iterator[Aimed]:
    """I, O or N out of range, in files in line with it and in files where only it changed."""
    yield bad("49 inputs", write(random_job(rng, 49, 3, 2)), 2, 0)
    yield bad("255 inputs", write(random_job(rng, 255, 3, 2)), 2, 0)
    yield bad("0 outputs", write(random_job(rng, 2, 3, 0)), 2, 1)
    yield bad("0 outputs, nothing else", bytes([1, 0, 0, 0]), 2, 1)
    yield bad("49 outputs", write(random_job(rng, 2, 3, 49)), 2, 1)
    yield bad("255 outputs", write(random_job(rng, 2, 3, 255)), 2, 1)
    yield bad("481 nodes", write(random_job(rng, 2, 481, 2)), 2, 2)
    yield bad("481 constants", write(random_job(rng, 0, 481, 1, range(1))), 2, 2)
    yield bad("1000 nodes", write(random_job(rng, 2, 1000, 2, range(5))), 2, 2)
    small = write(j1())
    for number in (49, 50, 64, 127, 128, 176, 255):
        yield bad(f"byte I is {number}", put(small, 0, bytes([number])), 2, 0)
    for number in (0, 49, 50, 64, 127, 128, 176, 255):
        yield bad(f"byte O is {number}", put(small, 1, bytes([number])), 2, 1)
    # 0x4000 nodes would give a head of 6 bytes, and 0x8000 likewise, if sums wrapped at 16 bits.
    for number in (481, 482, 512, 736, 0x0300, 0x4000, 0x8000, 0xC000, 0xE001, 0xFFFF):
        yield bad(f"word N is {number}", put_word(small, 2, number), 2, 2)
    everything = put_word(put(small, 0, bytes([49, 49])), 2, 481)
    yield bad("I, O and N out of range", everything, 2, 0)
    yield bad("O and N out of range", put(everything, 0, b"\x30"), 2, 1)
    yield bad("I and N out of range", put(everything, 1, b"\x30"), 2, 0)


def bad_outputs(rng: random.Random) -> Iterator[Aimed]:
    """Outputs that are no signals."""
    yield bad("no signal at all", bytes([0, 1, 0, 0, 0, 0]), 5, 4)
    for inputs, nodes, outputs in (2, 0, 1), (3, 4, 1), (3, 4, 5), (48, 0, 48), (48, 480, 48):
        data = write(random_job(rng, inputs, nodes, outputs))
        signals = inputs + nodes
        shape = f"I = {inputs}, N = {nodes}, O = {outputs}"
        for name, j in positions(outputs):
            place = output_place(nodes, j)
            for number in (signals, signals + 1, signals + 256, 0xFFFF):
                label = f"{name} output {number}, {shape}"
                yield bad(label, put_word(data, place, number), 5, place)
            highest = put_word(data, place, signals - 1)
            yield Aimed(f"good: {name} output the highest signal, {shape}", highest, None)


def bad_pairs(rng: random.Random) -> Iterator[Aimed]:
    """Offsets and lengths that are out of line or past the end."""
    for f in (0, 2, 4):
        job = uniform_job(rng, f)
        for name, n in positions(len(job.nodes)):
            yield from bad_offsets(f"{name} pair, f = {f}", write(job), n)
            yield from bad_pair_lengths(f"{name} pair, f = {f}", write(job), n, len(job.nodes))
    data = write(full_job(rng, 3))
    for name, n in positions(480):
        yield from bad_offsets(f"{name} pair of 480", data, n)
        yield from bad_pair_lengths(f"{name} pair of 480", data, n, 480)
    yield from misplaced_records(uniform_job(rng, 3))


def bad_offsets(label: str, data: bytes, n: int) -> Iterator[Aimed]:
    """The offset of record n is not where the record is due, whatever the length says."""
    place = offset_place(n)
    due = word(data, place)
    for number in (due - 1, due + 1, due ^ 0x100, due ^ 0x8000, 0, 0xFFFF, len(data)):
        wrong = put_word(data, place, number)
        yield bad(f"{label}, offset {number}", wrong, 3, place)
        for length in (0, 0xFFFF):
            also = put_word(wrong, length_place(n), length)
            yield bad(f"{label}, offset {number}, length {length}", also, 3, place)


def bad_pair_lengths(label: str, data: bytes, n: int, nodes: int) -> Iterator[Aimed]:
    """The length of record n is not the distance to the next record, or to the end."""
    place = length_place(n)
    length = word(data, place)
    rest = len(data) - word(data, offset_place(n))
    # A length that stays within the file is found out by the next pair, or else by the end.
    found_out = offset_place(n + 1) if n + 1 < nodes else place
    numbers = {0, length - 1, length + 1, rest - 1, rest, rest + 1, rest + 256, 0xFFFF}
    for number in sorted(numbers - {length}):
        where = place if number > rest else found_out
        yield bad(f"{label}, length {number}", put_word(data, place, number), 3, where)


def misplaced_records(job: Job) -> Iterator[Aimed]:
    """Pairs that point at whole records which do not follow one another."""
    data, at = write(job), starts(job)
    nodes, length = len(job.nodes), record_length(3)

    def point(order: list[int]) -> bytes:
        pairs = b"".join(word_bytes(at[n]) + word_bytes(length) for n in order)
        return put(data, offset_place(0), pairs)

    yield bad("first two records exchanged", point([1, 0, 2, 3, 4]), 3, offset_place(0))
    yield bad("last two records exchanged", point([0, 1, 2, 4, 3]), 3, offset_place(3))
    yield bad("one record used twice", point([0, 1, 1, 3, 4]), 3, offset_place(2))
    yield bad("one record left out", point([0, 1, 3, 4, 4]), 3, offset_place(2))
    gap = data[: at[0]] + b"\0" + data[at[0] :]
    for n in range(nodes):
        gap = put_word(gap, offset_place(n), at[n] + 1)
    yield bad("a gap after the head", gap, 3, offset_place(0))
    gap = data[: at[4]] + b"\0" + data[at[4] :]
    gap = put_word(gap, offset_place(4), at[4] + 1)
    yield bad("a gap before the last record", gap, 3, offset_place(4))


def sums_past_16_bits() -> Iterator[Aimed]:
    """Files whose offsets plus lengths pass 65,535, where a reader whose sums wrap goes astray."""
    two, three = head_length(2, 1), head_length(3, 1)
    big = bytes(35000)
    data = in_line(1, [0], [big, big])
    yield bad("two records of 35000 bytes in line", data, 4, two)
    yield bad("two records of 35000 bytes, file one short", data[:-1], 3, length_place(1))
    yield bad("two records of 35000 bytes, one byte more", data + b"\0", 3, length_place(1))
    yield bad("two records of 35000 bytes, file wrapped", data[:-65536], 3, length_place(0))
    data = in_line(1, [0], [big, big, bytes(2)])
    yield bad("third offset wrapped", data, 3, offset_place(2))
    # The second record ends far past the file; its end less 65,536 is where the third one stands,
    # and the third one ends the file.
    good_record = write_node(Node([], 1))
    data = in_line(1, [0], [good_record, good_record, good_record])
    for back in (1, 2, three + 2):
        third = three + 2 - back
        wrong = put_word(data, length_place(1), 65536 - back)
        wrong = put_word(wrong, offset_place(2), third)
        wrong = put_word(wrong, length_place(2), len(data) - third)
        yield bad(f"third offset {back} back by wrapping", wrong, 3, length_place(1))
    for end in (65535, 65536, 65537):
        data = in_line(1, [0], [good_record, bytes(end - two - 2)])
        yield bad(f"a record ends at {end}", data, 4, two + 2)
        yield bad(f"a record ends at {end}, not there", data[: two + 2], 3, length_place(1))
    data = in_line(1, [0], [bytes(65536 - three), bytes(0), bytes(2)])
    yield bad("offset due at 65536 is 0", data, 3, offset_place(1))
    highest = in_line(1, [0], [bytes(65535 - two), bytes(65535)])
    yield bad("highest offset, highest length", highest, 4, two)
    yield bad("highest offset, highest length, one short", highest[:-1], 3, length_place(1))
    yield bad("highest offset, highest length, one more", highest + b"\0", 3, length_place(1))
    small = write(j1())
    yield bad("J1 and 65536 bytes", small + bytes(65536), 3, length_place(2))
    yield bad("J1 in 70000 bytes", small + bytes(70000 - len(small)), 3, length_place(2))
    yield bad("J1 in a million bytes", small + bytes(10**6 - len(small)), 3, length_place(2))
    yield bad("no nodes and 65536 bytes", write(Job(1, [], [0])) + bytes(65536), 3, 6)
    yield bad("70000 zeros", bytes(70000), 2, 1)
    yield bad("70000 bytes of ones", b"\xff" * 70000, 2, 0)


def bad_ends(rng: random.Random) -> Iterator[Aimed]:
    """Bytes after the last record, or after the head of a job without nodes."""
    for name, job in (
        ("J1", j1()),
        ("no nodes", Job(3, [], [2, 0])),
        ("48 inputs and outputs, no nodes", Job(48, [], list(range(48)))),
        ("mixed job", mixed_job(rng)),
        ("longest job", full_job(rng)),
    ):
        data, nodes = write(job), len(job.nodes)
        place = length_place(nodes - 1) if nodes else len(data)
        for extra in (1, 2, 3, 4, 6, 49, 255, 256):
            yield bad(f"{name} and {extra} zeros", data + bytes(extra), 3, place)
            yield bad(f"{name} and {extra} more", data + rng.randbytes(extra), 3, place)
        yield bad(f"{name} twice", data + data, 3, place)
        if nodes:
            shorter = put_word(data, place, word(data, place) - 1)
            yield bad(f"{name}, last length one less", shorter, 3, place)


def bad_lengths(rng: random.Random) -> Iterator[Aimed]:
    """Records in line whose length is wrong for their f, or whose f is above 8."""
    for f in range(9):
        job = uniform_job(rng, f)
        right = write_node(job.nodes[2])
        for name, n in positions(len(job.nodes)):
            wrong = {
                "has length 0": b"",
                "has length 1": right[:1],
                "is one byte short": right[:-1],
                "is one byte long": right + b"\0",
                "is 256 bytes long": right + bytes(256),
                "is there twice": right + right,
                "says f + 1": bytes([f + 1]) + right[1:],
                "says f - 1": bytes([(f - 1) % 256]) + right[1:],
                "says f = 255": b"\xff" + right[1:],
            }
            for what, record in wrong.items():
                # A record that starts where the one before ends: wrong bytes do not move it.
                label = f"{name} record of f = {f} {what}"
                yield bad(label, put_record(job, n, record), 4, starts(job)[n])
        for other in range(9):
            if other != f:
                record = bytes([f]) + write_node(random_node(rng, 8, other))[1:]
                label = f"record says f = {f}, has the length of f = {other}"
                yield bad(label, put_record(job, 2, record), 4, starts(job)[2])
    yield from many_fanins(rng)


def many_fanins(rng: random.Random) -> Iterator[Aimed]:
    """Records of more than 8 fanins, also with lengths that a wrapping power of two would give."""
    job = uniform_job(rng, 2)
    for f in (9, 10, 12, 16, 31, 32, 35, 40, 63, 64, 67, 72, 128, 131, 255):
        lengths = {1 + 2 * f + 2 ** (f % m) // 8 for m in (8, 16, 32, 64) if f % m < 13}
        lengths |= {1, 2, 1 + 2 * f, 2 + 2 * f}
        if f < 13:
            lengths.add(1 + 2 * f + function_length(f))
        for length in sorted(lengths):
            record = bytes([f]) + bytes(length - 1)
            for name, n in positions(len(job.nodes)):
                label = f"{name} record of f = {f} and length {length}"
                yield bad(label, put_record(job, n, record), 4, starts(job)[n])
    yield bad("all records of length 0", in_line(1, [0], [b""] * 3), 4, head_length(3, 1))
    only = in_line(1, [0], [b""])
    yield bad("the only record has length 0", only, 4, len(only))
    full = full_job(rng)
    at = starts(full)[479]
    yield bad("last of 480 records has length 0", put_record(full, 479, b""), 4, at)
    yield bad("last of 480 records says f = 7", put(write(full), at, b"\x07"), 4, at)


def bad_fanins(rng: random.Random) -> Iterator[Aimed]:
    """Fanins that are not lower than the node's own signal."""
    for f in range(1, 9):
        job = uniform_job(rng, f)
        for name, n in positions(len(job.nodes)):
            for which, i in positions(f):
                yield from wrong_fanin(f"{which} fanin of {name} node, f = {f}", job, n, i)
    full = full_job(rng)
    for name, n in positions(480):
        for which, i in positions(8):
            yield from wrong_fanin(f"{which} fanin of {name} node of 480", full, n, i)
    no_signal = Job(0, [Node([0], 2)], [0])
    yield bad("signal 0 is its own fanin", write(no_signal), 5, fanin_place(10, 0))


def wrong_fanin(label: str, job: Job, n: int, i: int) -> Iterator[Aimed]:
    """Fanin i of node n is the node itself or above; the signal just below is good."""
    own = job.inputs + n
    place = fanin_place(starts(job)[n], i)
    for signal in (own, own + 1, own + 256, 0xFFFF):
        yield bad(f"{label} is {signal}", write(put_fanin(job, n, i, signal)), 5, place)
    yield good(f"{label} is {own - 1}", put_fanin(job, n, i, own - 1))


def bad_functions(rng: random.Random) -> Iterator[Aimed]:
    """Function bits at or above 2^f, which only f below 3 leaves room for."""
    for f in range(3):
        job = uniform_job(rng, f)
        for name, n in positions(len(job.nodes)):
            place = function_place(starts(job)[n], f)
            for bit in range(2**f, 8):
                function = job.nodes[n].function | 1 << bit
                label = f"stray bit {bit} in {name} node, f = {f}"
                yield bad(label, write(put_function(job, n, function)), 6, place)
            all_bits = write(put_function(job, n, 255))
            yield bad(f"all bits in {name} node, f = {f}", all_bits, 6, place)
        full = full_job(rng, f)
        place = function_place(starts(full)[479], f)
        yield bad(f"stray bit in node 479, f = {f}", write(put_function(full, 479, 128)), 6, place)


# Several faults in one file ------------------------------------------------------------------


@dataclass(frozen=True)
class Fault:
    """One way to damage a file, and the refusal that it leads to if no earlier fault is there."""

    label: str
    damage: Callable[[bytes], bytes]
    number: int
    place: int


def word_fault(label: str, place: int, value: int, number: int) -> Fault:
    """A fault that consists in one wrong word, at the place where it is found."""
    return Fault(label, lambda data: put_word(data, place, value), number, place)


def byte_fault(label: str, place: int, value: int, number: int) -> Fault:
    """A fault that consists in one wrong byte, at the place where it is found."""
    return Fault(label, lambda data: put(data, place, bytes([value])), number, place)


def faults_in_order(job: Job) -> list[Fault]:
    """Faults in the order in which the checks meet them, for a job of 5 nodes with 2 fanins."""
    nodes, at = len(job.nodes), starts(job)
    faults = [
        byte_fault("I is 49", 0, 49, 2),
        byte_fault("O is 0", 1, 0, 2),
        word_fault("N is 481", 2, 481, 2),
        Fault("the head is cut", lambda data: data[: at[0] - 1], 1, at[0] - 1),
        word_fault("output 1 is no signal", output_place(nodes, 1), 0xFFFF, 5),
        word_fault("output 4 is no signal", output_place(nodes, 4), job.inputs + nodes, 5),
    ]
    for n in range(nodes):
        faults.append(word_fault(f"offset {n} is 0", offset_place(n), 0, 3))
        faults.append(word_fault(f"length {n} is 65535", length_place(n), 0xFFFF, 3))
    faults.append(Fault("a byte more", lambda data: data + b"\0", 3, length_place(nodes - 1)))
    for n in range(nodes):
        own = job.inputs + n
        faults.append(byte_fault(f"record {n} says f = 9", at[n], 9, 4))
        faults.append(word_fault(f"fanin 0 of {n} is itself", fanin_place(at[n], 0), own, 5))
        faults.append(word_fault(f"fanin 1 of {n} is 65535", fanin_place(at[n], 1), 0xFFFF, 5))
        faults.append(byte_fault(f"stray bit in {n}", function_place(at[n], 2), 0x10, 6))
    return faults


def several_faults(rng: random.Random) -> Iterator[Aimed]:
    """Files with two or three faults, to hold the order of the checks."""
    job = uniform_job(rng, 2)
    faults = faults_in_order(job)
    for fault in faults:
        yield with_faults(write(job), (fault,))
    for two in combinations(faults, 2):
        yield with_faults(write(job), two)
    for three in rng.sample(list(combinations(faults, 3)), 300):
        yield with_faults(write(job), three)


def with_faults(data: bytes, faults: tuple[Fault, ...]) -> Aimed:
    """The file with all these faults, given in the order of the checks: the first one counts.

    The damage is done last to first, so that the cut head, which loses the rest, is cut at last.
    """
    for fault in reversed(faults):
        data = fault.damage(data)
    label = ", ".join(fault.label for fault in faults)
    return bad(label, data, faults[0].number, faults[0].place)


# Stray files ---------------------------------------------------------------------------------


def systematic_strays() -> Iterator[tuple[str, bytes]]:
    """Every one-bit damage and some one-byte damages of two small jobs."""
    low = Job(1, [Node([], 1), Node([1], 2), Node([0, 1], 9), Node([0, 1, 2], 0x96)], [4, 1])
    for name, job in ("J1", j1()), ("f = 0 to 3", low):
        data = write(job)
        for place in range(len(data)):
            for bit in range(8):
                damaged = put(data, place, bytes([data[place] ^ 1 << bit]))
                yield f"stray: {name}, bit {bit} of byte {place}", damaged
            for value in (0x00, 0x7F, 0xFF):
                damaged = put(data, place, bytes([value]))
                yield f"stray: {name}, byte {place} is {value}", damaged
            yield f"stray: {name} without byte {place}", data[:place] + data[place + 1 :]
            yield f"stray: {name}, byte {place} twice", data[: place + 1] + data[place:]


def random_stray(rng: random.Random, i: int) -> tuple[str, bytes]:
    """One random stray file; large jobs are few because they take the most time."""
    if i % 10 == 0:
        return f"stray: random bytes {i}", random_bytes(rng)
    if i % 10 == 1:
        job = random_job(rng, rng.randint(0, 48), rng.randint(100, 480), rng.randint(1, 48))
    else:
        job = random_job(rng, rng.randint(1, 12), rng.randint(0, 40), rng.randint(1, 12))
    data = write(job)
    place = random_place(rng, job, len(data))
    if rng.random() < 0.5:
        value = rng.randrange(256)
        return f"stray: {i}, byte {place} is {value}", put(data, place, bytes([value]))
    place = min(place, len(data) - 2)
    signals = job.inputs + len(job.nodes)
    value = rng.choice([0, 1, signals - 1, signals, len(data), 0xFFFF, rng.randrange(65536)])
    return f"stray: {i}, word at {place} is {value}", put_word(data, place, value)


def random_bytes(rng: random.Random) -> bytes:
    """Random bytes, mostly after four that pass for the counts of a small job."""
    tail = rng.randbytes(rng.randrange(80))
    if rng.random() < 0.2:
        return tail
    return bytes([rng.randrange(50), rng.randrange(1, 6), rng.randrange(6), 0]) + tail


def random_place(rng: random.Random, job: Job, length: int) -> int:
    """A place in a job's file: anywhere, in the head, or in the fanins of a record.

    Anywhere alone would mostly hit functions, in which damage is rarely refused.
    """
    kind = rng.randrange(3)
    if kind == 0 or not job.nodes:
        return rng.randrange(length)
    if kind == 1:
        return rng.randrange(head_length(len(job.nodes), len(job.outputs)))
    n = rng.randrange(len(job.nodes))
    return starts(job)[n] + rng.randrange(1 + 2 * len(job.nodes[n].fanins))
