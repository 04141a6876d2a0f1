"""Reading and writing a job, from docs/JOB-FORMAT.md alone.

This is the reference that the proved reader is compared with. It follows the document section by
section ("The network", "The bytes", "Refusals", "Writing") and takes no shortcut that the document
does not take: the two implementations are worth comparing only as long as they share nothing but
that page.
"""

from __future__ import annotations

from collections.abc import Iterator, Sequence
from dataclasses import dataclass

# The network ---------------------------------------------------------------------------------

MOST_INPUTS = 48
MOST_NODES = 480
MOST_OUTPUTS = 48
MOST_FANINS = 8


@dataclass(frozen=True)
class Node:
    """A node: its fanins are signals, and bit y of `function` is its value at minterm y."""

    fanins: list[int]
    function: int


@dataclass(frozen=True)
class Job:
    """A network: `inputs` primary inputs, its nodes in order, and the signal of each output."""

    inputs: int
    nodes: list[Node]
    outputs: list[int]


def evaluate(job: Job, inputs: Sequence[int]) -> list[int]:
    """The value, 0 or 1, of every signal when the primary inputs have the values `inputs`."""
    values = list(inputs)
    for node in job.nodes:
        minterm = sum(values[signal] << i for i, signal in enumerate(node.fanins))
        values.append(node.function >> minterm & 1)
    return values


# The bytes -----------------------------------------------------------------------------------
# The functions that take a file's bytes read only what an earlier check has found to be there.

INPUTS_PLACE = 0
OUTPUTS_PLACE = 1
NODES_PLACE = 2


def word(data: bytes, place: int) -> int:
    """The word at `place`, its low byte first."""
    return data[place] + 256 * data[place + 1]


def offset_place(n: int) -> int:
    """Where the offset of record n stands."""
    return 4 + 4 * n


def length_place(n: int) -> int:
    """Where the length of record n stands."""
    return 6 + 4 * n


def output_place(nodes: int, j: int) -> int:
    """Where the signal of output j stands in a job of that many nodes."""
    return 4 + 4 * nodes + 2 * j


def head_length(nodes: int, outputs: int) -> int:
    """The length of the head, which is where the first record is due."""
    return 4 + 4 * nodes + 2 * outputs


def function_length(f: int) -> int:
    """How many bytes the function of a node with f fanins takes."""
    return max(1, 2**f // 8)


def record_length(f: int) -> int:
    """The length of the record of a node with f fanins."""
    return 1 + 2 * f + function_length(f)


def fanin_place(start: int, i: int) -> int:
    """Where fanin i stands in the record that starts at `start`."""
    return start + 1 + 2 * i


def function_place(start: int, f: int) -> int:
    """Where the function stands in the record of f fanins that starts at `start`."""
    return start + 1 + 2 * f


@dataclass(frozen=True)
class Counts:
    """The numbers I, N and O, as the first four bytes give them."""

    inputs: int
    nodes: int
    outputs: int

    @property
    def head(self) -> int:
        """The length of the head."""
        return head_length(self.nodes, self.outputs)


def counts(data: bytes) -> Counts:
    """I, N and O of a file that has at least 4 bytes."""
    return Counts(data[INPUTS_PLACE], word(data, NODES_PLACE), data[OUTPUTS_PLACE])


# Refusals ------------------------------------------------------------------------------------

CAUSES: dict[int, str] = {
    1: "the file ends in its head",
    2: "I, O or N is beyond its range",
    3: "a pair is out of line or past the end",
    4: "f is above 8, or the record's length is wrong",
    5: "a fanin is not lower, or an output is no signal",
    6: "a function bit at or above 2^f is set",
    18: "the bytes supplied for writing are too few",
}


@dataclass(frozen=True)
class Refusal:
    """Why a file is no job: the number of the cause, and the first byte of the field at fault."""

    number: int
    place: int

    @property
    def cause(self) -> str:
        """The cause in words, as in the document's table."""
        return CAUSES[self.number]


def check_1(data: bytes) -> Refusal | None:
    """The file has at least 4 bytes."""
    return None if len(data) >= 4 else Refusal(1, len(data))


def check_2(data: bytes) -> Refusal | None:
    """I is at most 48, then O is 1 to 48, then N is at most 480."""
    c = counts(data)
    if c.inputs > MOST_INPUTS:
        return Refusal(2, INPUTS_PLACE)
    if not 1 <= c.outputs <= MOST_OUTPUTS:
        return Refusal(2, OUTPUTS_PLACE)
    if c.nodes > MOST_NODES:
        return Refusal(2, NODES_PLACE)
    return None


def check_3(data: bytes) -> Refusal | None:
    """The file has the whole head."""
    return None if len(data) >= counts(data).head else Refusal(1, len(data))


def check_4(data: bytes) -> Refusal | None:
    """Each output, in order, is a signal."""
    c = counts(data)
    for j in range(c.outputs):
        place = output_place(c.nodes, j)
        if word(data, place) >= c.inputs + c.nodes:
            return Refusal(5, place)
    return None


def check_5(data: bytes) -> Refusal | None:
    """Each pair, in order: the record is where it is due, then it ends within the file.

    `due` is a plain sum: it may pass 65,535, and then no offset can equal it.
    """
    c = counts(data)
    due = c.head
    for n in range(c.nodes):
        if word(data, offset_place(n)) != due:
            return Refusal(3, offset_place(n))
        due += word(data, length_place(n))
        if due > len(data):
            return Refusal(3, length_place(n))
    return None


def check_6(data: bytes) -> Refusal | None:
    """The last record ends the file; without nodes the head does."""
    c = counts(data)
    if c.nodes == 0:
        return None if c.head == len(data) else Refusal(3, c.head)
    last = c.nodes - 1
    end = word(data, offset_place(last)) + word(data, length_place(last))
    return None if end == len(data) else Refusal(3, length_place(last))


def check_7(data: bytes) -> Refusal | None:
    """Each record, in order, all its checks before those of the next."""
    c = counts(data)
    for n in range(c.nodes):
        start, length = word(data, offset_place(n)), word(data, length_place(n))
        refusal = check_record(data, start, length, c.inputs + n)
        if refusal is not None:
            return refusal
    return None


def check_record(data: bytes, start: int, length: int, own: int) -> Refusal | None:
    """One record, of the node whose own signal is `own`: its length, its fanins, its function.

    The length comes first because a record of length 0 has no byte f to look at.
    """
    if length == 0:
        return Refusal(4, start)
    f = data[start]
    if f > MOST_FANINS or length != record_length(f):
        return Refusal(4, start)
    for i in range(f):
        if word(data, fanin_place(start, i)) >= own:
            return Refusal(5, fanin_place(start, i))
    # Only a function of one byte, that of a node with f below 3, has bits at or above 2^f.
    if f < 3 and data[function_place(start, f)] >> 2**f != 0:
        return Refusal(6, function_place(start, f))
    return None


CHECKS = (check_1, check_2, check_3, check_4, check_5, check_6, check_7)


def read(data: bytes) -> Job | Refusal:
    """The job that `data` is, or the refusal of the first check that fails.

    Each check may rely on those before it, so the order is also what keeps every access in range.
    """
    for check in CHECKS:
        refusal = check(data)
        if refusal is not None:
            return refusal
    return decode(data)


def decode(data: bytes) -> Job:
    """The job in bytes that have passed all checks."""
    c = counts(data)
    nodes = [decode_node(data, word(data, offset_place(n))) for n in range(c.nodes)]
    outputs = [word(data, output_place(c.nodes, j)) for j in range(c.outputs)]
    return Job(c.inputs, nodes, outputs)


def decode_node(data: bytes, start: int) -> Node:
    """The node whose record starts at `start`."""
    f = data[start]
    fanins = [word(data, fanin_place(start, i)) for i in range(f)]
    place = function_place(start, f)
    # Bit y mod 8 of byte y div 8 is bit y of the bytes taken as one little-endian number.
    function = int.from_bytes(data[place : place + function_length(f)], "little")
    return Node(fanins, function)


# Writing -------------------------------------------------------------------------------------


def write(job: Job) -> bytes:
    """The bytes of `job`.

    Nothing is checked: what is no network but fits the fields is written too, and gives bytes that
    `read` refuses, which is how the generator makes many of its files. Cause 18 cannot arise, as
    the bytes are not supplied by the caller.
    """
    records = [write_node(node) for node in job.nodes]
    offsets = record_starts(job)
    head = bytes([job.inputs, len(job.outputs)]) + word_bytes(len(job.nodes))
    pairs = b"".join(
        word_bytes(offset) + word_bytes(len(record))
        for offset, record in zip(offsets, records, strict=True)
    )
    outputs = b"".join(word_bytes(signal) for signal in job.outputs)
    return head + pairs + outputs + b"".join(records)


def write_node(node: Node) -> bytes:
    """The record of one node."""
    f = len(node.fanins)
    fanins = b"".join(word_bytes(signal) for signal in node.fanins)
    return bytes([f]) + fanins + node.function.to_bytes(function_length(f), "little")


def record_starts(job: Job) -> Iterator[int]:
    """Where each record starts: at the end of the head, then where the one before ends."""
    start = head_length(len(job.nodes), len(job.outputs))
    for node in job.nodes:
        yield start
        start += record_length(len(node.fanins))


def word_bytes(number: int) -> bytes:
    """A number below 65,536 as a word."""
    return number.to_bytes(2, "little")
