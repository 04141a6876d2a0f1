"""The board, and the program's way of reducing, from docs/BOARD.md alone.

A refused call raises `Refused` before anything is changed; causes are tried in rising number.
"""

from __future__ import annotations

from collections.abc import Iterable
from dataclasses import dataclass, field

import network
from contexts import Context, Levels, Refused, context, refuse_if
from covers import Cube, cover, covered, literal_count
from job import Job, Node, Refusal, read, write
from search import FOUND, MOST_BUDGET, NONE, Finder, Implication, Pattern, Recall

NEVER_OPENED = Job(1, [], [0])
CLEARED = Cube(0, 0)
FUNCTION_BYTES = 32


@dataclass
class Examination:
    """An open examination; `start` is the document's *from*."""

    node: int
    context: Context
    listed: set[int] = field(default_factory=set)
    start: int = 0
    decided: bool = False


class Board:
    """One network and at most one open examination."""

    def __init__(self) -> None:
        self.job = NEVER_OPENED
        self.examination: Examination | None = None

    def open(self, data: bytes) -> int:
        """Fills the board from a job's bytes, and closes any examination."""
        reading = read(data)
        if isinstance(reading, Refusal):
            raise Refused(reading.number, reading.place)
        self.job = reading
        self.examination = None
        return 0

    def begin(self, node: int, levels: Levels | None) -> int:
        """Opens an examination in the whole context or, with levels, in a window."""
        refuse_if(7, self.examination is not None)
        examined = context(self.job, node, levels)
        self.examination = Examination(node, examined)
        return examined.k

    def look(self, finder: Finder, budget: int) -> tuple[int, int]:
        """Asks the finder once: the kind of its answer, and minterm, *upto* or count."""
        examination = self._opened()
        refuse_if(12, not 1 <= budget <= MOST_BUDGET)
        refuse_if(13, examination.decided)
        examined, listed = examination.context, examination.listed
        answer = finder.look(examined, listed, examination.start, budget)
        examination.start = answer.upto
        if answer.kind == NONE:
            examination.decided = True
            return NONE, len(listed)
        if answer.kind == FOUND:
            values = network.values(examined.network, answer.assignment)
            minterm = network.minterm(values, examined.fanins)
            listed.add(minterm)
            return FOUND, minterm
        return answer.kind, answer.upto

    def offer(self, function: bytes) -> int:
        """Tests whether a function, handed over as 32 bytes, may stand at the target."""
        examination = self._decided()
        node = self.job.nodes[examination.node]
        offered = int.from_bytes(function, "little")
        refuse_if(15, offered >> 2 ** len(node.fanins) != 0)
        differs = offered ^ node.function
        refuse_if(16, any(differs >> y & 1 for y in examination.listed))
        return 0

    def take(self, function: bytes) -> int:
        """The same, installs the function and closes the examination."""
        self.offer(function)
        self._install(int.from_bytes(function, "little"))
        return 0

    def adopt(self, places: list[Cube]) -> tuple[int, int]:
        """Writes the cover into the places, installs it: cube count and literal count."""
        examination = self._decided()
        node = self.job.nodes[examination.node]
        f = len(node.fanins)
        refuse_if(17, len(places) < 2**f)
        cubes = cover(node.function, f, examination.listed)
        places[: 2**f] = cubes + [CLEARED] * (2**f - len(cubes))
        self._install(covered(cubes, f))
        return len(cubes), literal_count(cubes)

    def withdraw(self) -> int:
        """Closes the examination."""
        self._opened()
        self.examination = None
        return 0

    def run(self, assignment: int) -> int:
        """The outputs under an assignment."""
        return network.outputs(self.job, assignment)

    def write(self, room: bytearray) -> int:
        """Writes the job into the bytes: its length."""
        data = write(self.job)
        refuse_if(18, len(room) < len(data))
        room[: len(data)] = data
        return len(data)

    def _opened(self) -> Examination:
        """The open examination; refusal 11."""
        if self.examination is None:
            raise Refused(11)
        return self.examination

    def _decided(self) -> Examination:
        """The open examination, which has to be decided; refusals 11 and 14."""
        examination = self._opened()
        refuse_if(14, not examination.decided)
        return examination

    def _install(self, function: int) -> None:
        """Another function for the target; the examination is closed."""
        node = self._opened().node
        nodes = list(self.job.nodes)
        nodes[node] = Node(nodes[node].fanins, function)
        self.job = Job(self.job.inputs, nodes, self.job.outputs)
        self.examination = None


# The program's way of reducing ---------------------------------------------------------------

MOST_LOOKS = 1000
WINDOW_LEVELS = (2, 2)
LARGEST_LIST = 2**8


def reduce_job(job: Job) -> Job:
    """The job as the program reduces it."""
    board = Board()
    board.open(write(job))
    finder = Recall(Pattern(1, Implication()))
    for node in reversed(range(len(job.nodes))):
        if begin_first_possible(board, node, (None, WINDOW_LEVELS)):
            if reaches_verdict(board, finder):
                board.adopt([CLEARED] * LARGEST_LIST)
            else:
                board.withdraw()
    return board.job


def begin_first_possible(board: Board, node: int, contexts: Iterable[Levels | None]) -> bool:
    """Begins in the first of these contexts that has few enough leaves, if one has."""
    for levels in contexts:
        try:
            board.begin(node, levels)
            return True
        except Refused as refused:
            # Nothing else can refuse it: the node is there, the levels are low.
            assert refused.number == 10
    return False


def reaches_verdict(board: Board, finder: Finder) -> bool:
    """Looks until the verdict, or as often as the program does."""
    for _ in range(MOST_LOOKS):
        kind, _ = board.look(finder, MOST_BUDGET)
        if kind == NONE:
            return True
    return False
