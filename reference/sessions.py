"""Session scripts to compare two implementations with.

    python3 reference/sessions.py NUMBER [--seed N]

prints one script. Everything is made from a seed and the script's number, so that a difference can
be made again. A script is written call by call with a view of what the reference answers, as a
user would write it: most calls are sensible in the state that the board is in, and examinations
go on to their verdict. Some calls are stray: drawn without regard to the state, with arguments at
and beyond every limit.

The first scripts are fixed; they see to it that every answer and every refusal of every call
occurs, however few scripts are made.
"""

from __future__ import annotations

import argparse
import random
import sys
from collections.abc import Callable, Sequence
from dataclasses import dataclass, field
from functools import lru_cache

import generate
from board import FUNCTION_BYTES, Board
from contexts import Context, fanins_of, spread
from job import Job, Node, write
from session import Session

DEFAULT_COUNT = 8000


@dataclass(frozen=True)
class Script:
    """A script and the reference's answer to each line, None where it is passed over."""

    number: int
    kind: str
    lines: list[bytes]
    answers: list[str | None]


# Writing a script ----------------------------------------------------------------------------


@dataclass
class Habit:
    """How an examination is conducted: which finders and budgets, and how many looks at most."""

    finders: list[str]
    budgets: list[int]
    looks: int


@dataclass
class Author:
    """Writes one script; its names hold the script's number, so scripts can share a session."""

    rng: random.Random
    number: int
    session: Session = field(default_factory=Session)
    lines: list[bytes] = field(default_factory=list)
    answers: list[str | None] = field(default_factory=list)
    finders: list[str] = field(default_factory=list)
    habits: dict[str, Habit] = field(default_factory=dict)
    ended: int = 0

    def name(self, word: str) -> str:
        """A name that no other script has."""
        return f"{word}{self.number}"

    def board(self, name: str) -> Board:
        """The board as it stands in the reference."""
        return self.session.board(name.encode())

    def line(self, line: bytes) -> str | None:
        """Writes a line as it is."""
        answer = self.session.answer(line)
        self.lines.append(line)
        self.answers.append(answer)
        return answer

    def call(self, *words: object) -> str:
        """Writes a call, now and then with blanks and digits that do not matter."""
        zeros = self.rng.choice([1, 5, 30]) if self.rng.random() < 0.02 else 0
        plain = ["0" * zeros + str(w) if isinstance(w, int) else str(w) for w in words]
        line = " ".join(plain)
        if self.rng.random() < 0.03:
            blanks = [self.rng.choice([" ", "  ", "\t", " \t ", "\r "]) for _ in range(len(plain))]
            line = "".join(b + w for b, w in zip(blanks, plain)) + self.rng.choice(["", " ", "\r"])
        answer = self.line(line.encode())
        assert answer is not None
        return answer

    def open(self, board: str, data: bytes) -> None:
        """Writes an open, with digits of either case."""
        self.call("open", board, hexadecimal(self.rng, data))

    def declare(self, word: str, spec: str) -> str:
        """Declares a finder: its name."""
        name = self.name(word)
        self.call("finder", name, spec)
        if name not in self.finders:
            self.finders.append(name)
        return name

    def script(self, kind: str) -> Script:
        """What was written."""
        return Script(self.number, kind, self.lines, self.answers)


def hexadecimal(rng: random.Random, data: bytes) -> str:
    """The bytes as a word."""
    word = data.hex() if data else "-"
    return word.upper() if rng.random() < 0.5 else word


# Networks ------------------------------------------------------------------------------------

FANIN_WEIGHTS = (3, 6, 24, 26, 18, 9, 5, 4, 5)


def draw_fanin_count(rng: random.Random, most: int = 8) -> int:
    """How many fanins a node has: mostly few."""
    return rng.choices(range(most + 1), FANIN_WEIGHTS[: most + 1])[0]


def parity(f: int) -> int:
    """The exclusive OR of f fanins."""
    return sum(1 << y for y in range(2**f) if y.bit_count() % 2)


def draw_truth(rng: random.Random, f: int) -> int:
    """A function of f fanins: any, or a constant, AND, OR, XOR, or one near to these."""
    size = 2**f
    ones = (1 << size) - 1
    kind = rng.randrange(24)
    if kind == 0:
        return rng.choice([0, ones])
    if kind <= 3:
        return 1 << rng.randrange(size)
    if kind <= 6:
        return ones ^ 1 << rng.randrange(size)
    if kind <= 10:
        return parity(f)
    if kind <= 13:
        return parity(f) ^ 1 << rng.randrange(size)
    if kind <= 15:
        return rng.getrandbits(size) & rng.getrandbits(size) & rng.getrandbits(size)
    return rng.getrandbits(size)


def draw_node(rng: random.Random, signals: Sequence[int], most: int = 8) -> Node:
    """A node that reads some of these signals; in some nodes one may come more than once."""
    f = draw_fanin_count(rng, most) if signals else 0
    if rng.random() < 0.75:
        f = min(f, len(signals))
        return Node(rng.sample(signals, f), draw_truth(rng, f))
    return Node([rng.choice(signals) for _ in range(f)], draw_truth(rng, f))


def draw_outputs(rng: random.Random, inputs: int, nodes: Sequence[Node], most: int) -> list[int]:
    """Outputs: signals that no node reads, or any; sometimes inputs, sometimes one signal twice."""
    signals = inputs + len(nodes)
    drawn = [rng.randrange(signals) for _ in range(rng.randint(1, most))]
    if rng.random() < 0.3:
        return drawn
    read = {fanin for node in nodes for fanin in node.fanins}
    unread = [signal for signal in range(inputs, signals) if signal not in read]
    rng.shuffle(unread)
    return unread[: rng.choice([1, 2, most])] + drawn[: rng.randint(0, 2)] or drawn


def small_network(rng: random.Random) -> Job:
    """Few inputs, of which some may be unread, and a few nodes; perhaps none of either."""
    inputs = rng.choice([0, 1, 2, 3, 3, 4, 4, 5, 5, 6, 7, 8])
    nodes = rng.choice([0, 1, 2, 3, 4, 5, 6, 7, 8, 10, 12]) if inputs else rng.randint(1, 5)
    most = rng.choice([2, 3, 4, 8])
    made: list[Node] = []
    for n in range(nodes):
        made.append(draw_node(rng, range(inputs + n), most))
    return Job(inputs, made, draw_outputs(rng, inputs, made, 4))


def medium_network(rng: random.Random) -> Job:
    """More inputs and nodes, and signals that are read by several nodes."""
    inputs, nodes = rng.randint(6, 12), rng.randint(8, 24)
    most = rng.choice([3, 4, 5])
    made: list[Node] = []
    for n in range(nodes):
        late = range(max(0, inputs + n - 10), inputs + n)
        made.append(draw_node(rng, late if rng.random() < 0.6 else range(inputs + n), most))
    return Job(inputs, made, draw_outputs(rng, inputs, made, 8))


def local_network(rng: random.Random) -> Job:
    """Deep and long, so that windows are real parts of it.

    A node reads signals shortly before it, and sometimes one from a while ago, so that values come
    back into a window from outside.
    """
    inputs, nodes = rng.randint(2, 48), rng.randint(12, 60)
    reach, most = rng.randint(2, 5), rng.choice([2, 3, 4, 8])
    made: list[Node] = []
    for n in range(nodes):
        own = inputs + n
        signals = list(range(max(0, own - reach), own))
        signals += rng.sample(range(max(0, own - 20), own), rng.randint(0, min(2, own)))
        made.append(draw_node(rng, signals, most))
    return Job(inputs, made, draw_outputs(rng, inputs, made, 6))


def return_network(rng: random.Random) -> Job:
    """A node on whose value a leaf of many of its windows depends.

    From the target a chain leads out and back to a node that reads a fanin of the target, and what
    reads that node reads the target too.
    """
    inputs = rng.randint(2, 6)
    made: list[Node] = []

    def node(*fanins: int) -> int:
        """A node that reads these signals and some inputs."""
        every = [*fanins, *rng.sample(range(inputs), rng.choice([0, 1, 1, 2]))]
        made.append(Node(every, draw_truth(rng, len(every))))
        return inputs + len(made) - 1

    first = node(0, 1)
    target = node(first)
    end = target
    for _ in range(rng.randint(1, 7)):
        end = node(end)
    back = node(end, first)
    last = node(back, target)
    others = rng.sample([first, target, end, back], rng.randint(0, 4))
    return Job(inputs, made, [last, *others])


def broad_network(rng: random.Random) -> Job:
    """One node with many fanins, of which some depend on one another, seen by what reads it."""
    inputs, f = rng.randint(4, 8), rng.choice([4, 5, 6, 6, 6, 7, 8])
    made = [draw_node(rng, range(inputs), 3) for _ in range(rng.randint(0, 4))]
    signals = list(range(inputs + len(made)))
    f = min(f, len(signals))
    made.append(Node(rng.sample(signals, f), rng.getrandbits(2**f)))
    own = signals[-1] + 1
    if rng.random() < 0.5:
        return Job(inputs, made, [own])
    made.append(Node([own, *rng.sample(signals, 2)], draw_truth(rng, 3)))
    return Job(inputs, made, [own + 1, *rng.sample(signals, 1)])


def rare_network(rng: random.Random) -> Job:
    """Minterms that are seldom read: nodes that are 1 for one minterm of many, and an XOR."""
    inputs = rng.randint(8, 12)
    made = []
    for _ in range(rng.randint(2, 4)):
        f = rng.randint(5, 8)
        made.append(Node(rng.sample(range(inputs), f), 1 << rng.randrange(2**f)))
    read = [*range(inputs, inputs + len(made)), rng.randrange(inputs)]
    made.append(Node(read, parity(len(read))))
    return Job(inputs, made, [inputs + len(made) - 1])


def deep_network(rng: random.Random) -> Job:
    """Many leaves: every input is read, most of them by one node."""
    inputs = rng.randint(13, 20)
    signals = list(range(inputs))
    made: list[Node] = []
    while len(signals) > 1:
        # Some signals are used up, some stay and are read again.
        taken = rng.sample(signals, min(len(signals), rng.randint(2, 4)))
        f = len(taken)
        made.append(Node(taken, draw_truth(rng, f)))
        signals = [s for s in signals if s not in taken or rng.random() < 0.15]
        signals.append(inputs + len(made) - 1)
        if len(made) >= 30:
            break
    return Job(inputs, made, [signals[-1], *draw_outputs(rng, inputs, made, 2)])


def wide_network(rng: random.Random, leaves: int) -> Job:
    """As many leaves as said, some of 48 inputs unread; some nodes read only high leaves."""
    inputs = rng.randint(leaves, 48)
    read = sorted(rng.sample(range(inputs), leaves))
    made = [
        Node(read[low : low + 8], draw_truth(rng, len(read[low : low + 8])))
        for low in range(0, leaves, 8)
    ]
    for _ in range(rng.randint(2, 6)):
        own = inputs + len(made)
        high = read[-4:] + list(range(inputs, own)) * rng.randint(0, 1)
        made.append(draw_node(rng, high, 4))
    return Job(inputs, made, draw_outputs(rng, inputs, made, 6))


@lru_cache(1)
def damaged_files() -> list[bytes]:
    """Damaged jobs, most of which are refused."""
    return [data for _, data in generate.systematic_strays()]


def draw_file(rng: random.Random) -> bytes:
    """A file that is likely refused."""
    if rng.random() < 0.3:
        return generate.random_bytes(rng)
    return rng.choice(damaged_files())


# Drawing arguments ---------------------------------------------------------------------------

HUGE = 10**40
BUDGETS = (1, 1, 2, 3, 7, 64, 1000, 65535, 65536)
BAD_BUDGETS = (0, 0, 65537, 65537, 2**16 + 2**32, 2**32, 2**64, 2**64 + 1, HUGE)
SEEDS = (0, 1, 1, 2, 7, 2**32, 2**63, 2**64 - 1)


def draw_spec(rng: random.Random) -> str:
    """A finder: each bottom with each choice of fronts."""
    seed = rng.choice(SEEDS) if rng.random() < 0.6 else rng.getrandbits(64)
    fronts = rng.choice(["", "", "recall/", f"pattern:{seed}/", f"recall/pattern:{seed}/"])
    return fronts + rng.choice(["counting", "implication"])


def draw_budget(rng: random.Random) -> int:
    """A budget, sometimes beyond its range."""
    if rng.random() < 0.3:
        return rng.choice(BAD_BUDGETS)
    return rng.choice(BUDGETS)


def draw_target(rng: random.Random, job: Job) -> int:
    """A node; mostly one that is there."""
    nodes = len(job.nodes)
    if nodes == 0 or rng.random() < 0.03:
        return rng.choice([nodes, nodes + 1, 480, 65536, 2**32, 2**64, HUGE])
    if rng.random() < 0.3:
        return rng.randrange(nodes)
    seen = spread(set(job.outputs), fanins_of(job))
    # Of several the one that has the most to be found out.
    drawn = rng.choices(range(nodes), k=3)
    return max(drawn, key=lambda n: (job.inputs + n in seen, len(job.nodes[n].fanins)))


def draw_context(rng: random.Random, windows: float) -> list[object]:
    """The words for the context: a window that often."""
    if rng.random() >= windows:
        return ["whole"]
    kind = rng.random()
    if kind < 0.8:
        return [rng.randint(0, 3), rng.randint(0, 3)]
    if kind < 0.95:
        return [rng.choice([0, 1, 9, 10]), rng.choice([0, 1, 9, 10])]
    beyond = rng.choice([11, 12, 256, 2**32, 2**64, HUGE])
    return rng.choice([[beyond, 1], [10, beyond], [beyond, 11]])


def draw_function(rng: random.Random, board: Board) -> bytes:
    """A function to offer: the target's, changed where it may be, and sometimes elsewhere."""
    examination = board.examination
    if examination is None or rng.random() < 0.03:
        return rng.randbytes(FUNCTION_BYTES)
    node = board.job.nodes[examination.node]
    size = 2 ** len(node.fanins)
    function = node.function
    for y in range(size):
        if y not in examination.listed and rng.random() < 0.5:
            function ^= 1 << y
    kind = rng.random()
    if kind < 0.2:
        function ^= 1 << rng.randrange(size)
    elif kind < 0.3 and examination.listed:
        function ^= 1 << rng.choice(sorted(examination.listed))
    if kind > 0.9 or 0.17 < kind < 0.23:
        function |= 1 << rng.choice([min(size, 255), rng.randrange(256), 255])
    return function.to_bytes(FUNCTION_BYTES, "little")


def draw_places(rng: random.Random, board: Board) -> int:
    """A number of places around the one that is needed."""
    examination = board.examination
    f = len(board.job.nodes[examination.node].fanins) if examination else rng.randrange(9)
    if rng.random() < 0.03:
        return rng.choice([0, 1, 255, 256, 257, 300, 1_000_001, 2**32, 2**64 + 256, HUGE])
    return 2**f + rng.choice([0, 0, 0, 1, 5, -1])


def draw_room(rng: random.Random, board: Board) -> int:
    """A length around that of the job."""
    if rng.random() < 0.03:
        return rng.choice([0, 1, 5, 6, 7, 1_000_001, 2**32, 2**64 + 6, HUGE])
    return max(0, len(write(board.job)) + rng.choice([0, 0, 0, 1, 2, 9, -1]))


def draw_assignment(rng: random.Random, job: Job) -> int:
    """An assignment, sometimes with bits that are ignored."""
    assignment = rng.getrandbits(48) & (1 << job.inputs) - 1
    kind = rng.random()
    if kind < 0.1:
        return assignment | rng.getrandbits(16) << job.inputs
    if kind < 0.15:
        return assignment | (2**64 - 1) >> job.inputs << job.inputs
    if kind < 0.18:
        return assignment | rng.getrandbits(100) << job.inputs
    return assignment


def wrong_line(rng: random.Random, author: Author, board: str) -> bytes:
    """A line of another shape, or one that is passed over."""
    name = board.encode()
    finder = rng.choice(author.finders or ["nobody"]).encode()
    zeros = b"00" * rng.choice([0, 1, 31, 33, 64])
    return rng.choice(
        [
            b"", b" ", b"\t\r", b"#", b"# run %s 0" % name, b"  #no call", b"#%s" % name,
            b"run", b"run %s" % name, b"run %s 0 0" % name, b"run %s -1" % name,
            b"run %s 1a" % name, b"run %s 1.0" % name, b"run %s 1e1" % name, b"RUN %s 0" % name,
            b"open %s" % name, b"open %s 0" % name, b"open %s 020" % name, b"open %s 0x" % name,
            b"open %s - -" % name, b"open %s 02 01" % name, b"close %s" % name, b"%s" % name,
            b"begin %s" % name, b"begin %s 0" % name, b"begin %s 0 1" % name,
            b"begin %s whole" % name, b"begin %s 0 WHOLE" % name, b"begin %s 0 1 1 1" % name,
            b"begin %s 0 whole whole" % name, b"begin %s 0 1 -1" % name, b"begin %s x 1 1" % name,
            b"look %s" % name, b"look %s %s" % (name, finder), b"look %s undeclared 1" % name,
            b"look %s %s 1 1" % (name, finder), b"look %s %s x" % (name, finder),
            b"look %s %s,1" % (name, finder), b"offer %s" % name, b"offer %s -" % name,
            b"offer %s %s" % (name, zeros or b"0"), b"take %s %s" % (name, zeros or b"zz"),
            b"take %s" % name, b"adopt %s" % name, b"adopt %s x" % name, b"adopt %s 4 4" % name,
            b"adopt %s 1000001" % name, b"adopt %s %d" % (name, 2**64 + 4),
            b"withdraw", b"withdraw %s 0" % name, b"write %s" % name, b"write %s x" % name,
            b"write %s 1000001" % name, b"write %s %d" % (name, 2**64 + 60),
            b"finder", b"finder %s" % finder, b"finder %s count" % finder,
            b"finder %s counting counting" % finder, b"finder %s recall" % finder,
            b"finder %s recall/recall/counting" % finder, b"finder %s pattern/counting" % finder,
            b"finder %s pattern:/counting" % finder, b"finder %s pattern:x/counting" % finder,
            b"finder %s pattern:1/recall/counting" % finder, b"finder %s implication/" % finder,
            b"finder %s pattern:1/pattern:2/implication" % finder, b"finder %s /" % finder,
            b"finder %s counting/implication" % finder, b"finder %s Counting" % finder,
            b"run %s 0" % (b"n" * 33), b"finder %s counting" % (b"n" * 33),
        ]
    )  # fmt: skip


# Calls by state ------------------------------------------------------------------------------


@dataclass(frozen=True)
class Manner:
    """How a script goes on: how often calls are stray, and examinations windows."""

    stray: float
    windows: float
    draw_network: Callable[[random.Random], Job]


def step(author: Author, board: str, manner: Manner) -> None:
    """The next call on a board: sensible in its state, or stray."""
    rng, stands = author.rng, author.board(board)
    if rng.random() < manner.stray:
        stray_call(author, board, manner)
    elif stands.examination is None:
        begin(author, board, manner)
    elif stands.examination.decided:
        after_verdict(author, board, manner)
    else:
        look(author, board)


def begin(author: Author, board: str, manner: Manner) -> None:
    """Begins an examination; a board without nodes gets another network."""
    call_begin(author, board, manner.windows)
    if not author.board(board).job.nodes:
        author.open(board, write(manner.draw_network(author.rng)))


def call_begin(author: Author, board: str, windows: float) -> None:
    """Writes a begin; if it is accepted, a habit is drawn."""
    rng, stands = author.rng, author.board(board)
    words = draw_context(rng, windows)
    answer = author.call("begin", board, draw_target(rng, stands.job), *words)
    if answer.startswith("ok") and stands.examination is not None:
        author.habits[board] = draw_habit(author, stands.examination.context)


def draw_habit(author: Author, examined: Context) -> Habit:
    """How to conduct an examination; the more leaves, the fewer and the longer are the looks."""
    rng = author.rng
    finders = author.finders if rng.random() < 0.25 else [rng.choice(author.finders)]
    if examined.k <= 6:
        budgets = rng.choice([[1], [2], [3], [1, 2, 3, 5, 8], [16], [65536], list(BUDGETS)])
        return Habit(finders, budgets, rng.choice([3, 200, 200, 200]))
    if examined.k <= 14:
        budgets = rng.choice([[100], [777], [4096], [65536], [65536], [1, 64, 65536]])
        return Habit(finders, budgets, rng.choice([5, 400, 400]))
    return Habit(finders, rng.choice([[1, 2, 50], [2000], [5000, 64]]), rng.randint(2, 8))


def look(author: Author, board: str) -> None:
    """One look more; without a verdict in time the examination is given up."""
    rng, habit = author.rng, author.habits[board]
    if habit.looks == 0:
        author.ended += 1
        author.call("withdraw", board)
        return
    habit.looks -= 1
    finder = rng.choice(habit.finders)
    if rng.random() < 0.03:
        author.call("look", board, finder, rng.choice(BAD_BUDGETS))
    author.call("look", board, finder, rng.choice(habit.budgets))


def after_verdict(author: Author, board: str, manner: Manner) -> None:
    """Offers, or the end of the examination, and then sometimes another network."""
    rng, stands = author.rng, author.board(board)
    kind = rng.random()
    if kind < 0.4:
        author.call("offer", board, hexadecimal(rng, draw_function(rng, stands)))
    elif kind < 0.45:
        author.call("look", board, rng.choice(author.finders), draw_budget(rng))
    elif kind < 0.65:
        author.call("take", board, hexadecimal(rng, draw_function(rng, stands)))
    elif kind < 0.95:
        author.call("adopt", board, draw_places(rng, stands))
    else:
        author.call("withdraw", board)
    if stands.examination is None:
        author.ended += 1
        author.call("write", board, draw_room(rng, stands))
        if rng.random() < 0.2:
            author.open(board, write(manner.draw_network(rng)))


def stray_call(author: Author, board: str, manner: Manner) -> None:
    """A call that is drawn without regard to the state."""
    rng, stands = author.rng, author.board(board)
    kind = rng.randrange(14)
    if kind == 0:
        author.open(board, draw_file(rng))
    elif kind == 1:
        again = rng.random() < 0.3
        author.open(board, write(stands.job) if again else write(manner.draw_network(rng)))
    elif kind <= 3:
        call_begin(author, board, 0.6)
    elif kind <= 5:
        author.call("look", board, rng.choice(author.finders), draw_stray_budget(rng, stands))
    elif kind == 6:
        author.call("offer", board, hexadecimal(rng, draw_function(rng, stands)))
    elif kind == 7:
        author.call("take", board, hexadecimal(rng, draw_function(rng, stands)))
    elif kind == 8:
        author.call("adopt", board, draw_places(rng, stands))
    elif kind == 9:
        author.call("withdraw", board)
    elif kind == 10:
        author.call("run", board, draw_assignment(rng, stands.job))
    elif kind == 11:
        author.call("write", board, draw_room(rng, stands))
    elif kind == 12:
        author.line(wrong_line(rng, author, board))
    else:
        author.call("finder", rng.choice(author.finders), draw_spec(rng))


def draw_stray_budget(rng: random.Random, board: Board) -> int:
    """A budget; in a context of many leaves none that takes long."""
    budget = draw_budget(rng)
    examination = board.examination
    is_long = examination is not None and examination.context.k > 14
    return 3 if is_long and 1000 < budget <= 65536 else budget


# Random scripts ------------------------------------------------------------------------------


def start(author: Author, boards: int, finders: int, manner: Manner) -> list[str]:
    """Declares finders and opens boards: the names of the boards.

    Boards and finders have names of their own kind, so one of each may share a name.
    """
    rng = author.rng
    share = rng.random() < 0.2
    for i in range(finders):
        author.declare(f"{'b' if share else 'f'}{i}.", draw_spec(rng))
    names = [author.name(f"b{i}.") for i in range(boards)]
    for name in names:
        if rng.random() < 0.95:
            author.open(name, write(manner.draw_network(rng)))
    return names


def finish(author: Author, boards: list[str]) -> None:
    """Shows what the boards came to."""
    for board in boards:
        stands = author.board(board)
        author.call("run", board, draw_assignment(author.rng, stands.job))
        author.call("write", board, len(write(stands.job)) + author.rng.choice([0, 0, 1, 4]))


def go_on(author: Author, boards: list[str], manner: Manner, examinations: int, calls: int) -> None:
    """Calls until so many examinations have ended, but not for ever."""
    most = len(author.lines) + calls
    while author.ended < examinations and len(author.lines) < most:
        step(author, author.rng.choice(boards), manner)


def single(author: Author) -> None:
    """One board with a small network."""
    rng = author.rng
    network = small_network if rng.random() < 0.7 else medium_network
    manner = Manner(rng.choice([0.0, 0.05, 0.1, 0.2]), rng.choice([0, 0.3, 0.6]), network)
    boards = start(author, 1, rng.choice([1, 1, 2, 3]), manner)
    go_on(author, boards, manner, rng.randint(1, 5), 200)
    finish(author, boards)


def broad(author: Author) -> None:
    """A node of many minterms, whose cover has many cubes."""
    rng, board = author.rng, author.name("b")
    finder = author.declare("f", draw_spec(rng))
    for _ in range(3):
        job = broad_network(rng)
        author.open(board, write(job))
        widest = max(range(len(job.nodes)), key=lambda n: len(job.nodes[n].fanins))
        author.call("begin", board, widest, "whole")
        look_to_verdict(author, board, finder)
        author.call("adopt", board, 256)
        author.call("write", board, len(write(job)))
    manner = Manner(0.05, 0.1, broad_network)
    go_on(author, [board], manner, 1, 50)
    finish(author, [board])


def rare(author: Author) -> None:
    """Short looks for minterms that are seldom read, with pattern in front and few verdicts."""
    rng, board = author.rng, author.name("b")
    front = rng.choice(["", "recall/"])
    finder = author.declare("f", f"{front}pattern:{rng.getrandbits(64)}/counting")
    for _ in range(3):
        job = rare_network(rng)
        author.open(board, write(job))
        author.call("begin", board, rng.choice([len(job.nodes) - 1, 0]), "whole")
        for _ in range(30):
            author.call("look", board, finder, rng.randint(1, 5))
    finish(author, [board])


def windows(author: Author) -> None:
    """One board with a long network, examined in windows."""
    network = author.rng.choice([local_network, local_network, return_network])
    manner = Manner(author.rng.choice([0.0, 0.1]), 0.95, network)
    boards = start(author, 1, 2, manner)
    go_on(author, boards, manner, author.rng.randint(2, 5), 150)
    finish(author, boards)


def crowd(author: Author) -> None:
    """Several boards in turns, with finders that they share."""
    manner = Manner(0.08, 0.3, small_network)
    boards = start(author, author.rng.randint(2, 4), author.rng.randint(2, 4), manner)
    go_on(author, boards, manner, 8, 250)
    finish(author, boards)


def wide(author: Author) -> None:
    """32 leaves, which are as many as there may be, or one more or fewer."""
    rng = author.rng
    leaves = rng.choice([31, 32, 32, 32, 33, 34])
    manner = Manner(0.05, 0.2, lambda drawn: wide_network(drawn, leaves))
    for i, spec in enumerate(["recall/pattern:1/implication", "implication", "recall/counting"]):
        author.declare(f"f{i}.", spec)
    board = author.name("b")
    author.open(board, write(manner.draw_network(rng)))
    go_on(author, [board], manner, 3, 40)
    # What recall stored in wide contexts, tried in a narrow one.
    narrow = Manner(0.0, 0.0, small_network)
    author.open(board, write(narrow.draw_network(rng)))
    go_on(author, [board], narrow, 5, 40)
    finish(author, [board])


def deep(author: Author) -> None:
    """Many leaves, with the longest looks to the verdict or nearly so."""
    rng = author.rng
    seed = rng.choice([0, 1, rng.getrandbits(64)])
    bottom = rng.choice(["counting", "implication", "implication"])
    finder = author.declare("f", rng.choice(["", f"recall/pattern:{seed}/"]) + bottom)
    board = author.name("b")
    job = deep_network(rng)
    author.open(board, write(job))
    author.call("begin", board, rng.randrange(len(job.nodes)), "whole")
    for _ in range(60):
        if author.call("look", board, finder, 65536).startswith("ok 3"):
            break
    author.call("adopt", board, 16)
    finish(author, [board])


def wild(author: Author) -> None:
    """Nothing but stray calls."""
    manner = Manner(1.0, 0.5, small_network)
    boards = start(author, 2, 2, manner)
    for _ in range(60):
        step(author, author.rng.choice(boards), manner)
    finish(author, boards)


KINDS: tuple[tuple[int, Callable[[Author], None]], ...] = (
    (120, single),
    (40, windows),
    (16, crowd),
    (10, broad),
    (9, wild),
    (6, rare),
    (4, wide),
    (1, deep),
)


# Fixed scripts -------------------------------------------------------------------------------


def worked(author: Author) -> None:
    """The example J1."""
    counting = author.declare("c", "counting")
    stack = author.declare("s", "recall/pattern:1/implication")
    board = author.name("b")
    author.open(board, write(generate.j1()))
    author.call("begin", board, 2, "whole")
    for _ in range(8):
        author.call("look", board, counting, 1)
    for function in (0x04, 0x07, 0x14, 0x06):
        author.call("offer", board, function.to_bytes(32, "little").hex())
    author.call("adopt", board, 5)
    for node, levels in (0, ["whole"]), (1, ["whole"]), (0, [0, 1]), (0, [1, 1]), (0, [1, 0]):
        author.call("begin", board, node, *levels)
        for _ in range(6):
            author.call("look", board, stack, 4)
        if node == 1:
            author.call("adopt", board, 4)
        else:
            author.call("withdraw", board)
    finish(author, [board])


def every_refusal(author: Author) -> None:
    """Every call with every cause that may refuse it, and with every answer."""
    finder, board = author.declare("f", "counting"), author.name("b")
    good = write(generate.j1())
    for data in (b"", b"\x31" + good[1:], good + b"\0", good[:18] + b"\x09" + good[19:]):
        author.open(board, data)
    author.open(board, good[:16] + b"\x05" + good[17:])
    author.open(board, good[:-1] + b"\x16")
    zeros, stray, harmful = "00" * 32, "10" + "00" * 31, "07" + "00" * 31
    author.open(board, good)
    not_open = [("look", finder, 0), ("offer", zeros), ("take", stray), ("adopt", 0), ("withdraw",)]
    for word, *rest in not_open:
        author.call(word, board, *rest)
    for words in ((3, "whole"), (3, 11, 11), (HUGE, 11, 11), (2, 11, 0), (2, 0, 11), (2, 0, HUGE)):
        author.call("begin", board, *words)
    author.call("begin", board, 2, 10, 10)
    for word, *rest in [("begin", 3, 11, 11), ("look", finder, 0), ("look", finder, 65537)]:
        author.call(word, board, *rest)
    for word, *rest in [("offer", stray), ("take", harmful), ("adopt", 0), ("look", finder, 1)]:
        author.call(word, board, *rest)
    for budget in (1, 65536, 65536, 65536, 65536, 0):
        author.call("look", board, finder, budget)
    for function in (stray, harmful, "07" + "ff" * 31, "06" + "00" * 31):
        author.call("offer", board, function)
    for word, *rest in [("take", stray), ("take", harmful), ("adopt", 3)]:
        author.call(word, board, *rest)
    author.open(board, good[:10])
    author.call("take", board, "04" + "00" * 31)
    for room in (35, 36, 37):
        author.call("write", board, room)
    too_wide = [Node(list(range(8 * n, 8 * n + 8)), 1) for n in range(4)] + [Node([32], 1)]
    author.open(board, write(Job(33, too_wide, [33])))
    for words in ((0, "whole"), (0, 0, 0), (0, 10, 10), (0, "whole")):
        author.call("begin", board, *words)
    author.call("withdraw", board)
    finish(author, [board])


def never_opened(author: Author) -> None:
    """A board that was never opened, and jobs without nodes or inputs."""
    finder, board = author.declare("f", "implication"), author.name("b")
    for _ in range(2):
        for words in (("run", 1), ("run", 2), ("write", 6), ("write", 8), ("write", 5)):
            author.call(words[0], board, words[1])
        for words in ((0, "whole"), (0, 0, 0), (0, 0, 11)):
            author.call("begin", board, *words)
        author.call("look", board, finder, 1)
        author.open(board, b"")
        author.open(board, write(Job(5, [], [4, 0, 4])))
    author.open(board, write(Job(0, [Node([], 1), Node([0] * 8, 1 << 255)], [1, 0])))
    for node in (1, 0):
        author.call("begin", board, node, "whole")
        for _ in range(3):
            author.call("look", board, finder, 1)
        author.call("adopt", board, 256)
    finish(author, [board])


def names(author: Author) -> None:
    """Names of any bytes that are no blanks."""
    number = b"%d" % author.number
    words = [b"#", b"-", b"whole", b"n" * (32 - len(number)), b"n" * (33 - len(number))]
    words += [b"\xff\xfe", "ü".encode(), b"a\x0bb", b"a\x0cb", b"\x00", b"\x00\x00", b"\x7f"]
    words += [b"/", b"N", b"n"]
    for i, word in enumerate(words):
        name = word + number
        author.line(b"open %s %s" % (name, write(Job(1 + i, [], [i])).hex().encode()))
        author.line(b"finder %s recall/counting" % name)
    for i, word in enumerate(words):
        name = word + number
        author.line(b"run %s %d" % (name, 1 << i))
        author.line(b"look %s %s 1" % (name, name))


def shapes(author: Author) -> None:
    """Every line of another shape, with an examination open that must not be disturbed."""
    author.declare("f", "recall/pattern:3/counting")
    board = author.name("b")
    author.open(board, write(generate.j1()))
    author.call("begin", board, 2, "whole")
    for _ in range(400):
        author.line(wrong_line(author.rng, author, board))
    look_to_verdict(author, board, author.finders[0])
    author.call("adopt", board, 4)
    finish(author, [board])


def look_to_verdict(author: Author, board: str, finder: str, budget: int = 65536) -> None:
    """Looks until the verdict."""
    while not author.call("look", board, finder, budget).startswith("ok 3"):
        pass


def limits(author: Author) -> None:
    """The longest job, the longest list and the most bytes."""
    finder, board = author.declare("f", "recall/pattern:1/implication"), author.name("b")
    longest = generate.full_job(random.Random(author.number))
    author.open(board, write(longest))
    for room in (25539, 25540, 25541):
        author.call("write", board, room)
    for words in ((479, "whole"), (480, "whole"), (479, 11, 11), (479, 10, 10), (479, 0, 0)):
        author.call("begin", board, *words)
    for _ in range(3):
        author.call("look", board, finder, 1)
    author.call("run", board, 2**48 - 1)
    author.open(board, write(generate.j1()))
    author.call("begin", board, 2, "whole")
    author.call("adopt", board, 1_000_000)
    look_to_verdict(author, board, finder)
    author.call("adopt", board, 1_000_001)
    author.call("adopt", board, 1_000_000)
    author.call("write", board, 1_000_000)
    for assignment in (2**64, 2**64 + 1, 2**65 - 1, HUGE + 3, f"1{'0' * 5000}3"):
        author.call("run", board, assignment)


def all_leaves(author: Author) -> None:
    """32 leaves to the verdict: no root, no fanin, fanins at both ends."""
    specs = ("implication", "recall/implication", "recall/pattern:0/implication")
    finders = [author.declare(f"f{i}.", spec) for i, spec in enumerate(specs)]
    counting = author.declare("c", "counting")
    board = author.name("b")
    made = [Node(list(range(8 * n, 8 * n + 8)), (1 << 256) - 2) for n in range(4)]
    made += [Node([], 1), Node([31, 30], 8), Node([31, 29, 31], 0x96), Node([37, 38, 36], 0x6A)]
    made += [Node([0], 1), Node([39, 35], 6)]
    job = Job(32, made, [39])
    author.open(board, write(job))
    for finder in finders:
        for node in (9, 8, 4, 5, 6, 7):
            author.call("begin", board, node, "whole")
            author.call("look", board, counting, 3)
            look_to_verdict(author, board, finder)
            author.call("withdraw", board)
    # What was found with 32 leaves is tried modulo 2^k with few.
    author.open(board, write(generate.j1()))
    for finder in finders:
        for node in (2, 1, 0):
            author.call("begin", board, node, "whole")
            look_to_verdict(author, board, finder)
            author.call("adopt", board, 4)
    finish(author, [board])


def recalls(author: Author) -> None:
    """More finds than recall holds, then the same in another order."""
    finder, board = author.declare("f", "recall/counting"), author.name("b")
    job = Job(5, [Node([0, 1, 2, 3, 4], 0x96696996), Node([4, 3, 2, 1, 0], 1 << 31)], [5, 6])
    author.open(board, write(job))
    for node in (0, 1, 0, 1, 1):
        author.call("begin", board, node, "whole")
        look_to_verdict(author, board, finder, 3)
        author.call("withdraw", board)
    finish(author, [board])


def refused_looks(author: Author) -> None:
    """Refused looks between others, whose finds would show that a finder was asked."""
    specs = ("pattern:5/counting", "recall/pattern:5/counting", "recall/implication")
    finders = [author.declare(f"f{i}.", spec) for i, spec in enumerate(specs)]
    board = author.name("b")
    author.open(board, write(Job(6, [Node([0, 1, 2, 3, 4, 5], parity(6))], [6])))
    for finder in finders * 2:
        author.call("look", board, finder, 65536)
        author.call("begin", board, 0, "whole")
        for budget in BAD_BUDGETS:
            author.call("look", board, finder, budget)
            author.call("look", board, finder, 3)
        look_to_verdict(author, board, finder)
        author.call("look", board, finder, 1)
        author.call("withdraw", board)


def returning(author: Author) -> None:
    """A member that the target reaches only through nodes outside, and that is no root.

    The last node is 0 as long as the highest leaf is, whatever that member is, and the other root
    is constant: so half of the assignments are one block that is seen dull.
    """
    nodes = [Node([0, 2], 6), Node([3, 2], 8), Node([4], 0), Node([5, 1], 6), Node([6], 2)]
    nodes += [Node([1], 1), Node([7, 3], 6), Node([8, 4, 9], 0x28)]
    board = author.name("b")
    author.open(board, write(Job(3, nodes, [10, 9])))
    for i, spec in enumerate(["implication", "counting", "pattern:9/implication"]):
        finder = author.declare(f"f{i}.", spec)
        for levels in ((1, 1), (0, 1), (1, 2), (0, 0)):
            author.call("begin", board, 1, *levels)
            look_to_verdict(author, board, finder, 1)
            author.call("withdraw", board)
    finish(author, [board])


FIXED: tuple[Callable[[Author], None], ...] = (
    worked,
    every_refusal,
    never_opened,
    names,
    shapes,
    limits,
    all_leaves,
    recalls,
    refused_looks,
    returning,
)


def script(seed: int, number: int) -> Script:
    """The script of this number."""
    author = Author(random.Random(f"{seed}/{number}"), number)
    if number < len(FIXED):
        kind = FIXED[number]
    else:
        weights, kinds = zip(*KINDS, strict=True)
        kind = author.rng.choices(kinds, weights)[0]
    kind(author)
    return author.script(kind.__name__)


def main() -> int:
    """Prints the script that the command line names."""
    parser = argparse.ArgumentParser(description="Prints one session script.")
    parser.add_argument("number", type=int, help="the script's number")
    parser.add_argument("--seed", type=int, default=0, help="what the scripts are made from")
    arguments = parser.parse_args()
    for line in script(arguments.seed, arguments.number).lines:
        sys.stdout.buffer.write(line + b"\n")
    return 0


if __name__ == "__main__":
    sys.exit(main())
