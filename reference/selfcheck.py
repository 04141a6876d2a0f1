"""Tries the reference against its own documents, in other and slower ways than it computes.

    python3 reference/selfcheck.py [--seed N]

The worked cases are those of the example J1. Everything else is random and small, so that it can be
compared with a plain trial of all cases. The last line says that all is well; the exit status is 1
at the first thing that is not.
"""

from __future__ import annotations

import argparse
import random
import sys
from collections.abc import Iterator
from itertools import product

import session
from board import Board, Examination, reduce_job
from contexts import Context, Levels, Refused, context
from covers import Cube, cover, covered
from generate import j1, random_job
from job import Job, Node, evaluate, write
from network import (
    PlainBits,
    ThreeValued,
    bits_of,
    function_value,
    minterm,
    outputs,
    values,
    walk,
)
from search import (
    CHUNK,
    FOUND,
    NONE,
    SPENT,
    Answer,
    Counting,
    Finder,
    Implication,
    Pattern,
    Recall,
    is_dull,
    seen_dull,
    shown,
    shown_in_chunk,
)
from sessions import script

CASES = 150


# Doing things on a board ---------------------------------------------------------------------


def opened(job: Job) -> Board:
    """A board with this job."""
    board = Board()
    board.open(write(job))
    return board


def looks_to_verdict(board: Board, finder: Finder, budget: int) -> int:
    """How many looks it takes to the verdict, that look among them."""
    looks = 1
    while board.look(finder, budget)[0] != NONE:
        looks += 1
    return looks


def examination_of(board: Board) -> Examination:
    """The open examination."""
    assert board.examination is not None
    return board.examination


def free(board: Board, node: int, levels: Levels | None = None) -> set[int]:
    """Begins an examination, decides it, and gives the free minterms; it stays open."""
    board.begin(node, levels)
    looks_to_verdict(board, Implication(), 65536)
    return set(range(2 ** len(board.job.nodes[node].fanins))) - examination_of(board).listed


def refusal(call: object, *arguments: object) -> int:
    """The number that the call is refused with, 0 if it is accepted."""
    assert callable(call)
    try:
        call(*arguments)
        return 0
    except Refused as refused:
        return refused.number


def handed(function: int) -> bytes:
    """A function as it is handed over."""
    return function.to_bytes(32, "little")


# Worked cases --------------------------------------------------------------------------------


def check_j1() -> None:
    """The example J1, one node after the other."""
    board = opened(j1())
    assert free(board, 2) == {1}
    assert refusal(board.offer, handed(0x04)) == 0
    assert refusal(board.offer, handed(0x07)) == 16
    assert refusal(board.offer, handed(0x14)) == 15
    places = [Cube(511, 341)] * 5
    assert board.adopt(places) == (1, 2)
    assert places == [Cube(3, 2), Cube(0, 0), Cube(0, 0), Cube(0, 0), Cube(511, 341)]
    assert board.job.nodes[2].function == 0x04

    assert free(board, 0) == {0}
    board.withdraw()
    assert free(board, 1) == {3}
    places = [Cube(511, 341)] * 4
    assert board.adopt(places) == (2, 2)
    assert places[:2] == [Cube(1, 1), Cube(2, 2)]
    assert board.job.nodes[1].function == 0x0E

    assert free(board, 0, (0, 1)) == set()
    board.withdraw()
    assert free(board, 0, (1, 1)) == {0}


def check_j1_untouched() -> None:
    """Node 0 of J1 frees nothing as long as node 2 is the exclusive OR; looks of node 2."""
    board = opened(j1())
    assert free(board, 0) == set()
    for budget, looks in (1, 7), (4, 4):
        board = opened(j1())
        board.begin(2, None)
        assert looks_to_verdict(board, Counting(), budget) == looks


def check_small_shapes() -> None:
    """A node that no output sees, and a constant that is an output."""
    and_, or_, xor = j1().nodes
    board = opened(Job(2, [and_, or_, xor], [2]))
    assert free(board, 1) == {0, 1, 2, 3}
    places = [Cube(511, 341)] * 4
    assert board.adopt(places) == (0, 0)
    assert board.job.nodes[1].function == 0

    board = opened(Job(0, [Node([], 1)], [0]))
    assert free(board, 0) == set()
    places = [Cube(511, 341)]
    assert board.adopt(places) == (1, 0)
    assert places == [Cube(0, 0)]

    board = Board()
    assert (board.run(1), board.run(2)) == (1, 0)
    assert refusal(board.begin, 0, None) == 8
    assert board.write(bytearray(6)) == 6


def check_refusals() -> None:
    """Several causes at once: the lowest number."""
    board = opened(j1())
    assert refusal(board.withdraw) == 11
    assert refusal(board.look, Counting(), 0) == 11
    assert refusal(board.offer, handed(1 << 200)) == 11
    assert refusal(board.take, handed(1 << 200)) == 11
    assert refusal(board.adopt, []) == 11
    assert refusal(board.begin, 3, (11, 0)) == 8
    assert refusal(board.begin, 2, (11, 0)) == 9
    assert refusal(board.begin, 2, (0, 11)) == 9
    assert refusal(board.begin, 2, (10, 10)) == 0
    assert refusal(board.begin, 3, (11, 0)) == 7
    assert refusal(board.look, Counting(), 65537) == 12
    assert refusal(board.offer, handed(1 << 200)) == 14
    assert refusal(board.adopt, []) == 14
    looks_to_verdict(board, Counting(), 65536)
    assert refusal(board.look, Counting(), 0) == 12
    assert refusal(board.look, Counting(), 1) == 13
    assert refusal(board.take, handed(0x17)) == 15
    assert refusal(board.take, handed(0x07)) == 16
    assert refusal(board.adopt, [Cube(0, 0)] * 3) == 17
    assert refusal(board.open, b"") == 1 and board.examination is not None
    assert refusal(board.write, bytearray(35)) == 18
    # Just as many leaves as there may be, and one more.
    wide = [Node(list(range(8 * n, 8 * n + 8)), 1 << n) for n in range(4)]
    assert opened(Job(33, wide, [33])).begin(0, None) == 32
    assert refusal(opened(Job(33, wide + [Node([32], 1)], [33])).begin, 0, None) == 10


def check_session_shapes() -> None:
    """Lines that are passed over, and lines of another shape."""
    lines = [b"", b" \t\r", b"# run b 1", b" #x", b"run b 3\r", b"\trun  b\t0000000002 "]
    assert session.answers(lines) == ["ok 1", "ok 0"]
    long = b"n" * 33
    wrong = [
        b"Run b 1", b"run b", b"run b 1 1", b"run b -1", b"run b +1", b"run b 1x", b"run b 0x1",
        b"run " + long + b" 1", b"finder " + long + b" counting", b"finder f", b"finder f count",
        b"finder f recall/recall/counting", b"finder f pattern:1/recall/counting",
        b"finder f pattern/counting", b"finder f pattern:/counting", b"finder f recall",
        b"finder f recall/", b"finder f /counting", b"finder f pattern:1/pattern:1/counting",
        b"open b 0", b"open b 0g", b"open b --", b"begin b 0", b"begin b 0 1", b"begin b 0 Whole",
        b"begin b 0 1 1 1", b"begin b 0 whole 1", b"look b f 1", b"offer b -", b"offer b 00",
        b"take b " + b"00" * 33, b"adopt b 1000001", b"write b 1000001", b"write b",
        b"run\x0bb 1", b"withdraw", b"withdraw b b", b"\x00",
    ]  # fmt: skip
    assert all(answer.startswith("? ") for answer in session.answers(wrong))
    assert len(session.answers(wrong)) == len(wrong)
    huge = b"9" * 5000
    lines = [b"begin b %s whole" % huge, b"open b " + write(j1()).hex().encode()]
    lines += [b"begin b 2 %s 1" % huge, b"begin b 2 whole", b"finder f counting"]
    lines += [b"look b f " + huge, b"look b f 000065536", b"run b " + huge]
    assert session.answers(lines) == "no 8,ok 0,no 9,ok 2,ok,no 12,ok 1 0,ok 0".split(",")
    assert session.answers([b"open b -", b"write b 6"]) == ["no 1 0", "ok 6 010100000000"]


def check_scripts() -> None:
    """A script can be made again, and its answers are those that session.py gives."""
    for number in range(0, 40, 3):
        made = script(0, number)
        assert made == script(0, number)
        given = [answer for answer in made.answers if answer is not None]
        assert session.answers(made.lines) == given


# Values and logics ---------------------------------------------------------------------------


def small_jobs(rng: random.Random, count: int) -> Iterator[Job]:
    """Small networks with each number of fanins, few inputs and much sharing."""
    for _ in range(count):
        most = rng.choice([2, 2, 3, 3, 4, 8])
        inputs, nodes = rng.randint(0, 5), rng.randint(1, 9)
        yield random_job(rng, inputs, nodes, rng.randint(1, 3), range(most + 1))


def check_values(rng: random.Random) -> None:
    """Values against those of job.py, and an inversion against a network that has it inside."""
    for job in small_jobs(rng, CASES):
        node = rng.randrange(len(job.nodes))
        old = job.nodes[node]
        opposite = Node(old.fanins, old.function ^ (1 << 2 ** len(old.fanins)) - 1)
        other = Job(job.inputs, job.nodes[:node] + [opposite] + job.nodes[node + 1 :], job.outputs)
        for assignment in range(2**job.inputs):
            bits = bits_of(assignment, job.inputs)
            high = assignment + (rng.getrandbits(20) << job.inputs)
            assert values(job, high) == evaluate(job, bits)
            assert values(job, high, node) == evaluate(other, bits)


def check_three_values(rng: random.Random) -> None:
    """A node is known exactly if its function is constant over its unknown fanins."""
    for _ in range(4 * CASES):
        f = rng.randint(0, 4)
        function = rng.getrandbits(2**f)
        fanins = [rng.choice([0, 1, None]) for _ in range(f)]
        choices = [(0, 1) if fanin is None else (fanin,) for fanin in fanins]
        results = {
            function_value(PlainBits(), function, f, chosen) for chosen in product(*choices)
        }
        known = results.pop() if len(results) == 1 else None
        assert function_value(ThreeValued(), function, f, fanins) == known


# Contexts ------------------------------------------------------------------------------------


def distances(job: Job) -> list[list[float]]:
    """The least number of edges from each signal to each other, relaxed until nothing changes."""
    signals = job.inputs + len(job.nodes)
    far = float("inf")
    edges = [(x, job.inputs + n) for n, node in enumerate(job.nodes) for x in node.fanins]
    found = [[0 if a == b else far for b in range(signals)] for a in range(signals)]
    for row in found:
        for x, y in edges:  # ascending in y, so one pass is enough
            row[y] = min(row[y], row[x] + 1)
    return found


def check_windows(rng: random.Random) -> None:
    """Members by distances between all signals; leaves, roots and numbering one by one."""
    for job in small_jobs(rng, 2 * CASES):
        node, p, q = rng.randrange(len(job.nodes)), rng.randint(0, 3), rng.randint(0, 3)
        made = context(job, node, (p, q))
        d, target = distances(job), job.inputs + node
        every = range(job.inputs + len(job.nodes))
        members = [
            s
            for s in every[job.inputs :]
            if any(d[target][b] <= q and d[s][b] <= p + q for b in every)
            and any(d[a][target] <= p and d[a][s] <= p + q for a in every)
        ]
        assert made.members == members
        assert made.leaves == [
            s for s in every if s not in members and any(s in fanins(job, m) for m in members)
        ]
        assert made.roots == [s for s in members if is_root(job, set(members), target, s)]
        check_numbering(job, made)


def fanins(job: Job, signal: int) -> list[int]:
    """The fanins of a signal."""
    return [] if signal < job.inputs else job.nodes[signal - job.inputs].fanins


def is_root(job: Job, members: set[int], target: int, signal: int) -> bool:
    """Whether a member is a root, by the paths that lead down from it."""

    def comes_from_target(s: int) -> bool:
        """Whether a path of members leads from the target to s."""
        if s not in members:
            return False
        return s == target or any(comes_from_target(x) for x in fanins(job, s))

    outside = set(range(job.inputs, job.inputs + len(job.nodes))) - members
    seen = signal in job.outputs or any(signal in fanins(job, s) for s in outside)
    return seen and comes_from_target(signal)


def check_numbering(job: Job, made: Context) -> None:
    """The context's own network is the old one under other numbers."""
    old = made.leaves + made.members
    for member, node in zip(made.members, made.network.nodes, strict=True):
        assert [old[x] for x in node.fanins] == fanins(job, member)
        assert node.function == job.nodes[member - job.inputs].function
    assert [old[x] for x in made.network.outputs] == made.roots
    assert made.network.inputs == made.k


# The search ----------------------------------------------------------------------------------


def finders(rng: random.Random) -> list[Finder]:
    """One finder of each make."""
    made: list[Finder] = []
    for below in (Counting, Implication):
        seed = rng.choice([0, 1, rng.getrandbits(64)])
        made += [below(), Recall(below()), Pattern(seed, below())]
        made.append(Recall(Pattern(seed, below())))
    return made


class Watched:
    """A finder whose every answer is held to the rules for finders, by trying all assignments."""

    def __init__(self, below: Finder) -> None:
        self._below = below

    def look(self, context: Context, listed: set[int], start: int, budget: int) -> Answer:
        """The answer of the finder below, after the check."""
        answer = self._below.look(context, listed, start, budget)
        dull = [is_dull(shown(context, a), listed) for a in range(context.size)]
        assert start <= answer.upto <= context.size and all(dull[: answer.upto])
        if answer.kind == FOUND:
            assert answer.assignment is not None and not dull[answer.assignment]
        elif answer.kind == SPENT:
            assert start + budget <= answer.upto < context.size
        else:
            assert answer.kind == NONE and answer.upto == context.size
        return answer


def complete_dont_cares(job: Job, node: int) -> set[int]:
    """By all assignments of the primary inputs and all outputs."""
    target = job.nodes[node]
    care = {
        minterm(values(job, assignment), target.fanins)
        for assignment in range(2**job.inputs)
        if outputs(job, assignment) != outputs(job, assignment, node)
    }
    return set(range(2 ** len(target.fanins))) - care


def check_verdicts(rng: random.Random) -> None:
    """Whole contexts free the complete don't-cares, windows some of them; finders are kept."""
    made = finders(rng)
    for job in small_jobs(rng, CASES):
        node = rng.randrange(len(job.nodes))
        everything = set(range(2 ** len(job.nodes[node].fanins)))
        board = opened(job)
        expected = complete_dont_cares(job, node)
        for levels in None, (rng.randint(0, 2), rng.randint(0, 2)):
            care = []
            for finder in rng.sample(made, 3):
                board.begin(node, levels)
                looks_to_verdict(board, Watched(finder), rng.choice([1, 2, 5, 65536]))
                care.append(examination_of(board).listed)
                board.withdraw()
            assert care[0] == care[1] == care[2]
            if levels is None:
                assert everything - care[0] == expected
            assert everything - care[0] <= expected


def check_tables(rng: random.Random) -> None:
    """What is computed for many assignments or blocks at once, against one at a time."""
    jobs = list(small_jobs(rng, CASES)) + [random_job(rng, 10, 12, 2, range(5)) for _ in range(3)]
    for job in jobs:
        levels = rng.choice([None, (1, 1)])
        made = context(job, rng.randrange(len(job.nodes)), levels)
        fanin_count = len(made.fanins)
        listed = {y for y in range(2**fanin_count) if rng.random() < 0.4}
        for p in rng.sample(range(made.size), min(made.size, 40)):
            assert shown_in_chunk(made, p // CHUNK)[p % CHUNK] == shown(made, p)
            assert seen_dull(made, listed, p, 0) == is_dull(shown(made, p), listed)
            for j in range(made.k + 1):
                if p % 2**j == 0:
                    assert seen_dull(made, listed, p, j) == slowly_seen_dull(made, listed, p, j)


def slowly_seen_dull(made: Context, listed: set[int], p: int, j: int) -> bool:
    """Whether a block is seen dull, by the walk with single three-valued bits."""
    leaves = [None if i < j else bit for i, bit in enumerate(bits_of(p, made.k))]
    as_is = walk(ThreeValued(), made.network, leaves)
    inverted = walk(ThreeValued(), made.network, leaves, made.target)
    roots = [(as_is[root], inverted[root]) for root in made.network.outputs]
    if all(a is not None and a == b for a, b in roots):
        return True
    read = [as_is[signal] for signal in made.fanins]
    return None not in read and sum(bit << i for i, bit in enumerate(read)) in listed


def check_fronts() -> None:
    """The generator's words, the ten rounds, and what recall stores."""
    pattern = Pattern(0, Counting())
    words = [pattern._next_word() for _ in range(2)]
    assert words[0] == 0x40822041 and words == [Pattern(1, Counting())._next_word(), words[1]]

    # Two leaves, of which the target reads one; all is listed, so every round is fruitless.
    made = context(Job(2, [Node([0], 2), Node([1, 2], 6)], [3]), 0, None)
    for rounds in range(10):
        assert pattern._fruitless == rounds
        assert pattern.look(made, {0, 1}, 0, 1) == Answer(SPENT, 1)
    state = pattern._z
    assert pattern.look(made, {0, 1}, 0, 4) == Answer(NONE, 4)
    assert pattern._z == state and pattern._fruitless == 10
    assert pattern.look(made, set(), 0, 4).kind == FOUND
    assert pattern._z != state and pattern._fruitless == 0

    recall = Recall(Counting())
    assert recall.look(made, {0}, 0, 4) == Answer(FOUND, 1, 1)
    assert recall.look(made, {0}, 0, 4) == Answer(FOUND, 0, 1)
    assert list(recall._store) == [1]
    assert recall.look(made, {1}, 0, 4) == Answer(FOUND, 0, 0)
    assert list(recall._store) == [0, 1]
    parity = context(Job(5, [Node([0, 1, 2, 3, 4], 0x96696996)], [5]), 0, None)
    for y in range(20):
        recall.look(parity, set(range(y)), 0, 32)
    assert list(recall._store) == list(range(19, 3, -1))


# Covers --------------------------------------------------------------------------------------


def check_covers(rng: random.Random) -> None:
    """Exact on care minterms, prime and irredundant, by trying every literal and cube."""
    for _ in range(3 * CASES):
        f = rng.choice([0, 1, 2, 3, 3, 4, 4, 5])
        function, wanted = rng.getrandbits(2**f), rng.random()
        care = {y for y in range(2**f) if rng.random() < wanted}
        check_cover(f, function, care)
    check_cover(8, rng.getrandbits(256), set(range(256)))
    check_cover(8, rng.getrandbits(256), {y for y in range(256) if rng.random() < 0.5})


def check_cover(f: int, function: int, care: set[int]) -> None:
    """One cover."""
    cubes = cover(function, f, care)
    assert cubes == sorted(set(cubes)) and len(cubes) <= 2**f
    on = {y for y in care if function >> y & 1}
    off = care - on
    made = covered(cubes, f)
    assert all(made >> y & 1 for y in on) and not any(made >> y & 1 for y in off)
    for cube in cubes:
        assert cube.values & ~cube.mask == 0 and cube.mask < 2**f
        for i in range(f):
            if cube.mask >> i & 1:
                assert any(cube.without(i).holds(y) for y in off)
        others = covered([other for other in cubes if other != cube], f)
        assert any(not others >> y & 1 for y in on)


# Boards --------------------------------------------------------------------------------------


def check_outputs_stay(rng: random.Random) -> None:
    """Taking, adopting and reducing keep every output for every assignment."""
    for job in small_jobs(rng, CASES):
        before = [outputs(job, a) for a in range(2**job.inputs)]
        board = opened(job)
        for _ in range(4):
            node = rng.randrange(len(job.nodes))
            could_be = free(board, node, rng.choice([None, (1, 1), (0, 2), (2, 0)]))
            changes = sum(1 << y for y in could_be if rng.random() < 0.5)
            if rng.random() < 0.5:
                board.take(handed(board.job.nodes[node].function ^ changes))
            else:
                board.adopt([Cube(0, 0)] * 256)
            assert before == [board.run(a) for a in range(2**job.inputs)]
        reduced = reduce_job(job)
        assert before == [outputs(reduced, a) for a in range(2**job.inputs)]


def main() -> int:
    """Runs all checks; the answer is the exit status."""
    parser = argparse.ArgumentParser(description="Tries the reference against its documents.")
    parser.add_argument("--seed", type=int, default=0, help="what the random cases are made from")
    rng = random.Random(parser.parse_args().seed)
    plain = (
        check_j1,
        check_j1_untouched,
        check_small_shapes,
        check_refusals,
        check_session_shapes,
        check_scripts,
        check_fronts,
    )
    for check in plain:
        check()
    drawn = (
        check_values,
        check_three_values,
        check_windows,
        check_tables,
        check_verdicts,
        check_covers,
        check_outputs_stay,
    )
    for check_drawn in drawn:
        check_drawn(rng)
    print(f"{len(plain) + len(drawn)} checks of the reference hold")
    return 0


if __name__ == "__main__":
    sys.exit(main())
