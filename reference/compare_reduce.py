"""Compares what the program `reduce` writes with what the reference reduces a job to.

    python3 reference/compare_reduce.py PROGRAM [--seed N] [--count N]

The program's standard output has to be the job that `reduce_job` gives, byte by byte. The job that
the program wrote is also run beside the old one on random assignments, which has to give the same
outputs whatever the reference says. Standard error is not compared here. The exit status is 1 if
anything differs, if nothing was compared, or if some way of treating a node did not occur.
"""

from __future__ import annotations

import argparse
import random
import subprocess
import sys
from collections import Counter
from collections.abc import Sequence
from dataclasses import dataclass
from functools import partial
from multiprocessing import Pool

import sessions
from board import WINDOW_LEVELS, reduce_job
from contexts import Levels, Refused, context
from job import Job, Node, Refusal, read, write
from network import outputs

WORKERS = 2
JOBS_AT_ONCE = 20
DEFAULT_COUNT = 1000
SECONDS_FOR_ONE_JOB = 60
ASSIGNMENTS = 30
# The reference takes long where a context has more leaves.
MOST_LEAVES = 12


# Jobs ----------------------------------------------------------------------------------------


def ladder_network(rng: random.Random) -> Job:
    """More than 32 leaves, so that nodes are examined in windows: a chain that eats inputs.

    Inputs are read again shortly after, so that much of a window is free, and more of a larger one.
    """
    inputs = rng.randint(33, 48)
    fresh = rng.sample(range(inputs), inputs)
    used: list[int] = []
    made: list[Node] = []
    while fresh:
        own = inputs + len(made)
        fanins = rng.sample(used[-2:], min(len(used), rng.choice([0, 0, 1])))
        eaten = [fresh.pop() for _ in range(min(len(fresh), rng.choice([1, 1, 1, 2])))]
        used += eaten
        fanins += eaten
        fanins += range(max(inputs, own - rng.choice([1, 1, 1, 1, 2])), own)
        made.append(Node(fanins, sessions.draw_truth(rng, len(fanins))))
    drawn = [rng.randrange(inputs, inputs + len(made)) for _ in range(rng.randint(0, 3))]
    return Job(inputs, made, [inputs + len(made) - 1, *drawn])


def star_network(rng: random.Random) -> Job:
    """A ladder, and beside it a node that is passed over, since its window is too wide."""
    ladder = ladder_network(rng)
    made = list(ladder.nodes)
    first = ladder.inputs + len(made)
    read = rng.sample(range(ladder.inputs), 33)
    for low in range(0, 33, 5):
        fanins = read[low : low + 5]
        made.append(Node(fanins, sessions.draw_truth(rng, len(fanins))))
    star = list(range(first, ladder.inputs + len(made)))
    made.append(Node(star, sessions.draw_truth(rng, len(star))))
    return Job(ladder.inputs, made, [*ladder.outputs, star[-1] + 1])


NETWORKS = (
    (40, sessions.small_network),
    (20, sessions.medium_network),
    (10, sessions.return_network),
    (10, sessions.broad_network),
    (12, ladder_network),
    (8, star_network),
)


def way(job: Job, node: int) -> tuple[str, int]:
    """How the program treats a node, which depends only on what reads what, and its leaves."""
    tried: tuple[tuple[str, Levels | None], ...] = (("whole", None), ("window", WINDOW_LEVELS))
    for name, levels in tried:
        try:
            return name, context(job, node, levels).k
        except Refused:
            pass
    return "passed over", 0


def draw_job(seed: int, number: int) -> Job:
    """The job of this number, with few enough leaves in each context."""
    rng = random.Random(f"{seed}/{number}")
    weights, networks = zip(*NETWORKS, strict=True)
    while True:
        job = rng.choices(networks, weights)[0](rng)
        if all(way(job, node)[1] <= MOST_LEAVES for node in range(len(job.nodes))):
            return job


# Comparing -----------------------------------------------------------------------------------


@dataclass(frozen=True)
class Comparison:
    """What came of some jobs: how nodes were treated, and a text for each job that differs."""

    compared: int
    occurred: Counter[str]
    differences: list[str]


def difference(program: str, rng: random.Random, job: Job, expected: Job) -> str | None:
    """What differs on one job, None if nothing does."""
    try:
        done = subprocess.run(
            [program], input=write(job), capture_output=True, timeout=SECONDS_FOR_ONE_JOB
        )
    except subprocess.TimeoutExpired:
        return f"no end after {SECONDS_FOR_ONE_JOB} seconds"
    if done.returncode != 0:
        return f"exit status {done.returncode}, standard error {done.stderr[:400]!r}"
    reduced = read(done.stdout)
    if isinstance(reduced, Refusal):
        return f"what was written is no job: {reduced.number} at {reduced.place}"
    harmed = first_harmed(rng, job, reduced)
    if harmed is not None:
        return f"outputs differ for assignment {harmed}"
    if done.stdout != write(expected):
        return f"expected {write(expected).hex()}\nwritten  {done.stdout.hex()}"
    return None


def first_harmed(rng: random.Random, old: Job, new: Job) -> int | None:
    """An assignment for which outputs differ, of some that are drawn, or of all if they are few."""
    if (old.inputs, len(old.outputs)) != (new.inputs, len(new.outputs)):
        return 0
    drawn = range(2**old.inputs)
    if len(drawn) > ASSIGNMENTS:
        drawn = [rng.getrandbits(old.inputs) for _ in range(ASSIGNMENTS)]
    return next((a for a in drawn if outputs(old, a) != outputs(new, a)), None)


def compare(program: str, seed: int, numbers: Sequence[int]) -> Comparison:
    """Makes the jobs of these numbers and compares them."""
    occurred: Counter[str] = Counter()
    found = []
    for number in numbers:
        job = draw_job(seed, number)
        expected = reduce_job(job)
        rng = random.Random(number)
        assert first_harmed(rng, job, expected) is None, f"the reference harms job {number}"
        occurred["jobs changed" if expected != job else "jobs unchanged"] += 1
        for node, (old, new) in enumerate(zip(job.nodes, expected.nodes, strict=True)):
            occurred[f"nodes, {way(job, node)[0]}"] += 1
            occurred["nodes changed"] += old != new
        text = difference(program, rng, job, expected)
        if text is not None:
            found.append(f"job {number} of seed {seed}: {write(job).hex()}\n{text}")
    return Comparison(len(numbers), occurred, found)


OUTCOMES = (
    "jobs changed",
    "jobs unchanged",
    "nodes changed",
    "nodes, whole",
    "nodes, window",
    "nodes, passed over",
)


def compare_all(program: str, seed: int, count: int) -> bool:
    """Compares over all jobs, prints what was found, and says whether all is well."""
    chunks = [range(low, min(low + JOBS_AT_ONCE, count)) for low in range(0, count, JOBS_AT_ONCE)]
    occurred: Counter[str] = Counter()
    compared = differ = 0
    with Pool(WORKERS) as pool:
        for comparison in pool.imap(partial(compare, program, seed), chunks):
            compared += comparison.compared
            occurred += comparison.occurred
            differ += len(comparison.differences)
            for text in comparison.differences:
                print(text)
    for outcome in OUTCOMES:
        print(f"{occurred[outcome]:7}  {outcome}")
    absent = [outcome for outcome in OUTCOMES if not occurred[outcome]]
    for outcome in absent:
        print(f"did not occur: {outcome}")
    print(f"{compared} compared, {differ} differ")
    return compared > 0 and differ == 0 and not absent


def main() -> int:
    """Reads the command line; the answer is the exit status."""
    parser = argparse.ArgumentParser(description="Compares what reduce writes with the reference.")
    parser.add_argument("program", help="the program to run on each job")
    parser.add_argument("--seed", type=int, default=0, help="what the jobs are made from")
    parser.add_argument("--count", type=int, default=DEFAULT_COUNT, help="how many jobs")
    arguments = parser.parse_args()
    try:
        return 0 if compare_all(arguments.program, arguments.seed, arguments.count) else 1
    except OSError as error:
        print(f"{arguments.program} cannot be run: {error}")
        return 1


if __name__ == "__main__":
    sys.exit(main())
