"""Compares the program `session` with the reference on the values of networks.

    python3 reference/compare_runs.py PROGRAM [--seed N] [--count N]

Each script opens random networks (every number of fanins, repeated fanins, nodes without fanins,
outputs that are inputs), runs them under random assignments, also with bits above the inputs, and
writes them back into rooms around their length. The answers have to be those of session.py.
"""

from __future__ import annotations

import argparse
import random
import sys

from drive import differences
from job import Job, write
from session import Session
from sessions import (
    broad_network,
    deep_network,
    local_network,
    medium_network,
    rare_network,
    return_network,
    small_network,
)

KINDS = (small_network, medium_network, local_network, return_network, broad_network, rare_network, deep_network)
RUNS_FOR_ONE_NETWORK = 12


def draw_assignment(rng: random.Random, network: Job) -> int:
    """An assignment of the inputs, now and then with bits that are no input's."""
    bits = rng.choice((network.inputs, network.inputs, 64))
    return rng.getrandbits(bits) if bits else 0


def lines_for(rng: random.Random, board: str) -> list[str]:
    """The calls on one board: a network, its values, its bytes."""
    network = rng.choice(KINDS)(rng)
    data = write(network)
    room = len(data) + rng.choice((-1, 0, 1, 7))
    lines = [f"run {board} {draw_assignment(rng, network)}"] if rng.random() < 0.1 else []
    lines.append(f"open {board} {data.hex()}")
    lines += [f"run {board} {draw_assignment(rng, network)}" for _ in range(RUNS_FOR_ONE_NETWORK)]
    lines.append(f"write {board} {room}")
    return lines


def main() -> int:
    parser = argparse.ArgumentParser(description=__doc__)
    parser.add_argument("program")
    parser.add_argument("--seed", type=int, default=0)
    parser.add_argument("--count", type=int, default=400, help="how many networks")
    options = parser.parse_args()

    rng = random.Random(options.seed)
    lines = [line for n in range(options.count) for line in lines_for(rng, f"b{n}")]
    session = Session()
    differ = differences(options.program, lines, [session.answer(line.encode()) for line in lines])
    print(f"{len(lines)} compared, {differ} differ")
    return 1 if differ or not lines else 0


if __name__ == "__main__":
    sys.exit(main())
