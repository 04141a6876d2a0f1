"""Compares the program `session` with the reference on contexts: the whole network and windows.

    python3 reference/compare_contexts.py PROGRAM [--seed N] [--count N]

Each script opens a random network and asks for the contexts of its nodes, whole and in windows of all
kinds of levels, also for nodes that there are none of and for levels that are too high. The answers
have to be the contexts that contexts.py finds, number by number.
"""

from __future__ import annotations

import argparse
import random
import sys
from collections import Counter
from functools import partial

from compare_runs import KINDS
from contexts import Levels, Refused, context
from drive import differences
from job import Job, Node, write
from sessions import wide_network

WIDE = tuple(partial(wide_network, leaves=leaves) for leaves in (31, 32, 33, 40))
CONTEXTS_FOR_ONE_NETWORK = 14
FUNCTION_BYTES = 32


def signals(numbers: list[int]) -> str:
    return ",".join(str(n) for n in numbers) or "-"


def node_text(node: Node) -> str:
    return f"{signals(list(node.fanins))}:{node.function.to_bytes(FUNCTION_BYTES, 'little').hex().upper()}"


def due(network: Job, node: int, levels: Levels | None) -> str:
    """The answer that docs/PROGRAMS.md asks for."""
    try:
        found = context(network, node, levels)
    except Refused as refused:
        return f"no {refused.number}"
    own = found.network
    words = [own.inputs, found.target, signals(found.leaves), signals(list(own.outputs))]
    return " ".join(["ok", *map(str, words), *map(node_text, own.nodes)])


def draw_levels(rng: random.Random) -> Levels | None:
    if rng.random() < 0.3:
        return None
    most = rng.choice((1, 2, 3, 10, 10, 11))
    return (rng.randint(0, most), rng.randint(0, most))


def main() -> int:
    parser = argparse.ArgumentParser(description=__doc__)
    parser.add_argument("program")
    parser.add_argument("--seed", type=int, default=0)
    parser.add_argument("--count", type=int, default=400, help="how many networks")
    options = parser.parse_args()

    rng = random.Random(options.seed)
    lines: list[str] = []
    answers: list[str | None] = []
    for n in range(options.count):
        network = rng.choice(KINDS + WIDE)(rng)
        lines.append(f"open b{n} {write(network).hex()}")
        answers.append("ok 0")
        for _ in range(CONTEXTS_FOR_ONE_NETWORK):
            node = rng.randrange(len(network.nodes) + 1)
            levels = draw_levels(rng)
            lines.append(f"context b{n} {node} " + ("whole" if levels is None else f"{levels[0]} {levels[1]}"))
            answers.append(due(network, node, levels))
    differ = differences(options.program, lines, answers)
    seen = Counter(" ".join(str(answer).split()[:2]) if str(answer).startswith("no") else "ok" for answer in answers)
    print(", ".join(f"{kind}: {count}" for kind, count in sorted(seen.items())))
    missing = [kind for kind in ("ok", "no 8", "no 9", "no 10") if not seen[kind]]
    if missing:
        print(f"never occurred: {missing}")
    print(f"{len(lines)} compared, {differ} differ")
    return 1 if differ or missing or not lines else 0


if __name__ == "__main__":
    sys.exit(main())
