"""Contexts: what an examination looks at, from docs/CONTEXTS.md alone.

Sets of signals are found by breadth-first search over the network's edges.
"""

from __future__ import annotations

from collections.abc import Sequence
from dataclasses import dataclass

from job import Job, Node

HIGHEST_LEVEL = 10
MOST_LEAVES = 32
# The levels p and q of a window.
Levels = tuple[int, int]


class Refused(Exception):
    """A call that is refused: the number of the cause, and the place if an open is refused."""

    def __init__(self, number: int, place: int | None = None) -> None:
        super().__init__(number, place)
        self.number = number
        self.place = place


def refuse_if(number: int, cause: bool) -> None:
    """Refuses the call if the cause applies; causes are put in rising number."""
    if cause:
        raise Refused(number)


@dataclass(frozen=True, eq=False)
class Context:
    """A context, read as a network of its own.

    `network` has the leaves as inputs, the members as nodes and the roots as outputs; `target` is
    the target's node number in it. The other fields name signals of the network on the board.
    Contexts are equal only if they are the same object, so that results can be kept by context.
    """

    network: Job
    target: int
    leaves: list[int]
    members: list[int]
    roots: list[int]

    @property
    def k(self) -> int:
        """The number of leaves."""
        return len(self.leaves)

    @property
    def size(self) -> int:
        """The number of leaf assignments."""
        return 1 << len(self.leaves)

    @property
    def fanins(self) -> list[int]:
        """The target's fanins, as signals of `network`."""
        return self.network.nodes[self.target].fanins


# Sets of signals -----------------------------------------------------------------------------


def fanins_of(job: Job) -> list[set[int]]:
    """For each signal those that it reads, so the edges followed backward."""
    return [set() for _ in range(job.inputs)] + [set(node.fanins) for node in job.nodes]


def readers_of(job: Job) -> list[set[int]]:
    """For each signal the nodes that read it, so the edges followed forward."""
    readers: list[set[int]] = [set() for _ in range(job.inputs + len(job.nodes))]
    for signal, fanins in enumerate(fanins_of(job)):
        for fanin in fanins:
            readers[fanin].add(signal)
    return readers


def spread(start: set[int], edges: Sequence[set[int]], most: int | None = None) -> set[int]:
    """The signals reached from `start` in at most `most` edges, or in any number of them."""
    reached, latest, steps = set(start), set(start), 0
    while latest and steps != most:
        latest = set().union(*(edges[signal] for signal in latest)) - reached
        reached |= latest
        steps += 1
    return reached


def all_nodes(job: Job) -> set[int]:
    """The members of a whole context, as signals."""
    return set(range(job.inputs, job.inputs + len(job.nodes)))


def window(job: Job, target: int, levels: Levels) -> set[int]:
    """The members of the window around a signal.

    Primary inputs are in the sets on the way, and are left out at the end.
    """
    p, q = levels
    backward, forward = fanins_of(job), readers_of(job)
    a = spread({target}, backward, p)
    b = spread({target}, forward, q)
    return spread(b, backward, p + q) & spread(a, forward, p + q) & all_nodes(job)


def leaves_of(job: Job, members: set[int]) -> list[int]:
    """The signals that are no members but fanins of one, ascending."""
    fanins = fanins_of(job)
    return sorted(set().union(*(fanins[member] for member in members)) - members)


def roots_of(job: Job, members: set[int], target: int) -> list[int]:
    """Where the outside sees the target: see "A **root** is" in the document."""
    readers = readers_of(job)
    inside = [readers_of_one & members for readers_of_one in readers]
    reached = spread({target}, inside)
    return sorted(s for s in reached if s in job.outputs or readers[s] - members)


# Contexts ------------------------------------------------------------------------------------


def context(job: Job, node: int, levels: Levels | None) -> Context:
    """The whole context of a node, or its window if there are levels; refusals 8, 9 and 10."""
    refuse_if(8, node >= len(job.nodes))
    refuse_if(9, levels is not None and max(levels) > HIGHEST_LEVEL)
    target = job.inputs + node
    members = all_nodes(job) if levels is None else window(job, target, levels)
    leaves = leaves_of(job, members)
    refuse_if(10, len(leaves) > MOST_LEAVES)
    return read_as_network(job, target, members, leaves)


def read_as_network(job: Job, target: int, members: set[int], leaves: list[int]) -> Context:
    """The context with these members: leaves, members and roots renumbered, each ascending."""
    ordered = sorted(members)
    roots = roots_of(job, members, target)
    number = {signal: place for place, signal in enumerate(leaves + ordered)}
    nodes = [renumbered(job.nodes[signal - job.inputs], number) for signal in ordered]
    network = Job(len(leaves), nodes, [number[root] for root in roots])
    return Context(network, ordered.index(target), leaves, ordered, roots)


def renumbered(node: Node, number: dict[int, int]) -> Node:
    """The node with its fanins renumbered."""
    return Node([number[fanin] for fanin in node.fanins], node.function)
