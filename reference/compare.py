"""Compares the program `reduce` with the reference, over the files that generate.py makes.

    python3 reference/compare.py PROGRAM [--seed N] [--count N]

For each file the program gets the bytes on standard input; its exit status, standard output and
standard error have to be exactly what docs/PROGRAMS.md says for what the reference reads in them.
The exit status is 1 if anything differs, if nothing was compared, or if acceptance or a cause did
not occur, since a comparison that leaves one out says less than it seems to.
"""

from __future__ import annotations

import argparse
import subprocess
import sys
from collections import Counter
from collections.abc import Iterator
from concurrent.futures import ThreadPoolExecutor
from dataclasses import dataclass
from functools import partial

import generate
from job import CAUSES, Job, Refusal, read, write

WORKERS = 2
SECONDS_FOR_ONE_FILE = 20
LONGEST_HEX = 100
ACCEPTED = 0
# Cause 18 is about writing into bytes that a caller supplies, which the program never lets happen.
OUTCOMES = {ACCEPTED: "accepted"} | {n: cause for n, cause in CAUSES.items() if n != 18}


# The refusal that a file was made for, None if it was made as a job.
Aims = dict[bytes, Refusal | None]


@dataclass(frozen=True)
class Result:
    """What a run of the program shows to the outside."""

    status: int
    output: bytes
    errors: bytes


@dataclass(frozen=True)
class Comparison:
    """One file, its outcome in the reference, and what differs (empty if nothing does)."""

    label: str
    data: bytes
    outcome: int
    differences: list[str]


def expected_result(data: bytes, reading: Job | Refusal) -> Result:
    """What the program has to do with a file that the reference reads as `reading`."""
    if isinstance(reading, Refusal):
        line = f"refused: {reading.number} at {reading.place}: {reading.cause}\n"
        return Result(1, b"", line.encode())
    inputs, nodes, outputs = reading.inputs, len(reading.nodes), len(reading.outputs)
    lines = (
        f"read {inputs} inputs, {nodes} nodes, {outputs} outputs in {len(data)} bytes\n"
        f"wrote {len(data)} bytes, 0 nodes changed\n"
    )
    return Result(0, data, lines.encode())


def run(program: str, data: bytes) -> Result | None:
    """Runs the program on a file; there is no result if it does not end in time."""
    try:
        done = subprocess.run(
            [program], input=data, capture_output=True, timeout=SECONDS_FOR_ONE_FILE
        )
    except subprocess.TimeoutExpired:
        return None
    return Result(done.returncode, done.stdout, done.stderr)


def reference_differences(data: bytes, reading: Job | Refusal, aims: Aims) -> Iterator[str]:
    """What is wrong with the reference itself.

    A job has to be written as it was read, and a file that was made for one outcome has to have it.
    """
    if isinstance(reading, Job) and write(reading) != data:
        yield "the reference does not write back what it read"
    refusal = reading if isinstance(reading, Refusal) else None
    if data in aims and refusal != aims[data]:
        yield f"the reference says {refusal}, the generator aimed at {aims[data]}"


def program_differences(expected: Result, result: Result | None) -> Iterator[str]:
    """What the program does otherwise than expected."""
    if result is None:
        yield f"no end after {SECONDS_FOR_ONE_FILE} seconds"
        return
    if result.status != expected.status:
        yield f"exit status {result.status}, expected {expected.status}"
    if result.output != expected.output:
        yield f"standard output {shown(result.output)}, expected {shown(expected.output)}"
    if result.errors != expected.errors:
        yield f"standard error {result.errors[:400]!r}, expected {expected.errors!r}"


def compare(program: str, aims: Aims, case: tuple[str, bytes]) -> Comparison:
    """Compares the program with the reference on one file."""
    label, data = case
    reading = read(data)
    differences = list(reference_differences(data, reading, aims))
    differences += program_differences(expected_result(data, reading), run(program, data))
    outcome = reading.number if isinstance(reading, Refusal) else ACCEPTED
    return Comparison(label, data, outcome, differences)


def shown(data: bytes) -> str:
    """The bytes in hexadecimal if they are few, else how many they are and how they begin."""
    if len(data) <= LONGEST_HEX:
        return f"[{data.hex(' ')}]"
    return f"[{len(data)} bytes, the first: {data[:16].hex(' ')}]"


def print_comparison(comparison: Comparison) -> None:
    """Prints what differs on one file."""
    print(f"{comparison.label}: {shown(comparison.data)}")
    for difference in comparison.differences:
        print(f"    {difference}")


def print_table(occurred: Counter[int]) -> None:
    """Prints how often each outcome occurred."""
    print("  files  outcome")
    for number, words in OUTCOMES.items():
        name = words if number == ACCEPTED else f"refused: {number}, {words}"
        print(f"{occurred[number]:7}  {name}")


def compare_all(program: str, seed: int, count: int) -> bool:
    """Compares over all files, prints what was found, and says whether all is well."""
    aims = {case.data: case.refusal for case in generate.aimed(seed)}
    occurred: Counter[int] = Counter()
    differ = 0
    with ThreadPoolExecutor(WORKERS) as pool:
        for comparison in pool.map(partial(compare, program, aims), generate.cases(seed, count)):
            occurred[comparison.outcome] += 1
            if comparison.differences:
                differ += 1
                print_comparison(comparison)
    print_table(occurred)
    absent = [words for number, words in OUTCOMES.items() if not occurred[number]]
    for words in absent:
        print(f"did not occur: {words}")
    compared = occurred.total()
    print(f"{compared} compared, {differ} differ")
    return compared > 0 and differ == 0 and not absent


def main() -> int:
    """Reads the command line; the answer is the exit status."""
    parser = argparse.ArgumentParser(description="Compares reduce with the reference.")
    parser.add_argument("program", help="the program to run on each file")
    parser.add_argument("--seed", type=int, default=0, help="what the files are made from")
    parser.add_argument(
        "--count",
        type=int,
        default=generate.DEFAULT_COUNT,
        help="how many files to reach with random ones; the aimed ones are always there",
    )
    arguments = parser.parse_args()
    try:
        return 0 if compare_all(arguments.program, arguments.seed, arguments.count) else 1
    except OSError as error:
        print(f"{arguments.program} cannot be run: {error}")
        return 1


if __name__ == "__main__":
    sys.exit(main())
