"""Compares the program `session` with the reference, over the scripts that sessions.py makes.

    python3 reference/compare_sessions.py PROGRAM [--seed N] [--count N]

Each answer has to be the reference's, line by line; of the answer to a line of another shape only
`? ` is compared, as the words after it are free. Several scripts are run in one session, since
their names do not meet; where such a session differs, each of its scripts is run alone. The exit
status is 1 if anything differs, if nothing was compared, or if some answer or some refusal of some
call did not occur.
"""

from __future__ import annotations

import argparse
import subprocess
import sys
from collections import Counter
from collections.abc import Sequence
from dataclasses import dataclass
from functools import partial
from multiprocessing import Pool

from session import words_of
from sessions import DEFAULT_COUNT, Script, script

WORKERS = 2
SCRIPTS_IN_A_SESSION = 40
SECONDS_FOR_ONE_SESSION = 60
LONGEST_ANSWER = 400
MOST_PRINTED = 10
WRONG_SHAPE = "?"

# A call (its first word) and what came of it.
Outcome = tuple[str, str]

REFUSED_CALLS: dict[int, str] = {
    1: "open", 2: "open", 3: "open", 4: "open", 5: "open", 6: "open",
    7: "begin", 8: "begin", 9: "begin", 10: "begin",
    11: "look offer take adopt withdraw",
    12: "look", 13: "look",
    14: "offer take adopt",
    15: "offer take", 16: "offer take",
    17: "adopt", 18: "write",
}  # fmt: skip
ACCEPTED_CALLS = "finder open begin offer take adopt withdraw run write"
OUTCOMES: list[Outcome] = [
    *(("look", f"ok {kind}") for kind in (1, 2, 3)),
    *((call, "ok") for call in ACCEPTED_CALLS.split()),
    *((call, f"no {n}") for n, calls in REFUSED_CALLS.items() for call in calls.split()),
    ("any line", WRONG_SHAPE),
]


@dataclass(frozen=True)
class Difference:
    """The first difference in a script, as a text that shows how to come there."""

    number: int
    text: str


@dataclass(frozen=True)
class Comparison:
    """What came of some scripts."""

    compared: int
    occurred: Counter[Outcome]
    differences: list[Difference]


# Running -------------------------------------------------------------------------------------


@dataclass(frozen=True)
class Result:
    """What a run of the program shows to the outside."""

    status: int
    answers: list[str]
    errors: str


def run(program: str, lines: Sequence[bytes]) -> Result | None:
    """Runs a session; there is no result if it does not end in time.

    The last line has no line feed after it: it is a line all the same.
    """
    try:
        done = subprocess.run(
            [program],
            input=b"\n".join(lines),
            capture_output=True,
            timeout=SECONDS_FOR_ONE_SESSION,
        )
    except subprocess.TimeoutExpired:
        return None
    answers = done.stdout.decode("latin-1").split("\n")
    # What follows the last line feed is an answer only if it is not empty.
    return Result(
        done.returncode, answers if answers[-1] else answers[:-1], done.stderr.decode("latin-1")
    )


# Comparing -----------------------------------------------------------------------------------


def is_same(expected: str, answer: str) -> bool:
    """Whether an answer is the expected one; the words after `? ` are free."""
    if expected.startswith("? "):
        return answer.startswith("? ")
    return answer == expected


def escaped(text: str) -> str:
    """A text with what cannot be printed as it is, or would not be seen, in escapes."""
    return text.encode("unicode_escape").decode()


def shown(answer: str) -> str:
    """An answer, cut if it is long."""
    cut = answer[:LONGEST_ANSWER]
    return escaped(cut) if cut == answer else f"{escaped(cut)}... ({len(answer)} characters)"


def difference(made: Script, result: Result | None) -> str | None:
    """The first difference between a script's answers and the program's, None if there is none."""
    if result is None:
        return f"no end after {SECONDS_FOR_ONE_SESSION} seconds"
    given = iter(result.answers)
    for place, expected in enumerate(made.answers):
        if expected is None:
            continue
        answer = next(given, None)
        if answer is None or not is_same(expected, answer):
            said = "nothing" if answer is None else shown(answer)
            return f"{script_upto(made, place)}\nexpected: {shown(expected)}\nanswered: {said}"
    extra = next(given, None)
    if extra is not None:
        return f"{script_upto(made, len(made.lines) - 1)}\nan answer too many: {shown(extra)}"
    if result.status != 0:
        return f"exit status {result.status}, standard error {shown(result.errors)}"
    return None


def script_upto(made: Script, place: int) -> str:
    """The script up to a line."""
    return "\n".join(escaped(line.decode("latin-1")) for line in made.lines[: place + 1])


def joined(scripts: Sequence[Script]) -> Script:
    """The scripts as one."""
    lines = [line for made in scripts for line in made.lines]
    answers = [answer for made in scripts for answer in made.answers]
    return Script(scripts[0].number, "joined", lines, answers)


def differences(program: str, scripts: Sequence[Script]) -> list[Difference]:
    """What differs, run in one session and, if that differs, each script alone."""
    together = joined(scripts)
    if difference(together, run(program, together.lines)) is None:
        return []
    found = []
    for made in scripts:
        text = difference(made, run(program, made.lines))
        if text is not None:
            found.append(Difference(made.number, f"({made.kind})\n{text}"))
    if not found:
        text = difference(together, run(program, together.lines))
        where = "(only in one session with those after it)"
        found.append(Difference(scripts[0].number, f"{where}\n{text}"))
    return found


def outcome(line: bytes, answer: str) -> Outcome:
    """What came of a line that has an answer."""
    if answer.startswith("? "):
        return "any line", WRONG_SHAPE
    call = words_of(line)[0].decode()
    words = answer.split()[:2]
    return call, " ".join(words) if words[0] == "no" or call == "look" else "ok"


def compare(program: str, seed: int, numbers: Sequence[int]) -> Comparison:
    """Makes the scripts of these numbers and compares them."""
    scripts = [script(seed, number) for number in numbers]
    occurred = Counter(
        outcome(line, answer)
        for made in scripts
        for line, answer in zip(made.lines, made.answers, strict=True)
        if answer is not None
    )
    return Comparison(len(scripts), occurred, differences(program, scripts))


# Printing ------------------------------------------------------------------------------------


def print_difference(found: Difference, seed: int, whole: bool) -> None:
    """Prints a difference, or only where it is."""
    print(f"script {found.number} of seed {seed} differs {found.text if whole else ''}")


def print_table(occurred: Counter[Outcome]) -> None:
    """Prints how often each outcome occurred."""
    print("answers  call and answer")
    for call, answer in OUTCOMES:
        print(f"{occurred[call, answer]:7}  {call}: {answer}")
    numbers = Counter[int]()
    for (_, answer), times in occurred.items():
        if answer.startswith("no "):
            numbers[int(answer[3:])] += times
    print("refused  number")
    for number in REFUSED_CALLS:
        print(f"{numbers[number]:7}  {number}")


def compare_all(program: str, seed: int, count: int) -> bool:
    """Compares over all scripts, prints what was found, and says whether all is well."""
    chunks = [
        range(low, min(low + SCRIPTS_IN_A_SESSION, count))
        for low in range(0, count, SCRIPTS_IN_A_SESSION)
    ]
    occurred: Counter[Outcome] = Counter()
    compared = differ = 0
    with Pool(WORKERS) as pool:
        for comparison in pool.imap(partial(compare, program, seed), chunks):
            compared += comparison.compared
            occurred += comparison.occurred
            for found in comparison.differences:
                differ += 1
                print_difference(found, seed, differ <= MOST_PRINTED)
    print_table(occurred)
    unknown = [pair for pair in occurred if pair not in OUTCOMES]
    absent = [pair for pair in OUTCOMES if not occurred[pair]]
    for call, answer in absent:
        print(f"did not occur: {call}: {answer}")
    for call, answer in unknown:
        print(f"may not occur: {call}: {answer}")
    print(f"{compared} compared, {differ} differ")
    return compared > 0 and differ == 0 and not absent and not unknown


def main() -> int:
    """Reads the command line; the answer is the exit status."""
    parser = argparse.ArgumentParser(description="Compares session with the reference.")
    parser.add_argument("program", help="the program to run on the scripts")
    parser.add_argument("--seed", type=int, default=0, help="what the scripts are made from")
    parser.add_argument(
        "--count", type=int, default=DEFAULT_COUNT, help="how many scripts, the fixed ones first"
    )
    arguments = parser.parse_args()
    try:
        return 0 if compare_all(arguments.program, arguments.seed, arguments.count) else 1
    except OSError as error:
        print(f"{arguments.program} cannot be run: {error}")
        return 1


if __name__ == "__main__":
    sys.exit(main())
