"""Runs the program `session` on a script and holds its answers to those that are due."""

from __future__ import annotations

import subprocess

SECONDS = 120
LONGEST_SHOWN = 300


def differences(program: str, lines: list[str], due: list[str | None]) -> int:
    """How many lines are answered otherwise than is due; each such line is printed."""
    script = "".join(line + "\n" for line in lines).encode()
    run = subprocess.run([program], input=script, capture_output=True, timeout=SECONDS, check=False)
    got = run.stdout.decode().splitlines()
    differ = 0
    for i, line in enumerate(lines):
        there = got[i] if i < len(got) else "nothing"
        if there != due[i]:
            differ += 1
            print(f"{line[:LONGEST_SHOWN]}\n  due: {str(due[i])[:LONGEST_SHOWN]}\n  got: {there[:LONGEST_SHOWN]}")
    if len(got) > len(lines) or run.returncode != 0:
        differ += 1
        print(f"{len(got)} answers, exit status {run.returncode}")
    return differ
