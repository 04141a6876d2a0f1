"""A session: a script of calls, answered line by line, from docs/PROGRAMS.md alone.

    python3 reference/session.py < SCRIPT

answers a script as the program `session` does. Scripts are bytes: a name may hold any byte that is
no blank.
"""

from __future__ import annotations

import re
import sys
from collections.abc import Callable, Iterable

from board import FUNCTION_BYTES, Board
from contexts import Levels, Refused
from covers import Cube
from search import Counting, Finder, Implication, Pattern, Recall

MOST_NAME_BYTES = 32
MOST_PLACES = 1_000_000
MOST_DIGITS = 4000
UNUSED_PLACE = Cube(511, 341)
UNUSED_BYTE = b"\xee"
LARGEST_SEED = 2**64 - 1

BLANKS = re.compile(rb"[ \t\r]+")
DIGITS = re.compile(rb"[0-9]+")
HEX = re.compile(rb"([0-9A-Fa-f]{2})+")
SPEC = re.compile(rb"(recall/)?(pattern:([0-9]+)/)?(counting|implication)")


class WrongShape(Exception):
    """A line that is no call: what is wrong with it."""


# Words ---------------------------------------------------------------------------------------


def words_of(line: bytes) -> list[bytes]:
    """The words of a line."""
    return [word for word in BLANKS.split(line) if word]


def name(word: bytes) -> bytes:
    """The name of a board or a finder."""
    if len(word) > MOST_NAME_BYTES:
        raise WrongShape("the name is too long")
    return word


def number(word: bytes) -> int:
    """A number of decimal digits.

    Python reads only so many digits in one go, and every limit is far below what it reads.
    """
    if not DIGITS.fullmatch(word):
        raise WrongShape("not a number")
    value = 0
    for place in range(0, len(word), MOST_DIGITS):
        part = word[place : place + MOST_DIGITS]
        value = value * 10 ** len(part) + int(part)
    return value


def small_number(word: bytes) -> int:
    """A length or a number of places."""
    value = number(word)
    if value > MOST_PLACES:
        raise WrongShape("above 1,000,000")
    return value


def hex_bytes(word: bytes) -> bytes:
    """Bytes in hexadecimal digits."""
    if word == b"-":
        return b""
    if not HEX.fullmatch(word):
        raise WrongShape("not bytes in hexadecimal")
    return bytes.fromhex(word.decode())


def function_bytes(word: bytes) -> bytes:
    """A function as it is handed over."""
    data = hex_bytes(word)
    if len(data) != FUNCTION_BYTES:
        raise WrongShape("a function has 32 bytes")
    return data


def finder_of(word: bytes) -> Finder:
    """A new finder as the specification says, fronts first."""
    match = SPEC.fullmatch(word)
    if match is None:
        raise WrongShape("not a finder")
    recall, pattern, seed_word, bottom = match.groups()
    finder: Finder = Counting() if bottom == b"counting" else Implication()
    if pattern:
        seed = number(seed_word)
        if seed > LARGEST_SEED:
            raise WrongShape("the seed has more than 64 bits")
        finder = Pattern(seed, finder)
    return Recall(finder) if recall else finder


def context_of(words: list[bytes]) -> Levels | None:
    """The context in the words after a begin's node."""
    if words == [b"whole"]:
        return None
    if len(words) != 2:
        raise WrongShape("neither whole nor two levels")
    return number(words[0]), number(words[1])


# Calls ---------------------------------------------------------------------------------------


class Session:
    """The boards and finders of a session, by their names."""

    def __init__(self) -> None:
        self.boards: dict[bytes, Board] = {}
        self.finders: dict[bytes, Finder] = {}

    def answer(self, line: bytes) -> str | None:
        """The answer to a line, None if the line is passed over."""
        words = words_of(line)
        if not words or words[0].startswith(b"#"):
            return None
        try:
            return self._call(words)
        except WrongShape as wrong:
            return f"? {wrong}"
        except Refused as refused:
            place = "" if refused.place is None else f" {refused.place}"
            return f"no {refused.number}{place}"

    def board(self, word: bytes) -> Board:
        """The board of this name, one that was never opened if the name is new."""
        return self.boards.setdefault(name(word), Board())

    def finder(self, word: bytes) -> Finder:
        """The declared finder of this name."""
        if name(word) not in self.finders:
            raise WrongShape("no such finder")
        return self.finders[word]

    def _call(self, words: list[bytes]) -> str:
        """The answer to a line of these words."""
        calls: dict[bytes, tuple[range, Callable[..., str]]] = {
            b"finder": (range(2, 3), self._finder),
            b"open": (range(2, 3), self._open),
            b"begin": (range(3, 5), self._begin),
            b"look": (range(3, 4), self._look),
            b"offer": (range(2, 3), self._offer),
            b"take": (range(2, 3), self._take),
            b"adopt": (range(2, 3), self._adopt),
            b"withdraw": (range(1, 2), self._withdraw),
            b"run": (range(2, 3), self._run),
            b"write": (range(2, 3), self._write),
        }
        if words[0] not in calls:
            raise WrongShape("no such call")
        counts, call = calls[words[0]]
        if len(words) - 1 not in counts:
            raise WrongShape("too few or too many words")
        return call(*words[1:])

    # Every word is judged before the call is made, so a line of another shape changes nothing.

    def _finder(self, finder: bytes, spec: bytes) -> str:
        """`finder F SPEC`: the finder is made anew."""
        self.finders[name(finder)] = finder_of(spec)
        return "ok"

    def _open(self, board: bytes, data: bytes) -> str:
        """`open B HEX`."""
        return f"ok {self.board(board).open(hex_bytes(data))}"

    def _begin(self, board: bytes, node: bytes, *levels: bytes) -> str:
        """`begin B NODE whole` or `begin B NODE P Q`."""
        return f"ok {self.board(board).begin(number(node), context_of(list(levels)))}"

    def _look(self, board: bytes, finder: bytes, budget: bytes) -> str:
        """`look B F BUDGET`."""
        kind, value = self.board(board).look(self.finder(finder), number(budget))
        return f"ok {kind} {value}"

    def _offer(self, board: bytes, function: bytes) -> str:
        """`offer B HEX`."""
        return f"ok {self.board(board).offer(function_bytes(function))}"

    def _take(self, board: bytes, function: bytes) -> str:
        """`take B HEX`."""
        return f"ok {self.board(board).take(function_bytes(function))}"

    def _adopt(self, board: bytes, count: bytes) -> str:
        """`adopt B PLACES`: the list is shown whole."""
        places = [UNUSED_PLACE] * small_number(count)
        cubes, literals = self.board(board).adopt(places)
        shown = " ".join(f"{mask}:{values}" for mask, values in places)
        return f"ok {cubes} {literals} {shown}"

    def _withdraw(self, board: bytes) -> str:
        """`withdraw B`."""
        return f"ok {self.board(board).withdraw()}"

    def _run(self, board: bytes, assignment: bytes) -> str:
        """`run B ASSIGNMENT`."""
        return f"ok {self.board(board).run(number(assignment))}"

    def _write(self, board: bytes, count: bytes) -> str:
        """`write B LENGTH`: the bytes are shown whole."""
        room = bytearray(UNUSED_BYTE * small_number(count))
        length = self.board(board).write(room)
        return f"ok {length} {room.hex().upper()}"


def answers(lines: Iterable[bytes]) -> list[str]:
    """The answers to a script, without those of lines that are passed over."""
    session = Session()
    given = [session.answer(line) for line in lines]
    return [answer for answer in given if answer is not None]


def main() -> None:
    """Answers the script on standard input."""
    for answer in answers(sys.stdin.buffer.read().split(b"\n")):
        print(answer)


if __name__ == "__main__":
    main()
