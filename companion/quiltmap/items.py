"""A text of commands cut into its items: a command's line, and the lines behind it that belong to it.

The cut is the program's own, as the manual tells it. So the lines that a command takes are known before any of it is
sent, and what they lack can be told with the number of the line.
"""

from __future__ import annotations

import re
from collections.abc import Callable, Iterable, Iterator
from dataclasses import dataclass

LONGEST_LINE = 8320
LONGEST_POINT = 64
LONGEST_NUMBER = 10
PRINTABLE = re.compile(rb"[ -~]*")
NUMBER = re.compile(rb"0|[1-9][0-9]*")
HEXADECIMAL = re.compile(rb"[0-9a-fA-F]*")

MOST_COORDINATE = 65535
MOST_LABEL = 4294967295
MOST_POINTS = 100000
MOST_RINGS = 1000
LEAST_RING = 6


@dataclass(frozen=True)
class Item:
    """A command of a text: the number of its line (from 1), the line, the lines behind it that belong to it, and how
    many of these it wants. There are fewer where the text ends first."""

    number: int
    line: bytes
    rows: tuple[bytes, ...] = ()
    wanted: int = 0

    @property
    def command(self) -> str:
        """The command's line as text, with no space around it."""
        return self.line.decode("ascii", "backslashreplace").strip()

    @property
    def word(self) -> str:
        """The command's first word."""
        return self.command.split(" ", 1)[0]

    def text(self) -> bytes:
        """The item as the program reads it. For a row that is not there an empty one stands, which is refused alike."""
        missing = (b"",) * (self.wanted - len(self.rows))
        return b"\n".join((self.line, *self.rows, *missing, b""))


def words_of(line: bytes) -> list[bytes]:
    """The words of a line: what stands between spaces."""
    return [word for word in line.split(b" ") if word]


def number_in(word: bytes, least: int, most: int) -> bool:
    """Whether a word spells a number of this range, with no leading zero."""
    return len(word) <= LONGEST_NUMBER and bool(NUMBER.fullmatch(word)) and least <= int(word) <= most


def is_silent(line: bytes) -> bool:
    """Whether a line has no reply: an empty one, one of spaces, and a remark."""
    if len(line) > LONGEST_LINE or not PRINTABLE.fullmatch(line):
        return False
    words = words_of(line)
    return not words or words[0].startswith(b"#")


def rows_wanted(line: bytes, side: int) -> int:
    """How many lines behind a command's line belong to it, over a map of `side` pixels a side."""
    if len(line) > LONGEST_LINE or not PRINTABLE.fullmatch(line):
        return 0
    match words_of(line):
        case [b"raster", *_]:
            return side
        case [b"scatter", _, count] if number_in(count, 1, MOST_POINTS):
            return int(count)
        case [b"polygon", _, _, count] if number_in(count, 1, MOST_RINGS):
            return int(count)
    return 0


def items_of(lines: Iterable[bytes], side: Callable[[], int]) -> Iterator[Item]:
    """The items of a text, in order, each as soon as its last line is there. Lines come without their newlines;
    `side` tells the pixels of the map's side, and is asked once a raster comes."""
    numbered = enumerate(lines, 1)
    for number, line in numbered:
        if is_silent(line):
            continue
        wanted = rows_wanted(line, side() if words_of(line)[:1] == [b"raster"] else 0)
        rows = tuple(row for _, (_, row) in zip(range(wanted), numbered))
        yield Item(number, line, rows, wanted)


def is_raster_row(row: bytes, side: int) -> bool:
    """Whether a row has two hexadecimal digits a pixel, or four, as format 2 has."""
    return len(row) in (2 * side, 4 * side) and bool(HEXADECIMAL.fullmatch(row))


def is_point(row: bytes) -> bool:
    """Whether a line of a scatter has an x, a y and a label."""
    words = words_of(row)
    if len(row) > LONGEST_POINT or len(words) != 3:
        return False
    x, y, label = words
    return number_in(x, 0, MOST_COORDINATE) and number_in(y, 0, MOST_COORDINATE) and number_in(label, 0, MOST_LABEL)


def is_ring(row: bytes) -> bool:
    """Whether a line of a polygon has three corners or more, x and y each."""
    words = words_of(row)
    fits = len(row) <= LONGEST_LINE and len(words) >= LEAST_RING and len(words) % 2 == 0
    return fits and all(number_in(word, 0, MOST_COORDINATE) for word in words)


def row_fault(item: Item, side: int) -> str | None:
    """What is wrong with the lines of an item, in words; None where they are well formed and all there."""
    tests = {
        "raster": (lambda row: is_raster_row(row, side), f"{2 * side} or {4 * side} hexadecimal digits"),
        "scatter": (is_point, "x, y and label"),
        "polygon": (is_ring, "x and y of three corners or more"),
    }
    test, form = tests.get(item.word, (None, ""))
    if test is None or item.wanted == 0:
        return None
    for i, row in enumerate(item.rows, 1):
        if not test(row):
            shown = row[:40].decode("ascii", "backslashreplace")
            return f"row {i} of {item.wanted}, line {item.number + i}, is not {form}: {shown!r}"
    if len(item.rows) < item.wanted:
        return f"the text ends after {len(item.rows)} of {item.wanted} rows"
    return None
