"""Lists of whole numbers as ranges, which keep every number and stay short."""

from __future__ import annotations

from typing import Iterable

Range = tuple[int, int]


def ranges_of(numbers: Iterable[int]) -> list[Range]:
    """The numbers in rising order as ranges of neighbours, both ends included. A number that comes twice counts once."""
    ranges: list[Range] = []
    for number in sorted(set(numbers)):
        if ranges and ranges[-1][1] + 1 == number:
            ranges[-1] = (ranges[-1][0], number)
        else:
            ranges.append((number, number))
    return ranges


def range_text(ranges: Iterable[Range]) -> str:
    """The ranges as a text, as '3, 7 to 19'."""
    return ", ".join(str(first) if first == last else f"{first} to {last}" for first, last in ranges)
