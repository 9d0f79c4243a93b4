"""The rows that statistics nodes write: their numbers as series over ids, and their bins and profiles as images."""

from __future__ import annotations

import re
from dataclasses import dataclass, field
from typing import Iterator, Optional, Sequence

import numpy as np
import numpy.typing as npt

from .columns import COLUMNS, column_of
from .faults import ViewFault, reason

_ROW = re.compile(
    r"(?P<id>-?\d+) n=(?P<n>\d+) min=(?P<min>-?\d+)@\d+ max=(?P<max>-?\d+)@\d+ total=(?P<total>-?\d+) squares=\d+ border=-?\d+/\d+"
    r" over=(?P<over>\d+) m0=(?P<m0>-?\d+) mx=(?P<mx>-?\d+) my=(?P<my>-?\d+)"
    r"(?: below=(?P<below>\d+) bins=(?P<bins>[\d,]+) above=(?P<above>\d+))?(?: x=(?P<x>[-\d,]+) y=(?P<y>[-\d,]+))?\n",
    re.ASCII,
)
SERIES = ("total", "min", "max", "over")
IMAGES = ("bins", "x", "y")
IMAGE_HEIGHT = 400
_AT_ONCE = 100

Image = npt.NDArray[np.float64]


@dataclass(frozen=True)
class RowImage:
    """A list of numbers a row (`height` of them), drawn over ids: the least and the greatest number of the rows of a pixel.

    An image has its pixels by place and then by column of ids; a pixel without a row is NaN.
    """

    height: int
    least: Image
    greatest: Image
    thinned: bool


@dataclass
class Rows:
    """The rows of a statistics node in the file's order; `fault` says why no further, where they weren't read to their end.

    `series` are whole numbers by the names of the row; `centre` are the means of the indices (dimension 0, dimension 1) of the
    samples that reach the threshold, weighted by sample, and NaN where their sum isn't positive.
    """

    ids: npt.NDArray[np.int64]
    series: dict[str, npt.NDArray[np.int64]]
    centre: npt.NDArray[np.float64]
    images: dict[str, RowImage] = field(default_factory=dict)
    outside: int = 0
    fault: Optional[str] = None

    def __len__(self) -> int:
        return len(self.ids)


def read_rows(path: str) -> Rows:
    """Reads a file of rows. One that is cut off is read up to there; one of which no line is a row is refused."""
    numbers: dict[str, list[int]] = {name: [] for name in ("id", *SERIES)}
    centres: list[tuple[float, float]] = []
    heights: dict[str, int] = {}
    faults: list[str] = []
    outside = 0
    for row in _rows(path, faults):
        here = {name: row[name].count(",") + 1 for name in IMAGES if row[name]}
        if here != (heights := heights or here):
            faults.append(f"line {len(centres) + 1} has another number of bins or sums than the rows before")
            break
        for name, column in numbers.items():
            column.append(int(row[name]))
        centres.append(_centre(int(row["m0"]), int(row["mx"]), int(row["my"])))
        outside += int(row["below"] or 0) + int(row["above"] or 0)
    if faults and not numbers["id"] and "cut off" not in faults[0]:
        raise ViewFault(f"{path} isn't a file of statistics rows: {faults[0]}")
    ids = np.array(numbers.pop("id"), dtype=np.int64)
    rows = Rows(
        ids,
        {name: np.array(column, dtype=np.int64) for name, column in numbers.items()},
        np.array(centres, dtype=np.float64).reshape(-1, 2),
        outside=outside,
        fault=faults[0] if faults else None,
    )
    wanted = {name: height for name, height in heights.items() if height > 1 or name == "bins"}
    if wanted:
        rows.images = _images(path, ids, wanted)
    return rows


def is_row(line: str) -> bool:
    """Whether a line, with its newline, is a row of statistics."""
    return _ROW.fullmatch(line) is not None


def _rows(path: str, faults: list[str]) -> Iterator[re.Match[str]]:
    """The rows of a file; where one is none of these it ends there, and says why in `faults`."""
    try:
        with open(path, encoding="ascii", errors="replace") as lines:
            for number, line in enumerate(lines, 1):
                row = _ROW.fullmatch(line)
                if row is None:
                    faults.append(f"line {number} is {'no row' if line.endswith(chr(10)) else 'cut off'}")
                    return
                yield row
    except OSError as fault:
        raise ViewFault(f"{path} can't be read: {reason(fault)}") from fault


def _centre(total: int, weighted_x: int, weighted_y: int) -> tuple[float, float]:
    if total <= 0:
        return float("nan"), float("nan")
    return weighted_x / total, weighted_y / total


class _ImageBuilder:
    """Gathers the least and the greatest numbers of rows, column by column of ids; rows of one column that follow are read at once."""

    def __init__(self, height: int, columns: int) -> None:
        self._height = height
        self._starts = np.arange(min(height, IMAGE_HEIGHT)) * height // min(height, IMAGE_HEIGHT)
        self._least = np.full((columns, len(self._starts)), np.nan)
        self._greatest = self._least.copy()
        self._column = 0
        self._texts: list[str] = []

    def take(self, column: int, text: str) -> None:
        """Takes the numbers of a row."""
        if column != self._column or len(self._texts) == _AT_ONCE:
            self._read()
        self._column = column
        self._texts.append(text)

    def _read(self) -> None:
        if not self._texts:
            return
        numbers = np.fromstring(",".join(self._texts), dtype=np.float64, sep=",").reshape(-1, self._height)
        self._texts.clear()
        least, greatest = self._least[self._column], self._greatest[self._column]
        np.fmin(least, np.minimum.reduceat(numbers.min(axis=0), self._starts), out=least)
        np.fmax(greatest, np.maximum.reduceat(numbers.max(axis=0), self._starts), out=greatest)

    def image(self) -> RowImage:
        """What was gathered."""
        self._read()
        thinned = not np.array_equal(self._least, self._greatest, equal_nan=True)
        return RowImage(self._height, self._least.T, self._greatest.T, thinned)


def _images(path: str, ids: Sequence[int] | npt.NDArray[np.int64], heights: dict[str, int]) -> dict[str, RowImage]:
    ids = np.asarray(ids)
    first, last = int(ids.min()), int(ids.max())
    columns = min(COLUMNS, last - first + 1)
    place = column_of(ids, first, last, columns).tolist()
    builders = {name: _ImageBuilder(height, columns) for name, height in heights.items()}
    for column, row in zip(place, _rows(path, [])):
        for name, builder in builders.items():
            if row[name]:
                builder.take(column, row[name])
    return {name: builder.image() for name, builder in builders.items()}
