"""Long series thinned for drawing: the least and the greatest value in each column of pixels, so that no peak is lost."""

from __future__ import annotations

from dataclasses import dataclass
from typing import Any

import numpy as np
import numpy.typing as npt

COLUMNS = 1000

Values = npt.NDArray[Any]


@dataclass(frozen=True)
class Steps:
    """A step function in equal columns: `edges` has one place more than there are columns."""

    edges: npt.NDArray[np.float64]
    least: Values
    greatest: Values


@dataclass(frozen=True)
class Points:
    """A series by whole numbers `at`: where it was thinned one point for each column that has any, else the series itself."""

    at: Values
    least: Values
    greatest: Values
    thinned: bool


def step_columns(at: Values, after: Values, length: int, columns: int = COLUMNS) -> Steps:
    """Columns of a function on 0 to `length` that is 0 and, from each place of `at` on (in rising order), has the value of `after`.

    A column that stands for several places also counts the value with which it begins.
    """
    if length <= columns:
        edges = np.arange(max(1, length) + 1, dtype=np.float64)
        value: Values = np.append(0, after)[np.searchsorted(at, edges[:-1], "right")]
        return Steps(edges, value, value)
    edges = np.linspace(0, max(1, length), columns + 1)
    first = np.searchsorted(at, edges[:-1], "left")
    last = np.searchsorted(at, edges[1:], "left")
    last[-1] = len(at)
    least: Values = np.append(0, after)[first]
    greatest = least.copy()
    filled = last > first
    if filled.any():
        starts = first[filled]
        least[filled] = np.minimum(least[filled], np.minimum.reduceat(after, starts))
        greatest[filled] = np.maximum(greatest[filled], np.maximum.reduceat(after, starts))
    return Steps(edges, least, greatest)


def point_columns(at: Values, value: Values, columns: int = COLUMNS) -> Points:
    """A series in the order of `at` (stable), thinned where it has more than two points for each column."""
    order = np.argsort(at, kind="stable")
    at, value = at[order], value[order]
    if len(at) <= 2 * columns:
        return Points(at, value, value, False)
    column = column_of(at, int(at[0]), int(at[-1]), columns)
    starts = np.flatnonzero(np.diff(column, prepend=-1))
    return Points(at[starts], np.minimum.reduceat(value, starts), np.maximum.reduceat(value, starts), True)


def column_of(at: Values, first: int, last: int, columns: int) -> npt.NDArray[np.int64]:
    """The column of each whole number from `first` to `last`, where these are laid out over so many columns."""
    return (at.astype(np.int64) - first) * columns // (last - first + 1)
