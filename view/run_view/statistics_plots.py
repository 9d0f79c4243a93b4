"""Plots of a statistics node's rows over uniqueId."""

from __future__ import annotations

import numpy as np
from matplotlib.axes import Axes
from matplotlib.colors import LogNorm, Normalize
from matplotlib import colormaps

from . import drawing
from .columns import Points, Values, point_columns
from .drawing import Picture
from .graphs import Node
from .rows import RowImage, Rows

Span = tuple[float, float]

_DOT = 2.2
LABELS = {
    "total": "total of\nall samples",
    "max": "greatest\nsample",
    "min": "least\nsample",
}
IMAGE_WORDS = {"bins": "histogram", "x": "profile over dimension 0 (columns)", "y": "profile over dimension 1 (rows)"}


def series_of(rows: Rows) -> dict[str, Points]:
    """The series of the rows as they are drawn."""
    return {name: point_columns(rows.ids, values) for name, values in rows.series.items()}


def draw_series(node: Node, rows: Rows, series: dict[str, Points], span: Span) -> Picture:
    """Total, greatest, least and threshold count over uniqueId, and the centre of the samples that reach the threshold."""
    threshold = node.settings.get("threshold", 0)
    has_centre = bool(np.isfinite(rows.centre).any())
    figure, axes = drawing.panels(5 if has_centre else 4, 1.15)
    labels = {**LABELS, "over": f"samples of\n{threshold} or more"}
    for axis, name in zip(axes, ("total", "max", "min", "over")):
        _draw_points(axis, series[name], drawing.BLUE)
        axis.yaxis.get_major_locator().set_params(integer=True, nbins=4)
        axis.set_ylabel(labels[name])
    if has_centre:
        _draw_centre(axes[4], rows, threshold)
    axes[-1].set_xlabel("uniqueId")
    axes[-1].xaxis.get_major_locator().set_params(integer=True)
    axes[-1].set_xlim(*span)
    for axis in axes:
        axis.grid(axis="y", color="#dddddd", linewidth=0.5)
        axis.set_axisbelow(True)
    figure.align_ylabels(axes)
    return drawing.as_drawing(figure)


def limits(ids: Values) -> Span:
    """The ends of the axis of ids."""
    return float(ids.min()) - 0.5, float(ids.max()) + 0.5


def _draw_centre(axis: Axes, rows: Rows, threshold: int) -> None:
    there = np.isfinite(rows.centre[:, 0])
    for dimension, (name, colour) in enumerate((("column", drawing.VERMILLION), ("row", drawing.GREEN))):
        _draw_points(axis, point_columns(rows.ids[there], rows.centre[there, dimension]), colour, name)
    axis.set_ylabel(f"centre of those\nof {threshold} or more\n(index in array)")
    axis.legend(loc="upper right", ncols=2, frameon=True, markerscale=2, handlelength=1, borderpad=0.2)


def _draw_points(axis: Axes, points: Points, colour: str, label: str | None = None) -> None:
    if points.thinned:
        axis.vlines(points.at, points.least, points.greatest, color=colour, linewidth=1.1, capstyle="round", label=label)
    else:
        axis.plot(points.at, points.least, ".", markersize=_DOT if len(points.at) > 200 else 2 * _DOT, color=colour, label=label)


def draw_image(node: Node, name: str, image: RowImage, ids: Values, span: Span) -> list[tuple[Picture, str]]:
    """The bins or a profile as pictures over uniqueId, each with what it shows: one where no pixel has several numbers, else two."""
    both = [("greatest", image.greatest)] + ([("least", image.least)] if image.thinned else [])
    pictures = []
    for which, values in both:
        figure, (axis,) = drawing.panels(1, 2.3)
        low, high = np.nanmin(image.least), np.nanmax(image.greatest)
        colours = colormaps[drawing.COLOURS].with_extremes(bad=drawing.NOTHING)
        counted = name == "bins" and high > 100
        norm = LogNorm(1, high, clip=True) if counted else Normalize(low, max(high, low + 1))
        drawn = axis.imshow(
            values,
            aspect="auto",
            origin="lower",
            interpolation="nearest",
            cmap=colours,
            norm=norm,
            extent=(*limits(ids), *_height(node, name, image)),
        )
        axis.set_xlim(*span)
        axis.set_facecolor(drawing.NOTHING)
        axis.set_xlabel("uniqueId")
        axis.xaxis.get_major_locator().set_params(integer=True)
        axis.set_ylabel({"bins": "sample", "x": "column of the array", "y": "row of the array"}[name])
        figure.colorbar(drawn, ax=axis, pad=0.01, label="samples in a bin" if name == "bins" else "sum of samples")
        words = f"{IMAGE_WORDS[name]}{f', the {which} number of each pixel' if image.thinned else ''}"
        pictures.append((drawing.as_picture(figure), words + ("; colours are logarithmic, and 0 is as 1" if counted else "")))
    return pictures


def _height(node: Node, name: str, image: RowImage) -> tuple[float, float]:
    """The ends of the upright axis: the values that the bins stand for, or the places of a profile."""
    if name != "bins":
        return -0.5, image.height - 0.5
    low, high = float(node.settings.get("hist_lo", 0)), float(node.settings.get("hist_hi", 255))
    half = (high - low) / (image.height - 1) / 2 if image.height > 1 else 0.0
    return low - half, high + half
