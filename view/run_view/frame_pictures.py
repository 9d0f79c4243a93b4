"""Pictures of single arrays: the first, a middle and the last one of a file node, side by side with one colour bar."""

from __future__ import annotations

from dataclasses import dataclass
from typing import Any, Optional, Sequence

import numpy as np
import numpy.typing as npt
from matplotlib.axes import Axes

from . import drawing
from .drawing import Picture, pyplot
from .graphs import Graph, Node
from .stored import FrameFacts, Layout, NodeFiles, read_frame

PIXELS = 512
"""At most so many points are drawn along either side of a picture."""

CLIPPED_ABOVE = 99.9
LONG = 6
_ATTRIBUTES = 4
Samples = npt.NDArray[np.integer[Any]]


@dataclass(frozen=True)
class Shown:
    """An array as it is drawn: the points of its first plane, each the greatest of `rows` times `columns` samples; how many planes it has;
    and the least, the greatest and the sum of all its samples."""

    frame: FrameFacts
    points: Samples
    rows: int
    columns: int
    planes: int
    least: int
    greatest: int
    total: int


@dataclass(frozen=True)
class Axis:
    """Where the samples of a dimension lie: sample i covers `start + i * step` to `start + (i + 1) * step`, in samples of the frame or,
    where `of_frame` is false, in those of the array itself."""

    start: int
    step: int
    of_frame: bool


def chosen(files: NodeFiles) -> list[Shown]:
    """The first, a middle and the last array of a node's files, each once; no more than one of them is in memory as a whole."""
    arrays = files.arrays()
    positions = sorted({0, arrays // 2, arrays - 1}) if arrays else []
    return [shown_part(*read_frame(*files.locate(position))) for position in positions]


def shown_part(facts: FrameFacts, samples: Samples) -> Shown:
    """The first plane of an array, made smaller by the greatest of neighbouring samples where it has more than `PIXELS` a side."""
    planes = int(np.prod(samples.shape[:-2], dtype=np.int64)) if samples.ndim > 2 else 1
    plane = samples.reshape(-1, *samples.shape[-2:])[0] if samples.ndim > 2 else np.atleast_2d(samples)
    rows, columns = (-(-size // PIXELS) for size in plane.shape)
    if rows > 1:
        plane = np.maximum.reduceat(plane, np.arange(0, plane.shape[0], rows), axis=0)
    if columns > 1:
        plane = np.maximum.reduceat(plane, np.arange(0, plane.shape[1], columns), axis=1)
    least, greatest, total = int(samples.min()), int(samples.max()), int(samples.sum(dtype=np.int64))
    return Shown(facts, plane.copy(), rows, columns, planes, least, greatest, total)


def axis_of(graph: Graph, node: Node, layout: Layout, dimension: int) -> Axis:
    """Where the samples of a dimension (0 is the fastest) of a node's arrays lie.

    A file's offset is the sum of the offsets of all regions before, each in samples of its own input. So it tells the place in the frame
    only where at most one region stands before, and this one's input was neither binned nor reversed; else the array's own index is used.
    """
    length = layout.sizes[::-1][dimension]
    offset, step, reverse = layout.offset[dimension], layout.binning[dimension], layout.reverse[dimension]
    above = graph.above(node)
    regions = [other for other in above if other.kind == "roi"]
    known = all(other.kind in ("roi", "stats", "circular", "scatter") for other in above)
    if known and not regions and not reverse:
        return Axis(offset, step, True)
    if known and len(regions) == 1 and _item(regions[0], "bin", dimension, 1) == step:
        if reverse == bool(_item(regions[0], "reverse", dimension, False)):
            return Axis(offset + length * step, -step, True) if reverse else Axis(offset, step, True)
    return Axis(0, 1, False)


def draw_frames(graph: Graph, node: Node, parts: Sequence[Shown]) -> tuple[Picture, str]:
    """The arrays as a picture, and what has to be known of it in words."""
    layout = parts[0].frame.layout
    words = [_clause(parts[0])]
    if len(layout.sizes) == 1:
        return _draw_lines(graph, node, parts), ""
    low, high, is_clipped = _colour_range(parts)
    if is_clipped:
        words.append(f"The colours end at {high}, which {CLIPPED_ABOVE} % of the points don't pass; what is above has the last colour.")
    shape = layout.sizes[-2:]
    wide = shape[1] / shape[0]
    figure, axes = pyplot.subplots(
        1, len(parts), figsize=(3.55 * len(parts) + 0.7, min(4.4, max(2.4, 3.1 / wide + 0.95))), squeeze=False, layout="constrained"
    )
    x, y = (axis_of(graph, node, layout, dimension) for dimension in (0, 1))
    extent = (x.start, x.start + x.step * shape[1], y.start + y.step * shape[0], y.start)
    for axis, part in zip(axes[0], parts):
        image = axis.imshow(
            part.points,
            vmin=low,
            vmax=high,
            cmap=drawing.COLOURS,
            extent=extent,
            interpolation="nearest",
            aspect="equal" if 1 / LONG <= wide <= LONG else "auto",
        )
        axis.set_title(_title(part.frame), parse_math=False)
        _whole_ticks(axis)
        axis.set_xlabel(_label("column", x))
    axes[0][0].set_ylabel(_label("row", y))
    figure.colorbar(image, ax=list(axes[0]), label=f"sample ({layout.sample_type})", extend="max" if is_clipped else "neither", pad=0.01)
    return drawing.as_picture(figure), " ".join(filter(None, words))


def _draw_lines(graph: Graph, node: Node, parts: Sequence[Shown]) -> Picture:
    """Arrays of one dimension as lines."""
    figure, axes = drawing.panels(len(parts), 1.5, sharey=True)
    place = axis_of(graph, node, parts[0].frame.layout, 0)
    for axis, part in zip(axes, parts):
        at = place.start + place.step * part.columns * np.arange(part.points.shape[1])
        axis.plot(at, part.points[0], color=drawing.BLUE, linewidth=0.9)
        axis.set_title(_title(part.frame).replace("\n", ", "), loc="left", parse_math=False)
        axis.set_ylabel(f"sample\n({part.frame.layout.sample_type})")
    axes[-1].set_xlabel(_label("sample", place))
    return drawing.as_drawing(figure)


def _colour_range(parts: Sequence[Shown]) -> tuple[int, int, bool]:
    """The least point, the end of the colours, and whether some points lie above it."""
    points = np.concatenate([part.points.ravel() for part in parts])
    low, high = int(points.min()), int(points.max())
    end = int(np.ceil(np.percentile(points, CLIPPED_ABOVE)))
    if low < end < high and (high - low) > 1.5 * (end - low):
        return low, end, True
    return low, max(high, low + 1), False


def _clause(part: Shown) -> str:
    words = []
    if part.planes > 1:
        words.append(f"The first of {part.planes} planes is shown.")
    if part.rows * part.columns > 1:
        words.append(f"Each point is the greatest of {part.columns} columns and {part.rows} rows of samples.")
    return " ".join(words)


def _title(frame: FrameFacts) -> str:
    attributes = [f"{name} = {_short(value)}" for name, value in list(frame.attributes.items())[:_ATTRIBUTES]]
    more = len(frame.attributes) - len(attributes)
    return f"id {frame.unique_id}\n{', '.join(attributes)}{f' and {more} more' if more > 0 else ''}"


def _short(value: Any) -> str:
    text = f"{value:.6g}" if isinstance(value, float) else str(value)
    text = "".join(letter if letter.isprintable() else "?" for letter in text)
    return text if len(text) <= 16 else text[:15] + "…"


def _label(word: str, axis: Axis) -> str:
    return f"{word} of the frame" if axis.of_frame else f"{word} of the array, from 0"


def _whole_ticks(axis: Axes) -> None:
    axis.xaxis.get_major_locator().set_params(integer=True, nbins=6)
    axis.yaxis.get_major_locator().set_params(integer=True, nbins=6)


def _item(node: Node, key: str, place: int, default: int | bool) -> Optional[int | bool]:
    given = node.settings.get(key, [])
    return given[place] if isinstance(given, list) and place < len(given) else default
