"""How figures of the page are made: one style, colours that colour-blind readers can tell apart, and pictures as data URIs."""

from __future__ import annotations

import base64
import io
import warnings
from dataclasses import dataclass

import matplotlib

matplotlib.use("Agg")

from matplotlib import pyplot  # noqa: E402
from matplotlib.axes import Axes  # noqa: E402
from matplotlib.figure import Figure  # noqa: E402

WIDTH = 11.0
"""The width of a figure in inches."""

BLUE, GREEN, VERMILLION, PURPLE, ORANGE, SKY = "#0072B2", "#009E73", "#D55E00", "#CC79A7", "#E69F00", "#56B4E9"
GREY, DARK = "#8c8c8c", "#222222"
COLOURS = "viridis"
NOTHING = "#e4e4e4"

warnings.filterwarnings("ignore", message="Glyph .* missing from current font")
pyplot.rcParams.update(
    {
        "font.size": 9,
        "axes.titlesize": 9,
        "axes.labelsize": 9,
        "xtick.labelsize": 8,
        "ytick.labelsize": 8,
        "legend.fontsize": 8,
        "axes.spines.top": False,
        "axes.spines.right": False,
        "axes.formatter.useoffset": False,
        "axes.formatter.limits": (-6, 9),
        "svg.hashsalt": "nd_view",
        "svg.fonttype": "path",
    }
)


def panels(count: int, height: float, **options: object) -> tuple[Figure, list[Axes]]:
    """A figure of so many panels one below the other, each of this height in inches, over one horizontal axis."""
    figure, axes = pyplot.subplots(
        count, 1, figsize=(WIDTH, height * count + 0.5), sharex=True, squeeze=False, layout="constrained", **options
    )
    return figure, list(axes[:, 0])


@dataclass(frozen=True)
class Picture:
    """A figure as a data URI, and the part of the page's width that it takes, in percent."""

    uri: str
    share: int


def as_drawing(figure: Figure) -> Picture:
    """The figure as lines (SVG), for plots: sharp in print at any size."""
    return _picture(figure, "svg", "image/svg+xml", metadata={"Date": None, "Creator": None})


def as_picture(figure: Figure, dots_per_inch: int = 140) -> Picture:
    """The figure as pixels (PNG), for images of samples."""
    return _picture(figure, "png", "image/png", dpi=dots_per_inch, metadata={"Software": None})


def _picture(figure: Figure, form: str, kind: str, **options: object) -> Picture:
    share = min(100, round(100 * figure.get_figwidth() / WIDTH))
    room = io.BytesIO()
    figure.savefig(room, format=form, **options)
    pyplot.close(figure)
    return Picture(f"data:{kind};base64,{base64.b64encode(room.getvalue()).decode('ascii')}", share)
