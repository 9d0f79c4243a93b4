"""Plots of a log: each node's queue with every drop, and how many frames each role did."""

from __future__ import annotations

from typing import Optional

import numpy as np
from matplotlib.axes import Axes

from . import drawing
from .columns import COLUMNS, Steps, step_columns
from .drawing import Picture, pyplot
from .graphs import Graph, Node
from .journal import FULL, POOL, REFUSED, SORT, Journal, Level, NodeHistory

CAUSE_COLOURS = {REFUSED: drawing.VERMILLION, FULL: drawing.VERMILLION, POOL: drawing.PURPLE, SORT: drawing.ORANGE}
CAUSE_WORDS = {REFUSED: "refused by the pool", FULL: "queue full", POOL: "pool full", SORT: "sort list full"}
_LANE = 0.22
_TIMES = 7


def draw_timeline(graph: Graph, journal: Journal) -> Picture:
    """A panel for the driver and for each node over the lines of the log."""
    figure, axes = drawing.panels(len(graph.nodes) + 1, 1.15)
    _draw_driver(axes[0], journal)
    for axis, node in zip(axes[1:], graph.nodes):
        _draw_node(axis, node, journal.nodes[node.number], journal.lines)
    for axis in axes:
        axis.set_xlim(0, max(1, journal.lines))
        axis.yaxis.get_major_locator().set_params(integer=True, nbins=4)
        if journal.closed_at is not None:
            axis.axvline(journal.closed_at, color=drawing.DARK, linewidth=0.7, linestyle=(0, (4, 3)))
    axes[-1].set_xlabel("line of the log (entries in their order, not time)")
    axes[-1].xaxis.get_major_locator().set_params(integer=True)
    _draw_times(axes[0], journal)
    figure.align_ylabels(axes)
    return drawing.as_drawing(figure)


def drop_columns(lines: np.ndarray, length: int, columns: int = COLUMNS) -> np.ndarray:
    """Where drops are marked: at each line that has one, or where these stand closer than pixels once a column that has any."""
    if len(lines) <= columns:
        return np.asarray(lines, dtype=np.float64)
    width = max(1, length) / columns
    return (np.unique((np.asarray(lines) / width).astype(np.int64)) + 0.5) * width


def _draw_driver(axis: Axes, journal: Journal) -> None:
    level = journal.loads
    if len(level.lines()):
        _draw_level(axis, level, journal.lines, drawing.BLUE, "frames loaded")
    axis.set_ylabel("driver\n(frames loaded)")
    _draw_drops(axis, journal.nodes[0], journal.lines, max(1, int(level.values().max(initial=0))))
    _legend(axis)


def _draw_node(axis: Axes, node: Node, history: NodeHistory, length: int) -> None:
    top = _draw_level(axis, history.queue, length, drawing.BLUE, "queue")
    behind = "to be saved" if node.kind == "file" else "sort list" if node.sort else None
    if behind:
        top = max(top, _draw_level(axis, history.behind, length, drawing.GREEN, behind))
    if node.queue <= 3 * max(1, top):
        axis.axhline(node.queue, color=drawing.GREY, linewidth=0.8, linestyle=":", label=f"queue takes {node.queue}")
        top = max(top, node.queue)
    axis.set_ylabel(f"{node.name}\n(arrays)")
    _draw_drops(axis, history, length, max(1, top))
    _legend(axis)


def _draw_level(axis: Axes, level: Level, length: int, colour: str, label: str) -> int:
    steps: Steps = step_columns(level.lines(), level.values(), length)
    axis.stairs(steps.greatest, steps.edges, baseline=steps.least, fill=True, color=colour, alpha=0.35, linewidth=0)
    axis.stairs(steps.greatest, steps.edges, baseline=None, color=colour, linewidth=0.8, label=label)
    return int(steps.greatest.max(initial=0))


def _draw_drops(axis: Axes, history: NodeHistory, length: int, top: int) -> None:
    """One lane of marks above the levels for each cause that there is."""
    lanes = [cause for cause, drops in history.drops.items() if len(drops)]
    for lane, cause in enumerate(lanes):
        at = drop_columns(np.array(history.drops[cause].lines), length)
        low = top * (1.1 + _LANE * lane)
        label = f"{CAUSE_WORDS[cause]}: {len(history.drops[cause])} dropped"
        axis.vlines(at, low, low + 0.85 * _LANE * top, color=CAUSE_COLOURS[cause], linewidth=0.9, label=label)
    axis.set_ylim(0, top * (1.1 + _LANE * len(lanes)))


def _legend(axis: Axes) -> None:
    if axis.get_legend_handles_labels()[0]:
        axis.legend(loc="center left", bbox_to_anchor=(1.0, 0.5), frameon=False, handlelength=1.2)


def _draw_times(axis: Axes, journal: Journal) -> None:
    """The clock's answers along the upper edge, at a few loads; the log has no others."""
    if not journal.ticks:
        return
    lines, ticks = np.array(journal.tick_lines), np.array(journal.ticks) - journal.ticks[0]
    picked: list[int] = []
    for wanted in np.linspace(0, lines[-1], _TIMES):
        place = min(int(np.searchsorted(lines, wanted)), len(lines) - 1)
        if not picked or lines[place] - lines[picked[-1]] > journal.lines / 16:
            picked.append(place)
    upper = axis.secondary_xaxis("top")
    upper.set_xticks(lines[picked], [f"{ticks[place]:,} ms" for place in picked])
    upper.set_xlabel("time of that load, after the first one")


def draw_workers(work: list[tuple[str, int]]) -> Optional[Picture]:
    """Bars of how many frames each role did."""
    if not work:
        return None
    figure, axis = pyplot.subplots(figsize=(drawing.WIDTH, 0.21 * len(work) + 0.7), layout="constrained")
    names = [name for name, _ in work]
    bars = axis.barh(range(len(work)), [count for _, count in work], color=drawing.BLUE, height=0.7)
    axis.set_yticks(range(len(work)), names)
    axis.invert_yaxis()
    axis.bar_label(bars, fmt="%d", padding=3, fontsize=8)
    axis.set_xlabel("frames or arrays")
    axis.xaxis.get_major_locator().set_params(integer=True)
    axis.margins(x=0.08)
    return drawing.as_drawing(figure)


def work_of(graph: Graph, journal: Journal) -> list[tuple[str, int]]:
    """How many frames the feeder passed on, the workers of each node did, and the last role saved.

    Workers that did nothing are listed, too. A role beyond those of a node did what others left undone.
    """
    done = dict(journal.done)
    work = [(f"feeder (role {role}), issued", count) for role, count in sorted(journal.issued.items())]
    first = 1
    for node in graph.nodes:
        for role in range(first, first + node.threads):
            work.append((f"{node.name}, role {role}", done.pop((role, node.number), 0)))
        first += node.threads
    work += [(f"{graph.name(node)}, role {role} in place of its own", count) for (role, node), count in sorted(done.items())]
    work += [(f"{graph.name(node)}, saved by role {role}", count) for (role, node), count in sorted(journal.saved.items())]
    return work
