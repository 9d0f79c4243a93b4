"""One table of all runs of a list."""

from __future__ import annotations

import csv
from dataclasses import dataclass, replace
from typing import Optional, Sequence, TextIO

from run_view.faults import ViewFault
from run_view.graphs import Graph
from run_view.reports import check_names, read_report

from .records import Place, Record, read_record

HEAD = ("number", "stack", "status", "frames", "kept", "refused", "full", "pool", "sort", "seconds", "reason")
_WORDS = ("stack", "reason")
_NUMBERS = HEAD[3:10]
NOT_RUN = "not run"
NOT_ENDED = "it goes on, or was stopped from outside"


@dataclass(frozen=True)
class Row:
    """A stack's line of the table. `kept` are the arrays that its file nodes saved; the losses are frames and arrays by cause, over all
    nodes. None stands for what isn't known."""

    number: int
    stack: str
    status: Optional[int] = None
    frames: Optional[int] = None
    kept: Optional[int] = None
    refused: Optional[int] = None
    full: Optional[int] = None
    pool: Optional[int] = None
    sort: Optional[int] = None
    seconds: Optional[float] = None
    reason: str = ""

    def cells(self) -> list[str]:
        """The line's cells as texts; what isn't known is '-'."""
        values = (getattr(self, name) for name in HEAD)
        return ["-" if value is None else f"{value:.1f}" if isinstance(value, float) else str(value) for value in values]


def row_of(place: Place, graph: Graph) -> Row:
    """The line of one stack, from its record and report."""
    try:
        record = read_record(place.record)
        if record is None:
            return Row(place.number, place.stack, reason=NOT_RUN)
        if record.stack != place.stack:
            return Row(place.number, place.stack, reason=f"not run: the list was changed, and this was {record.stack}")
        if record.status is None:
            return Row(place.number, place.stack, reason=NOT_ENDED)
        if record.status != 0:
            return Row(place.number, place.stack, record.status, seconds=_seconds(record), reason=_error_line(place, record.status))
        return _done(place, graph, record)
    except ViewFault as fault:
        return Row(place.number, place.stack, reason=str(fault))


def is_done(row: Row) -> bool:
    """Whether the stack's run ended with status 0, and its report was read."""
    return row.status == 0 and row.frames is not None


def write_table(rows: Sequence[Row], out: TextIO) -> None:
    """Writes the table with its columns one below the other, and a last line of sums."""
    lines = [list(HEAD), *(row.cells() for row in rows), _sums(rows)]
    widths = [max(len(line[place]) for line in lines) for place in range(len(HEAD))]
    for line in lines:
        cells = [cell.ljust(width) if name in _WORDS else cell.rjust(width) for name, cell, width in zip(HEAD, line, widths)]
        out.write("  ".join(cells).rstrip() + "\n")


def write_csv(rows: Sequence[Row], out: TextIO) -> None:
    """Writes the table as comma-separated values, without sums; what isn't known is empty."""
    writer = csv.writer(out, lineterminator="\n")
    writer.writerow(HEAD)
    for row in rows:
        writer.writerow(["" if getattr(row, name) is None else getattr(row, name) for name in HEAD])


def _done(place: Place, graph: Graph, record: Record) -> Row:
    counters = read_report(str(place.report))
    check_names(counters, graph, str(place.report))
    files = [node.name for node in graph.of_kind("file")]
    kept = sum(counters.nodes[name]["out"] for name in files) if files else None
    lost = counters.lost()
    drops = lost["refused"], lost["full"], lost["pool"], lost["sort"]
    return Row(place.number, place.stack, 0, counters.frames, kept, *drops, seconds=_seconds(record))


def _sums(rows: Sequence[Row]) -> list[str]:
    whole = Row(len(rows), "in all", reason=f"{sum(map(is_done, rows))} of {len(rows)} done")
    return replace(whole, **{name: sum(getattr(row, name) or 0 for row in rows) for name in _NUMBERS}).cells()


def _seconds(record: Record) -> Optional[float]:
    return None if record.seconds is None else float(record.seconds)


def _error_line(place: Place, status: int) -> str:
    if status < 0:
        return f"ended by signal {-status}"
    try:
        lines = place.error.read_text(encoding="utf-8", errors="replace").strip().splitlines()
    except OSError:
        return ""
    return lines[-1].removeprefix("nd_replay: ") if lines else ""
