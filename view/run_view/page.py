"""The page: one HTML text with all pictures in it, and the numbers behind them as JSON."""

from __future__ import annotations

import json
import os
from html import escape
from pathlib import Path
from typing import Any, Iterable, Sequence

import numpy as np

from . import frame_pictures, statistics_plots, timeline
from .frame_pictures import Shown
from .journal import CAUSES
from .losses import headline, kept, losses, many
from .markup import bullets, figure, table
from .outputs import Outputs
from .ranges import range_text, ranges_of
from .reports import DRIVER_KEYS, NODE_KEYS
from .stored import Layout, NodeFiles

DATA_MARK = "run-data"
_NAMES = {1: ("only",), 2: ("first", "last"), 3: ("first", "a middle", "last")}
_BREAKS = (
    "Breaks count the arrays that came out with an id that is neither that of the one before nor the next one: out of order, or the first "
    "after a gap, as behind a drop or at the beginning of a trigger window."
)
_STYLE = (Path(__file__).parent / "page.css").read_text(encoding="utf-8")


class Page:
    """Gathers the page's sections and the numbers behind them."""

    def __init__(self, outputs: Outputs) -> None:
        self._outputs = outputs
        self._parts: list[str] = []
        self.data: dict[str, Any] = {"prefix": outputs.prefix, "problems": outputs.problems}

    def text(self) -> str:
        """The whole page."""
        self._add_head()
        self._add_frames()
        self._add_statistics()
        self._add_counters()
        self._add_timeline()
        self._add_drops()
        self._add_workers()
        self._add_graph()
        data = json.dumps(self.data, allow_nan=False, separators=(",", ":")).replace("<", "\\u003c")
        title = escape(f"Run {os.path.basename(self._outputs.prefix) or self._outputs.prefix}")
        return (
            '<!doctype html>\n<html lang="en">\n<head>\n<meta charset="utf-8">\n'
            "<meta http-equiv=\"Content-Security-Policy\" content=\"default-src 'none'; style-src 'unsafe-inline'; img-src data:\">\n"
            '<meta name="viewport" content="width=device-width">\n'
            f"<title>{title}</title>\n<style>{_STYLE}</style>\n</head>\n<body>\n"
            + "\n".join(self._parts)
            + f'\n<script type="application/json" id="{DATA_MARK}">{data}</script>\n</body>\n</html>\n'
        )

    def _section(self, title: str, body: Iterable[str], is_long: bool = False) -> None:
        kind = ' class="long"' if is_long else ""
        self._parts.append(f"<section{kind}>\n<h2>{escape(title)}</h2>\n" + "\n".join(body) + "\n</section>")

    def _add_head(self) -> None:
        outputs = self._outputs
        self._parts.append(f"<h1>Run {escape(outputs.prefix)}</h1>")
        have = [many(len(outputs.names), "file")]
        if outputs.counters is not None and outputs.counters.frames is not None:
            have.insert(0, f"a stack of {many(outputs.counters.frames, 'frame')}")
        if outputs.journal is not None:
            have.append(f"a log of {many(outputs.journal.lines, 'line')}")
        self._parts.append(f'<p class="small">{escape(", ".join(have))}.</p>')
        if outputs.problems:
            self._parts.append('<div class="problems"><b>What is wrong with the files</b>' + bullets(outputs.problems) + "</div>")
        self._add_verdict()

    def _add_verdict(self) -> None:
        outputs = self._outputs
        counters = outputs.counters
        if counters is None:
            self._parts.append(
                '<div class="verdict"><b>What was lost isn\'t known.</b><p>There is neither a log nor a report. <code>nd_replay run-log</code> '
                "writes a log, and <code>--report FILE</code> takes what a run printed.</p></div>"
            )
            return
        found = losses(outputs.graph, counters)
        self.data["losses"] = [{"node": loss.node, "cause": loss.cause, "count": loss.count} for loss in found]
        is_whole = outputs.source == "report" or not (outputs.journal and outputs.journal.fault)
        head = headline(counters, found, is_whole)
        lines = [f"{escape(loss.words)} <i>What helps: {escape(loss.helps)}.</i>" for loss in found]
        if outputs.journal:
            lines += [
                f"A thread left in this run (role {role}, at line {line + 1} of the log): it ran out of memory."
                for line, role in outputs.journal.leaves
            ]
        kind = "verdict lost" if found else "verdict"
        items = f"<ul>{''.join(f'<li>{line}</li>' for line in lines)}</ul>" if lines else ""
        out = f"<p>{escape(' '.join(kept(outputs.graph, counters)))}</p>"
        self._parts.append(f'<div class="{kind}"><b>{escape(head)}</b>{items}{out}</div>')

    def _add_frames(self) -> None:
        self.data["frames"] = {}
        for node in self._outputs.graph.of_kind("file"):
            files = self._outputs.files[node.name]
            body = [f"<p>{escape(_files_words(files))}</p>"]
            shown = frame_pictures.chosen(files)
            self.data["frames"][node.name] = [_frame_data(part) for part in shown]
            if shown:
                picture, words = frame_pictures.draw_frames(self._outputs.graph, node, shown)
                which = ", ".join(f"{name}: id {part.frame.unique_id}" for name, part in zip(_NAMES[len(shown)], shown))
                body.append(figure(picture, f"arrays of {node.name}, {which}", f"{_layout_words(shown[0].frame.layout)} {words}"))
            self._section(f"{node.name}: saved arrays", body)

    def _add_statistics(self) -> None:
        outputs = self._outputs
        self.data["statistics"] = {}
        for node in outputs.graph.of_kind("stats"):
            rows = outputs.rows.get(node.name)
            if rows is None:
                continue
            data: dict[str, Any] = {"rows": len(rows)}
            self.data["statistics"][node.name] = data
            if not len(rows):
                self._section(f"{node.name}: statistics", ["<p>No array came to it.</p>"])
                continue
            series = statistics_plots.series_of(rows)
            data["ids"] = [int(rows.ids.min()), int(rows.ids.max())]
            data["series"] = {
                name: {"id": points.at.tolist(), "least": points.least.tolist(), "greatest": points.greatest.tolist()}
                for name, points in series.items()
            }
            thinned = any(points.thinned for points in series.values())
            span = statistics_plots.limits(rows.ids if outputs.ids is None else np.concatenate((rows.ids, outputs.ids)))
            words = f"{many(len(rows), 'row')}, ids {data['ids'][0]} to {data['ids'][1]}; an id without a mark has no row."
            if thinned:
                words += " Each column of pixels is drawn from the least to the greatest value of its rows."
            if rows.outside:
                words += f" {many(rows.outside, 'sample')} in all lie beside the range of the histogram."
            body = [figure(statistics_plots.draw_series(node, rows, series, span), f"statistics of {node.name}", words)]
            for name, image in rows.images.items():
                for picture, what in statistics_plots.draw_image(node, name, image, rows.ids, span):
                    body.append(figure(picture, f"{what} of {node.name}", f"{what[0].upper()}{what[1:]}; grey is an id without a row."))
            self._section(f"{node.name}: statistics", body, is_long=len(body) > 1)

    def _add_counters(self) -> None:
        counters = self._outputs.counters
        if counters is None:
            return
        columns = [key for key in dict.fromkeys((*DRIVER_KEYS[:3], *NODE_KEYS)) if key != "offered"]
        columns.insert(0, "offered")
        rows: list[list[Any]] = []
        if counters.driver is not None:
            rows.append(["driver", ""] + [counters.driver.get(key, "") for key in columns])
        kinds = {node.name: node.kind for node in self._outputs.graph.nodes}
        rows += [[name, kinds[name]] + [counts.get(key, "") for key in columns] for name, counts in counters.nodes.items()]
        self.data["counters"] = {
            "source": self._outputs.source,
            "frames": counters.frames,
            "driver": counters.driver,
            "nodes": counters.nodes,
            "regrown": counters.regrown,
        }
        used = [place for place in range(len(columns)) if any(row[2 + place] != "" for row in rows)]
        head = ["node", "kind"] + [columns[place] for place in used]
        bad = {2 + number for number, place in enumerate(used) if columns[place] in ("refused", "full", "pool", "sort")}
        counted = table(head, [row[:2] + [row[2 + place] for place in used] for row in rows], bad)
        notes = f"Counted in the {self._outputs.source} of the run." + (f" {_BREAKS}" if "breaks" in head else "")
        if counters.regrown:
            notes += f" Storage was made again {counters.regrown} times (regrown)."
        self._section("Counters", [counted, f'<p class="small">{escape(notes)}</p>'])

    def _add_timeline(self) -> None:
        outputs = self._outputs
        if outputs.journal is None:
            if not outputs.is_plain():
                self._section("Queues and drops", ["<p>There is no log under this prefix: <code>nd_replay run-log</code> writes one.</p>"])
            return
        words = (
            "Queues and lists from their least to their greatest length in each column of pixels; every drop is marked. The log has the clock's "
            "answer at each load of a frame and at no other entry"
            + ("; the dashed line is the end of the feed, and what is behind it has no time." if outputs.journal.closed_at is not None else ".")
        )
        picture = timeline.draw_timeline(outputs.graph, outputs.journal)
        self._section("Queues and drops", [figure(picture, "queues and drops over the lines of the log", words)])

    def _add_drops(self) -> None:
        outputs = self._outputs
        if outputs.journal is None:
            return
        self.data["drops"] = []
        rows = []
        for number, history in enumerate(outputs.journal.nodes):
            for cause in CAUSES:
                drops = history.drops[cause]
                if not len(drops):
                    continue
                ranges = ranges_of(drops.indexes)
                lines = (drops.lines[0] + 1, drops.lines[-1] + 1)
                self.data["drops"].append(
                    {"node": outputs.graph.name(number), "cause": cause, "count": len(drops), "lines": lines, "frames": ranges}
                )
                row = [outputs.graph.name(number), timeline.CAUSE_WORDS[cause], len(drops), f"{lines[0]} to {lines[1]}", range_text(ranges)]
                rows.append(row + self._id_texts(ranges, drops.indexes))
        if not rows:
            return
        head = ["node", "cause", "arrays", "lines of the log", "frames (place in the stack, from 0)"]
        head += ["ids"] if outputs.ids is not None else []
        self._section("Which frames were dropped", [table(head, rows, lists=(4, 5))], is_long=True)

    def _id_texts(self, ranges: Sequence[tuple[int, int]], indexes: Sequence[int]) -> list[str]:
        ids = self._outputs.ids
        if ids is None:
            return []
        if ranges[-1][1] >= len(ids):
            return ["the stack has no such frame"]
        return [range_text(ranges_of(int(ids[index]) for index in indexes))]

    def _add_workers(self) -> None:
        outputs = self._outputs
        if outputs.journal is None:
            return
        work = timeline.work_of(outputs.graph, outputs.journal)
        self.data["work"] = work
        picture = timeline.draw_workers(work)
        if picture is not None:
            words = "How many frames the feeder passed on, each worker was done with, and the last role saved."
            self._section("Who did how many frames", [figure(picture, "frames by role", words)])

    def _add_graph(self) -> None:
        self._section("The graph", [f"<pre>{escape(self._outputs.graph.text)}</pre>"], is_long=True)


def page_text(outputs: Outputs) -> str:
    """The page of what a run left."""
    return Page(outputs).text()


def _frame_data(part: Shown) -> dict[str, Any]:
    return {
        "file": os.path.basename(part.frame.path),
        "place": part.frame.place,
        "id": part.frame.unique_id,
        "type": part.frame.layout.sample_type,
        "sizes": list(part.frame.layout.sizes[::-1]),
        "least": part.least,
        "greatest": part.greatest,
        "total": part.total,
    }


def _files_words(files: NodeFiles) -> str:
    if not files.files:
        return "No file: no array came to it."
    size = sum(file.size for file in files.files)
    return f"{many(files.arrays(), 'array')} in {many(len(files.files), 'file')} of {size:,} bytes in all."


def _layout_words(layout: Layout) -> str:
    words = f"{layout.sample_type}, {' × '.join(str(size) for size in layout.sizes[::-1])} samples (dimension 0 first)"
    if any(layout.offset) or any(number != 1 for number in layout.binning) or any(layout.reverse):
        words += f", offset {_numbers(layout.offset)}, binning {_numbers(layout.binning)}"
        if any(layout.reverse):
            words += f", reversed in dimension {_numbers([place for place, is_so in enumerate(layout.reverse) if is_so])}"
    return words + "."


def _numbers(numbers: Iterable[int]) -> str:
    return ", ".join(str(number) for number in numbers)
