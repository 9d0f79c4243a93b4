"""Everything that a run left under a prefix, read as far as it can be, with what couldn't be read or doesn't fit together."""

from __future__ import annotations

import glob
import os
from dataclasses import dataclass, field
from functools import partial
from typing import Callable, Optional

import numpy as np
import numpy.typing as npt

from .faults import ViewFault
from .graphs import Graph, Node
from .journal import Journal, read_journal
from .losses import many
from .reports import Counters, check_names, count_journal, differences, read_report
from .rows import Rows, is_row, read_rows
from .stored import NodeFiles, group_path, read_ids, survey

LOG = "log"


@dataclass
class Outputs:
    """What a run left. `source` says where the counters are from; `problems` are sentences for the reader."""

    prefix: str
    graph: Graph
    files: dict[str, NodeFiles] = field(default_factory=dict)
    rows: dict[str, Rows] = field(default_factory=dict)
    journal: Optional[Journal] = None
    counters: Optional[Counters] = None
    source: str = ""
    ids: Optional[npt.NDArray[np.int64]] = None
    problems: list[str] = field(default_factory=list)
    names: list[str] = field(default_factory=list)

    def is_plain(self) -> bool:
        """Whether the report is that of a run in one thread, which drops nothing."""
        return self.counters is not None and self.counters.driver is None


def read_outputs(prefix: str, graph: Graph, report: Optional[str] = None, stack: Optional[str] = None) -> Outputs:
    """Reads what stands under a prefix. Where nothing of this graph does, and no report is given, it is refused."""
    outputs = Outputs(prefix, graph)
    _read_files(outputs)
    _read_log(outputs)
    _read_rows(outputs)
    if stack is not None:
        _try(outputs, partial(_take_ids, outputs, stack))
    if report is not None:
        _try(outputs, partial(_take_report, outputs, report))
    if not outputs.names and outputs.counters is None:
        raise ViewFault(_nothing_there(outputs))
    _count(outputs)
    _compare(outputs)
    if stack is not None and outputs.ids is not None:
        _compare_stack(outputs, stack, outputs.ids)
    return outputs


def _try(outputs: Outputs, step: Callable[[], None]) -> None:
    try:
        step()
    except ViewFault as fault:
        words = str(fault)
        outputs.problems.append(words if words.endswith("?") else words + ".")


def _read_files(outputs: Outputs) -> None:
    for node in outputs.graph.of_kind("file"):
        found = outputs.files[node.name] = survey(outputs.prefix, node.name)
        outputs.names += [file.path for file in found.files]
        for file in found.files:
            if file.fault:
                outputs.problems.append(f"{file.path} {file.fault}{_advice(file.is_open, file.whole)}.")


def _advice(is_open: bool, whole: int) -> str:
    if not whole:
        return ""
    return " (copy it by nd_replay copy, which keeps them, and then delete it)" if is_open else " (these are shown)"


def _log_path(outputs: Outputs) -> str:
    return outputs.prefix + LOG + ".txt"


def _read_log(outputs: Outputs) -> None:
    path = _log_path(outputs)
    if not os.path.exists(path) or _holds_rows(path, outputs.graph):
        return
    outputs.names.append(path)

    def step() -> None:
        outputs.journal = read_journal(path, outputs.graph)
        if outputs.journal.fault:
            outputs.problems.append(f"{path} was read up to line {outputs.journal.lines}: {outputs.journal.fault}.")

    _try(outputs, step)


def _holds_rows(path: str, graph: Graph) -> bool:
    """Whether the name of the log is that of a statistics node's rows, which stand there where no log was asked for."""
    if not any(node.name == LOG for node in graph.of_kind("stats")):
        return False
    try:
        with open(path, encoding="ascii", errors="replace") as lines:
            first = lines.readline()
    except OSError:
        return False
    return first == "" or is_row(first)


def _read_rows(outputs: Outputs) -> None:
    for node in outputs.graph.of_kind("stats"):
        path = f"{outputs.prefix}{node.name}.txt"
        if not os.path.exists(path) or path in outputs.names:
            continue
        outputs.names.append(path)

        def step(node: Node = node, path: str = path) -> None:
            rows = outputs.rows[node.name] = read_rows(path)
            if rows.fault:
                outputs.problems.append(f"{path} was read up to row {len(rows)}: {rows.fault}.")

        _try(outputs, step)


def _take_ids(outputs: Outputs, path: str) -> None:
    outputs.ids = read_ids(path)


def _take_report(outputs: Outputs, path: str) -> None:
    counters = read_report(path)
    check_names(counters, outputs.graph, path)
    outputs.counters, outputs.source = counters, "report"


def _count(outputs: Outputs) -> None:
    if outputs.journal is None:
        return
    counted = count_journal(outputs.journal, outputs.graph, outputs.ids)
    if outputs.counters is None:
        outputs.counters, outputs.source = counted, "log"
    elif outputs.journal.fault is None:
        found = differences(outputs.counters, counted)
        if found:
            outputs.problems.append(f"The report isn't that of this log: {found[0]}{f', and {len(found) - 1} more' if found[1:] else ''}.")


def _compare(outputs: Outputs) -> None:
    """Says where files and rows aren't those that the log or the report counts."""
    journal = outputs.journal if outputs.journal and outputs.journal.fault is None else None
    for node in outputs.graph.of_kind("file"):
        files = outputs.files[node.name]
        if journal is not None:
            saved = journal.nodes[node.number].saved_in
            _compare_groups(outputs, node, files, {group: count for group, count in saved.items() if count})
        if outputs.counters is not None and outputs.source == "report":
            _compare_totals(outputs, outputs.counters, node, f"The files of {node.name} hold", files.arrays())
    for node in outputs.graph.of_kind("stats"):
        if node.name not in outputs.rows:
            if not (node.name == LOG and outputs.journal):
                outputs.problems.append(f"{outputs.prefix}{node.name}.txt, the rows of {node.name}, isn't there.")
        elif outputs.rows[node.name].fault is None and outputs.counters is not None and (journal or outputs.source == "report"):
            _compare_totals(outputs, outputs.counters, node, f"The rows of {node.name} are of", len(outputs.rows[node.name]))


def _compare_groups(outputs: Outputs, node: Node, files: NodeFiles, saved: dict[int, int]) -> None:
    there = {file.group: file for file in files.files}
    missing = [group for group in sorted(saved) if group not in there]
    if missing:
        more = f" and {len(missing) - 1} more aren't" if missing[1:] else " isn't"
        outputs.problems.append(f"{group_path(outputs.prefix, node.name, missing[0])}{more} there, though the log has what was saved.")
    for group, file in there.items():
        if file.fault is None and file.whole != saved.get(group, 0):
            why = "it may be of an earlier run" if group not in saved else "one of them is of another run" if file.whole else "it isn't that file"
            outputs.problems.append(f"{file.path} holds {many(file.whole, 'array')}, and the log saved {saved.get(group, 0)} there: {why}.")


def _compare_totals(outputs: Outputs, counters: Counters, node: Node, words: str, there: int) -> None:
    counted = counters.nodes[node.name].get("out", there)
    if counted != there:
        why = "some may be of an earlier run" if there > counted else "some are missing"
        outputs.problems.append(f"{words} {many(there, 'array')}, and the {outputs.source} counts {counted}: {why}.")


def _frames_of_run(outputs: Outputs) -> Optional[int]:
    """How many frames the run had, where its report or its whole log tells it."""
    counters = outputs.counters
    if counters is None or counters.frames is not None:
        return counters.frames if counters else None
    is_whole = outputs.journal is not None and outputs.journal.fault is None
    return counters.driver["offered"] if counters.driver and is_whole else None


def _compare_stack(outputs: Outputs, path: str, ids: npt.NDArray[np.int64]) -> None:
    """Says where a stack hasn't as many frames as the run, or lacks an id of its rows."""
    frames = _frames_of_run(outputs)
    if frames is not None and frames != len(ids):
        outputs.problems.append(f"The stack {path} has {many(len(ids), 'frame')}, and the run had {frames:,}: is it the stack of this run?")
        return
    for name, rows in outputs.rows.items():
        missing = np.setdiff1d(rows.ids, ids)
        if len(missing):
            outputs.problems.append(f"The rows of {name} have the id {missing[0]}, and no frame of {path} has it: is it the stack of this run?")


def _nothing_there(outputs: Outputs) -> str:
    """What to say of a prefix without files, with a longer prefix that has some."""
    text = f"no file of this graph begins with {outputs.prefix}"
    ends = [f"{node.name}_000.nc" for node in outputs.graph.of_kind("file")]
    ends += [f"{node.name}.txt" for node in outputs.graph.of_kind("stats")] + [LOG + ".txt"]
    for end in ends:
        for path in sorted(glob.glob(glob.escape(outputs.prefix) + "*" + end)):
            return f"{text}; is {path[: -len(end)]} meant?"
    return text
