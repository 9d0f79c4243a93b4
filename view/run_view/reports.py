"""The counters of a run: read from its report, or counted over its log."""

from __future__ import annotations

from dataclasses import dataclass, field
from typing import TYPE_CHECKING, Mapping, Optional, Sequence

from .faults import ViewFault, reason
from .graphs import Graph

if TYPE_CHECKING:
    import numpy as np
    import numpy.typing as npt

    from .journal import Journal

DRIVER_KEYS = ("offered", "loaded", "refused", "breaks")
NODE_KEYS = ("offered", "accepted", "full", "pool", "sort", "out", "breaks")
PLAIN_KEYS = ("out",)
DROP_KEYS = ("full", "pool", "sort")


@dataclass(frozen=True)
class Counters:
    """What a run counted. `driver` and `regrown` are missing of a plain run, `frames` where the log alone was read."""

    frames: Optional[int]
    driver: Optional[Mapping[str, int]]
    nodes: Mapping[str, Mapping[str, int]]
    regrown: Optional[int] = None

    def lost(self) -> dict[str, int]:
        """How many frames and arrays were lost, by cause, over all nodes."""
        causes = {"refused": self.driver["refused"] if self.driver else 0}
        for key in DROP_KEYS:
            causes[key] = sum(node.get(key, 0) for node in self.nodes.values())
        return causes


@dataclass
class _Lines:
    """The lines of a report so far."""

    frames: Optional[int] = None
    driver: Optional[dict[str, int]] = None
    nodes: dict[str, dict[str, int]] = field(default_factory=dict)
    regrown: Optional[int] = None

    def take(self, words: Sequence[str]) -> None:
        """Takes one line; raises a ValueError where it is none of a report's."""
        match words:
            case ["frames", number] if self.frames is None:
                self.frames = _number(number)
            case ["driver", *pairs] if self.driver is None:
                self.driver = _pairs(pairs, DRIVER_KEYS)
            case ["node", name, *pairs] if name not in self.nodes:
                self.nodes[name] = _pairs(pairs, NODE_KEYS if self.driver is not None else PLAIN_KEYS)
            case ["regrown", number] if self.regrown is None:
                self.regrown = _number(number)
            case ["seen", *numbers] if self.frames is None:
                [_number(number) for number in numbers]
            case _:
                raise ValueError


def read_report(path: str) -> Counters:
    """Reads what `run`, `run-log` or `plain` printed. A report that isn't whole is refused."""
    try:
        with open(path, encoding="utf-8") as lines:
            text = lines.read()
    except OSError as fault:
        raise ViewFault(f"the report {path} can't be read: {reason(fault)}") from fault
    except UnicodeDecodeError as fault:
        raise ViewFault(f"{path} isn't the report of a run: it is no text") from fault
    if not text:
        raise ViewFault(f"the report {path} is empty, as one is of a run that didn't end with status 0")
    read = _Lines()
    for number, line in enumerate(text.splitlines(), 1):
        try:
            read.take(line.split())
        except ValueError as fault:
            raise ViewFault(f"{path} isn't the report of a run: line {number} is none of its lines") from fault
    if read.frames is None or (read.driver is None) != (read.regrown is None) or not text.endswith("\n"):
        raise ViewFault(f"the report {path} isn't whole")
    return Counters(read.frames, read.driver, read.nodes, read.regrown)


def check_names(counters: Counters, graph: Graph, path: str) -> None:
    """Refuses a report whose nodes aren't those of the graph, in its order."""
    if list(counters.nodes) != [node.name for node in graph.nodes]:
        raise ViewFault(f"the report {path} is of the nodes {', '.join(counters.nodes) or 'none'}, which aren't those of the graph")


def count_journal(journal: Journal, graph: Graph, ids: Optional[npt.NDArray[np.int64]] = None) -> Counters:
    """Counts a log as the report does. Breaks are counted where the ids of the stack are given and nothing was taken back."""
    nodes: dict[str, dict[str, int]] = {}
    for node in graph.nodes:
        history = journal.nodes[node.number]
        drops = {key: len(history.drops[key]) for key in DROP_KEYS}
        offered = history.accepted + drops["full"]
        nodes[node.name] = {
            "offered": offered,
            "accepted": max(0, offered - sum(drops.values())),
            **drops,
            "out": len(history.outs),
            **_breaks(history.outs, journal, ids),
        }
    refused = len(journal.nodes[0].drops["refused"])
    driver = {
        "offered": journal.loaded + refused,
        "loaded": journal.loaded,
        "refused": refused,
        **_breaks(journal.nodes[0].outs, journal, ids),
    }
    return Counters(None, driver, nodes, journal.regrown)


def differences(report: Counters, counted: Counters) -> list[str]:
    """Where a report and the counters of a log say different numbers, in words."""
    found = []
    for name, of_log in [("driver", counted.driver), *counted.nodes.items()]:
        of_report = report.driver if name == "driver" else report.nodes.get(name)
        for key, number in (of_log or {}).items():
            if of_report is not None and key in of_report and of_report[key] != number:
                found.append(f"{name} {key} is {of_report[key]} in the report and {number} in the log")
    return found


def _breaks(outs: Sequence[int], journal: Journal, ids: Optional[npt.NDArray[np.int64]]) -> dict[str, int]:
    if ids is None or journal.reclaims or (len(outs) and max(outs) >= len(ids)):
        return {}
    breaks = 0
    before = int(ids[0]) - 1 if len(ids) else 0
    for index in outs:
        now = int(ids[index])
        breaks += now not in (before, before + 1)
        before = now
    return {"breaks": breaks}


def _pairs(words: Sequence[str], keys: Sequence[str]) -> dict[str, int]:
    if tuple(words[::2]) != tuple(keys):
        raise ValueError
    return {key: _number(number) for key, number in zip(keys, words[1::2], strict=True)}


def _number(word: str) -> int:
    if not (word.isascii() and word.isdecimal()):
        raise ValueError
    return int(word)
