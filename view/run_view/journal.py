"""The log of a run, read in one pass: queues, drops with their causes, and who did what.

Places in a log are its lines, from 0. Nodes and roles are numbered as in the log (docs/log.md).
"""

from __future__ import annotations

from array import array
from collections import Counter
from dataclasses import dataclass, field
from typing import Callable, Iterator, Optional, Sequence

import numpy as np
import numpy.typing as npt

from .faults import ViewFault, reason
from .graphs import Graph

REFUSED, FULL, POOL, SORT = "refused", "full", "pool", "sort"
CAUSES = (REFUSED, FULL, POOL, SORT)


class Level:
    """A number that changes by whole steps along the log, as the length of a queue."""

    def __init__(self) -> None:
        self._lines = array("q")
        self._steps = array("q")

    def change(self, line: int, step: int) -> None:
        self._lines.append(line)
        self._steps.append(step)

    def lines(self) -> npt.NDArray[np.int64]:
        """The lines at which it changes."""
        return np.array(self._lines, dtype=np.int64)

    def values(self) -> npt.NDArray[np.int64]:
        """Its value from each of these lines on."""
        return np.cumsum(np.array(self._steps, dtype=np.int64))


@dataclass
class Drops:
    """The arrays that were dropped at one node for one cause: the line of each drop and the index of its frame."""

    lines: array[int] = field(default_factory=lambda: array("q"))
    indexes: array[int] = field(default_factory=lambda: array("q"))

    def __len__(self) -> int:
        return len(self.lines)


@dataclass
class NodeHistory:
    """What the log says of one node; of the driver the levels stay empty.

    `behind` is what waits in the sort list, or at a file node what was put and isn't taken to be saved yet.
    """

    queue: Level = field(default_factory=Level)
    behind: Level = field(default_factory=Level)
    drops: dict[str, Drops] = field(default_factory=lambda: {cause: Drops() for cause in CAUSES})
    accepted: int = 0
    outs: array[int] = field(default_factory=lambda: array("q"))
    saved_in: Counter[int] = field(default_factory=Counter)


@dataclass
class Journal:
    """A log as far as it could be read; `fault` says why no further, where it wasn't read to its end."""

    nodes: list[NodeHistory]
    lines: int = 0
    tick_lines: array[int] = field(default_factory=lambda: array("q"))
    ticks: array[int] = field(default_factory=lambda: array("q"))
    loads: Level = field(default_factory=Level)
    loaded: int = 0
    regrown: int = 0
    done: Counter[tuple[int, int]] = field(default_factory=Counter)
    issued: Counter[int] = field(default_factory=Counter)
    saved: Counter[tuple[int, int]] = field(default_factory=Counter)
    reclaims: int = 0
    leaves: list[tuple[int, int]] = field(default_factory=list)
    closed_at: Optional[int] = None
    settled: set[int] = field(default_factory=set)
    fault: Optional[str] = None

    def is_finished(self) -> bool:
        """Whether the feed was closed and each node ended."""
        return self.closed_at is not None and len(self.settled) == len(self.nodes) - 1


class _Reader:
    """Takes a log's entries one after the other. A method of an entry's name takes its words."""

    def __init__(self, graph: Graph) -> None:
        self.journal = Journal([NodeHistory() for _ in range(len(graph.nodes) + 1)])
        self._is_file = [False] + [node.kind == "file" for node in graph.nodes]
        self._is_sorted = [False] + [node.sort > 0 for node in graph.nodes]
        self._hands: dict[int, tuple[str, int, int]] = {}
        self._line = 0
        self._entries: dict[str, Callable[[Sequence[str]], None]] = {
            name: getattr(self, "_" + name)
            for name in (
                "load loadrefused tick issue emit accept full take takeblock pooldrop put sortdrop settle save saved close leave reclaim"
            ).split()
        }

    def take_line(self, words: Sequence[str]) -> None:
        """Takes the words of the next line; an entry's own faults are those of numbers and places that aren't there."""
        self._entries[words[0]](words)
        self._line += 1
        self.journal.lines = self._line

    def _node(self, word: str) -> NodeHistory:
        number = int(word)
        if number >= len(self.journal.nodes):
            raise ViewFault(
                f"line {self._line + 1} of the log names node {number}, and the graph has {len(self.journal.nodes) - 1}: "
                "is this the graph of this run?"
            )
        return self.journal.nodes[number]

    def _drop(self, word: str, cause: str, index: str) -> None:
        drops = self._node(word).drops[cause]
        drops.lines.append(self._line)
        drops.indexes.append(int(index))

    def _load(self, words: Sequence[str]) -> None:
        self._hands[int(words[1])] = ("load", 0, int(words[2]))
        self.journal.loaded += 1
        self.journal.loads.change(self._line, 1)
        self.journal.regrown += words[-1] == "1"

    def _loadrefused(self, words: Sequence[str]) -> None:
        self._drop("0", REFUSED, words[2])

    def _tick(self, words: Sequence[str]) -> None:
        self.journal.tick_lines.append(self._line)
        self.journal.ticks.append(int(words[1]))

    def _issue(self, words: Sequence[str]) -> None:
        role = int(words[1])
        self._hands.pop(role, None)
        self.journal.issued[role] += 1

    def _emit(self, words: Sequence[str]) -> None:
        history = self._node(words[1])
        history.outs.append(int(words[3]))
        if self._is_sorted[int(words[1])]:
            history.behind.change(self._line, -1)

    def _accept(self, words: Sequence[str]) -> None:
        history = self._node(words[1])
        history.accepted += 1
        history.queue.change(self._line, 1)

    def _full(self, words: Sequence[str]) -> None:
        self._drop(words[1], FULL, words[3])

    def _take(self, words: Sequence[str]) -> None:
        self._node(words[2]).queue.change(self._line, -1)
        self._hands[int(words[1])] = ("job", int(words[2]), int(words[4]))

    def _takeblock(self, words: Sequence[str]) -> None:
        self._take(words)
        self.journal.regrown += words[-1] == "1"

    def _pooldrop(self, words: Sequence[str]) -> None:
        self._node(words[2]).queue.change(self._line, -1)
        self._drop(words[2], POOL, words[4])

    def _put(self, words: Sequence[str]) -> None:
        role, node = int(words[1]), int(words[2])
        history = self._node(words[2])
        self._hands.pop(role, None)
        self.journal.done[role, node] += 1
        if self._is_file[node] or self._is_sorted[node]:
            history.behind.change(self._line, 1)

    def _sortdrop(self, words: Sequence[str]) -> None:
        self._drop(words[1], SORT, words[3])
        self._node(words[1]).behind.change(self._line, -1)

    def _settle(self, words: Sequence[str]) -> None:
        self._node(words[2])
        self.journal.settled.add(int(words[2]))

    def _save(self, words: Sequence[str]) -> None:
        history = self._node(words[2])
        group = int(words[6])
        history.behind.change(self._line, -1)
        history.outs.append(int(words[4]))
        history.saved_in[group] += 1
        self._hands[int(words[1])] = ("piece", int(words[2]), group)

    def _saved(self, words: Sequence[str]) -> None:
        role = int(words[1])
        self._hands.pop(role, None)
        self.journal.saved[role, int(words[2])] += 1

    def _close(self, words: Sequence[str]) -> None:
        self.journal.closed_at = self._line

    def _leave(self, words: Sequence[str]) -> None:
        self.journal.leaves.append((self._line, int(words[1])))

    def _reclaim(self, words: Sequence[str]) -> None:
        """What the role has in hand is there again: a loaded frame, a job's array, or a piece."""
        self.journal.reclaims += 1
        what, node, number = self._hands.pop(int(words[1]), ("nothing", 0, 0))
        if what == "load":
            self.journal.loaded -= 1
            self.journal.loads.change(self._line, -1)
        elif what == "job":
            self.journal.nodes[node].queue.change(self._line, 1)
        elif what == "piece":
            history = self.journal.nodes[node]
            history.behind.change(self._line, 1)
            history.saved_in[number] -= 1
            history.outs.pop()


def read_journal(path: str, graph: Graph) -> Journal:
    """Reads the log at `path` as that of a run of `graph`.

    A log that is cut off, or has a line that is no entry, is read up to there, and says so in its `fault`. A log of which no line is
    an entry, or that names a node that the graph doesn't have, is refused.
    """
    reader = _Reader(graph)
    journal = reader.journal
    try:
        with open(path, encoding="ascii", errors="replace") as lines:
            for words in _whole_lines(lines, journal):
                try:
                    reader.take_line(words)
                except (KeyError, IndexError, ValueError):
                    journal.fault = f"line {journal.lines + 1} is no entry of a log"
                    break
    except OSError as fault:
        raise ViewFault(f"{path} can't be read: {reason(fault)}") from fault
    if journal.lines == 0 and journal.fault:
        raise ViewFault(f"{path} isn't the log of a run: {journal.fault}")
    if journal.fault is None and not journal.is_finished():
        journal.fault = "it ends before the run does"
    return journal


def _whole_lines(lines: Iterator[str], journal: Journal) -> Iterator[list[str]]:
    for line in lines:
        if not line.endswith("\n"):
            journal.fault = f"line {journal.lines + 1} is cut off"
            return
        yield line.split()
