"""What a run lost and kept, in words."""

from __future__ import annotations

from dataclasses import dataclass
from typing import Sequence

from .graphs import DRIVER, Graph, Node
from .reports import Counters

_MORE_POOL = "a larger pool; a smaller count in mode capture, or mode stream; a smaller pre"


@dataclass(frozen=True)
class Loss:
    """The drops of one cause at one node. `helps` is what may be changed in the graph against it."""

    node: str
    cause: str
    count: int
    words: str
    helps: str


def losses(graph: Graph, counters: Counters) -> list[Loss]:
    """All losses that a run counted, from the driver on."""
    found = []
    if counters.driver and counters.driver["refused"]:
        count, offered = counters.driver["refused"], counters.driver["offered"]
        words = f"{of(count, offered, 'frame')} refused at the driver: the pool ({_pool(graph)}) had no room."
        found.append(Loss(DRIVER, "refused", count, words, _MORE_POOL))
    for node in graph.nodes:
        found += _at(graph, node, counters)
    return found


def headline(counters: Counters, found: Sequence[Loss], is_whole: bool) -> str:
    """The sentence that stands above all others; `is_whole` says whether the counters are those of the whole run."""
    lost = sum(loss.count for loss in found)
    if counters.driver is None:
        return "A plain run drops nothing."
    if not is_whole:
        return f"{_dropped(lost) if lost else 'Nothing was dropped'} as far as the log goes, which isn't to the run's end."
    if lost:
        return f"{_dropped(lost)}."
    if not counters.driver["offered"]:
        return "No frame came: the stack is empty."
    return f"Nothing was lost: all {many(counters.driver['offered'], 'frame')} were loaded, and every node took every array that came to it."


def _dropped(count: int) -> str:
    return "1 frame or array was dropped" if count == 1 else f"{count:,} frames or arrays were dropped"


def _at(graph: Graph, node: Node, counters: Counters) -> list[Loss]:
    counts = counters.nodes.get(node.name, {})
    offered = counts.get("offered", 0)
    wait = '; feed = "wait" under [run]' if node.input == DRIVER and graph.feed != "wait" else ""
    causes = {
        "full": (
            f"dropped at {node.name}: its queue, which takes {node.queue}, was full.",
            f"{'a longer queue' if node.kind in ('circular', 'file', 'scatter') else 'more threads, a longer queue'}{wait}",
        ),
        "pool": (f"dropped at {node.name}: the pool ({_pool(graph)}) had no room for what it makes of them.", _MORE_POOL),
        "sort": (
            f"dropped behind {node.name}: its sort list, which takes {node.sort}, was full.",
            "a longer sort, a shorter sort_time; see whether frames were dropped before, whose ids never come",
        ),
    }
    return [
        Loss(node.name, cause, counts[cause], f"{of(counts[cause], offered, 'array')} {words}", helps)
        for cause, (words, helps) in causes.items()
        if counts.get(cause)
    ]


def kept(graph: Graph, counters: Counters) -> list[str]:
    """What came out where the graph ends or leaves arrays out by its own rule."""
    words = []
    for node in graph.nodes:
        counts = counters.nodes.get(node.name, {})
        out = counts.get("out", 0)
        if node.kind == "file":
            words.append(f"{node.name} saved {many(out, 'array')}.")
        elif node.kind == "stats":
            words.append(f"{node.name} measured {many(out, 'array')}.")
        elif node.kind == "circular" and "accepted" in counts:
            words.append(f"{node.name} let {of(out, counts['accepted'], 'array')} out; the others are in no trigger window, which is no loss.")
    return words


def many(count: int, word: str) -> str:
    """A count with its word, as '1 array' or '1,200 arrays'."""
    return f"{count:,} {word}{'' if count == 1 else 's'}"


def of(count: int, whole: int, word: str) -> str:
    """A part of a whole, as '3 of 12 frames were' without the verb."""
    return f"{count:,} of {many(whole, word)}"


def _pool(graph: Graph) -> str:
    return f"{graph.pool:,} bytes" if graph.pool else "without a limit"
