"""Graphs as they are read from their TOML text, as far as the page needs them."""

from __future__ import annotations

import tomllib
from dataclasses import dataclass
from pathlib import Path
from typing import Any, Mapping

from .faults import ViewFault, reason

DRIVER = "driver"
DEFAULT_QUEUE = 20
DEFAULT_THREADS = 1


@dataclass(frozen=True)
class Node:
    """A node of a graph. `queue` and `sort` count arrays; `settings` are all keys of its table."""

    number: int
    name: str
    kind: str
    input: str
    queue: int
    threads: int
    sort: int
    settings: Mapping[str, Any]


@dataclass(frozen=True)
class Graph:
    """A graph: its nodes in the text's order, numbered from 1, and the keys of `run`. `pool` is in bytes; 0 is no limit."""

    nodes: tuple[Node, ...]
    feed: str
    pool: int
    text: str

    def name(self, number: int) -> str:
        """The name of the node of this number; 0 is the driver."""
        return DRIVER if number == 0 else self.nodes[number - 1].name

    def of_kind(self, kind: str) -> list[Node]:
        """The nodes of this kind, in order."""
        return [node for node in self.nodes if node.kind == kind]

    def above(self, node: Node) -> list[Node]:
        """The nodes between this one and the driver, the nearest first."""
        named = {other.name: other for other in self.nodes}
        way: list[Node] = []
        at = node.input
        while at in named and len(way) < len(self.nodes):
            way.append(named[at])
            at = named[at].input
        return way


def read_graph(path: str) -> Graph:
    """Reads a graph. What the program itself would refuse for another cause than its form isn't looked for."""
    try:
        text = Path(path).read_bytes().decode("utf-8")
        table = tomllib.loads(text)
    except OSError as fault:
        raise ViewFault(f"the graph {path} can't be read: {reason(fault)}") from fault
    except UnicodeDecodeError as fault:
        raise ViewFault(f"the graph {path} isn't a text in UTF-8; do PREFIX and GRAPH stand in this order?") from fault
    except tomllib.TOMLDecodeError as fault:
        raise ViewFault(f"the graph {path} is no TOML: {fault}") from fault
    run = table.get("run", {})
    tables = table.get("node", [])
    if not isinstance(run, dict) or not isinstance(tables, list):
        raise ViewFault(f"the graph {path} has no table 'run' and no list of tables 'node'")
    nodes = tuple(_node(path, number, item) for number, item in enumerate(tables, 1))
    return Graph(nodes, str(run.get("feed", "free")), _whole(path, "run", run, "pool", 0), text)


def _node(path: str, number: int, table: Any) -> Node:
    if not isinstance(table, dict):
        raise ViewFault(f"node {number} of the graph {path} is no table")
    for key in ("name", "kind", "input"):
        if not isinstance(table.get(key), str):
            raise ViewFault(f"node {number} of the graph {path} has no text '{key}'")
    where = f"node {table['name']}"
    return Node(
        number,
        table["name"],
        table["kind"],
        table["input"],
        _whole(path, where, table, "queue", DEFAULT_QUEUE),
        _whole(path, where, table, "threads", DEFAULT_THREADS),
        _whole(path, where, table, "sort", 0),
        table,
    )


def _whole(path: str, where: str, table: Mapping[str, Any], key: str, default: int) -> int:
    value = table.get(key, default)
    if not isinstance(value, int) or isinstance(value, bool):
        raise ViewFault(f"'{key}' of {where} in the graph {path} is no whole number")
    return value
