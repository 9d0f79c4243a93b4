"""The command nd_view: its words, its answers and its exit statuses."""

from __future__ import annotations

import argparse
import os
import sys
import tempfile
from typing import Optional, Sequence

from .faults import ViewFault, reason
from .graphs import read_graph

WHOLE, WITH_PROBLEMS, NO_PAGE = 0, 1, 2

_EPILOG = """\
PREFIX is the one that the run was given, and GRAPH its graph. The page is <PREFIX>view.html, which opens without a network.
Exit status: 0, the page is there; 1, the page is there, and some files couldn't be read whole or don't fit together, each named
on standard error and at the page's top; 2, no page was written, and an older one stays as it is.
Names that begin with a hyphen stand behind --."""


def main(arguments: Optional[Sequence[str]] = None) -> int:
    """Makes the page that the arguments name, and answers the exit status."""
    words = _parser().parse_args(arguments)
    try:
        return make_page(words.prefix, words.graph, words.report, words.stack, words.out)
    except ViewFault as fault:
        print(f"nd_view: {fault}", file=sys.stderr)
        return NO_PAGE


def make_page(prefix: str, graph_path: str, report: Optional[str], stack: Optional[str], out: Optional[str]) -> int:
    """Reads a run and writes its page; answers the exit status."""
    graph = read_graph(graph_path)
    # The libraries of pictures and files take a second to load, which no wrong word has to wait for.
    try:
        from .outputs import read_outputs
        from .page import page_text
    except ModuleNotFoundError as missing:
        raise ViewFault(f"{sys.executable} has no package {missing.name}: install what view/requirements lists, or call view/nd_view by a Python that has it") from missing

    outputs = read_outputs(prefix, graph, report, stack)
    name = out if out is not None else prefix + "view.html"
    if os.path.abspath(name) in {os.path.abspath(path) for path in (*outputs.names, graph_path, report, stack) if path is not None}:
        raise ViewFault(f"the page would replace {name}, which it is made of")
    _write(name, page_text(outputs))
    for problem in outputs.problems:
        print(f"nd_view: {problem}", file=sys.stderr)
    print(name)
    return WITH_PROBLEMS if outputs.problems else WHOLE


def _write(name: str, text: str) -> None:
    """Writes a file whole or not at all."""
    folder = os.path.dirname(name) or "."
    made: Optional[str] = None
    try:
        if os.path.isdir(name):
            raise IsADirectoryError(0, "it is a folder")
        handle, made = tempfile.mkstemp(prefix=".view-", suffix=".html", dir=folder)
        with open(handle, "w", encoding="utf-8") as file:
            file.write(text)
        mask = os.umask(0)
        os.umask(mask)
        os.chmod(made, 0o666 & ~mask)
        os.replace(made, name)
        made = None
    except OSError as fault:
        raise ViewFault(f"the page {name} can't be written: {reason(fault)}") from fault
    finally:
        if made is not None:
            os.unlink(made)


def _parser() -> argparse.ArgumentParser:
    parser = argparse.ArgumentParser(
        prog="nd_view",
        description="Writes one page for what a run of nd_replay left: pictures, plots, counters, and what was lost.",
        epilog=_EPILOG,
        formatter_class=argparse.RawDescriptionHelpFormatter,
    )
    parser.add_argument("prefix", metavar="PREFIX", help="what the names of the run's files begin with")
    parser.add_argument("graph", metavar="GRAPH", help="the graph of the run")
    parser.add_argument("--report", metavar="FILE", help="what the run printed, saved in a file; else the log is counted")
    parser.add_argument("--stack", metavar="STACK", help="the stack of the run, to name dropped frames by their ids as well")
    parser.add_argument("--out", metavar="FILE", help="the page's name, in place of <PREFIX>view.html")
    return parser
