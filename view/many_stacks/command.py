"""The command batch: its words, its answers and its exit statuses."""

from __future__ import annotations

import argparse
import os
import sys
from typing import Optional, Sequence

from run_view.faults import ViewFault, reason
from run_view.graphs import read_graph

from .records import Place, read_list
from .table import is_done, row_of, write_csv, write_table
from .task import COMMANDS, PROGRAM, run_stack

DONE, SOME_MISSING, REFUSED = 0, 1, 64
TASK_NUMBER = "SLURM_ARRAY_TASK_ID"

_EPILOG = """\
LIST is a text with the name of one stack a line. Stack K of it is run with the prefix OUT/000K_NAME_; its report, error line and
record stand beside its files, as OUT/000K_NAME.report, .error and .record. docs/many-stacks.md has the calls for Slurm and for one machine.

Exit status: task, that of the program (128 more than a signal's number where one ended it); collect, 0 where all are done and 1 where
some aren't; 64 for wrong words or an input that can't be read."""


def main(arguments: Optional[Sequence[str]] = None) -> int:
    """Does what the arguments ask for, and answers the exit status."""
    words = _parser().parse_args(arguments)
    try:
        return int(words.does(words))
    except ViewFault as fault:
        print(f"batch: {fault}", file=sys.stderr)
        return REFUSED


def _task(words: argparse.Namespace) -> int:
    places = read_list(words.list, words.out)
    place = _chosen(places, words.number)
    read_graph(words.graph)
    if not os.access(words.program, os.X_OK):
        raise ViewFault(f"there is no program {words.program}: ./nd_replay --build builds it, or --program names another")
    status = run_stack(place, words.graph, words.program, words.command)
    if status != 0:
        print(f"batch: stack {place.number}, {place.stack}, ended with status {status} ({place.error})", file=sys.stderr)
    return status if status >= 0 else 128 - status


def _chosen(places: Sequence[Place], number: Optional[int]) -> Place:
    if number is None:
        text = os.environ.get(TASK_NUMBER)
        if text is None:
            raise ViewFault(f"which stack? give its number, from 1 to {len(places)}; under sbatch --array the scheduler gives it")
        if not text.isdecimal():
            raise ViewFault(f"{TASK_NUMBER} is no number: {text}")
        number = int(text)
    if not 1 <= number <= len(places):
        raise ViewFault(f"the list has {len(places)} stacks, and none of number {number}")
    return places[number - 1]


def _collect(words: argparse.Namespace) -> int:
    graph = read_graph(words.graph)
    rows = [row_of(place, graph) for place in read_list(words.list, words.out)]
    if words.csv is not None:
        try:
            with open(words.csv, "w", encoding="utf-8", newline="") as out:
                write_csv(rows, out)
        except OSError as fault:
            raise ViewFault(f"the table {words.csv} can't be written: {reason(fault)}") from fault
    write_table(rows, sys.stdout)
    return DONE if all(is_done(row) for row in rows) else SOME_MISSING


def _count(words: argparse.Namespace) -> int:
    print(len(read_list(words.list, ".")))
    return DONE


class _Parser(argparse.ArgumentParser):
    """Ends with a status that is none of the program's where the words are wrong."""

    def error(self, message: str) -> None:  # type: ignore[override]
        self.print_usage(sys.stderr)
        self.exit(REFUSED, f"{self.prog}: {message}\n")


def _parser() -> argparse.ArgumentParser:
    parser = _Parser(
        prog="batch",
        description="Runs many stacks through one graph, each by a run of its own.",
        epilog=_EPILOG,
        formatter_class=argparse.RawDescriptionHelpFormatter,
    )
    does = parser.add_subparsers(required=True, metavar="task|collect|count")
    task = does.add_parser("task", help="run one stack of the list")
    collect = does.add_parser("collect", help="print one table of all runs")
    count = does.add_parser("count", help="print how many stacks the list has")
    for part in (task, collect):
        part.add_argument("graph", metavar="GRAPH", help="the graph of all runs")
    for part in (task, collect, count):
        part.add_argument("list", metavar="LIST", help="a text with the name of one stack a line")
    for part in (task, collect):
        part.add_argument("out", metavar="OUT", help="the folder of the outputs; it is made where it isn't there")
    task.add_argument("number", metavar="K", type=int, nargs="?", help=f"which stack of the list, from 1; else what {TASK_NUMBER} says")
    task.add_argument("--program", default=str(PROGRAM), help="the built program, in place of this checkout's")
    task.add_argument("--command", choices=COMMANDS, default=COMMANDS[0], help="how a stack is run (run)")
    collect.add_argument("--csv", metavar="FILE", help="write the table as comma-separated values, too")
    task.set_defaults(does=_task)
    collect.set_defaults(does=_collect)
    count.set_defaults(does=_count)
    return parser

