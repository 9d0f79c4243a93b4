"""One stack of the list: runs it, and keeps its report, its error line and its record."""

from __future__ import annotations

import os
import subprocess
import time
from dataclasses import replace
from pathlib import Path

from run_view.faults import ViewFault, reason

from .records import Place, Record, read_record

PROGRAM = Path(__file__).resolve().parents[2] / "crates/replay_main/out/replay_main"
COMMANDS = ("run", "run-log", "plain")


def run_stack(place: Place, graph: str, program: str, command: str) -> int:
    """Runs the program over a stack, and answers its status.

    A run by the same words that is done, and newer than its graph, its stack and the program, isn't made again.
    """
    record = Record(place.stack, os.path.abspath(graph), command)
    before = read_record(place.record)
    if before is not None and replace(before, seconds=None) == replace(record, status=0):
        if is_newer(place.record, graph, place.stack, program):
            return 0
    try:
        place.stem.parent.mkdir(parents=True, exist_ok=True)
        record.write(place.record)
        with open(place.report, "wb") as report, open(place.error, "wb") as error:
            began = time.monotonic()
            ended = subprocess.run(
                [program, command, graph, place.stack, place.prefix], stdin=subprocess.DEVNULL, stdout=report, stderr=error, check=False
            )
    except OSError as fault:
        raise ViewFault(f"stack {place.number} can't be run: {fault.filename or program}: {reason(fault)}") from fault
    replace(record, status=ended.returncode, seconds=round(time.monotonic() - began, 3)).write(place.record)
    return ended.returncode


def is_newer(made: Path, *sources: str) -> bool:
    """Whether a file is newer than all that it was made of."""
    try:
        return all(made.stat().st_mtime > os.stat(source).st_mtime for source in sources)
    except OSError:
        return False
