"""The list of stacks, and what is kept beside the outputs of each: the report, the error line, and a record with status and seconds.

Stack K of the list, counted from 1, whose file is NAME.nc, has the stem `OUT/000K_NAME`. Its outputs begin with this and an
underscore; beside them stand `.report`, `.error` and `.record`.
"""

from __future__ import annotations

import json
import os
from dataclasses import asdict, dataclass
from pathlib import Path
from typing import Optional

from run_view.faults import ViewFault, reason


@dataclass(frozen=True)
class Place:
    """Where the outputs of a stack of the list are. `number` counts from 1."""

    number: int
    stack: str
    stem: Path

    @property
    def prefix(self) -> str:
        """What the names of the run's files begin with."""
        return f"{self.stem}_"

    @property
    def report(self) -> Path:
        """What the run printed."""
        return Path(f"{self.stem}.report")

    @property
    def error(self) -> Path:
        """What it said on standard error."""
        return Path(f"{self.stem}.error")

    @property
    def record(self) -> Path:
        """The record of the run."""
        return Path(f"{self.stem}.record")


@dataclass(frozen=True)
class Record:
    """A run that began, and how it ended. `status` is None while it goes on, and stays so where it was stopped from outside; it is less
    than 0 where a signal ended it. `seconds` are of wall clock."""

    stack: str
    graph: str
    command: str
    status: Optional[int] = None
    seconds: Optional[float] = None

    def write(self, path: Path) -> None:
        """Writes the record whole or not at all."""
        part = path.with_name(path.name + ".part")
        try:
            part.write_text(json.dumps(asdict(self)) + "\n", encoding="utf-8")
            part.replace(path)
        except OSError as fault:
            raise ViewFault(f"the record {path} can't be written: {reason(fault)}") from fault


def read_record(path: Path) -> Optional[Record]:
    """The record of a run, or None where it didn't begin."""
    try:
        table = json.loads(path.read_text(encoding="utf-8"))
        status, seconds = table["status"], table["seconds"]
        record = Record(str(table["stack"]), str(table["graph"]), str(table["command"]), status, seconds)
    except FileNotFoundError:
        return None
    except OSError as fault:
        raise ViewFault(f"the record {path} can't be read: {reason(fault)}") from fault
    except (ValueError, KeyError, TypeError) as fault:
        raise ViewFault(f"{path} isn't the record of a run") from fault
    if not (status is None or isinstance(status, int)) or not (seconds is None or isinstance(seconds, (int, float))):
        raise ViewFault(f"{path} isn't the record of a run")
    return record


def read_list(path: str, folder: str) -> list[Place]:
    """The stacks of a list, one a line; empty lines and those that begin with # are passed over."""
    try:
        lines = Path(path).read_text(encoding="utf-8").splitlines()
    except OSError as fault:
        raise ViewFault(f"the list {path} can't be read: {reason(fault)}") from fault
    except UnicodeDecodeError as fault:
        raise ViewFault(f"the list {path} is no text; it has the name of one stack a line") from fault
    stacks = [line.strip() for line in lines if line.strip() and not line.startswith("#")]
    if not stacks:
        raise ViewFault(f"the list {path} has no stack")
    return [_place(number, stack, folder) for number, stack in enumerate(stacks, 1)]


def _place(number: int, stack: str, folder: str) -> Place:
    name = os.path.basename(stack.rstrip("/"))
    return Place(number, stack, Path(folder) / f"{number:04}_{name.removesuffix('.nc')}")
