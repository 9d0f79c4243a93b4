"""Stacks, runs and pages for the tests."""

from __future__ import annotations

import contextlib
import io
import json
import os
import re
import resource
import signal
import subprocess
import tempfile
import unittest
from dataclasses import dataclass
from pathlib import Path
from typing import Any, Mapping, Optional

import netCDF4
import numpy as np

from run_view.command import main

_OUT = Path(__file__).resolve().parents[2] / "crates/replay_main/out"
_STORED = {"i1": "i1", "u1": "i1", "i2": "i2", "u2": "i2", "i4": "i4", "u4": "i4"}
_NUMBERS = ("i1", "u1", "i2", "u2", "i4", "u4")


def program() -> str:
    """The built program; the trial build, which proves nothing, where only that is there."""
    for name in ("replay_main", "replay_main_unproved"):
        if os.access(_OUT / name, os.X_OK):
            return str(_OUT / name)
    raise FileNotFoundError(f"no program in {_OUT}: ./nd_replay --build builds it")


@dataclass(frozen=True)
class Page:
    """What the command answered, and the page where there is one."""

    status: int
    errors: str
    text: str
    data: Mapping[str, Any]


@dataclass(frozen=True)
class Run:
    """A run of the program."""

    status: int
    prefix: str
    graph: str
    report: str
    stack: str

    def file(self, name: str) -> Path:
        """One of its files."""
        return Path(self.prefix + name)

    def page(self, *words: str, prefix: Optional[str] = None, graph: Optional[str] = None) -> Page:
        """Its page, made by the command."""
        prefix = self.prefix if prefix is None else prefix
        errors = io.StringIO()
        with contextlib.redirect_stderr(errors), contextlib.redirect_stdout(io.StringIO()):
            status = main([prefix, self.graph if graph is None else graph, *words])
        path = Path(prefix + "view.html")
        text = path.read_text(encoding="utf-8") if path.exists() else ""
        found = re.search(r'<script type="application/json" id="run-data">(.*?)</script>', text, re.DOTALL)
        return Page(status, errors.getvalue(), text, json.loads(found[1]) if found else {})


class RunCase(unittest.TestCase):
    """A test in an empty folder of its own."""

    def setUp(self) -> None:
        room = tempfile.TemporaryDirectory()
        self.addCleanup(room.cleanup)
        self.folder = Path(room.name)

    def write(self, name: str, text: str) -> str:
        """Writes a text, and answers its path."""
        path = self.folder / name
        path.write_text(text, encoding="utf-8")
        return str(path)

    def stack(
        self, samples: np.ndarray, ids: Optional[np.ndarray] = None, attributes: Optional[Mapping[str, np.ndarray]] = None, name: str = "stack.nc"
    ) -> str:
        """Writes a stack whose sample type is that of the samples; its first dimension counts frames."""
        path = str(self.folder / name)
        kind = samples.dtype.str[1:]
        with netCDF4.Dataset(path, "w", format="NETCDF3_CLASSIC") as data:
            data.createDimension("frame", None)
            for place, size in enumerate(samples.shape[1:]):
                data.createDimension(f"d{place}", size)
            data.setncattr("dataType", np.int32(_NUMBERS.index(kind)))
            made = [("uniqueId", np.arange(1, len(samples) + 1, dtype="i4") if ids is None else ids.astype("i4"))]
            made += [(f"Attr_{name}", values) for name, values in (attributes or {}).items()]
            for name_, values in made:
                if values.dtype.kind == "S":
                    data.createDimension(f"text{name_}", values.dtype.itemsize)
                    data.createVariable(name_, "S1", ("frame", f"text{name_}"))[:] = values.view("S1").reshape(len(values), -1)
                else:
                    data.createVariable(name_, values.dtype, ("frame",))[:] = values
            array = data.createVariable("array_data", _STORED[kind], ("frame", *(f"d{place}" for place in range(samples.ndim - 1))))
            array[:] = samples.view(_STORED[kind])
        return path

    def run_graph(self, graph: str, stack: str, command: str = "run-log", name: str = "r_", file_bytes: Optional[int] = None) -> Run:
        """Runs a graph over a stack; `file_bytes` bounds the length of each file that it may write."""
        graph_path = self.write(f"{name}graph.toml", graph)
        prefix = str(self.folder / name)
        report = self.folder / f"{name.rstrip('_')}.report"

        def bound() -> None:
            if file_bytes is not None:
                signal.signal(signal.SIGXFSZ, signal.SIG_IGN)
                resource.setrlimit(resource.RLIMIT_FSIZE, (file_bytes, file_bytes))

        with open(report, "wb") as out:
            ended = subprocess.run(
                [program(), command, graph_path, stack, prefix],
                stdout=out,
                stderr=subprocess.DEVNULL,
                preexec_fn=bound,
                restore_signals=False,
                timeout=60,
                check=False,
            )
        return Run(ended.returncode, prefix, graph_path, str(report), stack)


def node(name: str, kind: str, source: str = "driver", **settings: Any) -> str:
    """The text of a node of a graph."""
    lines = [f'name = "{name}"', f'kind = "{kind}"', f'input = "{source}"']
    lines += [f"{key} = {json.dumps(value)}" for key, value in settings.items()]
    return "[[node]]\n" + "\n".join(lines) + "\n"


WAIT = '[run]\nfeed = "wait"\n'
