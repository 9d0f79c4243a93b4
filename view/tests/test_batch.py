"""Many stacks through one graph: tasks, their records, and the table."""

from __future__ import annotations

import contextlib
import csv
import io
import json
import os
import subprocess
from pathlib import Path
from unittest import mock

import numpy as np

from many_stacks.command import main
from run_view.reports import read_report

from .runs import RunCase, node, program

BATCH = Path(__file__).resolve().parents[1] / "batch"
GRAPH = "[run]\npool = 300\n" + node("st", "stats") + node("cap", "file", mode="capture", count=3)


class Batch(RunCase):
    def setUp(self) -> None:
        super().setUp()
        self.graph = self.write("graph.toml", GRAPH)
        self.out = str(self.folder / "out")
        frames = np.arange(40 * 8 * 8, dtype="u2").reshape(40, 8, 8)
        stacks = [self.stack(frames[: 4 + 3 * number], name=f"scan_{number}.nc") for number in range(5)]
        broken = self.folder / "broken.nc"
        broken.write_bytes(Path(stacks[2]).read_bytes()[:500])
        stacks += [str(broken), str(self.folder / "gone.nc")]
        self.stacks = stacks
        self.list = self.write("stacks.txt", "# a list\n\n" + "".join(stack + "\n" for stack in stacks))

    def call(self, *words: str) -> tuple[int, str, str]:
        """Calls the command; answers its status and what it wrote."""
        out, errors = io.StringIO(), io.StringIO()
        with contextlib.redirect_stdout(out), contextlib.redirect_stderr(errors):
            status = main(words)
        return status, out.getvalue(), errors.getvalue()

    def task(self, *words: str) -> tuple[int, str, str]:
        return self.call("task", self.graph, self.list, self.out, *words, "--program", program())

    def test_a_list_by_xargs_and_its_table(self) -> None:
        self.assertEqual(self.call("count", self.list)[:2], (0, "7\n"))
        ended = subprocess.run(
            ["xargs", "-P", "3", "-I{}", str(BATCH), "task", self.graph, self.list, self.out, "{}", "--program", program()],
            input="".join(f"{number}\n" for number in range(1, 8)),
            capture_output=True,
            text=True,
            timeout=90,
            check=False,
        )
        self.assertEqual(ended.returncode, 123)
        self.assertIn("ended with status 4", ended.stderr)
        table = str(self.folder / "table.csv")
        status, text, _ = self.call("collect", self.graph, self.list, self.out, "--csv", table)
        self.assertEqual(status, 1)
        with open(table, encoding="utf-8", newline="") as lines:
            rows = list(csv.DictReader(lines))
        self.assertEqual([row["stack"] for row in rows], self.stacks)
        for number, row in enumerate(rows[:5], 1):
            report = read_report(f"{self.out}/{number:04}_scan_{number - 1}.report")
            assert report.driver is not None
            nodes = report.nodes
            told = {key: int(row[key]) for key in ("status", "frames", "kept", "refused", "full", "pool", "sort")}
            lost = {key: sum(counts[key] for counts in nodes.values()) for key in ("full", "pool", "sort")}
            self.assertEqual(told, {"status": 0, "frames": report.frames, "kept": nodes["cap"]["out"], "refused": report.driver["refused"], **lost})
            self.assertGreater(float(row["seconds"]), 0)
            self.assertTrue(Path(f"{self.out}/{number:04}_scan_{number - 1}_st.txt").exists())
        self.assertEqual([(row["status"], row["kept"]) for row in rows[5:]], [("4", ""), ("6", "")])
        self.assertIn("StackBytes", rows[5]["reason"])
        self.assertRegex(text.splitlines()[-1], r"in all +- +50 .* 5 of 7 done$")
        self.assertEqual(len(text.splitlines()), 9)

    def test_what_is_done_is_not_run_again_and_what_changed_is(self) -> None:
        record = Path(self.out, "0001_scan_0.record")
        for words, is_run in ((("1",), True), (("1",), False), (("1", "--command", "run-log"), True), (("1", "--command", "run-log"), False)):
            before = record.stat().st_mtime_ns if record.exists() else 0
            self.assertEqual(self.task(*words), (0, "", ""))
            self.assertEqual(record.stat().st_mtime_ns != before, is_run)
        self.assertTrue(Path(self.out, "0001_scan_0_log.txt").exists())
        before = record.stat().st_mtime_ns
        later = before / 1e9 + 5
        os.utime(self.stacks[0], (later, later))
        self.assertEqual(self.task("1", "--command", "run-log")[0], 0)
        self.assertNotEqual(record.stat().st_mtime_ns, before)

    def test_the_scheduler_says_which(self) -> None:
        with mock.patch.dict(os.environ, {"SLURM_ARRAY_TASK_ID": "6"}):
            status, _, errors = self.task()
        self.assertEqual(status, 4)
        self.assertIn("stack 6", errors)
        with mock.patch.dict(os.environ, {"SLURM_ARRAY_TASK_ID": "x"}):
            self.assertEqual(self.task()[0], 64)

    def test_runs_that_did_not_begin_or_end_are_told(self) -> None:
        self.assertEqual(self.task("2")[0], 0)
        record = json.loads(Path(self.out, "0002_scan_1.record").read_text(encoding="utf-8"))
        for number, changes in ((1, {"status": None, "seconds": None}), (3, {"status": -9}), (4, {"stack": "else.nc"})):
            stem = f"{number:04}_scan_{number - 1}"
            content = {**record, "stack": self.stacks[number - 1], **changes}
            Path(self.out, stem + ".record").write_text(json.dumps(content), encoding="utf-8")
        Path(self.out, "0005_scan_4.record").write_text("status 0", encoding="utf-8")
        status, text, _ = self.call("collect", self.graph, self.list, self.out)
        lines = text.splitlines()
        self.assertEqual(status, 1)
        reasons = ["it goes on, or was stopped from outside", "", "ended by signal 9", "this was else.nc", "isn't the record of a run"]
        for line, words in zip(lines[1:], [*reasons, "not run", "not run"]):
            self.assertIn(words, line)
        Path(self.out, "0002_scan_1.report").write_text("frames 7\n", encoding="utf-8")
        self.assertIn("aren't those of the graph", self.call("collect", self.graph, self.list, self.out)[1])

    def test_bad_input(self) -> None:
        none = str(self.folder / "none")
        empty = self.write("empty.txt", "# nothing\n")
        for words, said in (
            (("task", none, self.list, self.out, "1"), "the graph"),
            (("task", self.graph, none, self.out, "1"), "the list"),
            (("task", self.graph, empty, self.out, "1"), "has no stack"),
            (("task", self.graph, self.stacks[0], self.out, "1"), "is no text"),
            (("task", self.graph, self.list, self.out, "8"), "7 stacks"),
            (("task", self.graph, self.list, self.out, "0"), "7 stacks"),
            (("task", self.graph, self.list, self.graph, "1", "--program", program()), "can't be"),
            (("task", self.graph, self.list, self.out, "1", "--program", none), "there is no program"),
            (("collect", none, self.list, self.out), "the graph"),
            (("collect", self.graph, self.list, self.out, "--csv", none + "/t.csv"), "can't be written"),
        ):
            with self.subTest(words):
                if "--program" not in words and words[0] == "task":
                    words = (*words, "--program", program())
                status, out, errors = self.call(*words)
                self.assertEqual((status, out, errors.count("\n")), (64, "", 1))
                self.assertIn(said, errors)
        with self.assertRaises(SystemExit) as ended, contextlib.redirect_stderr(io.StringIO()):
            main(["what"])
        self.assertEqual(ended.exception.code, 64)
