"""Bad input gets a clear error, and nothing that can be read is lost."""

from __future__ import annotations

import contextlib
import functools
import io
import os
import shutil
import unittest
from pathlib import Path

import numpy as np

from run_view.command import main
from run_view.frame_pictures import chosen
from run_view.graphs import read_graph
from run_view.outputs import Outputs, read_outputs

from .runs import WAIT, Run, RunCase, node

FRAMES = np.arange(12 * 4 * 4, dtype="u2").reshape(12, 4, 4) + 40_000
GRAPH = WAIT + node("st", "stats") + node("cap", "file", mode="stream", count=5)


@functools.cache
def _kept(command: str) -> str:
    """A folder with the outputs of a run, which stays until the tests end."""
    case = RunCase()
    case.setUp()
    unittest.addModuleCleanup(case.doCleanups)
    if case.run_graph(GRAPH, case.stack(FRAMES), command).status != 0:
        raise AssertionError(f"the program's {command} failed")
    return str(case.folder)


class BadInput(RunCase):
    def good(self, command: str = "run-log") -> Run:
        """A run that ended well, in this test's own folder; the program is run once for all tests."""
        kept = _kept(command)
        shutil.copytree(kept, self.folder, dirs_exist_ok=True)
        name = {key: str(self.folder / value) for key, value in (("graph", "r_graph.toml"), ("report", "r.report"), ("stack", "stack.nc"))}
        return Run(0, str(self.folder / "r_"), **name)

    def problems(self, run: Run, report: str | None = None, stack: str | None = None, graph: str | None = None) -> str:
        """What is wrong with a run's files, as the page and standard error tell it."""
        return "\n".join(self.outputs(run, report, stack, graph).problems)

    def outputs(self, run: Run, report: str | None = None, stack: str | None = None, graph: str | None = None) -> Outputs:
        return read_outputs(run.prefix, read_graph(run.graph if graph is None else graph), report, stack)

    def refused(self, run: Run, *words: str, prefix: str | None = None, graph: str | None = None) -> str:
        """Asks for a page that can't be made: no page comes, an older one stays, and there is one line of error."""
        page_path = (run.prefix if prefix is None else prefix) + "view.html"
        if os.path.isdir(os.path.dirname(page_path)):
            with open(page_path, "w", encoding="utf-8") as older:
                older.write("an older page")
        page = run.page(*words, prefix=prefix, graph=graph)
        self.assertEqual(page.status, 2)
        self.assertIn(page.text, ("an older page", ""))
        self.assertEqual((page.errors.count("\n"), page.errors[:9]), (1, "nd_view: "))
        return page.errors

    def test_no_log(self) -> None:
        run = self.good("run")
        page = run.page()
        self.assertEqual((page.status, page.errors), (0, ""))
        self.assertIn("What was lost isn't known", page.text)
        self.assertIn("There is no log under this prefix", page.text)
        page = run.page("--report", run.report)
        self.assertEqual((page.status, page.data["losses"]), (0, []))
        self.assertIn("Nothing was lost: all 12 frames", page.text)

    def test_a_plain_run(self) -> None:
        run = self.good("plain")
        page = run.page("--report", run.report)
        self.assertEqual((page.status, page.data["counters"]["nodes"]), (0, {"st": {"out": 12}, "cap": {"out": 12}}))
        self.assertIn("A plain run drops nothing", page.text)

    def test_an_empty_run(self) -> None:
        run = self.run_graph(GRAPH, self.stack(FRAMES[:0]))
        self.assertEqual(run.status, 0)
        for words in ((), ("--report", run.report, "--stack", run.stack)):
            page = run.page(*words)
            self.assertEqual((page.status, page.errors), (0, ""))
            self.assertIn("No frame came: the stack is empty", page.text)
            self.assertEqual((page.data["frames"], page.data["statistics"]), ({"cap": []}, {"st": {"rows": 0}}))

    def test_a_file_that_the_run_could_not_finish(self) -> None:
        for mode, words in (("stream", "its arrays was never written; 3 are whole"), ("capture", "3 of its 5 arrays are whole")):
            with self.subTest(mode):
                graph = WAIT + node("cap", "file", mode=mode, count=5)
                whole = self.run_graph(graph, self.stack(FRAMES), name="whole_").file("cap_000.nc").stat().st_size
                record = (whole - 540) // 5
                run = self.run_graph(graph, self.stack(FRAMES), name=f"{mode}_", file_bytes=540 + 3 * record + 7)
                self.assertEqual(run.status, 7)
                page = run.page()
                self.assertEqual(page.status, 1)
                self.assertIn(words, page.errors)
                self.assertIn(words, page.text)
                told = page.data["frames"]["cap"]
                self.assertEqual([frame["id"] for frame in told], [1, 2, 3])
                self.assertEqual([frame["greatest"] for frame in told], [int(frame.max()) for frame in FRAMES[:3]])
                self.assertIn("the report", self.problems(run, run.report))

    def test_files_cut_at_every_kind_of_place(self) -> None:
        run = self.good()
        whole = run.file("cap_001.nc").read_bytes()
        for length in (0, 3, 7, 100, 507, 539, 540, 541, len(whole) - 1):
            for head in (whole[:8], whole[:4] + b"\xff\xff\xff\xff"):
                with self.subTest(length=length, head=head):
                    run.file("cap_001.nc").write_bytes((head + whole[8:])[:length])
                    outputs = self.outputs(run)
                    self.assertIn("cap_001.nc unfinished", outputs.problems[0])
                    shown = chosen(outputs.files["cap"])
                    self.assertEqual((shown[0].frame.unique_id, shown[-1].frame.unique_id), (1, 12))

    def test_a_file_that_is_not_ours(self) -> None:
        run = self.good()
        others = {
            "no netCDF file in the classic form": b"a text that has nothing to do with it\n" * 40,
            "another form of netCDF": b"\x89HDF\r\n\x1a\n" + bytes(2000),
            "has no timeStamp": (self.folder / "stack.nc").read_bytes(),
            "bytes more than its 5 arrays": run.file("cap_000.nc").read_bytes() + b"more",
        }
        for words, content in others.items():
            with self.subTest(words):
                run.file("cap_001.nc").write_bytes(content)
                self.assertIn(words, self.problems(run))
        page = run.page()
        self.assertEqual(page.status, 1)
        self.assertIn(words, page.errors)
        self.assertIn(words, page.text)
        self.assertEqual(page.data["frames"]["cap"][0]["id"], 1)

    def test_files_of_an_earlier_run_and_missing_ones_are_told(self) -> None:
        run = self.good()
        shutil.copy(run.file("cap_000.nc"), run.file("cap_003.nc"))
        run.file("cap_001.nc").unlink()
        found = self.problems(run)
        self.assertIn("r_cap_003.nc holds 5 arrays, and the log saved 0 there: it may be of an earlier run", found)
        self.assertIn("r_cap_001.nc isn't there", found)
        shutil.copy(run.file("cap_000.nc"), run.file("cap_002.nc"))
        self.assertIn("r_cap_002.nc holds 5 arrays, and the log saved 2 there: one of them is of another run", self.problems(run))
        self.assertIn("The files of cap hold 15 arrays, and the report counts 12", self.problems(run, run.report))
        run.file("log.txt").unlink()
        self.assertIn("The files of cap hold 15 arrays, and the report counts 12", self.problems(run, run.report))

    def test_rows_that_are_cut_off_or_not_ours(self) -> None:
        run = self.good()
        rows = run.file("st.txt").read_text(encoding="ascii")
        run.file("st.txt").write_text(rows[:-9], encoding="ascii")
        page = run.page()
        self.assertEqual((page.status, page.data["statistics"]["st"]["rows"]), (1, 11))
        self.assertIn("st.txt was read up to row 11: line 12 is cut off", page.errors)
        run.file("st.txt").write_text("id,total\n1,2\n", encoding="ascii")
        self.assertIn("isn't a file of statistics rows: line 1 is no row", self.problems(run))
        run.file("st.txt").unlink()
        self.assertIn("the rows of st, isn't there", self.problems(run))

    def test_a_log_that_is_cut_off_or_not_ours(self) -> None:
        run = self.good()
        lines = run.file("log.txt").read_text(encoding="ascii").splitlines(True)
        run.file("log.txt").write_text("".join(lines[:40]) + lines[40][:-3], encoding="ascii")
        page = run.page()
        self.assertEqual(page.status, 1)
        self.assertIn("log.txt was read up to line 40: line 41 is cut off", page.errors)
        self.assertIn("Nothing was dropped as far as the log goes", page.text)
        run.file("log.txt").write_text("".join(lines[:40]), encoding="ascii")
        self.assertIn("it ends before the run does", self.problems(run))
        run.file("log.txt").write_text("".join(lines[:30]) + "accept x\n", encoding="ascii")
        self.assertIn("line 31 is no entry of a log", self.problems(run))
        run.file("log.txt").write_bytes(b"\xff\x00 notes of the shift\n")
        page = run.page()
        self.assertIn("isn't the log of a run: line 1 is no entry", page.errors)
        self.assertEqual(page.data["frames"]["cap"][0]["id"], 1)

    def test_a_log_or_report_of_another_graph(self) -> None:
        run = self.good()
        other = self.write("other.toml", WAIT + node("st", "stats"))
        page = run.page("--report", run.report, graph=other)
        self.assertIn("is this the graph of this run?\n", page.errors)
        self.assertIn("which aren't those of the graph", page.errors)
        self.assertEqual(page.status, 1)

    def test_a_report_that_is_none_or_of_another_run(self) -> None:
        run = self.good()
        text = (self.folder / "r.report").read_text(encoding="ascii")
        wrong = {
            "": "is empty",
            "frames 12\n": "of the nodes none, which aren't those of the graph",
            text[:-1]: "isn't whole",
            "hello\n": "line 1 is none of its lines",
            text.replace("full 0", "full x"): "line 3 is none of its lines",
            text.replace("full 0", "full 1", 1): "st full is 1 in the report and 0 in the log",
        }
        for content, words in wrong.items():
            with self.subTest(words):
                self.assertIn(words, self.problems(run, self.write("wrong.report", content)))
        self.assertIn("can't be read", self.problems(run, str(self.folder / "none")))
        self.assertIn("can't be read", self.problems(run, None, run.graph))

    def test_a_stack_of_another_run(self) -> None:
        run = self.good()
        page = run.page("--stack", self.stack(FRAMES[:10], name="ten.nc"))
        self.assertEqual(page.status, 1)
        self.assertIn("ten.nc has 10 frames, and the run had 12: is it the stack of this run?\n", page.errors)
        other = self.stack(FRAMES, np.arange(1001, 1013), name="other.nc")
        for report in (None, run.report):
            found = self.problems(run, report, other)
            self.assertIn("The rows of st have the id 1, and no frame of", found)
            self.assertIn("other.nc has it: is it the stack of this run?", found)
        run.file("log.txt").unlink()
        self.assertIn("the run had 12", self.problems(run, run.report, str(self.folder / "ten.nc")))

    def test_a_prefix_without_files(self) -> None:
        run = self.good()
        self.assertIn("no file of this graph begins with", self.refused(run, prefix=str(self.folder / "q_")))
        self.assertIn(f"is {run.prefix} meant?", self.refused(run, prefix=run.prefix[:-1]))
        self.assertIn("no file of this graph", self.refused(run, prefix=str(self.folder / "no folder" / "r_")))

    def test_a_graph_that_cannot_be_read(self) -> None:
        run = self.good()
        self.assertIn("No such file", self.refused(run, graph=str(self.folder / "none.toml")))
        self.assertIn("Is a directory", self.refused(run, graph=str(self.folder)))
        self.assertIn("UTF-8", self.refused(run, graph=str(run.file("cap_000.nc"))))
        wrong = {"a = ": "is no TOML", "node = 3": "no list of tables", "[[node]]": "has no text 'name'", "[run]\npool = 'x'": "no whole number"}
        for text, words in wrong.items():
            self.assertIn(words, self.refused(run, graph=self.write("wrong.toml", text)))

    def test_a_page_that_cannot_be_written(self) -> None:
        run = self.good()
        self.assertIn("can't be written", self.refused(run, "--out", str(self.folder / "no folder" / "page.html")))
        self.assertIn("it is a folder", self.refused(run, "--out", str(self.folder)))
        for path in (run.graph, str(run.file("cap_000.nc")), str(run.file("log.txt"))):
            before = Path(path).read_bytes()
            self.assertIn("which it is made of", self.refused(run, "--out", path))
            self.assertEqual(Path(path).read_bytes(), before)
        self.assertEqual([name for name in os.listdir(self.folder) if name.startswith(".view-")], [])

    def test_wrong_words(self) -> None:
        for words in ([], ["only"], ["a", "b", "c"], ["a", "b", "--what"]):
            with self.assertRaises(SystemExit) as ended, contextlib.redirect_stderr(io.StringIO()):
                main(words)
            self.assertEqual(ended.exception.code, 2)
