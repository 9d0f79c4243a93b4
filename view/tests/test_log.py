"""The timeline shows what the log says, and the log's counters are the report's."""

from __future__ import annotations

import functools
import unittest

import numpy as np

from run_view.graphs import read_graph
from run_view.journal import read_journal
from run_view.ranges import range_text, ranges_of
from run_view.reports import count_journal, read_report
from run_view.stored import read_ids
from run_view.timeline import drop_columns, work_of

from .runs import WAIT, Run, RunCase, node

FRAMES = np.arange(60 * 8 * 8, dtype="u2").reshape(60, 8, 8)
CROWDED = (
    "[run]\npool = 1024\n"
    + node("cut", "roi", threads=3, queue=2, sort=1, min=[1], type="UInt32")
    + node("st", "stats", "cut", threads=2, queue=1, sort=2)
    + node("ring", "circular", "cut", pre=1, post=3, trigger="A == 1", a="Shutter")
    + node("cap", "file", "ring", mode="capture", count=4)
    + node("raw", "file", mode="stream", count=7, queue=1)
)


@functools.cache
def crowded() -> Run:
    """A run that loses frames, whose files stay until the tests end."""
    case = RunCase()
    case.setUp()
    unittest.addModuleCleanup(case.doCleanups)
    shutter = (np.arange(60) % 9 == 4).astype("i4")
    return case.run_graph(CROWDED, case.stack(FRAMES, np.arange(60) + 500, {"Shutter": shutter}))


class Logs(RunCase):
    def test_drops_are_those_of_the_report(self) -> None:
        run = crowded()
        page = run.page("--report", run.report, "--stack", run.stack)
        self.assertEqual((page.status, page.errors), (0, ""))
        report = read_report(run.report)
        counted: dict[tuple[str, str], int] = {}
        for drop in page.data["drops"]:
            counted[drop["node"], drop["cause"]] = drop["count"]
            self.assertEqual(sum(last - first + 1 for first, last in drop["frames"]), drop["count"])
        assert report.driver is not None
        expected = {("driver", "refused"): report.driver["refused"]}
        expected |= {(name, cause): counts[cause] for name, counts in report.nodes.items() for cause in ("full", "pool", "sort")}
        self.assertEqual(counted, {key: count for key, count in expected.items() if count})
        self.assertGreater(sum(counted.values()), 0)
        losses = {(loss["node"], loss["cause"]): loss["count"] for loss in page.data["losses"]}
        self.assertEqual(losses, counted)
        for drop in page.data["drops"]:
            self.assertIn(f"{drop['count']:,} of ", page.text)

    def test_counters_of_the_log_are_the_report(self) -> None:
        run = crowded()
        graph = read_graph(run.graph)
        counted = count_journal(read_journal(run.prefix + "log.txt", graph), graph, read_ids(run.stack))
        report = read_report(run.report)
        self.assertEqual((counted.driver, counted.nodes, counted.regrown), (report.driver, report.nodes, report.regrown))

    def test_queues_stay_within_their_sizes_and_end_empty(self) -> None:
        run = crowded()
        graph = read_graph(run.graph)
        journal = read_journal(run.prefix + "log.txt", graph)
        self.assertIsNone(journal.fault)
        for part in graph.nodes:
            for level, most in ((journal.nodes[part.number].queue, part.queue), (journal.nodes[part.number].behind, None)):
                values = level.values()
                self.assertGreaterEqual(values.min(initial=0), 0)
                self.assertEqual(values[-1:].sum(), 0)
                if most is not None:
                    self.assertLessEqual(values.max(initial=0), most)

    def test_work_adds_up_to_the_arrays_of_each_node(self) -> None:
        run = crowded()
        graph = read_graph(run.graph)
        journal = read_journal(run.prefix + "log.txt", graph)
        work = work_of(graph, journal)
        cut = [count for name, count in work if name.startswith("cut, role ")]
        self.assertEqual(len(cut), 3)
        counts = read_report(run.report).nodes["cut"]
        self.assertEqual(sum(cut), counts["accepted"] + counts["sort"])
        self.assertEqual(dict(map(tuple, work))["feeder (role 0), issued"], journal.loaded)

    def test_every_drop_lies_in_a_marked_column(self) -> None:
        lines = np.sort(np.random.default_rng(7).choice(10**6, 30_000, replace=False))
        marks = drop_columns(lines, 10**6, 1000)
        self.assertLessEqual(len(marks), 1000)
        self.assertEqual(set((marks // 1000).astype(int)), set((lines // 1000).tolist()))
        self.assertEqual(drop_columns(lines[:5], 10**6, 1000).tolist(), lines[:5].tolist())

    def test_what_was_taken_back_is_counted_once(self) -> None:
        graph = read_graph(self.write("g.toml", node("cap", "file", mode="stream", count=9)))
        entries = [
            "load 0 0 block 0 size 4 fresh 1 given 0 regrown 0",
            *("tick 0", "issue 0 0", "emit 0 0 0 plain", "accept 1 0 0"),
            *("take 1 1 0 0", "leave 1", "reclaim 1", "take 2 1 0 0", "put 2 1 0 0 fired 0"),
            *("load 2 1 block 1 size 4 fresh 1 given 0 regrown 1", "tick 3", "reclaim 2"),
            *("loadrefused 2 1 need 4 held 9", "tick 4", "close 2", "settle 2 1"),
            *("save 2 1 0 0 group 0", "reclaim 2", "save 2 1 0 0 group 0", "saved 2 1 0 0"),
        ]
        journal = read_journal(self.write("log.txt", "\n".join(entries) + "\n"), graph)
        self.assertIsNone(journal.fault)
        history = journal.nodes[1]
        self.assertEqual(history.queue.values().tolist(), [1, 0, 1, 0])
        self.assertEqual(history.behind.values().tolist(), [1, 0, 1, 0])
        self.assertEqual((journal.leaves, journal.loaded, journal.regrown, dict(history.saved_in)), ([(6, 1)], 1, 1, {0: 1}))
        counted = count_journal(journal, graph)
        self.assertEqual(counted.driver, {"offered": 2, "loaded": 1, "refused": 1})
        self.assertEqual(counted.nodes["cap"], {"offered": 1, "accepted": 1, "full": 0, "pool": 0, "sort": 0, "out": 1})
        self.assertIn(("cap, role 2 in place of its own", 1), work_of(graph, journal))

    def test_ranges_keep_every_number(self) -> None:
        self.assertEqual(ranges_of([3, 1, 2, 9, 7, 3]), [(1, 3), (7, 7), (9, 9)])
        self.assertEqual(range_text([(1, 3), (7, 7)]), "1 to 3, 7")

    def test_the_rows_of_a_node_named_log_are_rows_where_no_log_was_asked_for(self) -> None:
        graph = WAIT + node("log", "stats")
        run = self.run_graph(graph, self.stack(FRAMES), "run")
        page = run.page("--report", run.report)
        self.assertEqual((page.status, page.data["statistics"]["log"]["rows"]), (0, 60))
        page = self.run_graph(graph, self.stack(FRAMES), "run-log").page()
        self.assertEqual((page.status, page.data["statistics"], page.data["drops"]), (0, {}, []))
