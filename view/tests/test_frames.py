"""The pictures of a page show the arrays that were saved."""

from __future__ import annotations

import numpy as np

from run_view.frame_pictures import axis_of, chosen, shown_part
from run_view.graphs import read_graph
from run_view.stored import FrameFacts, Layout, read_frame, survey

from .runs import WAIT, RunCase, node

DRIVER_FILE = WAIT + node("cap", "file", mode="stream", count=100)


class Frames(RunCase):
    def samples(self, kind: str, shape: tuple[int, ...], seed: int = 1) -> np.ndarray:
        """Samples of the whole range of a type, with its ends and, of 16 bits, the value that netCDF takes for a missing one."""
        about = np.iinfo(kind)
        values = np.random.default_rng(seed).integers(about.min, about.max, size=shape, dtype=kind, endpoint=True)
        values.flat[:2] = about.min, about.max
        values.flat[2] = np.array(0x8001).astype("u2").astype(kind)
        return values

    def test_saved_arrays_of_each_type_are_read_as_they_were_given(self) -> None:
        for kind, name in (("i1", "Int8"), ("u1", "UInt8"), ("i2", "Int16"), ("u2", "UInt16"), ("i4", "Int32"), ("u4", "UInt32")):
            with self.subTest(kind):
                given = self.samples(kind, (5, 3, 4))
                run = self.run_graph(DRIVER_FILE, self.stack(given), name=f"{kind}_")
                files = survey(run.prefix, "cap")
                shown = chosen(files)
                self.assertEqual([part.frame.place for part in shown], [0, 2, 4])
                for part in shown:
                    place = part.frame.place
                    self.assertEqual(part.frame.layout.sample_type, name)
                    np.testing.assert_array_equal(part.points, given[place])
                    np.testing.assert_array_equal(read_frame(files.files[0], place)[1], given[place])

    def test_page_tells_ids_and_extremes_of_the_first_a_middle_and_the_last_array(self) -> None:
        given = self.samples("u2", (7, 6, 5))
        ids = np.array([3, 5, 6, 9, 10, 11, 40])
        page = self.run_graph(DRIVER_FILE, self.stack(given, ids)).page()
        self.assertEqual(page.status, 0)
        told = page.data["frames"]["cap"]
        self.assertEqual([frame["id"] for frame in told], [3, 9, 40])
        for frame, place in zip(told, (0, 3, 6)):
            expected = {"least": given[place].min(), "greatest": given[place].max(), "total": given[place].sum(dtype="i8"), "sizes": [5, 6]}
            self.assertEqual({key: frame[key] for key in expected}, expected)
        self.assertIn("first: id 3, a middle: id 9, last: id 40", page.text)

    def test_arrays_of_many_files_are_found_by_their_place_among_all(self) -> None:
        given = self.samples("u1", (11, 2, 2))
        run = self.run_graph(WAIT + node("cap", "file", mode="single") + node("two", "file", mode="capture", count=2), self.stack(given))
        page = run.page()
        self.assertEqual([frame["file"] for frame in page.data["frames"]["cap"]], ["r_cap_000.nc", "r_cap_005.nc", "r_cap_010.nc"])
        places = [(frame["file"], frame["place"]) for frame in page.data["frames"]["two"]]
        self.assertEqual(places, [("r_two_000.nc", 0), ("r_two_002.nc", 1), ("r_two_005.nc", 0)])
        self.assertEqual([frame["id"] for frame in page.data["frames"]["two"]], [1, 6, 11])

    def test_a_binned_and_reversed_region_stands_where_it_was_in_the_frame(self) -> None:
        given = self.samples("u2", (2, 9, 10))
        roi = node("cut", "roi", min=[1, 2], size=[8, 6], bin=[2, 3], reverse=[True, False], type="UInt32")
        run = self.run_graph(WAIT + roi + node("cap", "file", "cut", mode="stream", count=10), self.stack(given))
        graph = read_graph(run.graph)
        part = chosen(survey(run.prefix, "cap"))[0]
        sums = given[0, 2:8, 1:9].astype("u4").reshape(2, 3, 4, 2).sum(axis=(1, 3))[:, ::-1]
        np.testing.assert_array_equal(part.points, sums)
        x, y = (axis_of(graph, graph.nodes[1], part.frame.layout, dimension) for dimension in (0, 1))
        self.assertEqual((x.start, x.step, x.of_frame), (9, -2, True))
        self.assertEqual((y.start, y.step, y.of_frame), (2, 3, True))

    def test_behind_two_regions_the_axis_is_that_of_the_array(self) -> None:
        regions = node("a", "roi", min=[2], bin=[2]) + node("b", "roi", "a", min=[1])
        run = self.run_graph(WAIT + regions + node("cap", "file", "b", mode="stream", count=9), self.stack(self.samples("u1", (1, 3, 12))))
        graph = read_graph(run.graph)
        axis = axis_of(graph, graph.nodes[2], chosen(survey(run.prefix, "cap"))[0].frame.layout, 0)
        self.assertEqual((axis.start, axis.step, axis.of_frame), (0, 1, False))

    def test_a_large_frame_keeps_its_brightest_samples(self) -> None:
        samples = np.zeros((1100, 700), dtype="u2")
        samples[1099, 699] = 65535
        facts = FrameFacts("x.nc", 0, 1, 0.0, {}, Layout("UInt16", (1100, 700), (0, 0), (1, 1), (False, False), 540, 0))
        part = shown_part(facts, samples)
        self.assertEqual((part.rows, part.columns, part.points.shape), (3, 2, (367, 350)))
        self.assertEqual(part.points[366, 349], 65535)

    def test_lines_planes_texts_and_odd_letters_are_drawn(self) -> None:
        names = np.array(["$a_b$ {", "\u00e9 \u4e2d", "x" * 40], dtype="U40")
        attributes = {"Sample": np.char.encode(names, "utf-8").astype("S80"), "Energy": np.array([8.0, 8.5, np.nan])}
        for shape in ((3, 16), (3, 2, 3, 4), (3, 1, 1), (3, 2, 600)):
            with self.subTest(shape):
                name = f"r{len(shape)}{shape[-1]}_"
                page = self.run_graph(DRIVER_FILE, self.stack(self.samples("i2", shape), attributes=attributes), name=name).page()
                self.assertEqual((page.status, page.errors), (0, ""))
                self.assertEqual(page.data["frames"]["cap"][1]["sizes"], list(shape[:0:-1]))
