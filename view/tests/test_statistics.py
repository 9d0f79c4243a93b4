"""The plots of statistics show the numbers of the rows."""

from __future__ import annotations

import numpy as np

from run_view.columns import point_columns, step_columns
from run_view.rows import read_rows

from .runs import WAIT, RunCase, node


class Statistics(RunCase):
    def test_series_are_those_of_the_samples(self) -> None:
        given = np.random.default_rng(2).integers(-3000, 3000, size=(40, 5, 6), dtype="i2")
        ids = np.arange(40) * 2 + 7
        run = self.run_graph(WAIT + node("st", "stats", threshold=1000), self.stack(given, ids))
        told = run.page().data["statistics"]["st"]
        self.assertEqual((told["rows"], told["ids"]), (40, [7, 85]))
        expected = {
            "total": given.sum(axis=(1, 2), dtype="i8"),
            "min": given.min(axis=(1, 2)),
            "max": given.max(axis=(1, 2)),
            "over": (given >= 1000).sum(axis=(1, 2)),
        }
        for name, values in expected.items():
            self.assertEqual(told["series"][name], {"id": ids.tolist(), "least": values.tolist(), "greatest": values.tolist()})

    def test_series_are_those_of_the_rows(self) -> None:
        given = np.random.default_rng(3).integers(0, 2**32, size=(9, 4, 4), dtype="u4")
        run = self.run_graph(WAIT + node("st", "stats", threshold=4294967295), self.stack(given))
        told = run.page().data["statistics"]["st"]["series"]
        lines = run.file("st.txt").read_text(encoding="ascii").splitlines()
        for name in ("total", "min", "max", "over"):
            self.assertEqual(told[name]["least"], [int(line.split(f" {name}=")[1].split(" ")[0].split("@")[0]) for line in lines])

    def test_images_are_histogram_and_profiles_over_ids(self) -> None:
        given = np.random.default_rng(4).integers(0, 256, size=(6, 3, 5), dtype="u1")
        ids = np.array([4, 5, 6, 9, 10, 11])
        graph = WAIT + node("st", "stats", hist_size=256, hist_lo=0, hist_hi=255, profiles=True)
        run = self.run_graph(graph, self.stack(given, ids))
        rows = read_rows(str(run.file("st.txt")))
        columns = ids - 4
        for name, expected in (
            ("bins", np.array([np.bincount(frame.ravel(), minlength=256) for frame in given])),
            ("x", given.sum(axis=1, dtype="i8")),
            ("y", given.sum(axis=2, dtype="i8")),
        ):
            image = rows.images[name]
            self.assertFalse(image.thinned)
            np.testing.assert_array_equal(image.greatest[:, columns].T, expected)
            self.assertTrue(np.isnan(image.greatest[:, [3, 4]]).all())
        self.assertIn("Histogram", run.page().text)

    def test_a_thinned_image_keeps_the_least_and_the_greatest(self) -> None:
        lines = []
        for number in range(1, 4001):
            bins = [number, 5, 0 if number != 1234 else 77]
            lines.append(
                f"{number} n=8 min=0@0 max=1@1 total=4 squares=4 border=0/0 over=8 m0=4 mx=1 my=2 below=0 bins={','.join(map(str, bins))} above=0\n"
            )
        rows = read_rows(self.write("st.txt", "".join(lines)))
        image = rows.images["bins"]
        self.assertTrue(image.thinned)
        self.assertEqual(image.greatest.shape, (3, 1000))
        self.assertEqual(image.greatest[2].max(), 77)
        self.assertEqual((image.least[0, 0], image.greatest[0, 0]), (1, 4))
        self.assertEqual((image.least[0, -1], image.greatest[0, -1]), (3997, 4000))

    def test_rows_of_another_length_end_the_image(self) -> None:
        row = "{} n=4 min=0@0 max=1@1 total=4 squares=4 border=0/0 over=0 m0=0 mx=0 my=0 below=0 bins={} above=3\n"
        rows = read_rows(self.write("st.txt", row.format(1, "1,2") + row.format(2, "3,4") + row.format(3, "5,6,7")))
        self.assertEqual((len(rows), rows.images["bins"].greatest.tolist()), (2, [[1, 3], [2, 4]]))
        self.assertEqual((rows.outside, rows.fault), (6, "line 3 has another number of bins or sums than the rows before"))

    def test_ids_in_no_order_and_twice_are_drawn_each(self) -> None:
        points = point_columns(np.array([5, 3, 5, -1]), np.array([50, 30, 51, -10]))
        self.assertEqual((points.at.tolist(), points.least.tolist()), ([-1, 3, 5, 5], [-10, 30, 50, 51]))


class Columns(RunCase):
    def test_thinned_points_have_the_extremes_of_their_columns(self) -> None:
        at = np.arange(10_000)
        value = np.random.default_rng(5).integers(0, 1000, size=10_000)
        value[7777] = 10**9
        points = point_columns(at, value, 100)
        self.assertTrue(points.thinned)
        self.assertEqual(points.greatest.tolist(), value.reshape(100, 100).max(axis=1).tolist())
        self.assertEqual(points.least.tolist(), value.reshape(100, 100).min(axis=1).tolist())

    def test_thinned_steps_have_the_extremes_of_their_columns(self) -> None:
        rng = np.random.default_rng(6)
        at = np.sort(rng.choice(50_000, 900, replace=False))
        after = rng.integers(0, 40, size=900)
        whole = np.append(0, after)[np.searchsorted(at, np.arange(50_000), "right")]
        entering = np.append(0, whole[:-1])
        steps = step_columns(at, after, 50_000, 100)
        blocks, enters = whole.reshape(100, 500), entering.reshape(100, 500)[:, 0]
        self.assertEqual(steps.least.tolist(), np.minimum(blocks.min(axis=1), enters).tolist())
        self.assertEqual(steps.greatest.tolist(), np.maximum(blocks.max(axis=1), enters).tolist())

    def test_few_steps_are_as_they_are(self) -> None:
        steps = step_columns(np.array([1, 3]), np.array([1, 0]), 5)
        self.assertEqual((steps.least.tolist(), steps.greatest.tolist()), ([0, 1, 1, 0, 0], [0, 1, 1, 0, 0]))
        self.assertEqual(step_columns(np.array([]), np.array([], dtype=int), 0).least.tolist(), [0])
