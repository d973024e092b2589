"""Tests of trial, beside draws whose numbers are counted by hand.

    python3 -B clients/python/tests/test_trial.py
"""
import math
import os
import unittest
import warnings

from support import Case, content, design_of, example, rows_of, sampler

import fitting

SEEDS = [f"{number:064x}" for number in range(1, 5)]
NAN = float("nan")


class Tries(Case):
    """What trial counts."""

    def by_hand(self, design, frame, columns, seeds):
        """The same draws by draw, and what their files say, counted line by line."""
        names, rows = None, []
        for seed in seeds:
            record = self.path(f"record{len(rows)}")
            with warnings.catch_warnings():
                warnings.simplefilter("ignore", sampler.WideWarning)
                drawn = sampler.draw(design, frame, seed=seed, record=record)
            wide, flights, stratum = {}, 0, None
            for line in content(os.path.join(record, "log.txt")).decode().splitlines():
                word, *rest = line.split()
                if word == "stratum":
                    stratum, flights = int(rest[0]), 0
                flights += word == "flight"
                if word == "wide":
                    wide[stratum] = flights
            report = [line.split() for line in content(os.path.join(record, "report.txt")).decode().splitlines()]
            left = {int(words[1]): int(words[2]) for words in report if words[0] == "left"}
            totals = {column: math.fsum(float(row["weight"]) * float(row[column]) for row in drawn.sample) for column in columns}
            rows.append((wide, left, totals, drawn.selected))
            for name in os.listdir(record):
                os.remove(os.path.join(record, name))
            os.rmdir(record)
        return rows

    def same(self, tried, rows, known):
        self.assertEqual(tried.draws, len(rows))
        self.assertEqual(tried.drawn, (min(row[3] for row in rows), max(row[3] for row in rows)))
        for number, one in enumerate(tried.strata, 1):
            flights = sorted(row[0][number] for row in rows if number in row[0])
            left = sorted(row[1][number] for row in rows)
            self.assertEqual(one.wide, len(flights) / len(rows))
            self.assertEqual(one.flights, (flights[(len(flights) - 1) // 2] + flights[len(flights) // 2]) / 2 if flights else None)
            self.assertEqual((one.left, one.most_left), ((left[(len(left) - 1) // 2] + left[len(left) // 2]) / 2, left[-1]))
        for one in tried.columns:
            errors = [row[2][one.column] / known[one.column] - 1 for row in rows]
            self.assertAlmostEqual(one.known, known[one.column])
            self.assertAlmostEqual(one.mean, math.fsum(errors) / len(errors))
            self.assertAlmostEqual(one.error, math.sqrt(math.fsum(error * error for error in errors) / len(errors)))
            for error, counted in zip(tried.errors[one.column], errors):
                self.assertAlmostEqual(error, counted)

    def test_as_they_stand(self):
        """Strata that go wide, and others that don't."""
        frame = [{"id": place, "s": "wild" if place % 3 else "tame", "size": place * place % 601 + 200 if place % 3 else 1, "x": place * 7919 % 10007,
                  "y": place * 31 % 997, "z": place * 17 % 89} for place in range(1, 91)]
        design = {"version": 1, "method": "cube", "id": "id", "stratum": "s", "size": "size", "balance": ["x", "y"], "n": 24}
        tried = sampler.trial(design, frame, columns=["z", "x"], seeds=SEEDS)
        self.assertEqual([one.column for one in tried.columns], ["x", "y", "z"])
        self.assertEqual([one.stratum for one in tried.strata], ["wild", "tame"])
        self.same(tried, self.by_hand(design, frame, "xyz", SEEDS), {column: sum(row[column] for row in frame) for column in "xyz"})
        self.assertEqual((tried.strata[0].wide, tried.strata[1].wide), (1, 0))
        self.assertIn("went wide", repr(tried))

    def test_a_fitted_design_by_its_unrounded_values(self):
        design, frame = fitting.made_up(45, columns=3)
        fitted = sampler.fit(design, frame)
        tried = sampler.trial(fitted, seeds=SEEDS[:2])
        known = {column: sum(row[column] for row in frame) for column in ("x0", "x1", "x2")}
        self.same(tried, self.by_hand(fitted.design, fitted.frame, known, SEEDS[:2]), known)
        self.assertEqual({one.wide for one in tried.strata}, {0})

    def test_other_methods(self):
        """Nothing is balanced, and two stages are drawn."""
        tried = sampler.trial(example("villages", "design.toml"), example("villages", "frame.csv"), draws=3)
        self.assertEqual((tried.drawn, tried.columns, [one.left for one in tried.strata]), ((12, 12), [], [None]))
        tried = sampler.trial(design_of("schools"), rows_of("schools"), draws=3, columns=["pupils"])
        self.assertEqual((tried.drawn, tried.columns[0].known), ((12, 12), sum(int(row["pupils"]) for row in rows_of("schools"))))
        self.assertLess(tried.columns[0].error, 1e-12)
        self.assertEqual([one.stratum for one in tried.strata], ["Kerrier", "Restormel", "Carrick", "Penwith"])

    def test_seeds_are_new_each_time(self):
        frame = [{**row, "one": 1} for row in rows_of("farms")]
        self.assertNotEqual(*(sampler.trial(design_of("farms"), frame, draws=6, columns=["one"]).errors for _ in range(2)))
        self.assertNotIn("seed", sampler.Trial._fields)

    def test_a_total_of_nothing(self):
        frame = [{"id": place, "x": place % 2 * 2 - 1} for place in range(10)]
        tried = sampler.trial({"version": 1, "method": "pivotal", "id": "id", "n": 4}, frame, draws=2, columns=["x"])
        self.assertEqual(tried.columns, [sampler.TrialColumn("x", 0, None, None)])
        self.assertIn("-", repr(tried))

    def test_refusals(self):
        frame = [{"id": place, "x": place} for place in range(10)]
        design = {"version": 1, "method": "pivotal", "id": "id", "n": 4}
        for column, values, message in (("y", [1], "y: the frame needs one column of this name"), ("x", [NAN], "column x, row 1: a value is missing"),
                                        ("x", ["a lot"], "column x, row 1: 'a lot' is no number")):
            with self.assertRaises(sampler.BadValue) as caught:
                sampler.trial(design, [{"id": "first", "x": values[0]}, *frame], columns=[column])
            self.assertEqual(str(caught.exception), message)
        for named in ({"draws": 0}, {"seeds": []}, {"seeds": ["0" * 63]}, {"seeds": [5]}):
            with self.assertRaises(ValueError):
                sampler.trial(design, frame, **named)

    def test_the_picture(self):
        """Where matplotlib is there, a box for each column."""
        try:
            import matplotlib
        except ImportError:
            self.skipTest("matplotlib isn't there")
        matplotlib.use("Agg")
        axes = sampler.trial(design_of("schools"), rows_of("schools"), draws=3, columns=["pupils"]).plot()
        self.assertEqual([label.get_text() for label in axes.get_xticklabels()], ["pupils"])


if __name__ == "__main__":
    unittest.main()
