"""Tests of what is promised by the theorem that is proved of the program: the answers of the library for made-up units, and what is said of a design.

    python3 -B clients/python/tests/test_bound.py
"""
import itertools
import math
import os
import random
import unittest
from fractions import Fraction

from support import ROOT, Case, content, design_of, example, rows_of, sampler

import fitting
from sampler.bound import is_narrow, promised_by

LIBRARY = os.path.join(ROOT, "crates", "narrow_cases")


def cases():
    """The name, the sizes, the columns and the denominator of each case, and what the library says of it."""
    lines = [line for line in content(os.path.join(LIBRARY, "stdin")).decode().splitlines() if not line.startswith("#")]
    answers = content(os.path.join(LIBRARY, "stdout")).decode().splitlines()
    for line, answer in zip(lines, answers, strict=True):
        name, denominator, *units = line.split(";")
        rows = [list(map(int, unit.split())) for unit in units]
        sizes, *columns = map(list, zip(*rows)) if rows else [[]]
        yield name, sizes, columns, int(denominator), answer.removeprefix(name + ": ")


def by_definition(sizes, columns, denominator):
    """What has to be said of a case, from the definition alone: half of the permutations of the rows, the greatest numbers, and the least common multiple."""
    if len(columns) > 15 or not all(0 < size < denominator for size in sizes):
        return "no units"
    rows = [sizes, *columns]
    greatest = [max([1, *row]) for row in rows]
    minor = max(1, math.factorial(len(rows)) // 2) * math.prod(greatest)
    is_within = greatest[0] * minor <= 2**44 and math.lcm(denominator, *sizes) * minor <= 2**80
    return "narrow" if is_within and min([0, *itertools.chain(*rows)]) == 0 else "not narrow"


def frame(numerators, columns, denominator, strata=None):
    """A frame whose probabilities are these numerators over the denominator."""
    rows = []
    for place, numerator in enumerate(numerators):
        row = {"id": f"u{place}", "p": Fraction(numerator, denominator), "stratum": strata[place] if strata else "all"}
        rows.append(row | {f"x{column}": values[place] for column, values in enumerate(columns)})
    return rows


def design(columns, method="cube", **more):
    return {"version": 2, "method": method, "id": "id", "prob": "p", "balance": [f"x{column}" for column in range(columns)]} | more


@unittest.skipUnless(os.path.exists(LIBRARY), "the library's cases aren't there")
class Library(Case):
    """The answers of the library."""

    def test_each_case(self):
        counts = {"narrow": 0, "not narrow": 0, "no units": 0}
        for name, sizes, columns, denominator, answer in cases():
            counts[answer] += 1
            self.assertEqual(answer, by_definition(sizes, columns, denominator), name)
            if answer != "no units":
                self.assertEqual(is_narrow(sizes, columns, denominator), answer == "narrow", name)
        self.assertTrue(min(counts["narrow"], counts["not narrow"]) >= 25 and counts["no units"] == 2, counts)

    def test_each_number_of_columns(self):
        told = {}
        for _, _, columns, _, answer in cases():
            told.setdefault(len(columns), set()).add(answer)
        self.assertEqual(set(range(16)), {columns for columns, answers in told.items() if {"narrow", "not narrow"} <= answers})

    def test_made_up_units(self):
        """Numbers of any size, at random: the reckoning is the definition."""
        chance = random.Random(65)
        said = set()
        for _ in range(3000):
            units, columns = chance.randint(1, 6), chance.randint(0, 15)
            bits = [chance.randint(0, chance.choice([1, 3, 12, 30])) for _ in range(columns + 1)]
            sizes = [chance.randint(1, 2 ** bits[0]) for _ in range(units)]
            values = [[chance.randint(0, 2**own) for _ in range(units)] for own in bits[1:]]
            if chance.random() < 0.05 and values:
                values[-1][-1] = -chance.randint(1, 9)
            denominator = chance.randint(max(sizes) + 1, 2 ** chance.randint(31, 49))
            answer = by_definition(sizes, values, denominator)
            said.add(answer)
            self.assertEqual(is_narrow(sizes, values, denominator), answer == "narrow", (sizes, values, denominator))
        self.assertEqual(said, {"narrow", "not narrow"})


class ByWhat(Case):
    """By what it is promised that no draw goes wide."""

    def by(self, given, rows):
        return [(one.stratum, one.free, one.by) for one in sampler.promise(given, rows).strata]

    def test_equal_probabilities(self):
        """Of three columns from 0 on the theorem reaches to 11,360, the argument to differences of 20,642, and nothing further."""
        for most, by in ((10000, "proved"), (11360, "proved"), (11361, "on paper"), (20642, "on paper"), (20643, None)):
            columns = [[most, 0, 0, 7, most, 1, 1, 0], [0, most, 0, 7, 2, most, 1, 0], [0, 0, most, 7, 2, 1, 1, 0]]
            for method, more in (("cube", {}), ("local_cube", {"near": ["x0"]})):
                self.assertEqual(self.by(design(3, method, **more), frame([1] * 8, columns, 4)), [(None, 8, by)], (most, method))
            together = "on paper" if by == "proved" else by
            self.assertEqual(self.by(design(3, "stratified_cube"), frame([1] * 8, columns, 4)), [(None, 8, together)], most)

    def test_a_value_below_0(self):
        columns = [[-1, 0, 3, 2]]
        self.assertEqual(self.by(design(1), frame([1] * 4, columns, 2)), [(None, 4, "on paper")])
        columns = [[1, 0, 3, 2]]
        self.assertEqual(self.by(design(1), frame([1] * 4, columns, 2)), [(None, 4, "proved")])

    def test_values_that_are_no_levels(self):
        """The argument asks for values that are multiples of the numerators, and the theorem doesn't."""
        numerators = [2, 3, 3, 2, 2]
        self.assertEqual(self.by(design(1), frame(numerators, [[1, 1, 2, 5, 7]], 6)), [(None, 5, "proved")])
        self.assertEqual(self.by(design(1, "stratified_cube"), frame(numerators, [[1, 1, 2, 5, 7]], 6)), [(None, 5, None)])
        self.assertEqual(self.by(design(1, "stratified_cube"), frame(numerators, [[2, 3, 6, 4, 8]], 6)), [(None, 5, "on paper")])

    def test_each_stratum_by_itself(self):
        """Certain units and those without a chance count nowhere, and a stratum of them alone is proved."""
        strata = ["a"] * 4 + ["b"] * 4 + ["c"] * 2
        numerators = [1, 1, 1, 3, 1, 1, 1, 3, 3, 0]
        columns = [[5, 0, 1, 2**31 - 1, 5, 0, -1, -(2**31) + 1, 2**31 - 1, 9]]
        given = design(1, stratum="stratum")
        self.assertEqual(self.by(given, frame(numerators, columns, 3, strata)), [("a", 3, "proved"), ("b", 3, "on paper"), ("c", 0, "proved")])
        self.assertEqual(self.by(given | {"method": "stratified_cube"}, frame(numerators, columns, 3, strata)), [(None, 6, "on paper")])

    def test_by_sizes(self):
        """The sizes of the free units, without their common divisor."""
        rows = [{"id": f"u{place}", "size": 1000 * (1 + place % 3), "x0": place} for place in range(9)]
        given = {"version": 2, "method": "cube", "id": "id", "size": "size", "n": 3, "balance": ["x0"]}
        self.assertEqual(self.by(given, rows), [(None, 9, "proved")])
        rows[0]["size"] = 10**6
        self.assertEqual(self.by(given, rows), [(None, 8, "proved")])
        rows[1]["size"] = 1000003
        self.assertEqual(self.by(given | {"n": 1}, rows), [(None, 9, None)])

    def test_the_shipped_examples(self):
        self.assertEqual(self.by(design_of("firms"), rows_of("firms")), [(None, 292, None)])
        self.assertEqual(self.by(example("firms", "fitted/design.toml"), example("firms", "fitted/frame.csv")), [(None, 292, "on paper")])
        for name in ("parishes", "schools", "bridges"):
            if design_of(name)["method"] in fitting.CUBES:
                told = sampler.promise(design_of(name), rows_of(name))
                self.assertEqual(told, sampler.promise(example(name, "design.toml"), example(name, "frame.csv")))

    def test_a_second_stage(self):
        """The probabilities are those of the first stage, and a value is the sum over its rows."""
        rows = [{"id": f"u{place}", "psu": f"p{place // 2}", "size": 1, "second": 1, "x0": 5680 if place < 2 else place % 3, "x1": 11360 * (place == 3),
                 "x2": 11360 * (place == 5)} for place in range(16)]
        given = {"version": 2, "method": "cube", "id": "id", "size": "size", "n": 3, "balance": ["x0", "x1", "x2"]}
        given["second"] = {"method": "pivotal", "psu": "psu", "size": "second", "n": 1}
        self.assertEqual(self.by(given, rows), [(None, 8, "proved")])
        rows[0]["x0"] += 1
        self.assertEqual(self.by(given, rows), [(None, 8, "on paper")])

    def test_what_is_printed(self):
        told = repr(sampler.promise(design(1, stratum="stratum"), frame([1] * 6, [[1, 2, 2, -1, 0, 3]], 3, ["a"] * 3 + ["b"] * 3)))
        self.assertEqual([line.split() for line in told.splitlines()], [["stratum", "free", "no", "draw", "goes", "wide"], ["a", "3", "proved"], ["b", "3", "on", "paper"]])

    def test_refusals(self):
        with self.assertRaises(ValueError):
            sampler.promise({"version": 1, "method": "pivotal", "id": "id", "n": 1}, [{"id": "a"}, {"id": "b"}])
        with self.assertRaises(sampler.Refusal):
            sampler.promise(design(1), frame([1, 1], [[2**31, 0]], 2))
        self.assertEqual(promised_by([], [], [[]], False), "proved")
        self.assertEqual(promised_by([], [], [[]], True), "on paper")


class Fitted(Case):
    """What `fit` says of what it made."""

    def test_it_is_what_promise_says(self):
        """On made-up frames of all cubes: in each stratum the same as of the design that is given."""
        seen = set()
        for number in range(24):
            given, rows = fitting.made_up(number, columns=1 + number % 4)
            try:
                fitted = sampler.fit(given, rows)
            except sampler.Unfit:
                continue
            together = given["method"] == "stratified_cube"
            promised = {one.stratum: one.by for one in sampler.promise(fitted.design, fitted.frame).strata}
            for one in fitted.strata:
                self.assertEqual(one.by, promised[None if together else one.stratum], (number, one))
                self.assertIn(one.by, ("on paper",) if together else ("proved", "on paper"))
                seen.add(one.by)
            self.assertIn("promised: no draw by this design goes wide, whatever its seed\nby a", repr(fitted))
        self.assertEqual(seen, {"proved", "on paper"})

    def test_what_is_printed(self):
        by = sampler.fit(example("firms", "design.toml"), example("firms", "frame.csv"))
        self.assertIn("\nby an argument on paper (docs/narrow.md)\n", repr(by))
        rows = [{"id": place, "area": "ab"[place % 2], "x": place % 5 - (place % 2)} for place in range(40)]
        given = {"version": 2, "method": "cube", "id": "id", "stratum": "area", "n": 10, "balance": ["x"]}
        some = sampler.fit(given, rows)
        self.assertEqual([one.by for one in some.strata], ["proved", "on paper"])
        self.assertIn("\nby a theorem that is proved of the program (docs/proved.md) in 1 of 2 strata, and by an argument on paper (docs/narrow.md) in the others\n",
                      repr(some))
        proved = sampler.fit(given, [row | {"x": abs(row["x"])} for row in rows])
        self.assertIn("\nby a theorem that is proved of the program (docs/proved.md)\n", repr(proved))

    def test_tried(self):
        """Where a design is tried and not promised, nothing promises it."""
        given, rows = design_of("firms"), rows_of("firms")
        tried = sampler.fit(given, rows, levels=40, tries=2)
        self.assertEqual({one.by for one in tried.strata}, {None})
        self.assertTrue(repr(tried).startswith("tried, not promised"))


if __name__ == "__main__":
    unittest.main()
