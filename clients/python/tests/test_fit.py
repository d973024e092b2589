"""Tests of fit: what it promises is reckoned anew, on made-up frames, at the edge of the bound, and over the flights of the reference; and what it refuses.

    python3 -B clients/python/tests/test_fit.py
"""
import importlib.util
import itertools
import math
import os
import random
import unittest
import warnings
from fractions import Fraction

from support import ROOT, Case, content, design_of, example, pandas, rows_of, sampler

import fitting
from sampler.bound import factor_beside, holds, is_promised, largest, multiple_within, steps_beside

CUBE = {"version": 2, "method": "cube", "id": "id", "balance": ["x"], "n": 2}


def seed(number):
    return f"{number:064x}"


def determinant(rows):
    """Of a square list of whole numbers, by its first row."""
    if not rows:
        return 1
    return sum((-1) ** place * first * determinant([[*row[:place], *row[place + 1 :]] for row in rows[1:]]) for place, first in enumerate(rows[0]) if first)


class Bound(Case):
    """The bound by itself."""

    def test_no_minor_passes_it(self):
        """All columns of 0 and 1 and all columns of -1, 0 and 1, in one stratum, two and three."""
        for columns, strata, levels in ((1, 1, (0, 1, 3)), (2, 1, (0, 1)), (3, 1, (0, 1)), (1, 2, (0, 1, 3)), (2, 2, (0, 1)), (2, 3, (0, 1)), (2, 1, (-1, 0, 1))):
            span = max(levels) - min(levels)
            largest_minor = 0
            size = columns + strata
            kinds = [tuple(int(own == stratum) for own in range(strata)) + each for stratum in range(strata) for each in itertools.product(levels, repeat=columns)]
            for chosen in itertools.combinations(kinds, size):
                for left_out in range(size):
                    rows = [row for place, row in enumerate(zip(*chosen)) if place != left_out]
                    largest_minor = max(largest_minor, *(abs(determinant([row[:gone] + row[gone + 1 :] for row in rows])) for gone in range(size)))
                largest_minor = max(largest_minor, abs(determinant(list(zip(*chosen)))))
            self.assertLessEqual(largest_minor * factor_beside(span, columns, strata), 2**44, (columns, strata))
            self.assertGreaterEqual(largest_minor, span)

    def test_it_is_met(self):
        """Where a determinant of 1 and -1 of Hadamard's size is there, one more is too much: 4 columns of 4 rows."""
        self.assertTrue(holds(2**43, [1, 1, 1], 1))
        self.assertFalse(holds(2**43 + 1, [1, 1, 1], 1))
        self.assertTrue(holds(2**44, [1], 1))
        self.assertFalse(holds(2**44 + 1, [1], 1))

    def test_the_largest_number(self):
        for most in (0, 1, 2, 7, 8, 1000):
            for edge in range(0, 12):
                self.assertEqual(largest(lambda number: number <= edge, most), min(most, edge))
        for columns, strata in itertools.product(range(1, 16), (1, 2, 6, 12)):
            steps = steps_beside(2520, columns, strata, 2**31 - 1)
            self.assertTrue(holds(2520, [steps] * columns, strata))
            self.assertTrue(steps == 2**31 - 1 or not holds(2520, [steps + 1] * columns, strata))
            factor = factor_beside(1, columns, strata)
            self.assertTrue(holds(factor, [1] * columns, strata) and not holds(factor + 1, [1] * columns, strata))

    def test_the_table_of_the_page(self):
        page = os.path.join(ROOT, "docs", "narrow.md")
        lines = [line for line in content(page).decode().splitlines() if line.startswith("| ") and line[2].isdigit()]
        self.assertEqual(len(lines), 15)
        for columns, line in enumerate(lines, 1):
            cells = [cell.strip().replace(",", "").replace("2^31 - 1", str(2**31 - 1)) for cell in line.strip("|").split("|")]
            wanted = [steps_beside(multiple, columns, 1, 2**31 - 1) for multiple in (1, 60, 2520, 27720, 720720)]
            wanted += [steps_beside(2520, columns, strata, 2**31 - 1) if columns + strata <= 16 else "-" for strata in (2, 6, 12)]
            self.assertEqual(cells, [str(columns), *map(str, wanted)])

    def test_a_multiple_is_looked_at_as_it_grows(self):
        self.assertEqual(multiple_within([4, 6, 10], 60), 60)
        self.assertIsNone(multiple_within([4, 6, 10], 59))
        self.assertIsNone(multiple_within(range(1, 10**6), 10**9))

    def test_a_promise_looks_at_the_numbers_alone(self):
        self.assertTrue(is_promised([1, 2], [0, 0], [[0, 5], [7, 7]]))
        self.assertFalse(is_promised([1, 2], [0, 0], [[0, 2**44], [7, 7]]))
        self.assertFalse(is_promised([601, 602, 603, 604, 605, 607, 611], [0] * 7, [[0, 1] * 3 + [0]]))
        self.assertTrue(is_promised([], [], [[]]))


@unittest.skipUnless(os.path.exists(os.path.join(ROOT, "reference", "sampler.py")), "the reference isn't there")
class Reference(Case):
    """The numbers of whole flights of the reference, without limits, against the bound."""

    def setUp(self):
        super().setUp()
        spec = importlib.util.spec_from_file_location("reference", os.path.join(ROOT, "reference", "sampler.py"))
        self.reference = importlib.util.module_from_spec(spec)
        spec.loader.exec_module(self.reference)
        self.reference.MOST_OF_A_VECTOR = self.reference.MOST_OF_A_DENOMINATOR = 10**90
        self.seen = {}
        self.watch()

    def note(self, kind, value):
        self.seen[kind] = max(self.seen.get(kind, 0), value)

    def watch(self):
        """Notes the largest entries of each search, and what each move has."""
        reference, primitive, ways = self.reference, self.reference.primitive, self.reference.Cube.ways
        search = reference.search

        def watched_search(columns, rows):
            entries = []
            reference.primitive = lambda vector: entries.append(primitive(vector)) or entries[-1]
            found, circuit = search(columns, rows)
            reference.primitive = primitive
            for entry in entries:
                self.note("search", max(map(abs, entry)))
            return found, circuit

        def watched_ways(state, places, direction):
            self.note("direction", max(map(abs, direction)))
            parts = ways(state, places, direction)
            for _, end in parts:
                self.note("denominator", end().denominator())
            return parts

        reference.search = watched_search
        for kind in (reference.Cube, reference.LocalCube, reference.StratifiedCube):
            kind.ways = watched_ways

    def flight(self, number):
        """A flight of few units, walked to its end; gives the factors of the bound, and the bound squared."""
        chance = random.Random(number)
        method = fitting.CUBES[number % 3]
        columns, count = chance.randint(1, 4), chance.randint(1, 3) if method == "stratified_cube" else 1
        multiple = chance.choice([1, 2, 6, 12, 60])
        divisors = [divisor for divisor in range(1, multiple + 1) if multiple % divisor == 0]
        size = chance.randint(2 * count, 2 * count + 12)
        strata = sorted(place % count for place in range(size))
        numerators = [chance.choice(divisors) for _ in range(size)]
        tops, low = [chance.choice([1, 2, 9, 30]) for _ in range(columns)], chance.choice([0, 0, -3])
        corner = chance.random() < 0.5
        levels = [[chance.choice([low, low + top]) if corner else chance.randint(low, low + top) for top in tops] for _ in range(size)]
        denominator = multiple * 3 + 1
        fractions = [Fraction(numerator, denominator) for numerator in numerators]
        values = [tuple(numerator * level for level in own) for numerator, own in zip(numerators, levels)]
        places = [[place for place in range(size) if strata[place] == stratum] for stratum in range(count)]
        requests = [self.reference.given_request([fractions[place] for place in own]) for own in places]
        if method == "stratified_cube":
            request = self.reference.layered(requests, places)
        else:
            request = requests[0]
        near = 2 if method == "local_cube" else 0
        own = [value + (chance.randrange(9), chance.randrange(9))[:near] for value in values]
        draws = type("Draws", (), {"below": lambda _, kind, bound: self.note(kind, 1) or chance.randrange(bound)})()
        self.reference.walk(self.reference.start(method, "frame", request, own, near), draws)
        divisor = math.gcd(*numerators)
        factor = math.lcm(*numerators) // divisor
        ranges = [max(1, max(0, *own) - min(0, *own)) for own in zip(*levels)]
        several = min(columns, count)
        square = Fraction((columns + several) ** (columns + several) * math.prod(ranges) ** 2, several**several * 4**columns)
        return factor * divisor, denominator, square

    def test_no_number_passes_the_bound(self):
        met = set()
        for number in range(120):
            with self.subTest(number):
                self.seen = {}
                factor, denominator, square = self.flight(number)
                self.assertNotIn("wide", self.seen)
                for kind, by in (("search", factor), ("direction", 1), ("denominator", denominator)):
                    self.assertLessEqual(self.seen.get(kind, 0) ** 2, square * by**2, kind)
                    met |= {kind} if self.seen.get(kind, 0) ** 2 == square * by**2 else set()
        self.assertEqual(met, {"search", "direction", "denominator"})


class Fits(Case):
    """What fit gives."""

    def whole(self, fitted):
        """A fitted design keeps to the bound, has whole sums, and its rows and levels are those that are told."""
        units = sampler.probs(fitted.design, fitted.frame)
        probabilities = [unit.probability for unit in units]
        self.assertIsNone(fitted.tried)
        for flight in fitting.flights(fitted.design, fitted.frame, probabilities):
            self.assertTrue(fitting.is_narrow(flight, fitted.design["balance"]))
            for own in flight.values():
                self.assertEqual(sum(probability for _, probability in own).denominator, 1)
        self.assertEqual(sum(probabilities), sum(one.number for one in fitted.strata))
        return probabilities

    def drawn(self, fitted, draws, start=0):
        """No draw goes wide, and each stratum has its number."""
        numbers = {one.stratum: one.number for one in fitted.strata}
        for number in range(start, start + draws):
            with warnings.catch_warnings():
                warnings.simplefilter("error", sampler.WideWarning)
                drawn = sampler.draw(fitted.design, fitted.frame, seed=seed(number))
            self.assertEqual(drawn.wide, [])
            found = dict.fromkeys(numbers, 0)
            for row in drawn.sample:
                found[str(row[fitted.design["stratum"]]) if "stratum" in fitted.design else None] += 1
            self.assertEqual(found, numbers)
            rows = len(fitted.design["balance"]) + (len(numbers) if fitted.design["method"] == "stratified_cube" else 1)
            self.assertLessEqual(max(one.left for one in drawn.left), rows)

    def test_made_up_frames(self):
        for number in (0, 4, 8, 13, 17, 21, 26, 30, 34, 39, 43, 44):
            with self.subTest(number):
                design, frame = fitting.made_up(number)
                fitted = sampler.fit(design, frame)
                probabilities = self.whole(fitted)
                wanted = [unit.probability for unit in sampler.probs({**design, "balance": fitted.design["balance"]}, fitted.frame)]
                off = [max(one / two, two / one) - 1 for one, two in zip(probabilities, wanted) if two not in (0, 1)]
                self.assertEqual([one for one, two in zip(probabilities, wanted) if two in (0, 1)], [two for two in wanted if two in (0, 1)])
                greatest = max((one.greatest for one in fitted.strata if one.greatest is not None), default=0)
                self.assertAlmostEqual(float(max(off, default=0)), greatest)
                self.assertEqual([one.number for one in fitted.strata], [round(one.asked) for one in fitted.strata])
                self.assertEqual([{name: row[name] for name in frame[0]} for row in fitted.frame], frame)
                self.drawn(fitted, 2)

    def test_the_edge_of_the_bound(self):
        """With levels of 0 and of the largest range that the bound allows, no draw goes wide."""
        for number in range(18):
            with self.subTest(number):
                design, frame, wanted = fitting.at_the_edge(number)
                for flight in fitting.flights(design, frame, [row["p"] for row in frame]):
                    self.assertTrue(fitting.is_narrow(flight, design["balance"]))
                for draws in range(2):
                    drawn = sampler.draw(design, frame, seed=seed(draws))
                    self.assertEqual((drawn.wide, drawn.selected), ([], sum(wanted.values())))

    def test_the_firms(self):
        """The shipped example: wide as it stands, and its fitted files, byte for byte."""
        design, frame = example("firms", "design.toml"), example("firms", "frame.csv")
        shipped = os.path.join("firms", "fitted")
        for given in ((design, frame), (design_of("firms"), rows_of("firms"))):
            fitted = sampler.fit(*given)
            self.whole(fitted._replace(frame=[{**row, **{name: int(row[name]) for name in fitted.design["balance"]}} for row in fitted.frame]))
            record = self.path("record")
            drawn = sampler.draw(fitted.design, fitted.frame, seed=content(example("firms", "seed.txt")).decode().strip(), record=record)
            for name in ("design.toml", "frame.csv", "log.txt", "sample.csv", "report.txt"):
                self.assertEqual(content(os.path.join(record, name)), content(example(shipped, name)), name)
                os.remove(os.path.join(record, name))
            for name in os.listdir(record):
                os.remove(os.path.join(record, name))
            os.rmdir(record)
            self.assertEqual(drawn.wide, [])
        with self.assertWarns(sampler.WideWarning):
            self.assertEqual(len(sampler.draw(design, frame, seed=seed(1)).wide), 1)
        self.assertIn("promised", repr(fitted))

    def test_what_fits_is_kept(self):
        frame = [{"id": place, "p": Fraction(place % 3 + 1, 9), "x": (place % 3 + 1) * (place * 7 % 20)} for place in range(18)]
        fitted = sampler.fit({"version": 2, "method": "cube", "id": "id", "prob": "p", "balance": ["x"]}, frame)
        self.assertEqual([row["prob_fitted"] for row in fitted.frame], [row["p"] for row in frame])
        self.assertEqual([row["x_fitted"] for row in fitted.frame], [row["x"] for row in frame])
        self.assertEqual((fitted.strata[0].greatest, fitted.columns[0].unit, fitted.columns[0].beyond), (0, 1, 0))

    def test_equal_probabilities_need_no_rounding(self):
        """By the cube, in whatever form they are given."""
        for given in (0.3, Fraction(3, 10), "3/10"):
            frame = [{"id": place, "p": given, "x": place * 37 % 101} for place in range(70)]
            fitted = sampler.fit({"version": 2, "method": "cube", "id": "id", "prob": "p", "balance": ["x"]}, frame)
            self.assertEqual({row["prob_fitted"] for row in fitted.frame}, {Fraction(3, 10)})
            self.assertEqual([row["x_fitted"] for row in fitted.frame], [row["x"] for row in frame])

    def test_certain_and_chanceless_units_stay(self):
        chance = random.Random(5)
        frame = [{"id": place, "p": chance.uniform(0.05, 0.6), "x": chance.randrange(1000)} for place in range(40)]
        frame += [{"id": "giant", "p": 1.0, "x": 10**7}, {"id": "sure", "p": "1/1", "x": 3.5}, {"id": "never", "p": 0.0, "x": 12}]
        fitted = sampler.fit({"version": 2, "method": "cube", "id": "id", "prob": "p", "balance": ["x"]}, frame)
        self.whole(fitted)
        self.assertEqual([row["prob_fitted"] for row in fitted.frame[-3:]], [1, 1, 0])
        unit = fitted.columns[0].unit
        self.assertEqual([row["x_fitted"] for row in fitted.frame[-3:]], [math.floor(row["x"] / unit + 0.5) for row in frame[-3:]])
        self.assertEqual(fitted.strata[0].number, round(sum(float(Fraction(row["p"])) for row in frame)))

    def test_two_stages(self):
        """The sizes of the first stage units are fitted, in their first rows; their probabilities are those told, and no draw goes wide."""
        chance = random.Random(8)
        frame = [{"id": f"{psu}-{row}", "psu": f"v{psu}", "area": f"a{psu % 2}", "people": chance.randint(1, 400), "x": chance.randrange(500)}
                 for psu in range(40) for row in range(chance.randint(3, 9))]
        frame = [{**row, "y": chance.randrange(-9, 9)} for row in frame]
        chance.shuffle(frame)
        design = {"version": 2, "method": "cube", "id": "id", "stratum": "area", "size": "people", "balance": ["x", "y"], "sizes": {"a0": 6, "a1": 5},
                  "second": {"psu": "psu", "method": "pivotal", "n": 2}}
        fitted = sampler.fit(design, frame)
        self.assertEqual([one.number for one in fitted.strata], [{"a0": 6, "a1": 5}[one.stratum] for one in fitted.strata])
        self.assertEqual(sum(row["size_fitted"] > 0 for row in fitted.frame), 40)
        for number in range(4):
            drawn = sampler.draw(fitted.design, fitted.frame, seed=seed(number))
            self.assertEqual((drawn.wide, len(drawn.sample)), ([], 22))
        wanted, given = (sampler.probs({**design, "balance": ["x_fitted"]}, fitted.frame), sampler.probs(fitted.design, fitted.frame))
        off = max(max(one.probability / two.probability, two.probability / one.probability) - 1 for one, two in zip(given, wanted))
        self.assertAlmostEqual(float(off), max(one.greatest for one in fitted.strata))

    def test_more_steps_than_are_promised_are_tried(self):
        design, frame = fitting.made_up(45, columns=8)
        with self.assertRaises(sampler.Unfit) as caught:
            sampler.fit(design, frame, levels=30)
        self.assertEqual(caught.exception.column, "x7")
        self.assertRegex(str(caught.exception), "30 steps of 8 columns")
        fitted = sampler.fit(design, frame, levels=30, tries=2)
        self.assertEqual(fitted.tried.draws, 2)
        self.assertIn("tried, not promised", repr(fitted))

    def test_more_steps_move_the_probabilities_more(self):
        design, frame = fitting.made_up(45, columns=8)
        moved = [max(one.median for one in sampler.fit(design, frame, levels=levels).strata) for levels in (3, 12)]
        self.assertLess(moved[0], moved[1])

    @unittest.skipIf(pandas is None, "pandas isn't there")
    def test_data_frames(self):
        design, frame = fitting.made_up(9)
        table = sampler.fit(design, pandas.DataFrame(frame))
        self.assertEqual(table.frame.to_dict("records"), sampler.fit(design, frame).frame)
        self.assertEqual(table[0], sampler.fit(design, frame)[0])


class Refuses(Case):
    """What fit refuses, by name."""

    def refused(self, error, message, design, frame, **named):
        with self.assertRaises(error) as caught:
            sampler.fit(design, frame, **named)
        self.assertEqual(str(caught.exception), message)

    def test_designs(self):
        frame = [{"id": place, "x": place, "p": 0.5} for place in range(4)]
        self.refused(sampler.Unfit, "only a design by cube, local_cube or stratified_cube is fitted", {**CUBE, "method": "pivotal"}, frame)
        for balance in ([], ["x", "x"], [f"x{place}" for place in range(16)], None):
            self.refused(sampler.Unfit, "balance names 1 to 15 columns, each once", {**CUBE, "balance": balance}, frame)
        self.refused(TypeError, "a design is a dict or the path of a file, not 5", 5, frame)
        self.refused(sampler.Refusal, "error 5.4 9 asked of 4: ", {**CUBE, "n": 9}, frame)
        many = [{"id": place, "s": place % 16, "x": place} for place in range(64)]
        self.refused(sampler.Unfit, "16 strata and 1 columns are more than 16 together", {**CUBE, "method": "stratified_cube", "stratum": "s", "n": 16}, many)
        self.refused(ValueError, "levels is a number from 1 on", CUBE, frame, levels=0)

    def test_columns(self):
        frame = [{"id": place, "x": place, "p": 0.5, "x_fitted": 1} for place in range(4)]
        self.refused(sampler.BadValue, "x_fitted: the frame has a column of this name already", CUBE, frame)
        self.refused(sampler.BadValue, "y: the frame has no column of this name", {**CUBE, "balance": ["y"]}, frame)

    def test_values(self):
        for value, message in ((None, "a value is missing"), (float("nan"), "a value is missing"), ("few", "'few' is no number"), (float("inf"), "an infinite value")):
            frame = [{"id": place, "x": place} for place in range(4)] + [{"id": "a", "x": value}]
            self.refused(sampler.BadValue, f"column x, row 5: {message}", CUBE, frame)
        design = {key: CUBE[key] for key in CUBE if key != "n"} | {"prob": "p"}
        for value in (1.5, -0.25, "7/5", Fraction(-1, 2)):
            frame = [{"id": place, "x": place, "p": 0.5} for place in range(4)] + [{"id": "a", "x": 1, "p": value}]
            said = value if isinstance(value, (str, Fraction)) else repr(value)
            self.refused(sampler.BadValue, f"column p, row 5: {said} is no probability", design, frame)

    def test_sums(self):
        design = {key: CUBE[key] for key in CUBE if key != "n"} | {"prob": "p", "stratum": "s"}
        frame = [{"id": place, "s": "b", "x": place, "p": 0.5} for place in range(4)] + [{"id": place, "s": "a", "x": place, "p": 0.1} for place in range(4, 7)]
        reason = "its 3 probabilities between 0 and 1 add up to 0.3: no whole number of them can be drawn"
        self.refused(sampler.Unfit, f"stratum a: {reason}", design, frame)

    def test_giants(self):
        """A certain unit that is too large to be written in the unit of the others."""
        design = {key: CUBE[key] for key in CUBE if key != "n"} | {"prob": "p"}
        frame = [{"id": place, "x": place, "p": 0.5} for place in range(4)] + [{"id": "giant", "x": 1e12, "p": 1}]
        self.refused(sampler.Unfit, "column x: 0 steps are left, and 3 are needed", design, frame, levels=3)


if __name__ == "__main__":
    unittest.main()
