"""Tests of what is said by name: strata, columns, and where a draw went wide.

    python3 -B clients/python/tests/test_names.py
"""
import os
import unittest
import warnings
from fractions import Fraction

from support import Case, content, design_of, example, pandas, rows_of, sampler

SEED = "0" * 64


def firms():
    """40 firms in two strata: those of the south have small numbers, with which no draw goes wide, and those of the north large ones."""
    rows, state = [], 1
    for place in range(40):
        state = (state * 1103515245 + 12345) % 2**31
        if place % 4 == 0:
            rows.append({"firm": f"s{place}", "branch": "south, \"old\"", "staff": 1 + place % 3, "sales": state // 4096 % 10, "costs": place % 7})
        else:
            rows.append({"firm": f"n{place}", "branch": "north ", "staff": 30 + state // 4096 % 570, "sales": state // 65536 % 9000, "costs": state // 256 % 9000})
    return rows


def cube(method="cube", **more):
    return {"version": 2, "method": method, "id": "firm", "stratum": "branch", "size": "staff", "balance": ["sales", "costs"], "n": 12, **more}


def counted(log):
    """By hand: for each section with a step `wide` its number and the flight steps before it."""
    found, number, flights = [], None, 0
    for line in log.splitlines():
        words = line.split()
        if words[0] == "stratum":
            number, flights = int(words[1]), 0
        elif words[0] == "flight":
            flights += 1
        elif words[0] == "wide":
            found.append((number, flights))
    return found


class Wide(Case):
    """A draw that goes wide says so."""

    def drawn(self, design, **more):
        with warnings.catch_warnings(record=True) as caught:
            warnings.simplefilter("always")
            drawn = sampler.draw(design, firms(), seed=SEED, record=self.path("record"), **more)
        return drawn, [str(warning.message) for warning in caught if warning.category is sampler.WideWarning]

    def test_a_stratum(self):
        drawn, told = self.drawn(cube())
        (north,) = drawn.wide
        self.assertEqual(counted(content(self.path("record/log.txt")).decode()), [(north.stratum, north.flights)])
        self.assertEqual(north[:2], (2, "north "))
        self.assertGreater(north.flights, 0)
        self.assertEqual([part[:2] for part in drawn.left], [(1, 'south, "old"'), (2, "north ")])
        self.assertEqual([part[:4] for part in drawn.balance], [(stratum, name, column, ("sales", "costs")[column - 1])
                                                                for stratum, name in ((1, 'south, "old"'), (2, "north ")) for column in (1, 2)])
        self.assertEqual(len(told), 1)
        for words in "'north '", f"after {north.flights} flight steps", f"{drawn.left[1].left} units undecided", "don't draw this one again":
            self.assertIn(words, told[0])
        self.assertNotIn("south", told[0])
        self.assertIn("stratum 'north ' went wide", repr(drawn))
        again = sampler.replay(cube(), firms(), self.path("record/log.txt"))
        self.assertEqual(again, drawn._replace(seed=None))
        one = sampler.replay(cube(), firms(), self.path("record/log.txt"), stratum="north ")
        self.assertEqual((one.wide, one.left, one.units), (drawn.wide, drawn.left[1:], 30))
        self.assertEqual(sampler.replay(cube(), firms(), self.path("record/log.txt"), stratum=1).wide, [])

    def test_the_local_cube(self):
        drawn, told = self.drawn(cube("local_cube", near=["sales"]))
        self.assertEqual(([part.stratum_name for part in drawn.wide], len(told)), (["north "], 1))
        self.assertEqual(counted(content(self.path("record/log.txt")).decode()), [(part.stratum, part.flights) for part in drawn.wide])

    def test_all_strata_in_one(self):
        drawn, told = self.drawn(cube("stratified_cube"))
        self.assertEqual([part[:2] for part in drawn.wide + drawn.left], [(1, None), (1, None)])
        self.assertEqual([part[:4] for part in drawn.balance], [(1, None, 1, "sales"), (1, None, 2, "costs")])
        self.assertEqual(counted(content(self.path("record/log.txt")).decode()), [(1, drawn.wide[0].flights)])
        self.assertTrue(told[0].startswith("the draw went wide"))

    def test_none(self):
        with warnings.catch_warnings():
            warnings.simplefilter("error")
            for name in "parishes", "woods", "schools":
                self.assertEqual(sampler.draw(design_of(name), rows_of(name), tape=example(name, "tape.txt")).wide, [])

    def test_as_an_error(self):
        """The record is kept."""
        with warnings.catch_warnings():
            warnings.simplefilter("error")
            with self.assertRaises(sampler.WideWarning):
                sampler.draw(cube(), firms(), seed=SEED, record=self.path("record"))
        self.assertIn("versions.txt", os.listdir(self.path("record")))


class Strata(Case):
    def test_replay_by_name(self):
        log = example("schools", "log.txt")
        for given in (example("schools", "design.toml"), example("schools", "frame.csv")), (design_of("schools"), rows_of("schools")):
            if isinstance(given[0], dict):
                log = self.path("record/log.txt")
                sampler.draw(*given, tape=example("schools", "tape.txt"), record=self.path("record"))
            by_name, by_number = (sampler.replay(*given, log, stratum=stratum) for stratum in ("Restormel", 2))
            self.assertEqual(by_name, by_number)
            self.assertEqual({row["district"] for row in by_name.sample}, {"Restormel"})
            with self.assertRaisesRegex(ValueError, "no stratum 'Restormell'; it has 'Kerrier', 'Restormel', 'Carrick', 'Penwith'"):
                sampler.replay(*given, log, stratum="Restormell")
        with self.assertRaisesRegex(ValueError, "the design has no strata"):
            sampler.replay(example("farms", "design.toml"), example("farms", "frame.csv"), example("farms", "log.txt"), stratum="1")

    def test_check(self):
        """What a spreadsheet leaves behind is seen by its number of units."""
        design = {"version": 1, "method": "systematic", "id": "place", "stratum": "canton", "n": 4}
        frame = self.path("frame.csv", "place,canton\na,ZG\nb,ZG \nc,ZG\n,\nd,BE\n")
        self.assertEqual(sampler.check(design, frame), (5, 4, [(1, "ZG", 2), (2, "ZG ", 1), (3, "", 1), (4, "BE", 1)]))
        self.assertEqual(repr(sampler.check(design, frame)), "accepted 5 units in 4 strata\n1 'ZG': 2 units\n2 'ZG ': 1 units\n3 '': 1 units\n4 'BE': 1 units")
        numbers = [{"place": place, "canton": place % 2} for place in range(6)]
        self.assertEqual(sampler.check(design, numbers).of_strata, [(1, "0", 3), (2, "1", 3)])
        two_stages = sampler.check(design_of("villages"), rows_of("villages"))
        self.assertEqual(two_stages.of_strata, [(1, None, two_stages.units)])


class Shown(Case):
    def test_a_list(self):
        rows = [{"id": f"<{place}>", "size": place} for place in range(1, 31)]
        drawn = sampler.draw({"version": 1, "method": "pivotal", "id": "id", "size": "size", "n": 20}, rows, seed=SEED)
        self.assertEqual(repr(drawn), f"20 of 30 rows drawn in {drawn.steps} steps, seed {SEED}")
        shown = drawn._repr_html_()
        self.assertEqual((shown.count("<tr>"), "&lt;" in shown, "<1>" in shown), (11, True, False))

    @unittest.skipUnless(pandas, "pandas isn't there")
    def test_a_table(self):
        drawn = sampler.draw(design_of("parishes"), pandas.DataFrame(rows_of("parishes")), tape=example("parishes", "tape.txt"))
        self.assertEqual(drawn._repr_html_().count("<tr"), 1 + min(10, drawn.selected))
        self.assertIn("greatest relative difference", repr(drawn))
        self.assertEqual(list(drawn.sample["weight_float"]), [float(weight) for weight in drawn.sample["weight"]])
        self.assertEqual(drawn.sample["weight_float"].dtype, float)
        self.assertIsInstance(drawn.sample["weight"].iloc[0], Fraction)
        with self.assertRaises(sampler.BadValue):
            sampler.draw(design_of("parishes"), pandas.DataFrame(rows_of("parishes")).assign(weight_float=1.0))


if __name__ == "__main__":
    unittest.main()
