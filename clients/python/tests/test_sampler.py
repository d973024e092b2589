"""Tests of the Python package, on the shipped examples and on frames of their own.

    python3 -B clients/python/tests/test_sampler.py
    cd clients/python && python3 -B -m unittest             these and the others
"""
import collections
import contextlib
import csv
import hashlib
import os
import pickle
import tomllib
import unittest
from fractions import Fraction

from support import DRAWN, ODD, PROGRAM, RECORD, ROOT, Case, content, design_of, example, fraction, pandas, rows_of, sampler, texts


class Examples(Case):
    """What the functions give is what is shipped."""

    def drawn(self, name, drawn, record, files=("tape.txt", "log.txt", "sample.csv", "report.txt")):
        """The draw and its record are those of the example: of its very files, all bytes; of others, all but the digests in the log."""
        source, log, sample, report = files
        self.assertEqual(content(os.path.join(record, "sample.csv")), content(example(name, sample)))
        self.assertEqual(content(os.path.join(record, "report.txt")), content(example(name, report)))
        self.assertEqual(content(os.path.join(record, source.removeprefix("seeded_"))).strip(), content(example(name, source)).strip())
        wanted, given = content(example(name, log)).split(b"\n"), content(os.path.join(record, "log.txt")).split(b"\n")
        digest = lambda file: hashlib.sha256(content(os.path.join(record, file))).hexdigest().encode()
        digests = [b"design " + digest("design.toml"), b"frame " + digest("frame.csv")]
        self.assertEqual(given, wanted[:1] + digests + wanted[3:])
        rows = {row[design_of(name)["id"]]: row for row in rows_of(name)}
        with open(example(name, sample), encoding="utf-8", newline="") as file:
            self.assertEqual(self.plain(drawn.sample), [{**rows[row["id"]], "weight": Fraction(row["weight"])} for row in csv.DictReader(file)])
        self.assertEqual(set(os.listdir(record)), {source.removeprefix("seeded_"), *RECORD})
        put = f"selected {drawn.selected} of {drawn.units}\nsteps {drawn.steps}\n"
        for stratum, _, number in drawn.left:
            put += f"left {stratum} {number}\n"
            for line in drawn.balance:
                if line.stratum == stratum:
                    self.assertEqual(line.column_name, design_of(name)["balance"][line.column - 1])
                    put += f"balance {stratum} {line.column} {'wide' if line.estimate is None else fraction(line.estimate)} {line.total}\n"
        self.assertEqual(put.encode(), content(example(name, report)))

    @staticmethod
    def plain(sample):
        return sample if isinstance(sample, list) else sample.drop(columns="weight_float").to_dict("records")

    def test_files_go_byte_for_byte(self):
        for name in DRAWN:
            with self.subTest(name):
                record = self.path(name)
                self.drawn(name, sampler.draw(example(name, "design.toml"), example(name, "frame.csv"), tape=example(name, "tape.txt"), record=record), record)
                for file in ("design.toml", "frame.csv", "tape.txt", "log.txt"):
                    self.assertEqual(content(os.path.join(record, file)), content(example(name, file)), file)

    def test_dicts(self):
        for name in DRAWN:
            with self.subTest(name):
                record = self.path(name)
                tape = [int(line) for line in content(example(name, "tape.txt")).split()]
                self.drawn(name, sampler.draw(design_of(name), rows_of(name), tape=tape, record=record), record)

    @unittest.skipUnless(pandas, "pandas isn't there")
    def test_pandas(self):
        for name in DRAWN:
            with self.subTest(name):
                record = self.path(name)
                frame = pandas.DataFrame(rows_of(name))
                drawn = sampler.draw(design_of(name), frame, tape=example(name, "tape.txt"), record=record)
                self.assertIsInstance(drawn.sample, pandas.DataFrame)
                self.assertNotIn("weight", frame.columns)
                self.drawn(name, drawn, record)
        frame = pandas.read_csv(example("bridges", "frame.csv"))
        listed = sampler.joint(design_of("bridges"), frame)
        self.assertEqual(list(listed["probability_float"]), list(map(float, listed["probability"])))
        listed = listed.drop(columns="probability_float")
        self.assertEqual(texts([listed.columns, *listed.values.tolist()]), content(example("bridges", "joint.csv")))
        listed = sampler.probs(design_of("bridges"), frame)
        self.assertEqual((list(listed.columns), sum(listed["probability"])), (["id", "probability", "probability_float"], 5))

    def test_a_seed(self):
        record = self.path("record")
        seed = content(example("businesses", "seed.txt")).decode().strip()
        drawn = sampler.draw(design_of("businesses"), rows_of("businesses"), seed=seed, record=record)
        self.assertEqual(drawn.seed, seed)
        with contextlib.suppress(FileExistsError):
            sampler.draw(design_of("businesses"), rows_of("businesses"), seed=seed, record=record)
            self.fail("a record was written over")
        self.assertEqual(content(os.path.join(record, "seed.txt")).decode(), seed + "\n")
        for file in ("sample.csv", "report.txt"):
            self.assertEqual(content(os.path.join(record, file)), content(example("businesses", "seeded_" + file)))
        record = self.path("files")
        sampler.draw(example("businesses", "design.toml"), example("businesses", "frame.csv"), seed=seed, record=record)
        self.assertEqual(content(os.path.join(record, "log.txt")), content(example("businesses", "seeded_log.txt")))

    def test_replay(self):
        for name in DRAWN:
            with self.subTest(name):
                record = self.path(name)
                drawn = sampler.replay(example(name, "design.toml"), example(name, "frame.csv"), example(name, "log.txt"), record=record)
                self.assertIsNone(drawn.seed)
                for file in ("design.toml", "frame.csv", "log.txt", "sample.csv", "report.txt"):
                    self.assertEqual(content(os.path.join(record, file)), content(example(name, file)), file)
        files = example("schools", "design.toml"), example("schools", "frame.csv")
        self.assertEqual(sampler.replay(*files, example("schools", "old_log.txt")), sampler.replay(*files, example("schools", "log.txt")))
        record = self.path("stratum")
        drawn = sampler.replay(*files, example("schools", "log.txt"), stratum=2, record=record)
        self.assertEqual((drawn.selected, drawn.units, drawn.steps), (3, 12, 11))
        self.assertEqual({row["district"] for row in drawn.sample}, {"Restormel"})
        for file in ("sample.csv", "report.txt"):
            self.assertEqual(content(os.path.join(record, file)), content(example("schools", "stratum_" + file)))

    def test_replay_of_a_draw_from_dicts(self):
        record = self.path("record")
        drawn = sampler.draw(design_of("parishes"), rows_of("parishes"), record=record)
        again = sampler.replay(design_of("parishes"), [dict(reversed(row.items())) for row in rows_of("parishes")], os.path.join(record, "log.txt"))
        self.assertEqual(again, drawn._replace(seed=None))

    def test_probs(self):
        for name, design, wanted in [*((name, "design.toml", "probabilities.csv") for name in ("mills", "harbours", "businesses", "schools", "villages", "panel")),
                                     ("schools", "sizes.toml", "sizes_probabilities.csv")]:
            for given in (example(name, design), example(name, "frame.csv")), (design_of(name, design), rows_of(name)):
                self.assertEqual(texts([("id", "probability"), *sampler.probs(*given)]), content(example(name, wanted)), name)

    def test_joint(self):
        for given in (example("bridges", "design.toml"), example("bridges", "frame.csv")), (design_of("bridges"), rows_of("bridges")):
            self.assertEqual(texts([("first", "second", "probability"), *sampler.joint(*given)]), content(example("bridges", "joint.csv")))

    def test_check(self):
        for given in (example("businesses", "design.toml"), example("businesses", "frame.csv")), (design_of("businesses"), rows_of("businesses")):
            self.assertEqual(sampler.check(*given), (12, 1, [(1, None, 12)]))
        for given in (example("schools", "design.toml"), example("schools", "frame.csv")), (design_of("schools"), rows_of("schools")):
            accepted = sampler.check(*given)
            districts = collections.Counter(row["district"] for row in rows_of("schools"))
            self.assertEqual(accepted, (48, 4, [(number, name, districts[name]) for number, name in enumerate(districts, 1)]))
            self.assertIn("2 'Restormel': 12 units", repr(accepted))


class Seeds(Case):
    def test_neither_a_seed_nor_a_tape(self):
        one, two, again = (self.path(name) for name in ("one", "two", "again"))
        drawn = sampler.draw(design_of("plots"), rows_of("plots"), record=one)
        self.assertNotEqual(sampler.draw(design_of("plots"), rows_of("plots"), record=two).seed, drawn.seed)
        self.assertEqual(content(os.path.join(one, "seed.txt")).decode(), drawn.seed + "\n")
        self.assertEqual(sampler.draw(design_of("plots"), rows_of("plots"), seed=drawn.seed, record=again), drawn)
        for file in os.listdir(one):
            self.assertEqual(content(os.path.join(one, file)), content(os.path.join(again, file)))

    def test_bad_ones(self):
        for named in {"seed": "0" * 63}, {"seed": "0" * 63 + "g"}, {"seed": "0" * 64 + "\n"}, {"seed": "0" * 64, "tape": [1]}:
            with self.assertRaises(ValueError):
                sampler.draw(design_of("plots"), rows_of("plots"), record=self.path("record"), **named)
        self.assertEqual(os.listdir(self.folder), ["passing files"])


class Refusals(Case):
    """Each code with its line."""

    DESIGN = {"version": 1, "method": "pivotal", "id": "id", "size": "size", "n": 2}
    FRAME = [{"id": name, "size": size} for name, size in zip("abcd", (1, 2, 3, 4))]

    def test_2(self):
        self.refused(2, content(os.path.join(ROOT, "reference", "sampler.py")).decode().split('USAGE = "')[1].split('"')[0],
                     sampler.replay, design_of("schools"), rows_of("schools"), example("schools", "log.txt"), stratum=0)

    def test_3(self):
        for design, line in (
            ({**self.DESIGN, "version": 3}, "3.2 version"),
            ({**self.DESIGN, "prob": "size"}, "3.3 unknown key prob"),
            ({**self.DESIGN, "a row 5 column x": 1}, "3.3 unknown key a row 5 column x"),
            ({"version": 1, "method": "pivotal", "n": 2}, "3.4 missing key id"),
            ({**self.DESIGN, "n": True}, "3.5 bad value of n"),
            ({**self.DESIGN, "near": ["size"]}, "3.6 near clashes with method"),
            (self.path("no.toml", "version"), "3.1 design isn't TOML"),
        ):
            for command in sampler.check, sampler.probs, sampler.draw, sampler.joint:
                line = "error " + line.removeprefix("error ")
                with self.subTest(line):
                    with self.assertRaises(sampler.Refusal) as caught:
                        command(design, self.FRAME)
                    self.assertEqual((caught.exception.code, caught.exception.row, caught.exception.column), (3, None, None))
                    self.assertIn(caught.exception.line, (line, "error 3.6 method clashes with near"))

    def test_4(self):
        frame = lambda *rows: [{"id": id, "size": size} for id, size in rows]
        odd = "a row 5\ncolumn x, isn't UTF-8"
        for rows, line, row, column in (
            ([], "4.1 no header", None, None),
            ([{"id": "a"}], "4.2 missing column size", None, "size"),
            ([{"Id": "a", "size": 1}], "4.2 missing column id", None, "id"),
            ([{"other": None}], "4.2 missing column id", None, "id"),
            (self.path("repeated.csv", "id,size,size\na,1,1\n"), "4.3 repeated column size", None, "size"),
            (self.path("short.csv", "id,size\na,1\nb\n"), "4.4 length of row 2", 2, None),
            (frame(("a", 1), ("b", "1.5")), "4.5 no number in row 2 column size", 2, "size"),
            (frame(("a", 2**31)), "4.6 number too large in row 1 column size", 1, "size"),
            (frame(("a", 1), ("b", 1), ("a", 1)), "4.7 repeated id in row 3", 3, None),
            (self.path("no.csv", "id,size\n"), "4.10 no rows", None, None),
        ):
            for command in sampler.check, sampler.draw:
                self.refused(4, "error " + line, command, self.DESIGN, rows, row=row, column=column)
        with open(self.path("latin.csv"), "wb") as file:
            file.write(b"id,size\na,1\n\xe9,1\n")
        self.refused(4, "error 4.9 row 2 isn't UTF-8", sampler.draw, self.DESIGN, self.path("latin.csv"), row=2)
        self.refused(4, f"error 4.5 no number in row 1 column {odd}", sampler.draw, {**self.DESIGN, "size": odd}, [{"id": "a", odd: "x"}], row=1, column=odd)
        self.refused(4, f"error 4.2 missing column {odd}", sampler.draw, {**self.DESIGN, "size": odd}, self.FRAME, column=odd)
        panel = {"version": 2, "method": "pivotal", "id": "id", "prob": "p"}
        self.refused(4, "error 4.11 no fraction in row 2 column p", sampler.probs, panel, [{"id": "a", "p": 1}, {"id": "b", "p": "0.5"}], row=2, column="p")
        self.refused(4, "error 4.12 no probability in row 1 column p", sampler.probs, panel, [{"id": "a", "p": Fraction(3, 2)}], row=1, column="p")

    def test_4_of_too_many_rows(self):
        self.refused(4, "error 4.8 too many rows", sampler.check, {"version": 1, "method": "systematic", "id": "id", "n": 1}, [{"id": i} for i in range(200001)])

    def test_5(self):
        self.refused(5, "error 5.4 5 asked of 4: ", sampler.draw, {**self.DESIGN, "n": 5}, self.FRAME)
        self.refused(5, "error 5.7 sum 17/10 isn't whole: repair", sampler.check, {**design_of("panel"), "method": "brewer"}, rows_of("panel"))

    def test_6_to_9(self):
        self.refused(6, "error 6 tape line 2 isn't a number", sampler.draw, self.DESIGN, self.FRAME, tape=self.path("tape.txt", "0\n3x\n"))
        self.refused(7, "error 7 tape ends after 2", sampler.draw, self.DESIGN, self.FRAME, tape=[0, 0])
        self.refused(8, "error 8 tape value 1 is 9, bound 3", sampler.draw, self.DESIGN, self.FRAME, tape=[9])
        self.refused(9, "error 9 tape has 2 more", sampler.draw, self.DESIGN, self.FRAME, tape=[0, 0, 0, 0, 2**128 - 1], record=self.path("record"))
        self.assertFalse(os.path.exists(self.path("record")))

    def test_10_and_14(self):
        with self.program("[ $1 = check ] && exec PROGRAM \"$@\"\necho 'error 10 rejected 256 times below 3'\nexit 10\n"):
            self.refused(10, "error 10 rejected 256 times below 3", sampler.draw, self.DESIGN, self.FRAME)
        with self.program("exit 14\n"):
            self.assertEqual(str(self.refused(14, "", sampler.draw, self.DESIGN, self.FRAME)), "memory ran out")

    def test_11(self):
        log = example("schools", "log.txt")
        self.refused(11, "error 11 log differs at line 2", sampler.replay, example("schools", "sizes.toml"), example("schools", "frame.csv"), log)
        self.refused(11, "error 11 log differs at line 3", sampler.replay, example("schools", "design.toml"), rows_of("schools"), log)

    def test_12_and_13(self):
        with self.program("[ $1 = draw ] && rm frame.csv\nexec PROGRAM \"$@\"\n"):
            self.refused(12, "", sampler.draw, self.DESIGN, self.FRAME, record=self.path("record"))
        with self.program("[ $1 = draw ] && exec >/dev/full\nexec PROGRAM \"$@\"\n"):
            self.refused(13, "", sampler.draw, self.DESIGN, self.FRAME, record=self.path("record"))
        self.assertFalse(os.path.exists(self.path("record")))

    def test_16_to_18(self):
        self.refused(16, "error 16 stratum 5 of 4", sampler.replay, design_of("schools"), rows_of("schools"), example("schools", "log.txt"), stratum=5)
        self.refused(17, "error 17 joint probabilities need systematic selection in frame order", sampler.joint, self.DESIGN, self.FRAME)
        self.refused(18, "error 18 2001 rows, at most 2000", sampler.joint, {"version": 1, "method": "systematic", "id": "id", "n": 1}, [{"id": i} for i in range(2001)])

    def test_others(self):
        with self.program("kill -9 $$\n"):
            self.assertIn("-9", str(self.refused(-9, "", sampler.check, self.DESIGN, self.FRAME)))
        for missing in (self.path("none.toml"), self.FRAME), (self.DESIGN, self.path("none.csv")):
            with self.assertRaises(FileNotFoundError):
                sampler.draw(*missing, record=self.path("record"))
        for frame in {"id": ["a"], "size": [1]}, [1, 2], 5:
            with self.assertRaises(TypeError):
                sampler.check(self.DESIGN, frame)
        os.environ["SAMPLER"] = self.path("no program")
        try:
            with self.assertRaises(FileNotFoundError):
                sampler.check(self.DESIGN, self.FRAME)
        finally:
            os.environ["SAMPLER"] = PROGRAM
        again = pickle.loads(pickle.dumps(sampler.Refusal(4, "error 4.4 length of row 2")))
        self.assertEqual((again.code, again.line, again.row), (4, "error 4.4 length of row 2", 2))


class Texts(Case):
    """Texts go through unchanged, wherever they stand."""

    def test_of_a_frame(self):
        frame = [{"the, \"id\"\n": text, "group": ODD[place % 5], "\ufeffsize": place % 3 + 1, "else": text, "also": None} for place, text in enumerate(ODD)]
        design = {"version": 1, "method": "systematic", "id": "the, \"id\"\n", "stratum": "group", "size": "\ufeffsize",
                  "sizes": {text: len(ODD[place::5]) for place, text in enumerate(ODD[:5])}}
        record = self.path("; touch 'x' $(y) \"é\"")
        drawn = sampler.draw(design, frame, record=record)
        self.assertEqual(drawn.sample, [{**row, "weight": 1} for row in frame])
        self.assertEqual(content(os.path.join(record, "sample.csv")), texts([("id", "weight"), *((text, "1/1") for text in ODD)]))
        self.assertEqual([unit.id for unit in sampler.probs(design, frame)], ODD)
        again = sampler.replay(os.path.join(record, "design.toml"), os.path.join(record, "frame.csv"), os.path.join(record, "log.txt"))
        self.assertEqual([row["the, \"id\"\n"] for row in again.sample], ODD)
        self.assertEqual(sorted(os.listdir(self.folder)), sorted(["passing files", os.path.basename(record)]))

    def test_of_one_column(self):
        design = {"version": 1, "method": "systematic", "id": "", "n": len(ODD)}
        self.assertEqual([row[""] for row in sampler.draw(design, [{"": text} for text in ODD]).sample], ODD)

    def test_a_zero_byte(self):
        self.assertEqual(sampler.draw({"version": 1, "method": "systematic", "id": "\0", "n": 1}, [{"\0": "a\0"}]).sample, [{"\0": "a\0", "weight": 1}])

    def test_the_bytes(self):
        """The same as those that the R package writes."""
        record = self.path("record")
        sampler.draw({"version": 1.0, "method": "cube", "id": "id", "size": "size", "balance": ["x"], "n": 1, "second": {"psu": "p \"\\\t", "method": "pivotal", "n": 1}},
                     [{"x": -5, "more": 1, "id": "a \"b\"", "size": 12.0, "p \"\\\t": "é"}], record=record)
        self.assertEqual(content(os.path.join(record, "frame.csv")).decode(), '"id","p ""\\\t","size","x"\n"a ""b""","é",12,-5\n')
        self.assertEqual(content(os.path.join(record, "design.toml")).decode(),
                         'version = 1\nmethod = "cube"\nid = "id"\nsize = "size"\nbalance = ["x"]\nn = 1\n\n[second]\npsu = "p \\"\\\\\\u0009"\nmethod = "pivotal"\nn = 1\n')

    def test_files(self):
        """A file's rows are found whatever its quotes and line ends."""
        text = '\ufeff\ufeffid,note\r\n"a ""b""\r\nc", x \r\r\n\nd"e"",f"\n"",g\r"h"i,"j"k\n,l"'.replace('\n"",g', '\nm"",g')
        ids = [unit.id for unit in sampler.probs({"version": 1, "method": "systematic", "id": "id", "n": 1}, self.path("frame.csv", text))]
        drawn = sampler.draw({"version": 1, "method": "systematic", "id": "id", "n": len(ids)}, self.path("frame.csv"))
        self.assertEqual([row["id"] for row in drawn.sample], ids)
        self.assertEqual(ids[0], 'a "b"\r\nc')


class Toml(Case):
    """tomllib reads the design that was given."""

    def test_all_keys(self):
        first = {"version": 1, "method": "pivotal", "id": "id", "stratum": "s", "size": "z", "n": 200000, "order": "random"}
        for design in (
            first,
            {**first, "sizes": {text: place for place, text in enumerate(ODD)}},
            {**first, "version": 2, "method": "local_cube", "balance": ["x", "y", *ODD], "near": ODD, "prob": "p"},
            {**first, "second": {"psu": "village", "method": "elimination", "n": 4, "size": "persons"}, "sizes": {"a": 1}},
            {"near": [], "sizes": {}, "n": -1, "order": True, "balance": [["a", 1], {"b": {"c": [False]}, "d e": 2}], "é": "\0"},
            *({key: text, text: key} for key in first for text in ODD + [chr(code) for code in range(160)]),
        ):
            self.assertEqual(tomllib.loads(sampler.toml(design)), design)

    def test_values(self):
        self.assertEqual(sampler.toml({"n": 6.0}), "n = 6\n")
        for value in 2.5, float("nan"), None, 2.0**53, Fraction(1, 2), object(), [1.5], {"n": None}:
            with self.assertRaises(sampler.BadValue) as caught:
                sampler.toml({"key": value})
            self.assertEqual((caught.exception.column.split(".")[0], caught.exception.row), ("key", None))
            self.assertIn("key", str(caught.exception))


class Values(Case):
    """Numbers are whole, and nothing is guessed."""

    DESIGN = {"version": 1, "method": "pivotal", "id": "id", "size": "size", "n": 1}

    def frame(self, *sizes):
        return [{"id": place, "size": size, "else": 0.5} for place, size in enumerate(sizes, 1)]

    def test_accepted(self):
        self.assertEqual(sampler.probs(self.DESIGN, self.frame(1, 2.0, "3", "04", -0.0)), [(f"{n + 1}", Fraction(size, 10)) for n, size in enumerate((1, 2, 3, 4, 0))])
        panel = {"version": 2, "method": "pivotal", "id": "id", "prob": "size"}
        probabilities = [unit.probability for unit in sampler.probs(panel, self.frame(Fraction(1, 3), Fraction(1), "2/6", 0, 1.0))]
        self.assertEqual(probabilities, [Fraction(1, 3), 1, Fraction(1, 3), 0, 1])
        sample = sampler.draw({**self.DESIGN, "n": 2}, self.frame(1.0, 1)).sample
        self.assertEqual(sample, [{"id": 1, "size": 1.0, "else": 0.5, "weight": 1}, {"id": 2, "size": 1, "else": 0.5, "weight": 1}])

    def test_refused(self):
        for value in 0.5, float("inf"), float("-inf"), float("nan"), None, 2.0**53, -2.0**53, True, 1j, b"1", [], "\ud800":
            for command in sampler.check, sampler.probs, sampler.joint, sampler.draw:
                with self.assertRaises(sampler.BadValue) as caught:
                    command(self.DESIGN, self.frame(1, "2", value))
                self.assertEqual((caught.exception.column, caught.exception.row), ("size", 3))
                self.assertIn("column size, row 3", str(caught.exception))
        with self.assertRaises(sampler.BadValue):
            sampler.check(self.DESIGN, [{"id": 1, "size": 1}, {"id": 2}])

    def test_a_column_weight(self):
        for frame in [{"id": 1, "size": 1, "weight": 5}], self.path("frame.csv", "id,size,weight\na,1,5\n"):
            self.assertEqual(sampler.check(self.DESIGN, frame)[:2], (1, 1))
            with self.assertRaises(sampler.BadValue):
                sampler.draw(self.DESIGN, frame)

    @unittest.skipUnless(pandas, "pandas isn't there")
    def test_pandas(self):
        frame = pandas.DataFrame({"id": ["a", "b", "c"], "size": [1.0, 2.0, 3.0], "else": [0.5, None, 1]}, index=[7, 7, 8])
        drawn = sampler.draw({**self.DESIGN, "n": 2}, frame)
        self.assertEqual([drawn.sample.index.isin([7, 8]).all(), list(drawn.sample.columns)], [True, ["id", "size", "else", "weight", "weight_float"]])
        for values, kind in (([1, None, 3], "Int64"), ([1, None, 3], "category"), ([1, None, 3], float), ([1, pandas.NaT, 3], object), ([1, 2.5, 3], float),
                             ([1, True, 3], object)):
            with self.assertRaises(sampler.BadValue) as caught:
                sampler.draw(self.DESIGN, frame.assign(size=pandas.Series(values, dtype=kind, index=frame.index)))
            self.assertEqual((caught.exception.column, caught.exception.row), ("size", 2))
        self.assertEqual(sampler.check(self.DESIGN, frame.assign(id=pandas.Categorical(["a", "b", "c"]), size=pandas.array([1, 2, 3], dtype="Int64")))[:2], (3, 1))


if __name__ == "__main__":
    unittest.main()
