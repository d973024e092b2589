"""Tests of a record, of seeds, of the program that is found, and of what is taken without a guess.

    python3 -B clients/python/tests/test_record.py
"""
import contextlib
import csv
import decimal
import hashlib
import os
import shutil
import subprocess
import sys
import unittest
import warnings
from fractions import Fraction

from support import PROGRAM, Case, content, design_of, example, pandas, rows_of, sampler

DESIGN = {"version": 1, "method": "pivotal", "id": "id", "size": "size", "n": 2}
FRAME = [{"id": name, "size": size} for name, size in zip(("a", 'b "c",', "d\ne", "="), (1, 2, 3, 1))]


def digest(path):
    return hashlib.sha256(content(path)).hexdigest()


class Records(Case):
    def test_weights(self):
        record = self.path("record")
        drawn = sampler.draw(DESIGN, FRAME, seed="0" * 64, record=record)
        with open(os.path.join(record, "weights.csv"), encoding="utf-8", newline="") as file:
            rows = list(csv.DictReader(file))
        self.assertEqual([(row["id"], Fraction(row["weight_exact"])) for row in rows], [(row["id"], row["weight"]) for row in drawn.sample])
        for row in rows:
            self.assertEqual(row["weight_rounded"], f"{float(Fraction(row['weight_exact'])):.12g}")
        frame = [{"id": name, "size": size} for name, size in (("a", 3), ("b", 5), ('c "d"', 7))]
        sampler.draw({**DESIGN, "n": 1, "method": "systematic"}, frame, tape=[14], record=self.path("sevenths"))
        self.assertEqual(content(self.path("sevenths/weights.csv")).decode(), '"id","weight_exact","weight_rounded"\n"c ""d""","15/7",2.14285714286\n')

    def test_versions(self):
        record = self.path("record")
        files = example("schools", "design.toml"), example("schools", "frame.csv")
        sampler.draw(*files, seed="0" * 64, record=record)
        lines = content(os.path.join(record, "versions.txt")).decode().splitlines()
        package = os.path.dirname(sampler.__file__)
        own = subprocess.run("sha256sum *.py | sha256sum", shell=True, cwd=package, capture_output=True, text=True, env={**os.environ, "LC_ALL": "C"}).stdout[:64]
        program = sampler.program()
        self.assertEqual(lines, [f"{digest(PROGRAM)}  program {program.version or 'unknown'}", f"{own}  python {sampler.__version__}",
                                 f"{digest(files[0])}  design design.toml", f"{digest(files[1])}  frame frame.csv"])
        log = content(os.path.join(record, "log.txt")).decode().splitlines()
        self.assertEqual(log[1:3], [f"design {digest(files[0])}", f"frame {digest(files[1])}"])
        sampler.replay(design_of("schools"), files[1], self.replayable(), record=self.path("again"))
        lines = content(self.path("again/versions.txt")).decode().splitlines()
        self.assertEqual([line.split("  ")[1].split()[0] for line in lines], ["program", "python", "frame"])

    def replayable(self):
        sampler.draw(design_of("schools"), example("schools", "frame.csv"), seed="0" * 64, record=self.path("before"))
        return self.path("before/log.txt")

    def test_a_name_with_a_line_end(self):
        shutil.copyfile(example("farms", "frame.csv"), self.path("a\nb\\.csv"))
        sampler.draw(example("farms", "design.toml"), self.path("a\nb\\.csv"), record=self.path("record"))
        self.assertTrue(content(self.path("record/versions.txt")).decode().endswith("  frame a\\nb\\\\.csv\n"))


class Seeds(Case):
    def test_a_sentence(self):
        sentence = "Lottery of 5 December 2026: 4 11 19 28 33 47"
        self.assertEqual(sampler.seed_of(sentence), content(example("businesses", "seed.txt")).decode().strip())
        self.assertEqual(sampler.seed_of("é"), hashlib.sha256("é".encode()).hexdigest())
        with self.assertRaises(TypeError):
            sampler.seed_of(5)

    def test_refused_in_words(self):
        for bad in 1, 1.5, True, b"0" * 64, "0" * 63, "0" * 64 + "\n", ["0" * 64]:
            with self.assertRaisesRegex(ValueError, "64 hexadecimal digits.*seed_of"):
                sampler.draw(DESIGN, FRAME, seed=bad)


class Programs(Case):
    @contextlib.contextmanager
    def called(self, **environment):
        before = {name: os.environ.get(name) for name in environment}
        for name, value in environment.items():
            os.environ.pop(name, None) if value is None else os.environ.__setitem__(name, value)
        try:
            yield
        finally:
            for name, value in before.items():
                os.environ.pop(name, None) if value is None else os.environ.__setitem__(name, value)

    def copy(self, folder, **files):
        """A program of its own in a folder, with files beside it."""
        os.makedirs(self.path(folder))
        path = self.path(f"{folder}/sampler", "#!/bin/sh\nexec '" + PROGRAM + f"' \"$@\" # {folder}\n")
        os.chmod(path, 0o755)
        for name, text in files.items():
            self.path(f"{folder}/{name}", text)
        return path

    def test_unknown(self):
        with self.called(SAMPLER=self.copy("alone")), warnings.catch_warnings():
            warnings.simplefilter("error")
            self.assertEqual(sampler.program(), (self.path("alone/sampler"), digest(self.path("alone/sampler")), None, None))
            self.assertEqual(sampler.check(DESIGN, FRAME).units, 4)

    def test_by_a_file_beside(self):
        for folder, files in ("build", {"BUILD": f"version {sampler.__version__}\ncommit 0\n", "VERSION": "0.0.1\n"}), ("version", {"VERSION": f"{sampler.__version__}\n"}):
            with self.called(SAMPLER=self.copy(folder, **files)), warnings.catch_warnings():
                warnings.simplefilter("error")
                self.assertEqual(sampler.program()[2:], (sampler.__version__, self.path(f"{folder}/{folder.upper()}")))

    def test_by_the_pages(self):
        """As Debian's package has them."""
        program = self.copy("usr/bin")
        os.makedirs(self.path("usr/share/doc/sampler"))
        self.path("usr/share/doc/sampler/VERSION", f"{sampler.__version__}\n")
        with self.called(SAMPLER=program):
            self.assertEqual(sampler.program()[2:], (sampler.__version__, self.path("usr/share/doc/sampler/VERSION")))

    def test_another_version(self):
        with self.called(SAMPLER=self.copy("older", VERSION="0.1.0\n")):
            with self.assertWarnsRegex(sampler.VersionWarning, f"version 0.1.0, and this package {sampler.__version__}"):
                sampler.check(DESIGN, FRAME)

    def test_by_its_digest(self):
        """In a copy of the package that knows a program, and one that brings it."""
        package = self.path("lib/sampler")
        shutil.copytree(os.path.dirname(sampler.__file__), package, ignore=shutil.ignore_patterns("__pycache__", "bin", "known.txt", "VERSION"))
        self.path("lib/sampler/VERSION", "7.8.9\n")
        program = self.copy("known")
        self.path("lib/sampler/known.txt", f"{digest(program)} 7.8.8 elsewhere\n")
        tell = "import warnings; warnings.simplefilter('ignore'); import sampler; print(*sampler.program(), sampler.__version__, sep='|')"
        told = lambda **more: subprocess.run([sys.executable, "-B", "-c", tell], capture_output=True, text=True, cwd=self.folder,
                                             env={"PYTHONPATH": self.path("lib"), "PATH": os.environ["PATH"], **more})
        self.assertEqual(told(SAMPLER=program).stdout, f"{program}|{digest(program)}|7.8.8|SHA-256|7.8.9\n")
        shutil.copytree(self.path("known"), self.path("lib/sampler/bin"))
        brought = self.path("lib/sampler/bin/sampler")
        self.assertEqual(told().stdout, f"{brought}|{digest(brought)}|7.8.8|SHA-256|7.8.9\n")
        os.remove(brought)
        self.assertIn("no program sampler", told(PATH=self.path("none")).stderr)
        self.assertEqual(told(PATH=self.path("known")).stdout.split("|")[0], program)


class Taken(Case):
    """What is given in another form is taken where no guess is needed."""

    def test_names(self):
        for names in ["x", "y"], ("x", "y"), iter(["x", "y"]), {"x": 1, "y": 2}.keys():
            self.assertEqual(sampler.toml({"balance": names}), 'balance = ["x", "y"]\n')
        self.assertEqual(sampler.toml({"near": "x", "id": "x"}), 'near = ["x"]\nid = "x"\n')
        with self.assertRaisesRegex(sampler.BadValue, "balance: a set has no order"):
            sampler.toml({"balance": {"x", "y"}})

    def test_keys(self):
        self.assertEqual(sampler.toml({"sizes": {1: 3, 2.0: 4, "a b": 5}}), '\n[sizes]\n1 = 3\n2 = 4\n"a b" = 5\n')
        frame = [{"id": place, "group": place % 2 + 1} for place in range(10)]
        design = {"version": 1, "method": "systematic", "id": "id", "stratum": "group", "sizes": {1: 2, 2: 3}}
        self.assertEqual(sampler.draw(design, frame).selected, 5)
        for bad in 1.5, None, True, (1, 2):
            with self.assertRaisesRegex(sampler.BadValue, "sizes"):
                sampler.toml({"sizes": {bad: 3}})
        with self.assertRaisesRegex(sampler.BadValue, "sizes.a"):
            sampler.toml({"sizes": {"a": 1.5}})

    def test_decimals(self):
        frame = [{"id": place, "p": decimal.Decimal(text)} for place, text in enumerate(("0.25", "0.75", "1.0", "0", "1E+0"))]
        panel = {"version": 2, "method": "pivotal", "id": "id", "prob": "p"}
        self.assertEqual([unit.probability for unit in sampler.probs(panel, frame)], [Fraction(1, 4), Fraction(3, 4), 1, 0, 1])
        self.assertEqual(sampler.toml({"n": decimal.Decimal("3.00")}), "n = 3\n")
        for bad in decimal.Decimal("NaN"), decimal.Decimal("Infinity"):
            with self.assertRaises(sampler.BadValue):
                sampler.probs(panel, [{"id": 1, "p": bad}])
        with self.assertRaises(sampler.Refusal) as caught:
            sampler.check(DESIGN, [{"id": 1, "size": decimal.Decimal("2.5")}])
        self.assertEqual(caught.exception.line, "error 4.5 no number in row 1 column size")

    def test_refused_by_name(self):
        for value, words in (True, "texts, such as 'yes'"), (0.068, "a text such as '1/3'"), ([1] * 100, "a value of type list"):
            with self.assertRaisesRegex(sampler.BadValue, f"column size, row 2: .*{words}"):
                sampler.check(DESIGN, [{"id": 1, "size": 1}, {"id": 2, "size": value}])

    def test_the_wrong_order(self):
        for given in (FRAME, DESIGN), (self.path("frame.csv", "id,size\n"), DESIGN):
            with self.assertRaisesRegex(TypeError, "the design comes first, and then the frame"):
                sampler.draw(*given)

    @unittest.skipUnless(pandas, "pandas isn't there")
    def test_pandas(self):
        import numpy
        frame = pandas.DataFrame({"id": range(10), "group": [1, 2] * 5, "x": range(10), "y": numpy.arange(10.0)})
        with self.assertRaisesRegex(TypeError, "the design comes first"):
            sampler.check(frame, DESIGN)
        design = {"version": numpy.int64(2), "method": numpy.str_("cube"), "id": "id", "stratum": "group", "balance": frame.columns[2:],
                  "sizes": frame["group"].value_counts() // 2}
        text = sampler.toml(design)
        self.assertIn('balance = ["x", "y"]\n', text)
        self.assertIn("1 = 2\n2 = 2\n", "".join(sorted(text.splitlines(keepends=True))))
        self.assertEqual(sampler.draw(design, frame).selected, 4)
        for names in numpy.array(["x", "y"]), numpy.array(["x", "y"], dtype=object), pandas.Series(["x", "y"], index=[5, 6]):
            self.assertEqual(sampler.toml({"balance": names}), 'balance = ["x", "y"]\n')
        self.assertEqual(sampler.toml({"n": numpy.array(3)}), "n = 3\n")
        tape = numpy.array([0, 0, 0], dtype=numpy.int64)
        self.assertEqual(sampler.draw({**DESIGN, "n": 2}, FRAME, tape=tape).selected, 2)
        for values in numpy.array([1, 2]), [numpy.int8(1), numpy.float32(2)]:
            self.assertEqual(sampler.check(DESIGN, [{"id": "a", "size": values[0]}, {"id": "b", "size": values[1]}]).units, 2)
        with self.assertRaisesRegex(sampler.BadValue, "column group, row 1: True .*texts"):
            sampler.check({**design, "sizes": {"a": 1}}, frame.assign(group=frame["group"] == 1))


if __name__ == "__main__":
    unittest.main()
