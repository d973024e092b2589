"""What the tests of the Python package share.

The tests run without installing anything, over the package beside them; with SAMPLER_INSTALLED in the environment they take the installed one. The
program is that of the environment's SAMPLER, or else the one at the top of the repository, or of the archive. The codes 12 and 13 are those of the program,
whose frame is taken away and whose output is full; 10 and 14, which can't be brought about by what a client gives, come from a script in its place.
"""
import contextlib
import csv
import os
import re
import stat
import sys
import tempfile
import tomllib
import unittest
from fractions import Fraction

HERE = os.path.dirname(os.path.abspath(__file__))
ROOT = os.path.dirname(os.path.dirname(os.path.dirname(HERE)))
sys.dont_write_bytecode = True
if not os.environ.get("SAMPLER_INSTALLED"):
    sys.path.insert(0, os.path.dirname(HERE))
import sampler

os.environ["SAMPLER"] = os.path.abspath(os.environ.get("SAMPLER") or os.path.join(ROOT, "sampler"))
PROGRAM = os.environ["SAMPLER"]
try:
    import pandas
except ImportError:
    pandas = None

RECORD = ["design.toml", "frame.csv", "log.txt", "sample.csv", "report.txt", "weights.csv", "versions.txt"]
DRAWN = ["farms", "businesses", "plots", "shops", "mills", "harbours", "parishes", "woods", "schools", "villages", "panel", "bridges"]
# Texts that a spreadsheet, a shell or a program may trip over.
ODD = ["", " ", " a", "a ", "a,b", 'a"b', '"', '""', '"a"', "a\nb", "a\rb", "a\r\nb", "\n", "\r", "\t", "\ufeff", "\ufeffa", "é", "Ωмβ 漢字", "🐄", "a\u0301",
       "\u2028", "\x85", "\x01", "\x7f", "#a", "=1+1", "'", "`id`", "$(id)", "; rm x", "\\", "\\n", "NA", "NaN", "null", "TRUE", "1e5", "012", "-", "--", "x" * 200000]


def example(name, file):
    return os.path.join(ROOT, "examples", name, file)


def content(path):
    with open(path, "rb") as file:
        return file.read()


def rows_of(name):
    with open(example(name, "frame.csv"), encoding="utf-8-sig", newline="") as file:
        return list(csv.DictReader(file))


def design_of(name, file="design.toml"):
    return tomllib.loads(content(example(name, file)).decode())


def fraction(value):
    return f"{value.numerator}/{value.denominator}"


def texts(rows):
    """Rows of texts as the program writes them."""
    plain = [[fraction(value) if isinstance(value, Fraction) else value for value in row] for row in rows]
    return "".join(",".join('"' + value.replace('"', '""') + '"' if re.search('[",\r\n]', value) else value for value in row) + "\n" for row in plain).encode()


class Case(unittest.TestCase):
    """Each test has a folder of its own, and one for passing files, in which nothing may be left."""

    def setUp(self):
        self.folder = self.enterContext(tempfile.TemporaryDirectory())
        self.passing = os.path.join(self.folder, "passing files")
        os.mkdir(self.passing)
        before, tempfile.tempdir = tempfile.tempdir, self.passing
        self.addCleanup(setattr, tempfile, "tempdir", before)

    def tearDown(self):
        self.assertEqual(os.listdir(self.passing), [])

    def path(self, name, text=None):
        path = os.path.join(self.folder, name)
        if text is not None:
            with open(path, "wb") as file:
                file.write(text.encode())
        return path

    @contextlib.contextmanager
    def program(self, script):
        """A script in the place of the program, whose path PROGRAM stands for."""
        path = self.path("it's $HOME; `a` program", "#!/bin/sh\n" + script.replace("PROGRAM", "'" + PROGRAM.replace("'", "'\\''") + "'"))
        os.chmod(path, stat.S_IRWXU)
        os.environ["SAMPLER"] = path
        try:
            yield
        finally:
            os.environ["SAMPLER"] = PROGRAM

    def refused(self, code, line, command, *given, row=None, column=None, **named):
        with self.assertRaises(sampler.Refusal) as caught:
            command(*given, **named)
        refusal = caught.exception
        self.assertEqual((refusal.code, refusal.line, refusal.row, refusal.column), (code, line, row, column))
        self.assertTrue(str(refusal))
        return refusal
