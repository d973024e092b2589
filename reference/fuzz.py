"""Compares the program with the reference on random and damaged calls.

    python3 reference/fuzz.py [--program PATH] [--seed S] [COUNT]

Makes COUNT cases from the seeds S, S + 1 and so on; 200 cases from the seed 0 where nothing else is said. `--seed S 1` makes one case again alone.
A case is one call: its words, the files that stand before it, and whether standard output is a full device. The program, that of this repository
without `--program`, and the reference run it, and have to give the same exit code, the same output and the same files. Where they don't, the seed,
the words and what differs are put, the files of the case are kept in a folder whose name is put, and the exit code is 1.

Most frames and designs go together, so that draws are reached. Nearly a third of the designs of one stage have a column of probabilities, whose sums
are often whole. The tapes are made by the steps of the reference, with values of all sizes and at the borders of the parts to which they lead. Then some
cases get faults: other keys, fields and words, missing files, bytes that are changed, taken out or doubled. A tape may be too short, too long, or have a
value that its step doesn't take. A log, of either version, is one of the reference's own draws by a seed, mostly with a line, a section, a number or bytes
changed.

Python's tomllib reads TOML 1.0 but for the year 0 and the second 60, and the program reads TOML 1.1. Only this is counted apart: the reference
alone refuses the design with 3.1, the design has a `\\e`, a `\\x`, a new line or a last comma in an inline table, a time without seconds or of
second 60, or a date of year 0, and with these written as tomllib reads them both give the same.

How deep arrays and inline tables nest the reference doesn't count, so no value here passes the 80 of the program: arrays are 79 deep, and may stand in
an inline table.
"""
import argparse
import collections
import os
import random
import re
import shutil
import subprocess
import sys
import tempfile
from fractions import Fraction
from unittest import mock

sys.dont_write_bytecode = True
import run_cases
import sampler

HERE = os.path.dirname(os.path.abspath(__file__))
PROGRAM = os.path.join(HERE, "..", "crates", "sampler", "out", "sampler")
MOST_VALUES = 6000
MOST_SECONDS = 60
FOLDER = "folder"
NOT_TOML = (3, b"error 3.1 design isn't TOML\n")

ODD_TEXTS = ("", " ", "a,b", 'say "so"', "größe", "two\nlines", "two\r\nlines", "'", '"', "-", "0", "ID", "a.b", "#", "日本", "\\", "\t", "=",
             "é\u0301", "\ufeffid")
ODD_NUMBERS = ("", " ", "-", "+1", "1 ", " 1", "1.0", "1e3", "0x1", "-0", "-1", "--1", "00", "0001", "٣", "²", "2147483647", "2147483648",
               "-2147483647", "-2147483648", "4294967297", "9" * 30, "0" * 30 + "5", "\ufeff1", "1_0", "one", '"1"')
ODD_FRACTIONS = ("", " ", "/", "1/", "/2", "0.5", "50%", " 1/2", "1/2 ", "1 /2", "1/2/3", "1//2", "-1/2", "1/-2", "+1/2", "0x1/2", "1e0", "\u0661/2", "\u00bd",
                 "0", "1", "00", "01", "0/1", "1/1", "007/8", "3/6", "2/2", "0" * 40 + "1/2", "1/" + "0" * 40 + "3", "1/2147483647", "2147483646/2147483647",
                 "2147483647/2147483647", "1/65536", "1/65535", "1/0", "0/0", "3/2", "2", "2147483647", "2147483647/2147483646", "1/2147483648", "2147483648",
                 "2147483648/0", "2147483648/x", "1/" + "9" * 30, "9" * 30)
ODD_VALUES = ("true", "false", "0", "1", "-1", "+1", "2", "1.0", "1e2", "1e400", "-1e400", "1e-400", "nan", "inf", "200000", "200001", "9223372036854775807",
              "9223372036854775808", "-9223372036854775808", "-9223372036854775809", "0b1", "0o1", "0x1", "1_0", "01", "1__0", "_1", "1.", ".1",
              '""', '"cube"', '"pivotal"', '"random"', '"frame"', "'id'", '"""id"""', "'''\nid'''", '"a\nb"', "'a\nb'", '"\\u0069d"',
              '"\\U00000069d"', '"\\uD800"', '"\\t"', '"\\q"', "[]", "{}", "[[]]", "[1]", '["x"]', '["x", 1]', '["x", "x"]', '["x",]',
              '["x", # y\n"y"]', "1.7976931348623159e308", "[" * 79 + "]" * 79, "{a = 1}", "{a = 1} # b", "{a = 1, a = 2}", "{a.b = 1, a.c = 2}",
              "07:32:00", "24:00:00", "07:32:61", "1979-05-27", "0001-01-01", "1979-02-30", "1979-13-01", "1900-02-29", "2000-02-29",
              "1979-05-27T07:32:00Z", "1979-05-27 07:32:00+25:00", "1979-05-27T07:32:00.123456789123-07:00",
              # Forms that tomllib doesn't read.
              "{a = 1,}", "{a = 1,\nb = 2}", '"\\x69d"', '"\\e"', "07:32", "07:32:60", "0000-01-01")
ODD_LINES = ("n = 1", "n = 2", "version = 1", "version = 2", '"version" = 1', 'prob = "prob"', "prob = 1", 'near = ["x"]', 'balance = ["x"]', 'stratum = "id"', 'size = "id"',
             'order = "frame"', 'order = "random"', "second.n = 1", "second.extra = 1", "sizes.a = 1", "[sizes]", "[sizes.a]", "[second]",
             "[[second]]", "[second.psu]", "[a.b]\n[a]", "[a]\n[a]", "[a]\n[a.b]\n[a]", "[a.b]\n[a]\nb.c = 1", "[a]\nb.c = 1\n[a.b]", "[a]]",
             "[[a]]\n[[a]]", "[[a]]\n[a]", "a = []\n[[a]]", "a = {}\n[a.b]", "a = {}\na.b = 1", "[ a . b ]", "a.b = 1\na.c = 2", "a = 1\na.b = 2",
             "= 1", '"" = 1', "a", "a =", "a = 1 b = 2", "a = 1\ra = 2", "# remark", "# remark\x01", "# remark\x7f", "\t", "\x0b", "größe = 1",
             '"größe" = 1', '"a\\nb" = 1', "'a b' = 1")
ODD_BYTES = (b"\xff", b"\xc3", b"\xc0\x80", b"\xed\xa0\x80", b"\xf4\x90\x80\x80", b"\xef\xbb\xbf", b"\xe2\x80\xa8", b"\x00", b"\x1a", b"\x7f",
             b"\r", b"\n", b"\r\n", b",", b'"', b'""', b"'", b"-", b"0", b"9", b" ", b"#", b"=", b"[", b"]", b"{", b"}", b"\\", b".", b"_")
ODD_WORDS = (b"", b"-", b"--", b"---", b"-h", b"--help", b"-V", b"--version", b"help", b"draw", b"quick", b"probs", b"-1", b"3", b"x", b"=",
             b"-d", b"--d", b"--design", b"--frame", b"--tape", b"--seed", b"--out", b"--Design", b"--design=", b"--design=x", b"--tape=t",
             b"--seed=" + b"0" * 64, b"--log=--log", b"--sample==", b"--size=1", b"--=x", b"--stratum", b"--stratum=1", b"--to", b"--to=to", b"migrate", b"joint", b"\xff", b"--design=\xff", b"--\xff", b"\xef\xbb\xbf")
COMMANDS = ("draw", "quick", "probs", "check", "replay", "demo", "seed", "migrate", "joint")
DRAW_FILES = ("design", "frame", "tape", "log", "sample")
KINDS_OF_FAULTS = ("keys", "table", "fractions", "tape", "words", "design bytes", "frame bytes", "tape bytes", "file")


class Case:
    """The words of a call behind the program's name in bytes, the files that stand before it by their names, and whether nothing can be put."""

    def __init__(self, words, files, full):
        self.words, self.files, self.full = words, files, full


def chance(r, part):
    """True in this part of all cases."""
    return r.random() < part


# ---------------------------------------------------------------------------------------------------------------------------------------------
# Frames and designs that mostly go together


def maker_of_sizes(r):
    """A way of making sizes."""
    same, factor, most = r.randint(1, 9), r.choice((2, 3, 10, 1000)), 2 ** r.randint(4, 30)
    return r.choice((
        lambda: same,
        lambda: r.randint(1, 9),
        lambda: r.randint(1, 9),
        lambda: r.randint(1, most),
        lambda: r.randint(1, most),
        lambda: r.choice((0, 1, 2, 3, 4, 5)),
        lambda: r.choice((1, 2, 3, 4, 5, 500)),
        lambda: factor * r.randint(1, 20),
        lambda: r.randint(0, sampler.MOST_OF_A_SIZE),
        lambda: sampler.MOST_OF_A_SIZE - r.randrange(3),
    ))


def maker_of_values(r):
    """A way of making the values of a column, some from the size of the row."""
    same, factor, most = r.randint(-9, 9), r.randint(-3, 3), 2 ** r.randint(4, 30)
    return r.choice((
        lambda size: same,
        lambda size: max(-sampler.MOST_OF_A_SIZE, min(sampler.MOST_OF_A_SIZE, factor * size)),
        lambda size: r.randint(0, 1),
        lambda size: r.randint(-9, 9),
        lambda size: r.randint(-9, 9),
        lambda size: r.randint(0, most),
        lambda size: r.randint(-most, most),
        lambda size: r.randint(-most, most),
        lambda size: r.randint(-sampler.MOST_OF_A_SIZE, sampler.MOST_OF_A_SIZE),
        lambda size: r.choice((-1, 1)) * (sampler.MOST_OF_A_SIZE - r.randrange(3)),
    ))


def share_of(r, most):
    """A fraction from 0 to 1 with a denominator up to `most`, seldom one of the two ends."""
    denominator = r.randint(2, most)
    return Fraction(r.randint(0, denominator) if chance(r, 0.1) else r.randint(1, denominator - 1), denominator)


def maker_of_fractions(r):
    """A way of making probabilities."""
    common = r.choice((2, 3, 4, 6, 10, 12, 20, 60, 100, 100, 1000, 10000, 65536, 2**20, 10**6, 2**31 - 1, 2**31 - 2))
    same = share_of(r, 12)
    return r.choice((
        lambda: same,
        lambda: Fraction(r.randint(1, common - 1), common),
        lambda: Fraction(r.randint(0, common), common),
        lambda: Fraction(r.randint(1, max(1, common // 10)), common),
        lambda: share_of(r, 6),
        lambda: share_of(r, 12),
        lambda: share_of(r, 30),
        lambda: Fraction(r.randint(0, 1)),
        lambda: Fraction(1, r.choice((65535, 65536))),
        lambda: Fraction(r.choice((1, 1, 1, 0)), r.choice((2, 3, 32768, 65535))),
    ))


def made_whole(r, fractions):
    """Fractions whose sum is whole: one of them is made what the others leave of it."""
    place = r.randrange(len(fractions))
    rest = -sum(fractions[:place] + fractions[place + 1 :]) % 1
    return fractions[:place] + [rest] + fractions[place + 1 :]


def texts(r, front, count):
    """Different texts, mostly plain ones."""
    found = [f"{front}{place}" for place in range(count)]
    if chance(r, 0.2):
        for text in r.sample(ODD_TEXTS, min(count, r.randint(1, 3))):
            found[r.randrange(count)] = text
    return list(dict.fromkeys(found)) if len(set(found)) == count else [f"{front}{place}" for place in range(count)]


class World:
    """A frame as a header and rows of texts, and a design as the written values of its keys, its tables apart: any, or one that has joint probabilities."""

    def __init__(self, r, has_joints):
        self.version = r.randint(1, 2)
        self.has_joints = has_joints
        methods = (*sampler.METHODS[self.version], "cube", sampler.METHODS[self.version][-1])
        self.method = "systematic" if has_joints else r.choice(methods)
        count = r.choice((1, 2, 3, 4, 5, 6, 7, 8, 10, 12, 14, 16, 20, 30, 60))
        self.across = self.method in sampler.IN_ONE_TREE
        self.two = self.method not in sampler.SPREADING and not self.across and not has_joints and chance(r, 0.4)
        self.given = self.version == 2 and not self.two and chance(r, 0.6)
        self.balanced = self.balanced_count(r, count)
        self.columns = self.balanced + (r.choice((1, 2, 2, 3, 4)) if self.method in sampler.SPREADING else 0)
        self.layout(r, count)
        self.fractions = self.probabilities(r, count)
        self.fill(r, count)
        self.describe(r)

    def balanced_count(self, r, count):
        """The number of columns of `balance`."""
        if self.method not in sampler.BALANCING:
            return 0
        return r.choice((1, 1, 1, 2, 2, 3) if count <= 10 else (1, 1, 2, 2, 3, 4, 5, 6)) if chance(r, 0.97) else 15

    def layout(self, r, count):
        """The stratum and the first stage unit of each row, by their places."""
        units = r.randint(1, max(1, count // r.choice((1, 2, 2, 3)))) if self.two else count
        self.unit_of = [place % units for place in range(count)] if chance(r, 0.3) else sorted(place % units for place in range(count))
        if chance(r, 0.3):
            self.unit_of = [r.randrange(units) for _ in range(count)]
        self.strata = r.randint(1, max(1, min(r.choice((3, 8, 15)) if self.across else 5, units // 2))) if chance(r, 0.9 if self.across else 0.6) else 0
        stratum_of_unit = [r.randrange(max(1, self.strata)) for _ in range(units)]
        self.stratum_of = [stratum_of_unit[unit] for unit in self.unit_of]
        if chance(r, 0.1):
            self.stratum_of[r.randrange(count)] = r.randrange(max(1, self.strata))

    def probabilities(self, r, count):
        """The probability of each row. Most strata have a whole sum where the method needs one, and half of them elsewhere."""
        fractions = [None] * count
        often = 0.9 if self.method in sampler.WHOLE_METHODS else 0.5
        for stratum in set(self.stratum_of):
            maker, places = maker_of_fractions(r), [place for place in range(count) if self.stratum_of[place] == stratum]
            own = [maker() for _ in places]
            for place, fraction in zip(places, made_whole(r, own) if chance(r, often) else own):
                fractions[place] = fraction
        return fractions

    def fill(self, r, count):
        """The header and the rows."""
        kinds = ["id", "stratum", "psu", "size", "second", "more", "prob"]
        names = texts(r, "c", 7 + self.columns) if chance(r, 0.3) else kinds + [f"x{place}" for place in range(self.columns)]
        self.names = dict(zip(kinds, names))
        self.values = names[7:]
        self.unit_names, self.stratum_names = texts(r, "p", count), texts(r, "s", max(1, self.strata))
        size, second, values = maker_of_sizes(r), maker_of_sizes(r), [maker_of_values(r) for _ in range(self.columns)]
        self.sizes, self.second_sizes = [size() for _ in range(count)], [second() for _ in range(count)]
        places = list(range(len(names)))
        if chance(r, 0.5):
            r.shuffle(places)
        rows = []
        for number, identity in enumerate(texts(r, "u", count)):
            whole = [identity, self.stratum_names[self.stratum_of[number]], self.unit_names[self.unit_of[number]], str(self.sizes[number]),
                     str(self.second_sizes[number]), str(r.randrange(100)), written_fraction(r, self.fractions[number])] + [str(value(self.sizes[number])) for value in values]
            rows.append([whole[place] for place in places])
        self.header, self.rows = [names[place] for place in places], rows

    def describe(self, r):
        """The keys of the design."""
        sized = not self.given and chance(r, 0.6)
        self.keys = {"version": str(self.version), "method": written_text(r, self.method), "id": written_text(r, self.names["id"])}
        self.tables = {}
        positive = collections.defaultdict(set)
        units = collections.defaultdict(set)
        for number, unit in enumerate(self.unit_of):
            units[self.stratum_of[number]].add(unit)
            if self.sizes[number] or not sized:
                positive[self.stratum_of[number]].add(unit)
        if sized:
            self.keys["size"] = written_text(r, self.names["size"])
        if self.strata:
            self.keys["stratum"] = written_text(r, self.names["stratum"])
        if self.given:
            self.keys["prob"] = written_text(r, self.names["prob"])
        elif self.strata and chance(r, 0.5):
            self.tables["sizes"] = {}
            for place in units:
                if not chance(r, 0.02):
                    self.tables["sizes"][self.stratum_names[place]] = written_number(r, r.randint(1, max(1, len(positive[place]) - r.randrange(2))))
        else:
            every = sum(map(len, units.values()))
            least = len(units) if chance(r, 0.9) else 1
            self.keys["n"] = written_number(r, r.randint(least, max(least, every * 2 // 3)))
        if self.method in ("pivotal", "systematic") and chance(r, 0.5):
            self.keys["order"] = written_text(r, "frame" if self.has_joints else r.choice(("random", "random", "frame")))
        for key, own, most in (("balance", self.values[: self.balanced], 15), ("near", self.values[self.balanced :], 15 if chance(r, 0.02) else 4)):
            if own:
                asked = [*own, *r.choices((*self.values, self.names["size"]), k=max(0, r.randint(-8, 2)))]
                self.keys[key] = "[" + ", ".join(written_text(r, name) for name in asked[:most]) + "]"
        if self.two:
            sized = chance(r, 0.6)
            within = collections.Counter(self.unit_of[number] for number, size in enumerate(self.second_sizes) if size or not sized)
            fewest = min(within[unit] for unit in self.unit_of)
            second = {"psu": written_text(r, self.names["psu"]), "method": written_text(r, r.choice(sampler.SECOND_METHODS[self.version])),
                      "n": written_number(r, r.randint(1, max(1, fewest)) if chance(r, 0.95) else r.randint(1, 5))}
            if sized:
                second["size"] = written_text(r, self.names["second"])
            self.tables["second"] = second


# ---------------------------------------------------------------------------------------------------------------------------------------------
# How they are written


def written_text(r, text):
    """A TOML string."""
    if chance(r, 0.2) and "'" not in text and text.isprintable():
        return f"'{text}'"
    return '"' + "".join(character if character.isprintable() and character not in '"\\' else f"\\u{ord(character):04X}" for character in text) + '"'


def written_number(r, number):
    """A TOML integer."""
    if chance(r, 0.8):
        return str(number)
    return r.choice((f"+{number}", f"{number:#x}", f"{number:#o}", f"{number:#b}", "_".join(str(number))))


def written_fraction(r, fraction):
    """A probability as a field of a frame, not always in lowest terms."""
    times = r.choice((1, 1, 1, 1, 2, 3, 10))
    numerator, denominator = fraction.numerator * times, fraction.denominator * times
    if denominator > sampler.MOST_OF_A_SIZE:
        numerator, denominator = fraction.numerator, fraction.denominator
    if fraction.denominator == 1 and chance(r, 0.5):
        return str(fraction.numerator)
    zeros = "0" * r.randint(1, 3) if chance(r, 0.05) else ""
    return f"{zeros}{numerator}/{zeros}{denominator}"


def written_key(r, key):
    """A TOML key."""
    return key if re.fullmatch("[A-Za-z0-9_-]+", key) and chance(r, 0.9) else written_text(r, key)


def written_line(r, key, value):
    """A TOML line of a key and its value."""
    equals = " = " if chance(r, 0.8) else r.choice(("=", "\t=  ", "= "))
    return key + equals + value + (" # remark" if chance(r, 0.05) else "")


def written_design(r, world, more):
    """The bytes of a design, with more lines in it."""
    lines = [written_line(r, written_key(r, key), value) for key, value in world.keys.items()]
    behind = []
    for name, table in world.tables.items():
        inner = [(written_key(r, key), value) for key, value in table.items()]
        form = r.randrange(4)
        if form == 0 or not inner:
            lines.append(written_line(r, name, "{" + ", ".join(written_line(r, key, value).partition(" #")[0] for key, value in inner) + "}"))
        elif form == 1:
            lines += [written_line(r, f"{name}.{key}", value) for key, value in inner]
        else:
            behind.append([f"[{name}]"] + [written_line(r, key, value) for key, value in inner])
    if chance(r, 0.5):
        r.shuffle(lines)
        r.shuffle(behind)
    lines += [line for table in behind for line in table]
    for line in more:
        lines.insert(r.randrange(len(lines) + 1), line)
    if chance(r, 0.2):
        lines.insert(r.randrange(len(lines) + 1), r.choice(("", "# remark", "  ")))
    return with_line_ends(r, lines, mark_allowed=True)


def with_line_ends(r, lines, mark_allowed):
    """Lines as bytes, with line ends of some form; a byte order mark may stand in front."""
    end = "\r\n" if chance(r, 0.15) else "\n"
    text = end.join(lines) + ("" if chance(r, 0.1) else end)
    marks = r.choice((1, 1, 2)) if mark_allowed and chance(r, 0.05) else 0
    return ("\ufeff" * marks + text).encode("utf-8")


def written_field(r, text, often):
    """A field of CSV, in quotes where it needs them, and in some other cases."""
    if any(character in text for character in ',"\r\n') or chance(r, often):
        return '"' + text.replace('"', '""') + '"'
    return text


def written_frame(r, header, rows):
    """The bytes of a frame."""
    often = r.choice((0, 0, 0, 0.1, 1))
    lines = []
    for fields in [header, *rows]:
        line = ",".join(written_field(r, field, often) for field in fields)
        lines.append(line if line or chance(r, 0.5) else '""')
        if chance(r, 0.01):
            lines.append("")
    return with_line_ends(r, lines, mark_allowed=True)


def written_tape(r, values):
    """The bytes of a tape."""
    zeros = 0.2 if chance(r, 0.1) else 0
    lines = [("0" * r.randint(1, 40) if zeros and chance(r, zeros) else "") + str(value) for value in values]
    return with_line_ends(r, lines, mark_allowed=chance(r, 0.05)) if lines else b""


# ---------------------------------------------------------------------------------------------------------------------------------------------
# Tapes


class Enough(Exception):
    """A draw takes more values than a case may have."""


class Chooser(sampler.Steps):
    """Chooses the value of each step of a draw, in one of several manners, and keeps those of steps with a bound of 2 or more."""

    def __init__(self, r):
        super().__init__()
        self.r, self.values, self.bounds = r, [], []
        self.manner = r.choice(("any", "any", "any", "edge", "edge", "first", "last", "bit", "low", "second", "mixed"))

    def choose(self, weights):
        """A value for a step whose parts have these weights."""
        bound = sum(weights)
        manner = self.r.choice(("any", "edge", "first", "last", "bit", "low")) if self.manner == "mixed" else self.manner
        if manner == "edge":
            value = sum(weights[: self.r.randrange(len(weights) + 1)]) - self.r.randrange(2)
        elif manner == "low":
            value = self.r.randrange(2 ** self.r.randint(1, bound.bit_length()))
        elif manner == "second":
            value = weights[0] if len(weights) == 2 else self.r.randrange(bound)
        else:
            value = {"any": self.r.randrange(bound), "first": 0, "last": bound - 1, "bit": self.r.randrange(2)}[manner]
        value = max(0, min(bound - 1, value))
        if bound > 1:
            if len(self.values) == MOST_VALUES:
                raise Enough
            self.values.append(value)
            self.bounds.append(bound)
        return value


def chosen_walk(state, chooser):
    """The walk of the reference, by values that are chosen for the weights of the parts."""
    step = state.step()
    while step is not None:
        weights = [int(weight) for weight, _ in step[1]]
        value, place = chooser.choose(weights), 0
        while value >= weights[place]:
            value -= weights[place]
            place += 1
        state = step[1][place][1]()
        step = state.step()
    return state


def chosen_tape(r, design, n, frame):
    """The values of a full tape and the bounds of their steps, cut where they are too many; bits and no bounds where no step is reached."""
    chooser = Chooser(r)
    try:
        read = sampler.read_design(design) if n is None else sampler.QUICK._replace(n=n)
        with mock.patch.object(sampler, "walk", chosen_walk):
            sampler.select(sampler.sections(sampler.plan(sampler.read_frame(frame, read), read), read), read, chooser)
    except sampler.Refusal:
        return [r.randrange(2) for _ in range(r.randrange(20))], []
    except Exception:
        # Too many values, or a fault of the reference, which is told of where it runs the case.
        pass
    return chooser.values, chooser.bounds


def spoiled_tape(r, values, bounds):
    """A tape that isn't full any more, or isn't full of bounded values."""
    values = list(values)
    form = r.randrange(4)
    if form == 0:
        del values[len(values) - r.randint(1, 3) :]
    elif form == 1:
        values += [r.choice((0, 1, 2**128 - 1)) for _ in range(r.randint(1, 3))]
    elif form == 2 and bounds:
        place = r.randrange(len(bounds))
        values[place] = bounds[place] + r.choice((0, 0, 1, 2**31, 2**64 - bounds[place] % 2**64, 2**64, 2**127))
    elif values:
        values[r.randrange(len(values))] = r.choice((2**32, 2**63, 2**64 - 1, 2**64, 2**127, 2**128 - 1, 2**128, 10**39, 10**60))
    return values


# ---------------------------------------------------------------------------------------------------------------------------------------------
# Faults


def spoiled_bytes(r, content):
    """Bytes with one or a few edits."""
    content = bytearray(content)
    for _ in range(r.choice((1, 1, 1, 2, 3, 8))):
        place = r.randrange(len(content) + 1)
        last = place + r.choice((1, 1, 1, 2, 5))
        form = r.randrange(7)
        if form == 0:
            content[place:last] = bytes(r.randrange(256) for _ in content[place:last])
        elif form == 1:
            content[place:last] = b""
        elif form == 2:
            content[place:place] = content[place:last]
        elif form == 3:
            content[place:last] = r.choice(ODD_BYTES)
        elif form == 4:
            content[place:place] = r.choice(ODD_BYTES)
        elif form == 5 and place < len(content):
            content[place] ^= 1 << r.randrange(8)
        elif chance(r, 0.1):
            del content[place:]
    return bytes(content)


def spoil_table(r, world):
    """Changes the header or rows of a frame."""
    header, rows = world.header, world.rows
    row = r.choice(rows)
    form = r.randrange(8)
    if form <= 2:
        row[r.randrange(len(row))] = r.choice(ODD_NUMBERS)
    elif form == 3:
        row[header.index(world.names["id"])] = r.choice(rows)[header.index(world.names["id"])]
    elif form == 4:
        r.choice((header, row)).append(r.choice(("", "1")))
    elif form == 5:
        r.choice((header, row)).pop()
    elif form == 6:
        header[r.randrange(len(header))] = r.choice(header if chance(r, 0.5) else ODD_TEXTS)
    else:
        del rows[r.randrange(len(rows)) :]


def spoil_fractions(r, world):
    """Changes a few probabilities of a frame to others and to what is none."""
    place = next((place for place, name in enumerate(world.header) if name == world.names["prob"]), None)
    for row in r.choices(world.rows, k=r.choice((1, 1, 2, 5))):
        if place is not None and place < len(row):
            row[place] = r.choice(ODD_FRACTIONS)


def spoil_keys(r, world):
    """Changes keys of a design. Gives lines that have to stand in it too."""
    tables = [world.keys, *world.tables.values()]
    table = r.choice(tables)
    form = r.randrange(8)
    if form == 7:
        world.keys["version"] = r.choice(("1", "2", "3", "0", "0x2", '"2"', "2.0", "true"))
    elif form == 0 and table:
        del table[r.choice(list(table))]
    elif form <= 2 and table:
        table[r.choice(list(table))] = r.choice(ODD_VALUES)
    elif form == 3:
        table[r.choice(("extra", "Extra", "psu", "near", "balance", "order", "n", "size", "stratum", "sizes", "prob", *ODD_TEXTS))] = r.choice(ODD_VALUES)
    elif form == 4:
        key = r.choice(("n", "order", "balance", "near", "sizes", "second", "prob", "size"))
        value = {"n": "1", "order": '"random"', "prob": '"prob"', "size": '"size"', "sizes": "{s0 = 1}", "second": '{psu = "psu", method = "brewer", n = 1}'}.get(key, '["size"]')
        if key not in world.tables:
            world.keys.setdefault(key, value)
    elif form == 5:
        return [f"extra = {r.choice(ODD_VALUES)}"]
    else:
        return [r.choice(ODD_LINES)]
    return []


def spoiled_words(r, words):
    """Words with one or two edits."""
    words = list(words)
    for _ in range(r.choice((1, 1, 2))):
        place = r.randrange(len(words)) if words else 0
        form = r.randrange(6)
        if form == 0:
            del words[place:place + 1]
        elif form == 1:
            words[place:place] = words[place:place + 1]
        elif form == 2:
            words[place:place + 1] = [r.choice(ODD_WORDS)]
        elif form == 3:
            words.insert(place, r.choice(ODD_WORDS))
        elif form == 4 and words:
            words[place] = r.choice(words)
        else:
            words = words[place:] + words[:place] if chance(r, 0.5) else r.sample(words, len(words))
    return words


# ---------------------------------------------------------------------------------------------------------------------------------------------
# Cases


def option_words(r, given):
    """Options with their values, in any order and of either form."""
    words = []
    for name, value in r.sample(list(given.items()), len(given)):
        front = f"--{name}".encode("ascii")
        words += [front + b"=" + value] if chance(r, 0.3) or value.startswith(b"-") and chance(r, 0.9) else [front, value]
    return words


def number_word(r, n):
    """The N of `quick` as a word, mostly this one."""
    if chance(r, 0.9):
        return str(n)
    return r.choice((f"00{n}", "0", "200000", "200001", "18446744073709551617", "+1", "-1", "", "x", "1.0", " 1", "٣"))


def stratum_word(r, strata):
    """The H of `--stratum` as a word, mostly the number of one of the strata or the next number."""
    if chance(r, 0.9):
        return str(r.choice((*range(1, strata + 1), r.randint(1, strata + 1))))
    return r.choice(("0", "00", "01", "0" * 40 + "1", "200000", "200001", "4294967297", "18446744073709551617", "+1", "-1", "", "x", "1.0", "1 ", " 1", "٣"))


def words_of(r, command, names, n, strata):
    """The words of a command with these file names."""
    name = {part: text.encode("utf-8") for part, text in names.items()}
    if command == "quick":
        words = [name["frame"], number_word(r, n).encode("utf-8"), name["tape"], name["sample"]]
        return [b"quick", *([b"--"] if any(word[:1] == b"-" for word in words) or chance(r, 0.03) else []), *words]
    if command == "demo":
        return [b"demo", str(r.choice((29, 30, 31, 40, 100001, 200000))).encode("ascii"), str(r.choice((0, 1, 2**64 - 1, 2**64))).encode("ascii")]
    logged = ("design", "frame", "log", "sample")
    parts = {"draw": DRAW_FILES, "replay": logged, "seed": logged, "migrate": ("design", "frame", "log", "to")}
    given = {part: name[part] for part in parts.get(command, ("design", "frame"))}
    if command == "replay" and chance(r, 0.5):
        given["stratum"] = stratum_word(r, strata).encode("utf-8")
    options = option_words(r, given)
    if command == "seed":
        options += [b"--seed", "".join(r.choice("0123456789abcdefABCDEF") for _ in range(r.choice((64, 64, 64, 63, 65)))).encode("ascii")]
    front = {"seed": "draw"}.get(command, command).encode("ascii")
    return [front, *options] if chance(r, 0.9) or b"--" in options else [*options, front]


def log_of(r, version, design, frame):
    """A log of this version, as the reference draws it by a seed, or its first line alone where design and frame don't go together."""
    try:
        read = sampler.read_design(design)
        draws = sampler.Seed(sampler.chacha_words(r.randbytes(32)))
        sampler.select(sampler.sections(sampler.plan(sampler.read_frame(frame, read), read), read), read, draws)
    except Exception:
        return f"sampler-log {version}\n".encode("ascii")
    return sampler.log_bytes(design, frame, draws) if version == 2 else sampler.old_log_bytes(design, frame, draws.steps)


def with_another_number(r, line):
    """A line of a log with another number, mostly its last one, or with the same in another form."""
    parts = line.rstrip(b"\n").split(b" ")
    place = len(parts) - 1 if chance(r, 0.6) else r.randrange(len(parts))
    number = int(parts[place]) if parts[place].isdigit() else 0
    odd = (number, number + 1, max(number - 1, 0), 0, 2**64 - 1, 2**64, 2**128)
    parts[place] = r.choice((b"%d", b"%d", b"%d", b"0%d", b"%d ", b"+%d", b"%d\r")) % r.choice(odd)
    return b" ".join(parts) + b"\n"


def is_mark(line):
    """Whether a line of a log is none of a step and none of the head."""
    return line.startswith((b"stratum ", b"done ", b"end "))


def shuffled_sections(r, lines):
    """A log of version 2 with its sections in another order, or with some of them alone."""
    begun = [place for place, line in enumerate(lines) if line.startswith(b"stratum ")]
    if not begun:
        return lines
    sections = [lines[first:behind] for first, behind in zip(begun, [*begun[1:], len(lines) - 1])]
    chosen = r.sample(sections, len(sections)) if chance(r, 0.6) else r.choices(sections, k=len(sections))
    return lines[: begun[0]] + [line for section in chosen for line in section] + lines[-1:]


def written_log(r, design, frame, versions):
    """A log of this design and frame of one of these versions. Mostly it has a fault."""
    log = log_of(r, r.choice(versions), design, frame)
    if chance(r, 0.35):
        return log
    lines = log.splitlines(True)
    marks = [place for place, line in enumerate(lines) if is_mark(line)]
    place = r.choice(marks) if marks and chance(r, 0.5) else r.randrange(len(lines))
    form = r.randrange(12)
    if form == 0:
        return spoiled_bytes(r, log)
    if form == 1:
        del lines[place]
    elif form == 2:
        lines[place:place] = [lines[place]]
    elif form == 3:
        del lines[place:]
    elif form == 4:
        lines += r.choice((lines, [b"x"], [b"\n"], [b"end 0\n"], [b"stratum 1 0\n"]))
    elif form == 5:
        lines[-1] = lines[-1].rstrip(b"\n")
    elif form == 6:
        other = r.choice(marks) if marks and chance(r, 0.5) else r.randrange(len(lines))
        lines[place], lines[other] = lines[other], lines[place]
    elif form == 7:
        lines = shuffled_sections(r, lines)
    elif form == 8:
        lines[0] = r.choice((b"sampler-log 1\n", b"sampler-log 2\n", b"sampler-log 3\n", b"sampler-log 02\n"))
    else:
        lines[place] = with_another_number(r, lines[place])
    return b"".join(lines)


def names_of(r):
    """The names of the files of a case."""
    names = {"design": "design.toml", "frame": "frame.csv", "tape": "tape.txt", "log": "log.txt", "sample": "sample.csv", "to": "new.txt"}
    if chance(r, 0.1):
        odd = ("-", "--", "-x", "=", "a b", "größe", "a\nb", "--frame", "x" * 246, "x" * 247, "x" * 255, '"', "\ufeff", "日本.csv")
        names[r.choice(list(names))] = r.choice(odd)
    return names


def faults_of(r):
    """The parts of a case that are spoiled."""
    if chance(r, 0.55):
        return set()
    return set(r.choices(KINDS_OF_FAULTS, (5, 4, 4, 4, 3, 3, 4, 2, 1), k=r.choice((1, 1, 1, 2))))


def made(seed):
    """The case of a seed."""
    r = random.Random(seed)
    command = r.choices(COMMANDS, (50, 10, 6, 4, 13, 1, 7, 4, 5))[0]
    faults, names, world = faults_of(r), names_of(r), World(r, command == "joint" and chance(r, 0.9))
    n = r.randint(1, max(1, len(world.rows) // 2)) if command == "quick" else None
    if n is not None and chance(r, 0.9):
        places = {world.names["id"]: "id", world.names["size"]: "size"}
        world.header = [places.get(name, "other " + name) for name in world.header]
        world.names = {**world.names, "id": "id"}
    more = spoil_keys(r, world) if "keys" in faults else []
    design = written_design(r, world, more)
    if "fractions" in faults:
        spoil_fractions(r, world)
    if "table" in faults:
        spoil_table(r, world)
    frame = written_frame(r, world.header, world.rows)
    if "design bytes" in faults:
        design = spoiled_bytes(r, design)
    if "frame bytes" in faults:
        frame = spoiled_bytes(r, frame) if chance(r, 0.95) else r.choice((b"", b"\n", b"\xef\xbb\xbf", b",", b'"', b"id", b"\xff"))
    values, bounds = chosen_tape(r, design, n, frame) if command in ("draw", "quick") else ([], [])
    if "tape" in faults:
        values = spoiled_tape(r, values, bounds)
    tape = written_tape(r, values)
    if "tape bytes" in faults:
        tape = spoiled_bytes(r, tape)
    words = words_of(r, command, names, n, max(1, world.strata))
    files = {names["design"]: design, names["frame"]: frame, names["tape"]: tape}
    if chance(r, 0.1):
        files[names["log"]] = files[names["sample"]] = files[names["to"]] = b"what stood here before, and is longer than most of what is written to its place\n" * 40
        files["sample.csv.partial1"] = b"what a stopped program left"
    if command == "replay":
        alone = any(word.startswith(b"--stratum") for word in words)
        files[names["log"]] = written_log(r, design, frame, (1, 2, 2, 2, 2, 2) if alone else (1, 2, 2))
    if command == "migrate":
        files[names["log"]] = written_log(r, design, frame, (1, 1, 1, 1, 1, 2))
    if "words" in faults:
        words = spoiled_words(r, words)
    if "file" in faults:
        if chance(r, 0.5):
            files.pop(r.choice(list(files)))
        else:
            front, place = (b"", r.randrange(len(words))) if words else (b"", 0)
            if words and words[place].startswith(b"--") and b"=" in words[place]:
                front = words[place].partition(b"=")[0] + b"="
            words[place : place + 1] = [front + r.choice((b"nowhere/x", FOLDER.encode("ascii"), b".", b"", b"x" * 256, b"missing"))]
    return Case([word.replace(b"\0", b"") for word in words], files, os.path.exists("/dev/full") and chance(r, 0.02))


# ---------------------------------------------------------------------------------------------------------------------------------------------
# Comparison


class Store(run_cases.Memory):
    """The folder of a case in memory: another folder stands in it, and none of the names lead out of it. Where the output is full, no byte is put.

    A name has up to 255 bytes. The program writes a new file beside the wanted one, whose name is nine bytes longer, and renames it."""

    def __init__(self, files, full):
        super().__init__(files)
        self.full = full

    def check(self, name, ending=""):
        """Fails where the name, or that with this ending, can't be one of a file."""
        if name in ("", ".", "..", FOLDER) or "/" in name or len((name + ending).encode("utf-8")) > 255:
            raise sampler.Failure

    def read(self, name):
        self.check(name)
        return super().read(name)

    def write(self, name, content):
        self.check(name, ".partial1")
        super().write(name, content)

    def put(self, content):
        if self.full and content:
            raise sampler.Failure
        super().put(content)


def by_reference(case):
    """The exit code, the output and the files that the reference gives; in place of the code its exception, where it ends with one."""
    store = Store(case.files, case.full)
    try:
        code = sampler.sampler(["sampler", *(word.decode("utf-8", "surrogateescape") for word in case.words)], store)
    except Exception as fault:
        code = repr(fault)
    return code, store.written, store.files


def write_files(folder, files):
    """Makes a folder of these files."""
    os.makedirs(os.path.join(folder, FOLDER))
    for name, content in files.items():
        with open(os.path.join(folder.encode("utf-8"), name.encode("utf-8")), "wb") as file:
            file.write(content)


def read_files(folder):
    """The files of a folder by their names."""
    files = {}
    for name in os.listdir(folder.encode("utf-8")):
        path = os.path.join(folder.encode("utf-8"), name)
        if os.path.isfile(path):
            with open(path, "rb") as file:
                files[name.decode("utf-8", "surrogateescape")] = file.read()
    return files


def by_program(program, case, folder):
    """The exit code, the output and the files that the program gives in a new folder."""
    write_files(folder, case.files)
    with open("/dev/full" if case.full else os.path.join(folder, FOLDER, "put"), "w+b") as put:
        try:
            ended = subprocess.run([b"sampler", *case.words], executable=program, cwd=folder, stdin=subprocess.DEVNULL, stdout=put,
                                   stderr=subprocess.DEVNULL, timeout=MOST_SECONDS)
            code = ended.returncode
        except subprocess.TimeoutExpired:
            code = f"none in {MOST_SECONDS} seconds"
        if not case.full:
            put.seek(0)
        return code, b"" if case.full else put.read(), read_files(folder)


def plainer_escape(found):
    """An escape of a TOML string as tomllib reads it."""
    letters = found[1]
    return rb"\u001B" if letters == b"e" else rb"\u00" + letters[1:] if len(letters) == 3 else found[0]


def plainer_table(found):
    """An inline table on one line and without a last comma."""
    return re.sub(rb",\s*\}", b"}", re.sub(rb"\s*\n\s*", b" ", found[0]))


def plainer(design):
    """A design with the forms that tomllib doesn't read in forms that it reads."""
    design = re.sub(rb"\\(x[0-9A-Fa-f]{2}|.)", plainer_escape, design)
    design = re.sub(rb"(?<![0-9:])(\d\d:\d\d)(?![0-9:])", rb"\1:00", design)
    design = re.sub(rb"(?<![0-9:])(\d\d:\d\d):60", rb"\1:59", design)
    design = re.sub(rb"(?<![0-9])0000-(?=\d\d-\d\d)", b"0004-", design)
    return re.sub(rb"\{[^{}]*\}", plainer_table, design)


def only_of_tomllib(program, case, given, wanted, folder):
    """Whether nothing but a form that tomllib doesn't read makes the program's result another than that of the reference."""
    if wanted[:2] != NOT_TOML or given[:2] == NOT_TOML:
        return False
    files = {name: plainer(content) for name, content in case.files.items()}
    again = Case(case.words, files, case.full)
    return files != case.files and by_reference(again) == by_program(program, again, folder)


def differences(given, wanted):
    """What the program gives that the reference doesn't."""
    found = []
    if given[0] != wanted[0]:
        found.append(f"code: the program {given[0]}, the reference {wanted[0]}")
    if given[1] != wanted[1]:
        found.append(f"put: the program {given[1][:500]!r}, the reference {wanted[1][:500]!r}")
    for name in sorted(set(given[2]) | set(wanted[2])):
        one, other = given[2].get(name), wanted[2].get(name)
        if one != other:
            found.append(f"file {name}: the program {one and one[:500]!r}, the reference {other and other[:500]!r}")
    return found


def main():
    """Runs cases, and tells how they ended."""
    parser = argparse.ArgumentParser(description="Compares the program with the reference on random and damaged calls.")
    parser.add_argument("--program", default=PROGRAM)
    parser.add_argument("--seed", type=int, default=0)
    parser.add_argument("count", nargs="?", type=int, default=200)
    words = parser.parse_args()
    program = os.path.abspath(words.program)
    work = tempfile.mkdtemp(prefix="sampler-fuzz-")
    codes, unread, differing = collections.Counter(), 0, 0
    for seed in range(words.seed, words.seed + words.count):
        case, folder = made(seed), os.path.join(work, str(seed))
        wanted = by_reference(case)
        given = by_program(program, case, os.path.join(folder, "program"))
        found = differences(given, wanted)
        if found and only_of_tomllib(program, case, given, wanted, os.path.join(folder, "plainer")):
            unread += 1
        elif found:
            differing += 1
            write_files(os.path.join(folder, "before"), case.files)
            print(f"seed {seed}: " + " ".join(repr(word)[1:] for word in case.words) + (", the output is full" if case.full else ""))
            print("".join(f"  {line}\n" for line in found) + f"  kept in {folder}", flush=True)
            continue
        else:
            codes[wanted[0]] += 1
        shutil.rmtree(folder)
    by_code = ", ".join(f"{count} with code {code}" for code, count in sorted(codes.items()))
    agree = f"{codes.total()} cases agree: {by_code}" + (f"; {unread} more have a design that tomllib doesn't read" if unread else "")
    if differing:
        print(f"fuzz: {differing} cases differ, {agree}")
        return 1
    os.rmdir(work)
    print(f"fuzz: {agree}")
    return 0


if __name__ == "__main__":
    sys.exit(main())
