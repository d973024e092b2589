"""Worked rows for the reference: small draws that can be followed by hand, refusals, generators, and probabilities over whole trees.

    python3 reference/test_rows.py
"""
import itertools
import os
import random
import subprocess
import sys
import tempfile
import unittest
from fractions import Fraction

sys.dont_write_bytecode = True
import sampler
from run_cases import Memory

HERE = os.path.dirname(os.path.abspath(__file__))
FOUR = "id,size\na,1\nb,2\nc,3\nd,4\n"
HALVES = "id,p\na,1/2\nb,1/2\nc,1/3\n"
ZEROS = "0" * 64
FILES = ["--design", "design", "--frame", "frame"]
DRAW = ["sampler", "draw", *FILES, "--log", "log", "--sample", "sample"]
REPLAY = ["sampler", "replay", *FILES, "--log", "log", "--sample", "sample"]
MIGRATE = ["sampler", "migrate", *FILES, "--log", "log", "--to", "new"]


def design(method, n=2, more="", size='size = "size"\n'):
    """A design for the frame of four, or another."""
    return f'version = 1\nmethod = "{method}"\nid = "id"\n{size}n = {n}\n{more}'


def eliminating(n=2, more=""):
    """A design by elimination, which version 1 doesn't know."""
    return design("elimination", n, more).replace("version = 1", "version = 2")


def given(method, more="", prob="p"):
    """A design with a column of probabilities."""
    return f'version = 2\nmethod = "{method}"\nid = "id"\nprob = "{prob}"\n{more}'


def store_of(design_text, frame_text, tape=None):
    """Files of a call."""
    files = {"design": design_text.encode(), "frame": frame_text.encode()}
    if tape is not None:
        files["tape"] = tape.encode() if isinstance(tape, str) else "".join(f"{value}\n" for value in tape).encode()
    return Memory(files)


def in_sections(strata):
    """What stands behind the head of a log of version 2, by the lines of the steps of each stratum."""
    text, taken = "", 0
    for number, steps in enumerate(strata, 1):
        text += "".join(f"{line}\n" for line in [f"stratum {number} {taken}", *steps, f"done {number} {len(steps)}"])
        taken += sum(step.split()[1] != "1" for step in steps)
    return f"{text}end {sum(map(len, strata))}\n"


def old_log(log):
    """The log of version 1 for one of version 2."""
    lines = log.splitlines(True)
    return b"sampler-log 1\n" + b"".join(line for line in lines[1:] if not line.startswith((b"stratum ", b"done ")))


def cut(log, count):
    """The first whole lines of a log."""
    return b"".join(log.splitlines(True)[:count])


class Rows(unittest.TestCase):
    """Each test is a row or a few that belong together."""

    maxDiff = None

    def drawn(self, design_text, frame_text, tape, steps, sample, report=None):
        """A draw by a tape has these steps, in a list for each stratum or in one, this sample and this report, and its log replays, in both versions."""
        store = store_of(design_text, frame_text, tape)
        self.assertEqual(sampler.sampler([*DRAW, "--tape", "tape"], store), 0, store.written)
        strata = steps if steps and isinstance(steps[0], list) else [steps]
        self.assertEqual(store.files["log"].decode().split("\n", 3)[3], in_sections(strata))
        self.assertEqual(store.files["sample"].decode(), "id,weight\n" + sample)
        if report is not None:
            self.assertEqual(store.written.decode(), report)

        for log in (store.files["log"], old_log(store.files["log"])):
            again = self.with_log(store, log)
            self.assertEqual(sampler.sampler(REPLAY, again), 0)
            self.assertEqual((again.files["sample"], again.written), (store.files["sample"], store.written))
        self.migrated(store, store.files["log"])

    def migrated(self, store, log):
        """The log of version 1 for this one becomes this one."""
        again = self.with_log(store, old_log(log))
        before = dict(again.files)
        self.assertEqual(sampler.sampler(MIGRATE, again), 0, again.written)
        self.assertEqual(again.files, {**before, "new": log})
        self.assertEqual(again.written.decode(), f"migrated {log.split()[-1].decode()} steps\n")

    def with_log(self, store, log):
        """The design and the frame of a store, and this log."""
        return Memory({"design": store.files["design"], "frame": store.files["frame"], "log": log})

    def without_log(self, store):
        """The design and the frame of a store."""
        return Memory({"design": store.files["design"], "frame": store.files["frame"]})

    def differs(self, store, log, line):
        """The log isn't one of the design and the frame of this store, and differs at this line."""
        self.refused(REPLAY, self.with_log(store, log), 11, f"error 11 log differs at line {line}")

    def logged(self, design_text, frame_text, tape):
        """The store after a draw, and its log."""
        store = store_of(design_text, frame_text, tape)
        self.assertEqual(sampler.sampler([*DRAW, "--tape", "tape"], store), 0, store.written)
        return store, store.files["log"]

    def refused(self, words, store, code, line):
        """A call ends with this code and this line, and no file has changed."""
        before = dict(store.files)
        self.assertEqual(sampler.sampler(words, store), code)
        self.assertEqual(store.written.decode(), line + "\n" if line else "")
        self.assertEqual(store.files, before)

    def refused_draw(self, design_text, frame_text, tape, code, line):
        self.refused([*DRAW, "--tape", "tape"], store_of(design_text, frame_text, tape), code, line)

    def put(self, command, design_text, frame_text, text):
        """What `probs`, `check` or `joint` puts."""
        store = store_of(design_text, frame_text)
        self.assertEqual(sampler.sampler(["sampler", command, *FILES], store), 0, store.written)
        self.assertEqual(store.written.decode(), text)

    # The methods

    def test_pivotal(self):
        steps = ["pivot 3 0", "pivot 4 3", "pivot 5 4"]
        self.drawn(design("pivotal"), FOUR, [0, 3, 4], steps, "c,5/3\nd,5/4\n", "selected 2 of 4\nsteps 3\n")

    def test_quick(self):
        store = store_of("", FOUR, [0, 3, 4])
        self.assertEqual(sampler.sampler(["sampler", "quick", "frame", "2", "tape", "out"], store), 0)
        self.assertEqual(store.files["out"], b"id\nc\nd\n")
        self.assertEqual(store.written, b"pivot 3 0\npivot 4 3\npivot 5 4\n")

    def test_systematic(self):
        weights = {"a": "5/1", "b": "5/2", "c": "5/3", "d": "5/4"}
        for value, ids in enumerate(["ac", "bd", "bd", "cd", "cd"]):
            sample = "".join(f"{name},{weights[name]}\n" for name in ids)
            self.drawn(design("systematic"), FOUR, [value], [f"system 5 {value}"], sample)

    def test_systematic_in_random_order(self):
        steps = ["order 4 3", "order 3 0", "order 2 0", "system 5 0"]
        self.drawn(design("systematic", more='order = "random"\n'), FOUR, [3, 0, 0, 0], steps, "b,5/2\nd,5/4\n")

    def test_certain_units(self):
        self.put("probs", design("pivotal"), "id,size\na,1\nb,1\nc,8\n", "id,probability\na,1/2\nb,1/2\nc,1/1\n")
        self.drawn(design("pivotal", 3), "id,size\na,2\nb,2\nc,4\nd,8\n", [1], ["pivot 2 1"], "b,2/1\nc,1/1\nd,1/1\n")
        self.put("probs", design("pivotal", 1), "id,size\na,0\nb,1\nc,1\n", "id,probability\na,0/1\nb,1/2\nc,1/2\n")

    def test_minimum_support(self):
        for value in range(3):
            self.drawn(design("minimum_support"), FOUR, [value], [f"support 5 {value}"], "c,5/3\nd,5/4\n")
        self.drawn(design("minimum_support"), FOUR, [3, 0], ["support 5 3", "support 2 0"], "b,5/2\nd,5/4\n")

    def test_brewer(self):
        steps = ["offer 10 0", "take 48 20", "offer 10 9", "take 12 5", "offer 6 3", "take 9 0"]
        self.drawn(design("brewer"), FOUR, [0, 20, 9, 5, 3, 0], steps, "c,5/3\nd,5/4\n")
        tape = [0, 8] * 192 + [0, 4]
        steps = ["offer 5 0", "take 9 8"] * 192 + ["spent 1 0", "pivot 4 0", "pivot 5 4"]
        self.drawn(design("brewer"), "id,size\na,1\nb,2\nc,2\n", tape, steps, "a,5/2\nc,5/4\n", "selected 2 of 3\nsteps 387\n")

    def test_elimination(self):
        steps = ["eliminate 3 0", "eliminate 10 5"]
        self.drawn(eliminating(), FOUR, [0, 5], steps, "b,5/2\nd,5/4\n", "selected 2 of 4\nsteps 2\n")
        self.drawn(eliminating(3), "id,size\na,1\nb,1\nc,1\nd,1\n", [2], ["eliminate 4 2"], "a,4/3\nb,4/3\nd,4/3\n")
        self.refused_draw(eliminating().replace("version = 2", "version = 1"), FOUR, [], 3, "error 3.5 bad value of method")
        weights = [weight for weight, _ in sampler.Elimination((1, 2, 3, 4), frozenset(range(4)), 2).step()[1]]
        self.assertEqual(weights, [2, 1])
        weights = [weight for weight, _ in sampler.Elimination((1, 2, 3, 4), frozenset(range(1, 4)), 2).step()[1]]
        self.assertEqual(weights, [4, 4, 2])

    def test_local_pivotal_with_a_tie(self):
        text = design("local_pivotal", more='near = ["x"]\n', size="")
        steps = ["choose 4 1", "pivot 2 1", "choose 2 0", "pivot 2 0"]
        self.drawn(text, "id,x\na,0\nb,2\nc,4\nd,9\n", [1, 1, 0, 0], steps, "a,2/1\nc,2/1\n")

    def test_local_cube(self):
        text = design("local_cube", more='balance = ["y"]\nnear = ["x"]\n', size="").replace("version = 1", "version = 2")
        frame = "id,x,y\na,0,1\nb,10,2\nc,1,3\nd,11,4\n"
        report = "selected 2 of 4\nsteps 3\nleft 1 0\nbalance 1 1 10/1 10\n"
        self.drawn(text, frame, [0, 0, 3], ["choose 4 0", "flight 2 0", "flight 4 3"], "b,2/1\nc,2/1\n", report)
        steps = ["choose 4 0", "flight 2 0", "flight 4 0", "drop 1 0", "flight 3 2"]
        report = "selected 2 of 4\nsteps 5\nleft 1 2\nbalance 1 1 6/1 10\n"
        self.drawn(text, frame, [0, 0, 0, 2], steps, "a,2/1\nb,2/1\n", report)
        self.refused_draw(text.replace("version = 2", "version = 1"), frame, [], 3, "error 3.5 bad value of method")
        self.refused_draw(text.replace('near = ["x"]\n', ""), frame, [], 3, "error 3.4 missing key near")
        self.refused_draw(text.replace('balance = ["y"]\n', ""), frame, [], 3, "error 3.4 missing key balance")
        self.refused_draw(text + 'second = {psu = "x", method = "pivotal", n = 1}\n', frame, [], 3, "error 3.6 second clashes with method")

    def test_stratified_cube(self):
        text = design("stratified_cube", more='stratum = "s"\nbalance = ["x"]\n', size="").replace("version = 1", "version = 2")
        frame = "id,s,x\na1,A,1\na2,A,3\nb1,B,2\nb2,B,4\n"
        report = "selected 2 of 4\nsteps 1\nleft 1 0\nbalance 1 1 10/1 10\n"
        self.drawn(text, frame, [0], ["flight 2 0"], "a1,2/1\nb2,2/1\n", report)
        self.drawn(text, frame, [1], ["flight 2 1"], "a2,2/1\nb1,2/1\n", report)
        report = "selected 2 of 4\nsteps 3\nleft 1 2\nbalance 1 1 12/1 11\n"
        steps = ["flight 2 0", "drop 1 0", "flight 6 0"]
        more = frame.replace("4\n", "5\n")
        self.drawn(text, more, [0, 0], steps, "a1,2/1\nb2,2/1\n", report)
        store, log = self.logged(text, more, [0, 0])
        self.section(store, log, 1, "a1,2/1\nb2,2/1\n", report)
        self.refused([*REPLAY, "--stratum", "2"], self.with_log(store, log), 16, "error 16 stratum 2 of 1")
        self.put("check", text, frame, "accepted 4 units in 2 strata\n")
        self.refused_draw(text.replace("version = 2", "version = 1"), frame, [], 3, "error 3.5 bad value of method")
        self.refused_draw(text.replace('balance = ["x"]\n', ""), frame, [], 3, "error 3.4 missing key balance")
        self.refused_draw(text + 'near = ["x"]\n', frame, [], 3, "error 3.6 near clashes with method")
        self.refused_draw(text + 'second = {psu = "x", method = "pivotal", n = 1}\n', frame, [], 3, "error 3.6 second clashes with method")

    def test_strata_that_are_too_many_to_balance_across(self):
        text = 'version = 2\nmethod = "stratified_cube"\nid = "id"\nstratum = "s"\nbalance = ["x"]\nn = 16\n'
        rows = [f"u{number},s{number // 2},{number % 7}\n" for number in range(32)]
        self.refused_draw(text, "id,s,x\n" + "".join(rows), [], 5, "error 5.8 16 strata and 1 variables pass 16 rows")
        self.put("check", text, "id,s,x\n" + "".join(rows[:30]), "accepted 30 units in 15 strata\n")
        many = text.replace('["x"]', '["x", "x"]')
        self.refused_draw(many, "id,s,x\n" + "".join(rows[:30]), [], 5, "error 5.8 15 strata and 2 variables pass 16 rows")
        self.refused_draw(text.replace("16", "15"), "id,s,x\n" + "".join(rows), [], 5, "error 5.3 no sample size: s15")

    def test_cube_to_the_end(self):
        text = design("cube", more='balance = ["x"]\n', size="")
        for sign, end in (("", "10/1 10"), ("-", "-10/1 -10")):
            frame = "id,x\n" + "".join(f"{i},{sign}{i}\n" for i in range(1, 5))
            report = f"selected 2 of 4\nsteps 2\nleft 1 0\nbalance 1 1 {end}\n"
            self.drawn(text, frame, [0, 0], ["flight 2 0", "flight 4 0"], "1,2/1\n4,2/1\n", report)

    def test_cube_with_a_dropped_row(self):
        text = design("cube", more='balance = ["x"]\n', size="")
        for last, sample, end in ((0, "3,2/1\n4,2/1\n", "14/1"), (1, "1,2/1\n3,2/1\n", "8/1"), (2, "1,2/1\n3,2/1\n", "8/1")):
            steps = ["flight 2 0", "flight 4 3", "drop 1 0", f"flight 3 {last}"]
            report = f"selected 2 of 4\nsteps 4\nleft 1 2\nbalance 1 1 {end} 10\n"
            self.drawn(text, "id,x\n1,1\n2,2\n3,3\n4,4\n", [0, 3, last], steps, sample, report)

    def test_cube_wide_at_once(self):
        text = design("cube", more='balance = ["x", "y"]\n', size="")
        frame = "id,x,y\n1,2147483647,0\n2,0,2147483646\n3,0,0\n4,1,1\n"
        balance = "balance 1 1 4294967294/1 2147483648\nbalance 1 2 0/1 2147483647\n"
        report = "selected 2 of 4\nsteps 3\nleft 1 4\n" + balance
        self.drawn(text, frame, [0, 0], ["wide 1 0", "pivot 2 0", "pivot 2 0"], "1,2/1\n3,2/1\n", report)

    def test_all_and_one_more(self):
        self.drawn(design("pivotal", 4), FOUR, [], [], "a,1/1\nb,1/1\nc,1/1\nd,1/1\n", "selected 4 of 4\nsteps 0\n")
        self.refused_draw(design("pivotal", 5), FOUR, [], 5, "error 5.4 5 asked of 4: ")

    def test_largest_sizes(self):
        frame = "id,size\na,2147483647\nb,2147483646\n"
        steps = ["pivot 4294967293 4294967292"]
        self.drawn(design("pivotal", 1), frame, [4294967292], steps, "b,4294967293/2147483646\n")

    def test_quoted_id_and_byte_order_mark(self):
        frame = 'id,size\n"x,1",1\ny,1'
        for text in (frame, "\ufeff" + frame, "\ufeff\ufeff" + frame):
            self.drawn(design("pivotal", 1), text, [0], ["pivot 2 0"], '"x,1",2/1\n')

    # Strata and stages

    STRATA = "id,s\n" + "".join(f"a{i},A\n" for i in range(1, 8)) + "".join(f"b{i},B\n" for i in range(1, 4))

    def test_strata_and_allocation(self):
        text = design("systematic", 5, 'stratum = "s"\n', size="")
        sample = "a1,7/4\na2,7/4\na4,7/4\na6,7/4\nb1,3/1\n"
        self.drawn(text, self.STRATA, [0, 0], [["system 7 0"], ["system 3 0"]], sample, "selected 5 of 10\nsteps 2\n")
        self.put("check", text, self.STRATA, "accepted 10 units in 2 strata\n")
        sizes = 'version = 1\nmethod = "systematic"\nid = "id"\nstratum = "s"\n[sizes]\nA = 2\n'
        self.refused_draw(sizes, self.STRATA, [0, 0], 5, "error 5.3 no sample size: B")
        halves = "id,s\n" + "".join(f"{name}{i},{name}\n" for name in "AB" for i in range(5))
        self.refused_draw(design("pivotal", 1, 'stratum = "s"\n', size=""), halves, [0], 5, "error 5.3 no sample size: B")

    VILLAGES = "id,village\na1,A\na2,A\na3,A\nb1,B\nb2,B\nb3,B\n"

    def two_stages(self, n=2, more=""):
        second = f'{more}[second]\npsu = "village"\nmethod = "pivotal"\nn = {n}\n'
        return design("pivotal", 1, second, size="")

    def test_two_stages(self):
        steps = ["pivot 2 1", "pivot 2 0", "pivot 3 0"]
        self.drawn(self.two_stages(), self.VILLAGES, [1, 0, 0], steps, "b1,3/1\nb2,3/1\n", "selected 2 of 6\nsteps 3\n")
        probabilities = "".join(f"{name},1/3\n" for name in ("a1", "a2", "a3", "b1", "b2", "b3"))
        self.put("probs", self.two_stages(), self.VILLAGES, "id,probability\n" + probabilities)

    def test_misfits_of_two_stages(self):
        self.refused_draw(self.two_stages(4), self.VILLAGES, [1, 0, 0], 5, "error 5.5 second stage 4 asked of 3: A")
        frame = "id,village,s\na1,A,x\nb1,B,x\na2,A,y\n"
        self.refused_draw(self.two_stages(1, 'stratum = "s"\n'), frame, [], 5, "error 5.1 first stage unit in two strata: A")
        frame = "id,village,z\na1,A,2147483647\na2,A,1\n"
        self.refused_draw(self.two_stages(1, 'size = "z"\n'), frame, [], 5, "error 5.2 first stage unit too large: A")

    # Given probabilities

    def test_sum_that_is_not_whole(self):
        self.put("probs", given("pivotal"), HALVES, "id,probability\na,1/2\nb,1/2\nc,1/3\n")
        self.put("check", given("pivotal"), HALVES, "accepted 3 units in 1 strata\n")
        self.drawn(given("pivotal"), HALVES, [0, 2], ["pivot 6 0", "lone 6 2"], "a,2/1\n", "selected 1 of 3\nsteps 2\n")
        self.drawn(given("pivotal"), HALVES, [0, 1], ["pivot 6 0", "lone 6 1"], "a,2/1\nc,3/1\n", "selected 2 of 3\nsteps 2\n")
        weights = {"a": "2/1", "b": "2/1", "c": "3/1"}
        for value, ids in enumerate(["ac", "ac", "a", "b", "b", "b"]):
            self.drawn(given("systematic"), HALVES, [value], [f"system 6 {value}"], "".join(f"{name},{weights[name]}\n" for name in ids))
        for method in sampler.WHOLE_METHODS:
            self.refused_draw(given(method), HALVES, [], 5, "error 5.7 sum 4/3 isn't whole: ")
            self.refused_draw(given(method), HALVES + "d,1\n", [], 5, "error 5.7 sum 7/3 isn't whole: ")
        frame = "id,p,x\na,1/2,0\nb,1/2,3\nc,1/3,5\n"
        steps = ["choose 3 2", "pivot 5 1", "choose 2 1", "pivot 4 0", "lone 6 1"]
        self.drawn(given("local_pivotal", 'near = ["x"]\n'), frame, [2, 1, 1, 0, 1], steps, "a,2/1\nc,3/1\n")
        steps = ["flight 2 0", "drop 1 0", "flight 10 0", "drop 1 0", "flight 3 0"]
        report = "selected 2 of 3\nsteps 5\nleft 1 2\nbalance 1 1 15/1 8\n"
        self.drawn(given("cube", 'balance = ["x"]\n'), frame, [0, 0, 0], steps, "a,2/1\nc,3/1\n", report)

    def test_sum_that_is_whole(self):
        frame = "id,p,x\na,2/3,1\nb,4/6,2\nc,02/03,4\n"
        rows = [
            (given("pivotal"), [0, 0], ["pivot 2 0", "pivot 3 0"], "ab"),
            (given("pivotal", 'order = "random"\n'), [2, 0, 1, 0], ["order 3 2", "order 2 0", "pivot 2 1", "pivot 3 0"], "bc"),
            (given("systematic"), [0], ["system 3 0"], "ab"),
            (given("systematic"), [1], ["system 3 1"], "ac"),
            (given("minimum_support"), [0], ["support 3 0"], "bc"),
            (given("brewer"), [1, 0, 1], ["offer 3 1", "take 2 0", "offer 2 1", "take 1 0"], "bc"),
            (given("elimination"), [0], ["eliminate 3 0"], "bc"),
            (given("local_pivotal", 'near = ["x"]\n'), [0, 0, 0, 0], ["choose 3 0", "pivot 2 0", "choose 2 0", "pivot 3 0"], "ab"),
            (given("cube", 'balance = ["x"]\n'), [0, 0], ["flight 5 0", "drop 1 0", "flight 6 0"], "ac"),
        ]
        for text, tape, steps, drawn in rows:
            self.drawn(text, frame, tape, steps, "".join(f"{name},3/2\n" for name in drawn))

    def test_certain_and_never(self):
        frame = "id,p\na,1\nb,0\nc,3/6\nd,5/5\ne,007/14\nf,0/9\n"
        self.put("probs", given("brewer"), frame, "id,probability\na,1/1\nb,0/1\nc,1/2\nd,1/1\ne,1/2\nf,0/1\n")
        self.drawn(given("pivotal"), frame, [1], ["pivot 2 1"], "a,1/1\nd,1/1\ne,2/1\n", "selected 3 of 6\nsteps 1\n")
        for method in sampler.SECOND_METHODS[2]:
            self.drawn(given(method), "id,p\na,0\nb,0/3\n", [], [], "", "selected 0 of 2\nsteps 0\n")

    def test_refused_fractions(self):
        rows = {
            "no fraction": ["", "0.5", "1/", "/2", "/", "1/2/3", "-1/2", "1/-2", "+1", " 1/2", "1 /2", "50%", "\u0661/2", "1//2", "x"],
            "number too large": ["1/2147483648", "2147483648", "2147483648/0", "1/" + "9" * 5000],
            "no probability": ["1/0", "0/0", "3/2", "2", "2147483647/2147483646"],
        }
        numbers = {"no fraction": 11, "number too large": 6, "no probability": 12}
        for fault, fields in rows.items():
            for field in fields:
                self.refused_draw(given("pivotal"), f"id,p\na,{field}\n", [], 4, f"error 4.{numbers[fault]} {fault} in row 1 column p")
        for field in ("0", "1", "00", "01/1", "2147483647/2147483647", "0" * 5000 + "1/2"):
            self.assertIn(sampler.read_fraction(field, 1, "p"), (0, 1, Fraction(1, 2)))
        text = given("cube", 'balance = ["x"]\n')
        self.refused_draw(text, "id,p,x\na,2,x\n", [], 4, "error 4.12 no probability in row 1 column p")
        self.refused_draw(text, "id,p,x\na,1/2,x\n", [], 4, "error 4.5 no number in row 1 column x")

    def test_misfits_of_probabilities(self):
        fine = "id,p\na,1/65536\nb,1/65535\n"
        self.refused_draw(given("pivotal"), fine, [], 5, "error 5.6 denominator too large: ")
        self.refused_draw(given("brewer"), fine, [], 5, "error 5.6 denominator too large: ")
        self.put("check", given("pivotal"), "id,p\na,2/65536\nb,1/65535\n", "accepted 2 units in 1 strata\n")
        frame = "id,s,p\na,A,1/2\nb,B,1/65536\nc,B,1/65535\n"
        self.refused_draw(given("brewer", 'stratum = "s"\n'), frame, [], 5, "error 5.6 denominator too large: B")
        frame = "id,s,p\na,A,1/2\nc,B,1/65535\n"
        self.refused_draw(given("brewer", 'stratum = "s"\n'), frame, [], 5, "error 5.7 sum 1/2 isn't whole: A")
        self.put("check", given("pivotal", 'stratum = "s"\n'), frame, "accepted 2 units in 2 strata\n")

    def test_requests_of_probabilities(self):
        def of(*texts):
            request = sampler.given_request([Fraction(text) for text in texts])
            self.assertTrue(all(request.fractions[unit] == Fraction(z * request.r, request.total) for unit, z in zip(request.free, request.shape)))
            return request[1:]

        self.assertEqual(of("1/2", "1/2", "1/3"), ([0, 1, 2], [3, 3, 2], 1, 6, 6))
        self.assertEqual(of("1/2", "1/2"), ([0, 1], [1, 1], 1, 2, 2))
        self.assertEqual(of("2/3", "2/3", "2/3"), ([0, 1, 2], [1, 1, 1], 2, 3, 3))
        self.assertEqual(of("3/4", "3/4", "1/2"), ([0, 1, 2], [3, 3, 2], 2, 8, 4))
        self.assertEqual(of("3/4", "1/4", "1", "0", "1/2", "1/2"), ([0, 1, 4, 5], [3, 1, 2, 2], 2, 8, 4))
        self.assertEqual(of("2/5", "4/5"), ([0, 1], [1, 2], 2, 5, 5))
        self.assertEqual(of("0", "1"), ([], [], 0, 0, 1))

    # Refusals

    def test_tapes_that_are_not_full(self):
        self.refused_draw(design("pivotal"), FOUR, [0, 3], 7, "error 7 tape ends after 2")
        self.refused_draw(design("pivotal"), FOUR, [0, 3, 4, 0], 9, "error 9 tape has 1 more")
        self.refused_draw(design("pivotal"), FOUR, [0, 4, 4], 8, "error 8 tape value 2 is 4, bound 4")
        self.refused_draw(design("pivotal"), FOUR, "0\n3x\n", 6, "error 6 tape line 2 isn't a number")

    # Logs

    def test_log_of_one_stratum(self):
        store, log = self.logged(design("pivotal"), FOUR, [0, 3, 4])
        self.assertEqual((log.count(b"\n"), len(log)), (9, 214))
        lines = log.decode().splitlines()
        self.assertEqual((lines[0], lines[3:]), ("sampler-log 2", ["stratum 1 0", "pivot 3 0", "pivot 4 3", "pivot 5 4", "done 1 3", "end 3"]))
        self.assertEqual([len(line) for line in lines[1:3]], [71, 70])
        self.assertEqual((old_log(log).count(b"\n"), len(old_log(log))), (7, 193))

    def test_log_of_two_strata(self):
        _, log = self.logged(design("systematic", 5, 'stratum = "s"\n', size=""), self.STRATA, [0, 0])
        sections = ["stratum 1 0", "system 7 0", "done 1 1", "stratum 2 1", "system 3 0", "done 2 1", "end 2"]
        self.assertEqual(log.decode().splitlines()[3:], sections)

    def test_log_of_empty_sections(self):
        frame = "id,s\na,A\nb,B\nc,B\nd,C\n"
        text = 'version = 1\nmethod = "pivotal"\nid = "id"\nstratum = "s"\n[sizes]\nA = 1\nB = 1\nC = 1\n'
        store, log = self.logged(text, frame, [1])
        sections = ["stratum 1 0", "done 1 0", "stratum 2 0", "pivot 2 1", "done 2 1", "stratum 3 1", "done 3 0", "end 1"]
        self.assertEqual(log.decode().splitlines()[3:], sections)
        for changed, line in (
            (log.replace(b"stratum 1 0\ndone 1 0\n", b""), 4),
            (log.replace(b"done 1 0\n", b""), 5),
            (log.replace(b"stratum 3 1\n", b""), 9),
            (log.replace(b"stratum 3 1\ndone 3 0\n", b""), 9),
            (log.replace(b"end 1\n", b"stratum 4 1\ndone 4 0\nend 1\n"), 11),
        ):
            self.differs(store, changed, line)

    def test_places_on_the_tape(self):
        """A step of bound 1 takes no number, and so counts for T and N, and not for P."""
        frame = "id,s,x\n" + "".join(f"{name}{i},{name},{i}\n" for name in "AB" for i in range(1, 5))
        text = design("cube", 4, 'stratum = "s"\nbalance = ["x"]\n', size="")
        _, log = self.logged(text, frame, [0, 3, 0, 0, 0])
        first = ["stratum 1 0", "flight 2 0", "flight 4 3", "drop 1 0", "flight 3 0", "done 1 4"]
        self.assertEqual(log.decode().splitlines()[3:], [*first, "stratum 2 3", "flight 2 0", "flight 4 0", "done 2 2", "end 6"])

    def test_replay(self):
        store, log = self.logged(design("pivotal"), FOUR, [0, 3, 4])
        for version in (log, old_log(log)):
            other = self.with_log(store, version.replace(b"pivot 4 3", b"pivot 4 0"))
            self.assertEqual(sampler.sampler(REPLAY, other), 0)
            self.assertEqual(other.files["sample"], b"id,weight\na,5/1\nd,5/4\n")
            # In version 2 the lines of the steps stand one line later, and the last line two.
            later = 1 if version is log else 0
            last = 7 + 2 * later
            differing = [
                (version.replace(b"pivot 4 3", b"pivot 4 4"), 5 + later),
                (version.replace(b"pivot 4 3", b"pivot 4 03"), 5 + later),
                (version.replace(b"pivot 4 3", b"pivot 4  3"), 5 + later),
                (version[: version.index(b" 3\npivot 5")], 5 + later),
                (version.replace(b"pivot 5 4\n", b""), 6 + later),
                (version + b"end 3\n", last + 1),
                (version + b"e", last + 1),
                (version[:-1], last),
                (version.replace(b"end 3", b"end 2"), last),
                (version.replace(b"\nframe ", b"\nframe 0"), 3),
                (version.replace(b"sampler-log ", b"sampler-log 1"), 1),
                (version[1:], 1),
            ]
            for changed, line in differing:
                self.differs(store, changed, line)
            for count in range(version.count(b"\n")):
                self.differs(store, cut(version, count), count + 1)
        self.differs(store, old_log(log).replace(b"sampler-log 1", b"sampler-log 2"), 4)
        self.differs(store, log.replace(b"sampler-log 2", b"sampler-log 1"), 4)
        self.differs(store, log.replace(b"sampler-log 2", b"sampler-log 3"), 1)
        self.differs(store, log + old_log(log), 10)

    def test_replay_of_sections(self):
        store, log = self.logged(design("systematic", 5, 'stratum = "s"\n', size=""), self.STRATA, [0, 0])
        head, first, second = cut(log, 3), b"stratum 1 0\nsystem 7 0\ndone 1 1\n", b"stratum 2 1\nsystem 3 0\ndone 2 1\n"
        self.assertEqual(log, head + first + second + b"end 2\n")
        for count in range(10):
            self.differs(store, cut(log, count), count + 1)
        for changed, line in (
            (head + second + first + b"end 2\n", 4),
            (head + first + first + b"end 2\n", 7),
            (head + first + second + second + b"end 3\n", 10),
            (log.replace(b"stratum 1 0", b"stratum 1 1"), 4),
            (log.replace(b"stratum 1 0", b"stratum 01 0"), 4),
            (log.replace(b"stratum 2 1", b"stratum 2 0"), 7),
            (log.replace(b"stratum 2 1", b"stratum 2 01"), 7),
            (log.replace(b"stratum 2 1", b"stratum 3 1"), 7),
            (log.replace(b"stratum 2 1\n", b"stratum 2 1\nstratum 2 1\n"), 8),
            (log.replace(b"done 1 1", b"done 1 2"), 6),
            (log.replace(b"done 2 1", b"done 2 2"), 9),
            (log.replace(b"done 2 1", b"done 1 1"), 9),
            (log.replace(b"done 1 1\n", b""), 6),
            (log.replace(b"system 7 0", b"system 7 9"), 5),
            (log.replace(b"system 7 0\n", b""), 5),
            (log.replace(b"end 2", b"end 1"), 10),
        ):
            self.differs(store, changed, line)

    def section(self, store, log, number, sample, report):
        """The replay of this section alone gives this sample and this report."""
        again = self.with_log(store, log)
        self.assertEqual(sampler.sampler([*REPLAY, "--stratum", str(number)], again), 0, again.written)
        self.assertEqual((again.files["sample"].decode(), again.written.decode()), ("id,weight\n" + sample, report))

    def section_differs(self, store, log, number, line):
        """It differs at this line."""
        self.refused([*REPLAY, "--stratum", str(number)], self.with_log(store, log), 11, f"error 11 log differs at line {line}")

    def test_replay_of_one_section(self):
        store, log = self.logged(design("systematic", 5, 'stratum = "s"\n', size=""), self.STRATA, [0, 0])
        head, first, second = cut(log, 3), b"stratum 1 0\nsystem 7 0\ndone 1 1\n", b"stratum 2 1\nsystem 3 0\ndone 2 1\n"
        one, other = ("a1,7/4\na2,7/4\na4,7/4\na6,7/4\n", "selected 4 of 7\nsteps 1\n"), ("b1,3/1\n", "selected 1 of 3\nsteps 1\n")
        self.section(store, log, 1, *one)
        self.section(store, log, 2, *other)
        self.section(store, log, "002", *other)
        # What stands elsewhere isn't read, and the place on the tape isn't compared.
        self.section(store, log.replace(b"system 7 0", b"system 7 9"), 2, *other)
        self.section_differs(store, log.replace(b"system 7 0", b"system 7 9"), 1, 5)
        for changed in (
            head + second,
            head + second + b"x",
            head + second + first,
            head + second + second,
            head + b"\xff\nsystem 3 9\nstratum 22 0\nstratum 2\n stratum 2 0\n" + second,
            log.replace(b"stratum 2 1", b"stratum 2 0"),
            log.replace(b"stratum 2 1", b"stratum 2 18446744073709551615"),
            log.replace(b"end 2", b"end 9"),
        ):
            self.section(store, changed, 2, *other)
        for changed, line in (
            (b"", 1),
            (old_log(log), 1),
            (cut(log, 1), 2),
            (log.replace(b"\nframe ", b"\nframe 0"), 3),
            (log.replace(b"\nframe ", b"\nframe 0").replace(b"stratum 2", b"stratum 3"), 3),
            (head, 4),
            (head + first, 7),
            (head + first + b"stratum 2 1", 7),
            (head + first + b"end 1\n", 8),
            (log.replace(b"stratum 2 1", b"stratum 02 1"), 11),
            (log.replace(b"stratum 2 1", b"stratum 2 01"), 7),
            (log.replace(b"stratum 2 1", b"stratum 2 18446744073709551616"), 7),
            (log.replace(b"stratum 2 1", b"stratum 2 "), 7),
            (head + b"stratum 2 1\n" + second, 5),
            (head + b"stratum 2 x\n" + second, 4),
            (log.replace(b"system 3 0", b"system 3 3"), 8),
            (log.replace(b"done 2 1", b"done 2 2"), 9),
            (cut(log, 8), 9),
            (cut(log, 9)[:-1], 9),
        ):
            self.section_differs(store, changed, 2, line)
        self.refused([*REPLAY, "--stratum", "3"], self.with_log(store, log), 16, "error 16 stratum 3 of 2")
        self.refused([*REPLAY, "--stratum", "200000"], self.without_log(store), 16, "error 16 stratum 200000 of 2")
        self.refused([*REPLAY, "--stratum", "2"], self.without_log(store), 12, "")
        more = self.without_log(store)
        more.files["design"] = more.files["design"].replace(b"n = 5", b"n = 50")
        self.refused([*REPLAY, "--stratum", "3"], more, 5, "error 5.4 35 asked of 7: A")

    def test_replay_of_an_empty_section(self):
        frame = "id,s\na,A\nb,B\nc,B\nd,C\n"
        text = 'version = 1\nmethod = "pivotal"\nid = "id"\nstratum = "s"\n[sizes]\nA = 1\nB = 1\nC = 1\n'
        store, log = self.logged(text, frame, [1])
        self.section(store, log, 1, "a,1/1\n", "selected 1 of 1\nsteps 0\n")
        self.section(store, cut(log, 3) + b"stratum 3 9\ndone 3 0\n", 3, "d,1/1\n", "selected 1 of 1\nsteps 0\n")
        self.section_differs(store, log.replace(b"done 3 0", b"pivot 2 1"), 3, 10)

    def test_replay_of_a_cube_alone(self):
        frame = "id,s,x\n" + "".join(f"{name}{i},{name},{i}\n" for i in range(1, 5) for name in "AB")
        text = design("cube", 4, 'stratum = "s"\nbalance = ["x"]\n', size="")
        store, log = self.logged(text, frame, [0, 0, 0, 3, 0])
        self.section(store, log, 1, "A1,2/1\nA4,2/1\n", "selected 2 of 4\nsteps 2\nleft 1 0\nbalance 1 1 10/1 10\n")
        self.section(store, log, 2, "B3,2/1\nB4,2/1\n", "selected 2 of 4\nsteps 4\nleft 2 2\nbalance 2 1 14/1 10\n")

    def test_replay_of_villages_alone(self):
        second = '[second]\npsu = "village"\nmethod = "systematic"\nn = 1\n'
        frame = "id,s,village\na1,x,A\na2,x,A\nb1,x,B\nb2,x,B\nb3,x,B\nc1,y,C\nc2,y,C\n"
        store, log = self.logged(design("pivotal", 2, 'stratum = "s"\n' + second, size=""), frame, [4, 2, 0])
        self.section(store, log, 1, "b3,5/1\n", "selected 1 of 5\nsteps 2\n")
        self.section(store, log, 2, "c1,2/1\n", "selected 1 of 2\nsteps 1\n")

    def test_migrate(self):
        store, log = self.logged(design("pivotal"), FOUR, [0, 3, 4])
        self.migrated(store, log)
        self.migrated(store, log.replace(b"pivot 4 3", b"pivot 4 0"))
        old = old_log(log)
        differing = [(log, 1), (b"", 1), (old.replace(b"pivot 4 3", b"pivot 4 4"), 5), (old.replace(b"end 3", b"end 2"), 7), (old + b"x", 8)]
        for changed, line in differing + [(cut(old, count), count + 1) for count in range(7)]:
            self.refused(MIGRATE, self.with_log(store, changed), 11, f"error 11 log differs at line {line}")
        self.refused(MIGRATE, self.without_log(store), 12, "")
        more = self.with_log(store, old)
        more.files["design"] = more.files["design"].replace(b"n = 2", b"n = 5")
        self.refused(MIGRATE, more, 5, "error 5.4 5 asked of 4: ")

    def test_replay_of_a_dropped_row(self):
        store, log = self.logged(design("cube", more='balance = ["x"]\n', size=""), "id,x\n1,1\n2,2\n3,3\n4,4\n", [0, 3, 0])
        self.differs(store, log.replace(b"flight 4 3", b"flight 4 0"), 7)
        self.differs(store, old_log(log).replace(b"flight 4 3", b"flight 4 0"), 6)

    def test_refused_frames(self):
        rows = {
            "": "4.1 no header",
            "id,size\n": "4.10 no rows",
            "id,weight\na,1\n": "4.2 missing column size",
            "id,size,size\na,1,1\n": "4.3 repeated column size",
            "id,size\na,1,2\n": "4.4 length of row 1",
            "id,size\na,1\na,2\n": "4.7 repeated id in row 2",
            "id,size\na,1.5\n": "4.5 no number in row 1 column size",
            "id,size\na,-1\n": "4.5 no number in row 1 column size",
            "id,size\na,2147483648\n": "4.6 number too large in row 1 column size",
            "id,size\na," + "9" * 5000 + "\n": "4.6 number too large in row 1 column size",
            "id,size\n" + "".join(f"u{i},1\n" for i in range(200_001)): "4.8 too many rows",
        }
        for frame, line in rows.items():
            self.refused_draw(design("pivotal"), frame, [], 4, "error " + line)
        for frame, row in ((b"id,si\xffze\na,1\n", 0), (b"id,size\nx\xff,1\n", 1)):
            store = Memory({"design": design("pivotal").encode(), "frame": frame})
            self.refused(["sampler", "check", *FILES], store, 4, f"error 4.9 row {row} isn't UTF-8")

    def test_records(self):
        rows = {
            b"": [],
            b"\r\n\n\r": [],
            b"a,b": [[b"a", b"b"]],
            b"a,\n,b\r\n": [[b"a", b""], [b"", b"b"]],
            b'""\n': [[b""]],
            b'"a""b","c\nd"\n': [[b'a"b', b"c\nd"]],
            b'"a"b"c,d\n': [[b'ab"c', b"d"]],
            b'a"b",c\n': [[b'a"b"', b"c"]],
            b'""x,"y\n': [[b"x", b"y\n"]],
            b"a\rb\n": [[b"a"], [b"b"]],
        }
        for content, found in rows.items():
            self.assertEqual(sampler.records(content), found)

    def test_refused_designs(self):
        rows = {
            "": "3.2 version",
            design("pivotal", more="colour = 1\n"): "3.3 unknown key colour",
            design("pivotal").replace('id = "id"\n', ""): "3.4 missing key id",
            design("pivotal", 0): "3.5 bad value of n",
            design("pivotal", more='balance = ["x"]\n'): "3.6 balance clashes with method",
            "version = \n": "3.1 design isn't TOML",
            "version = true\n": "3.2 version",
            design("pivotal", more="[second]\nz = 1\na = 1\n"): "3.3 unknown key second.a",
            design("pivotal", more="[second]\n"): "3.4 missing key second.psu",
            design("pivotal", more="second = 1\n"): "3.5 bad value of second",
            design("cube", more="balance = []\n"): "3.5 bad value of balance",
            design("cube", more='order = "frame"\nbalance = ["x"]\n'): "3.6 order clashes with method",
            design("pivotal", more="sizes = {}\n"): "3.6 n clashes with sizes",
            design("pivotal").replace("n = 2", "sizes = {}"): "3.6 sizes clashes with stratum",
            design("pivotal", more="colour = 9223372036854775808\n"): "3.1 design isn't TOML",
            design("pivotal", more="colour = 1_0e400\n"): "3.1 design isn't TOML",
            design("pivotal", more="colour = -inf\n"): "3.3 unknown key colour",
            design("pivotal", more=".".join("a" * 2000) + " = 1\n"): "3.1 design isn't TOML",
            "version = 3\n": "3.2 version",
            "version = 2.0\n": "3.2 version",
            "version = 2\n": "3.4 missing key method",
            given("pivotal").replace("version = 2", "version = 1"): "3.3 unknown key prob",
            given("pivotal").replace('prob = "p"\n', ""): "3.4 missing key n",
            given("pivotal", "near = 1\n").replace('"p"', "1"): "3.5 bad value of prob",
            given("pivotal", "sizes = {}\nn = 1\n"): "3.6 n clashes with sizes",
            given("pivotal", "second = 1\nsize = 1\nn = 1\n"): "3.5 bad value of size",
            given("pivotal", 'size = "p"\nn = 1\n'): "3.6 n clashes with prob",
            given("pivotal", 'size = "p"\nsizes = {}\n'): "3.6 sizes clashes with prob",
            given("brewer", 'order = "frame"\nsize = "p"\n'): "3.6 size clashes with prob",
            given("local_pivotal", 'near = ["p"]\nsecond = {psu = "s", method = "pivotal", n = 1}\n'): "3.6 prob clashes with second",
            design("pivotal", 200_001): "3.5 bad value of n",
        }
        for text, line in rows.items():
            self.refused_draw(text, FOUR, [], 3, "error " + line)

    def test_joint(self):
        header = "first,second,probability\n"
        self.put("joint", design("systematic"), FOUR, header + "a,b,0/1\na,c,1/5\na,d,0/1\nb,c,0/1\nb,d,2/5\nc,d,2/5\n")
        self.put("joint", design("systematic"), "id,size\na,1\nb,1\nc,8\n", header + "a,b,0/1\na,c,1/2\nb,c,1/2\n")
        self.put("joint", given("systematic"), HALVES, header + "a,b,0/1\na,c,1/3\nb,c,0/1\n")
        self.put("joint", design("systematic", 1), "id,size\na,1\n", header)
        words = ["sampler", "joint", *FILES]
        none = "error 17 joint probabilities need systematic selection in frame order"
        for text in (design("pivotal"), design("systematic") + 'order = "random"\n', given("brewer")):
            self.refused(words, store_of(text, "no frame"), 17, none)
        long = "id,size\n" + "".join(f"u{row},1\n" for row in range(2001))
        self.refused(words, store_of(design("systematic", 3000), long), 18, "error 18 2001 rows, at most 2000")
        self.refused(words, store_of(design("systematic", 3000), long + "u0,1\n"), 4, "error 4.7 repeated id in row 2002")

    def test_words(self):
        tape = ["--tape", "tape"]
        rows = [
            [],
            ["sampler"],
            ["sampler", "sample"],
            [*DRAW, *tape, "--seed", ZEROS],
            ["sampler", "draw", *FILES, "--log", "log", "--sample", "log", *tape],
            [*DRAW, "--seed", ZEROS[1:]],
            ["sampler", "quick", "frame", "0", "tape", "out"],
            ["sampler", "quick", "frame", "200001", "tape", "out"],
            ["sampler", "check", *FILES, "--frame", "frame2"],
            ["sampler", "check", "--design", "design", "--frame"],
            ["sampler", "check", "--design", "design", "--frame", "--", "frame"],
            ["sampler", "quick", "\udcff", "2", "tape", "out"],
            ["sampler", "demo", "29", "1"],
            ["sampler", "demo", "100001", "1"],
            [*REPLAY, "--stratum", "0"],
            [*REPLAY, "--stratum", "200001"],
            [*REPLAY, "--stratum", "+1"],
            [*REPLAY, "--stratum="],
            [*REPLAY, "--stratum", "1", "--stratum", "1"],
            [*DRAW, *tape, "--stratum", "1"],
            ["sampler", "probs", *FILES, "--stratum", "1"],
            MIGRATE[:-2],
            [*MIGRATE[:-1], "log"],
            [*MIGRATE, "more"],
            [*MIGRATE, "--sample", "sample"],
            [*MIGRATE, "--stratum", "1"],
            [*REPLAY, "--to", "new"],
            ["sampler", "joint", *FILES, "--log", "log"],
            ["sampler", "joint", "--design", "design"],
        ]
        for words in rows:
            self.refused(words, store_of(design("pivotal"), FOUR, [0, 3, 4]), 2, sampler.USAGE)
        accepted = [["sampler", "--frame=frame", "--design", "design", "check"], ["sampler", *FILES, "--", "check"]]
        for words in accepted:
            store = store_of(design("pivotal"), FOUR)
            self.assertEqual((sampler.sampler(words, store), store.written), (0, b"accepted 4 units in 1 strata\n"))

    # Draws from words, and the generator

    def test_words_of_a_bound(self):
        self.assertEqual(sampler.Seed(iter([])).below("pivot", 1), 0)
        self.assertEqual(sampler.sieve(iter([2**32 - 1]), 2**32), 2**32 - 1)
        self.assertEqual(sampler.sieve(iter([5, 1, 7, 2]), 2**32 + 1), 7)
        self.assertEqual(sampler.sieve(iter([5, 1] * 255 + [7, 2]), 2**32 + 1), 7)
        words = iter([5, 1] * 256 + [9])
        with self.assertRaises(sampler.Refusal) as refused:
            sampler.Seed(words).below("pivot", 2**32 + 1)
        self.assertEqual((refused.exception.code, refused.exception.line), (10, "error 10 rejected 256 times below 4294967297"))
        self.assertEqual(list(words), [9])

    def test_generator(self):
        """The published key streams for a key of zeros, blocks 0 and 1, and for a key that ends in 1, block 1."""
        rows = {
            (bytes(32), 0): "76b8e0ada0f13d90405d6ae55386bd28bdd219b8a08ded1aa836efcc8b770dc7da41597c5157488d7724e03fb8d84a376a43b8f41518a11cc387b669b2ee6586",
            (bytes(32), 1): "9f07e7be5551387a98ba977c732d080dcb0f29a048e3656912c6533e32ee7aed29b721769ce64e43d57133b074d839d531ed1f28510afb45ace10a1f4b794d6f",
            (bytes(31) + b"\1", 1): "3aeb5224ecf849929b9d828db1ced4dd832025e8018b8160b82284f3c949aa5a8eca00bbb4a73bdad192b5c42f73f2fd4e273644c8b36125a64addeb006c13a0",
        }
        for (key, counter), stream in rows.items():
            block = b"".join(word.to_bytes(4, "little") for word in sampler.chacha_block(key, counter))
            self.assertEqual(block.hex(), stream)

    def test_draw_by_a_seed(self):
        for text in (design("pivotal"), design("brewer"), design("systematic", more='order = "random"\n')):
            store = store_of(text, FOUR)
            self.assertEqual(sampler.sampler([*DRAW, "--seed", ZEROS], store), 0)
            self.assertEqual(store.files["sample"].count(b"\n"), 3)
            again = self.with_log(store, store.files["log"])
            self.assertEqual(sampler.sampler(REPLAY, again), 0)
            self.assertEqual((again.files["sample"], again.written), (store.files["sample"], store.written))

    def test_demo(self):
        self.assertTrue(sampler.demo_frame(30, 0).startswith(b"id,region,area,herd,workers\nu1,r1,1808,"))
        store = Memory({})
        self.assertEqual(sampler.sampler(["sampler", "demo", "300", "1"], store), 0)
        lines = store.written.decode().splitlines()
        self.assertEqual((lines[:2], lines[-1], len(lines)), (["units 300", "selected 60"], "replay ok", 5))

    def test_a_survey(self):
        frame, text = sampler.demo_frame(200, 7), sampler.demo_design(200)
        store = Memory({"design": text, "frame": frame})
        self.assertEqual(sampler.sampler([*DRAW, "--seed", ZEROS], store), 0)
        lines = store.written.decode().splitlines()
        self.assertEqual(lines[0], "selected 40 of 200")
        self.assertNotIn(b"wide", store.files["log"])
        self.assertTrue(all(int(line.split()[2]) <= 4 for line in lines if line.startswith("left")))
        strata = sampler.plan(sampler.read_frame(frame, sampler.read_design(text)), sampler.read_design(text))
        self.assertEqual([(part.name, len(part.units), part.request.r) for part in strata], [("r1", 67, 14), ("r2", 67, 13), ("r0", 66, 13)])

    # Real files

    def test_real_files(self):
        with tempfile.TemporaryDirectory() as folder:
            def run(*words):
                done = subprocess.run([sys.executable, os.path.join(HERE, "sampler.py"), *words], cwd=folder, stdout=subprocess.PIPE, check=False)
                return done.returncode, done.stdout

            for name, text in (("design", design("pivotal")), ("frame", FOUR), ("tape", "0\n3\n4\n")):
                with open(os.path.join(folder, name), "w", encoding="utf-8") as file:
                    file.write(text)
            draw = [*DRAW[1:], "--tape", "tape"]
            self.assertEqual(run(*draw), (0, b"selected 2 of 4\nsteps 3\n"))
            with open(os.path.join(folder, "sample"), "rb") as file:
                self.assertEqual(file.read(), b"id,weight\nc,5/3\nd,5/4\n")
            self.assertEqual(run("replay", *FILES, "--log", "log", "--sample", "again"), (0, b"selected 2 of 4\nsteps 3\n"))
            self.assertEqual(run("check", "--design", "design", "--frame", "elsewhere"), (12, b""))
            self.assertEqual(run("quick", "frame", "2", "tape", "elsewhere/out"), (13, b""))
            self.assertEqual(run("quick", "frame", "0", "tape", "out"), (2, sampler.USAGE.encode() + b"\n"))
            self.assertEqual(sorted(os.listdir(folder)), ["again", "design", "frame", "log", "sample", "tape"])


def mean(state, count, known):
    """The probability of each of `count` units to be drawn from a state, over all its parts."""
    key = (type(state), state)
    if key not in known:
        step = state.step()
        if step is None:
            known[key] = [Fraction(place in state.selected()) for place in range(count)]
        else:
            total = sum(weight for weight, _ in step[1])
            parts = [(weight, mean(following(), count, known)) for weight, following in step[1]]
            known[key] = [sum(weight * values[place] for weight, values in parts) / total for place in range(count)]
    return known[key]


class Asking(Exception):
    """A step asks for a number below this bound, and none is left."""

    def __init__(self, bound):
        super().__init__()
        self.bound = bound


class Front(sampler.Steps):
    """The first numbers of a tape."""

    def __init__(self, values):
        super().__init__()
        self.values = iter(values)

    def below(self, kind, bound):
        value = 0 if bound == 1 else next(self.values, None)
        if value is None:
            raise Asking(bound)
        return self.keep(kind, bound, value)


def over_all_tapes(strata, text, count, values=()):
    """The probability of each row over all full tapes that begin with these values."""
    try:
        drawn = sampler.select(strata, text, Front(values))
    except Asking as asking:
        tails = [over_all_tapes(strata, text, count, (*values, value)) for value in range(asking.bound)]
        return [sum(row) / asking.bound for row in zip(*tails)]
    return [Fraction(place in drawn.rows) for place in range(count)]


def full_tapes(strata, text, values=()):
    """The steps of the draw by each full tape."""
    front = Front(values)
    try:
        sampler.select(strata, text, front)
    except Asking as asking:
        for value in range(asking.bound):
            yield from full_tapes(strata, text, (*values, value))
    else:
        yield front


def kept(log, logs):
    """The greatest number of whole lines of a log that are the first lines of one of these logs."""
    lines, most = log.splitlines(True), 0
    for genuine in logs:
        same = 0
        for line, other in zip(lines, genuine):
            if line != other:
                break
            same += 1
        most = max(most, same)
    return most


def damaged(r, log):
    """A log with one or two edits of its lines."""
    lines = log.splitlines(True)
    for _ in range(r.choice((1, 1, 2))):
        place, other = r.randrange(len(lines)), r.randrange(len(lines))
        form = r.randrange(7)
        if form == 0:
            del lines[place]
        elif form == 1:
            lines.insert(place, lines[other])
        elif form == 2:
            lines[place], lines[other] = lines[other], lines[place]
        elif form == 3:
            lines[place:] = [lines[place][: r.randrange(len(lines[place]))]]
        else:
            front, _, last = lines[place].rpartition(b" ")
            lines[place] = front + b" %d\n" % max(0, int(last) + r.choice((-1, 1, 1, 2))) if last.rstrip(b"\n").isdigit() else lines[place][1:]
        lines = lines or [b""]
    return b"".join(lines)


class Logs(unittest.TestCase):
    """A damaged log is looked for among all genuine ones of both versions."""

    WORLDS = [
        (design("pivotal"), FOUR),
        (design("systematic", 3, 'stratum = "s"\n', size=""), "id,s\na,A\nb,B\nc,A\nd,C\ne,B\n"),
        (design("cube", 3, 'stratum = "s"\nbalance = ["x"]\n', size=""), "id,s,x\na,A,1\nb,A,3\nc,A,4\nd,B,1\n"),
        (design("pivotal", 2, 'stratum = "s"\n[second]\npsu = "p"\nmethod = "systematic"\nn = 1\n', size=""), "id,s,p\na,A,x\nb,A,x\nc,A,y\nd,B,z\ne,B,z\n"),
        (given("local_pivotal", 'near = ["x"]\nstratum = "s"\n'), "id,s,p,x\na,A,1/2,0\nb,A,1/3,1\nc,B,1,2\nd,B,1/2,3\n"),
    ]

    def worlds(self):
        """A generator of random numbers, each design and frame with its plan, and the steps of all full tapes."""
        for text, frame in self.WORLDS:
            read = sampler.read_design(text.encode())
            rows = sampler.read_frame(frame.encode(), read)
            strata = sampler.plan(rows, read)
            yield random.Random(text), Memory({"design": text.encode(), "frame": frame.encode()}), strata, list(full_tapes(strata, read))

    def test_all_logs(self):
        for r, store, _, draws in self.worlds():
            files = (store.files["design"], store.files["frame"])
            logs = [sampler.log_bytes(*files, steps) for steps in draws] + [sampler.old_log_bytes(*files, steps.steps) for steps in draws]
            self.assertEqual(len(logs), len(set(logs)))
            lines = [log.splitlines(True) for log in logs]
            for log in logs + [damaged(r, r.choice(logs)) for _ in range(400)]:
                again, new = Memory({**store.files, "log": log}), Memory({**store.files, "log": log})
                code = sampler.sampler(REPLAY, again)
                if log in logs[: len(draws)] or log not in logs:
                    line = kept(log, lines[len(draws) :]) + 1
                    self.assertEqual((sampler.sampler(MIGRATE, new), new.written.decode()), (11, f"error 11 log differs at line {line}\n"))
                else:
                    self.assertEqual((sampler.sampler(MIGRATE, new), new.files["new"]), (0, logs[logs.index(log) - len(draws)]))
                if log in logs:
                    self.assertEqual(code, 0)
                else:
                    self.assertEqual((code, again.written.decode()), (11, f"error 11 log differs at line {kept(log, lines) + 1}\n"), log)


    def test_all_sections(self):
        for r, store, strata, draws in self.worlds():
            files = (store.files["design"], store.files["frame"])
            logs = [sampler.log_bytes(*files, steps) for steps in draws]
            head = logs[0].splitlines(True)[:3]
            read = sampler.read_design(files[0])
            for stratum in strata:
                steps = [[step.line().encode() for step in alone.steps] for alone in full_tapes([stratum], read)]
                sections = [[*lines, b"done %d %d\n" % (stratum.number, len(lines))] for lines in steps]
                for log in logs + [damaged(r, r.choice(logs)) for _ in range(200)]:
                    again = Memory({**store.files, "log": log})
                    code = sampler.sampler([*REPLAY, "--stratum", str(stratum.number)], again)
                    line = self.line_of(log, head, stratum.number, sections)
                    if line is None:
                        self.assertEqual(code, 0, log)
                    else:
                        self.assertEqual((code, again.written.decode()), (11, f"error 11 log differs at line {line}\n"), log)

    def line_of(self, log, head, number, sections):
        """The line at which a section differs, or None where one of these stands there."""
        lines = [line for line in log.splitlines(True) if line.endswith(b"\n")]
        for place, line in enumerate(head):
            if lines[place : place + 1] != [line]:
                return place + 1
        opening = next((place for place, line in enumerate(lines) if line.startswith(b"stratum %d " % number)), None)
        if opening is None:
            return len(lines) + 1
        place = lines[opening].split(b" ", 2)[2].rstrip(b"\n")
        if not (place.isdigit() and int(place) < 2**64 and str(int(place)).encode() == place):
            return opening + 1
        rest = lines[opening + 1 :]
        if any(rest[: len(section)] == section for section in sections):
            return None
        return opening + 2 + kept(b"".join(rest), sections)


class Probabilities(unittest.TestCase):
    """Over whole trees each unit is drawn with exactly the probability that is requested."""

    SIZES = [[1, 2, 3, 4], [1, 1, 1, 1, 1], [3, 3, 2, 5, 1], [5, 1, 1, 1, 1, 1], [7, 0, 2, 2, 9]]

    GIVEN = [["1/2", "1/2", "1/3"], ["2/3", "2/3", "2/3"], ["1", "1/6", "0", "3/4", "2/5"], ["1/2", "1/3", "1/6", "1"], ["1/7"], ["3/5", "4/5", "3/5"]]

    def over_tree(self, method, order, request, columns):
        near = 1 if method == "local_cube" else 0
        if method in sampler.IN_ONE_TREE and isinstance(request, sampler.Request):
            request = sampler.layered([request])
        found = mean(sampler.start(method, order, request, columns, near), len(request.free), {})
        self.assertEqual(found, [request.fractions[unit] for unit in request.free], (method, request))

    def of_request(self, method, order, sizes, n, columns):
        self.over_tree(method, order, sampler.requested(sizes, n), columns)

    def test_given_probabilities(self):
        for texts in self.GIVEN:
            fractions = [Fraction(text) for text in texts]
            request, whole = sampler.given_request(fractions), sum(fractions).denominator == 1
            columns = [(place * place, 3 - place) for place in range(len(texts))]
            for method in sampler.METHODS[2]:
                if method != "brewer" and (whole or method not in sampler.WHOLE_METHODS):
                    self.over_tree(method, "frame", request, columns)
                if method in ("pivotal", "systematic"):
                    self.over_tree(method, "random", request, columns)

    def test_methods(self):
        for sizes in self.SIZES:
            positive = sum(size > 0 for size in sizes)
            columns = [(place * place, 3 - place) for place in range(len(sizes))]
            for n, method in itertools.product(range(1, positive + 1), sampler.METHODS[2]):
                if method != "brewer":
                    self.of_request(method, "frame", sizes, n, columns)
                if method in ("pivotal", "systematic") and len(sizes) < 5:
                    self.of_request(method, "random", sizes, n, columns)

    def test_brewer_with_few_offers(self):
        limit, sampler.OFFERS_PER_UNIT = sampler.OFFERS_PER_UNIT, 1
        try:
            for sizes in self.SIZES:
                for n in range(1, sum(size > 0 for size in sizes) + 1):
                    self.of_request("brewer", "frame", sizes, n, [()] * len(sizes))
            for fractions in ([Fraction(text) for text in texts] for texts in self.GIVEN):
                if sum(fractions).denominator == 1:
                    self.over_tree("brewer", "frame", sampler.given_request(fractions), [()] * len(fractions))
        finally:
            sampler.OFFERS_PER_UNIT = limit

    def test_stratified_cubes(self):
        parts = [sampler.requested([1, 1, 1], 1), sampler.requested([2, 1, 3], 2), sampler.requested([7, 0, 2], 1)]
        parts += [sampler.given_request([Fraction(text) for text in texts]) for texts in (["1/2", "1/3"], ["1", "1/6", "0"])]
        for requests in (*itertools.combinations(parts, 2), parts[2:]):
            joined = sampler.layered(requests)
            for widest in (1, 2147483647):
                columns = [(place * place * widest % 2147483647, 3 - place) for place in range(len(joined.fractions))]
                self.over_tree("stratified_cube", "frame", joined, columns)

    def test_wide_cubes(self):
        columns = [(2147483647, 0), (0, 2147483646), (0, 0), (1, 1), (5, 7)]
        for sizes in ([1] * 5, [3, 3, 2, 5, 1]):
            for n in range(1, 5):
                self.of_request("cube", "frame", sizes, n, columns)

    def test_whole_designs(self):
        frame = "id,s,village,z,x\na,N,A,1,3\nb,N,A,2,1\nc,N,B,1,4\nd,S,C,3,1\ne,N,B,1,5\nf,S,D,1,9\ng,S,D,1,2\n"
        second = '[second]\npsu = "village"\nmethod = "{}"\nn = 1\n'
        for method, inside, more in (
            ("pivotal", "systematic", 'size = "z"\n'),
            ("systematic", "minimum_support", 'order = "random"\n'),
            ("minimum_support", "pivotal", 'size = "z"\n'),
            ("cube", "pivotal", 'balance = ["x"]\n'),
            ("elimination", "elimination", 'size = "z"\n'),
        ):
            words = design(method, 3, 'stratum = "s"\n' + more + second.format(inside), size="")
            text = sampler.read_design(words.replace("version = 1", "version = 2").encode())
            rows = sampler.read_frame(frame.encode(), text)
            strata = sampler.plan(rows, text)
            fractions = sampler.asked(strata, len(rows))
            self.assertEqual(over_all_tapes(strata, text, len(rows)), fractions, (method, inside))
            self.assertEqual(sum(fractions), 3)

    def test_whole_designs_across_strata(self):
        frame = "id,s,z,x\na,N,1,3\nb,S,5,2\nc,N,1,1\nd,S,1,5\ne,S,1,4\n"
        for more in ("", 'size = "z"\n'):
            words = 'version = 2\nmethod = "stratified_cube"\nid = "id"\nstratum = "s"\nbalance = ["x"]\nsizes = {N = 1, S = 2}\n'
            text = sampler.read_design((words + more).encode())
            rows = sampler.read_frame(frame.encode(), text)
            strata = sampler.plan(rows, text)
            asked = sampler.asked(strata, len(rows))
            self.assertEqual(over_all_tapes(sampler.sections(strata, text), text, len(rows)), asked, more)


if __name__ == "__main__":
    unittest.main()
