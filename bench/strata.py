#!/usr/bin/env python3
"""Times `sampler check` and `sampler draw` over strata and in two stages, CSV to CSV, on made-up frames of equal sizes, and counts the
instructions of the draw where valgrind is there. It is no test.

    bench/strata.py [ROWS]        100,000 rows where none are given, half of the most that a frame has

A tenth of the rows is drawn, and half of them where strata have two rows or where pivotal steps are counted, with the tape of the least
value of every draw. It prints what is drawn, the draws, the seconds of `check` and of `draw`, megabytes and millions of instructions.
"""
import os
import re
import shutil
import subprocess
import sys
import tempfile

from draw import TOP, run, write
from instructions import millions

STRATA = 'version = 1\nmethod = "{method}"\nid = "id"\nstratum = "group"\nn = {n}\n'
STAGES = 'version = 1\nmethod = "systematic"\nid = "id"\nn = {n}\n[second]\npsu = "group"\nmethod = "systematic"\nn = 2\n'


def grouped(rows, groups):
    """A frame whose rows go round the groups, so that those of one group are far apart."""
    return "id,group\n" + "".join(f"u{row},g{row % groups}\n" for row in range(rows))


def surveys(rows):
    """What is drawn: its name, its frame and its design."""
    for groups, part in ((10, 10), (1_000, 10), (rows // 2, 2)):
        yield f"{groups} strata", grouped(rows, groups), STRATA.format(method="systematic", n=rows // part)
    yield "1000 strata, pivotal", grouped(rows, 1_000), STRATA.format(method="pivotal", n=rows // 2)
    villages = rows // 5
    yield f"{villages} psus of 5 rows", grouped(rows, villages), STAGES.format(n=villages // 10)


def full_tape(words, work, rows):
    """A full tape of zeros: the program says how many of too many are left over."""
    tape = write(work, "tape.txt", "0\n" * (2 * rows))
    put = subprocess.run([*words, "--tape", tape], stdout=subprocess.PIPE, text=True).stdout
    draws = 2 * rows - int(re.fullmatch(r"error 9 tape has (\d+) more\n", put).group(1))
    return write(work, "tape.txt", "0\n" * draws), draws


def main():
    rows = int(sys.argv[1]) if len(sys.argv) > 1 else 100_000
    work = tempfile.mkdtemp()
    program = os.environ.get("SAMPLER")
    if program is None:
        subprocess.run([os.path.join(TOP, "sampler")], stdout=subprocess.DEVNULL)
        program = os.path.join(TOP, "crates", "sampler", "out", "sampler")
    print("drawn, draws, seconds of check, seconds of draw, megabytes, instructions (millions)")
    for name, text, wanted in surveys(rows):
        frame, design = write(work, "frame.csv", text), write(work, "design.toml", wanted)
        given = ["--design", design, "--frame", frame]
        words = [program, "draw", *given, "--log", os.path.join(work, "log.txt"), "--sample", os.path.join(work, "sample.csv")]
        tape, draws = full_tape(words, work, rows)
        _, checked, _ = run([program, "check", *given])
        code, seconds, megabytes = run([*words, "--tape", tape])
        count = f"{millions([*words, '--tape', tape], work)[0]:.0f}" if shutil.which("valgrind") else "not counted"
        note = "" if code == 0 else f" (ended with code {code})"
        print(f"{name}, {draws}, {checked:.3f}, {seconds:.3f}, {megabytes:.0f}, {count}{note}")


if __name__ == "__main__":
    main()
