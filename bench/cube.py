#!/usr/bin/env python3
"""Times `sampler draw` by the cube, the local cube and the stratified cube, CSV to CSV, on made-up frames with three balancing columns, two coordinates and ten
strata of random numbers, with equal and with log-normal sizes, as they are and fitted (docs/narrow.md), and counts its instructions where valgrind is
there. It is no test.

    bench/cube.py [ROWS ..]       1,000 and 10,000 rows where none are given

A tenth of the rows is drawn, by a seed. It prints the method, sizes, whether the design is fitted and in how many seconds, rows, flights, units undecided, whether
the draw went wide, seconds, megabytes and millions of instructions. Seconds that a seed takes are in them.
"""
import math
import os
import random
import re
import shutil
import subprocess
import sys
import tempfile
import time

from draw import TOP, run
from instructions import millions

sys.dont_write_bytecode = True
sys.path.insert(0, os.path.join(TOP, "clients", "python"))

SEED = f"{1:064x}"
STRATA = 10
COLUMNS = ["area", "herd", "workers"]
KINDS = [
    ("cube", "equal", False), ("cube", "log-normal", False), ("cube", "log-normal", True),
    ("local_cube", "equal", False), ("local_cube", "log-normal", False), ("local_cube", "log-normal", True),
    ("stratified_cube", "equal", False), ("stratified_cube", "equal", True), ("stratified_cube", "log-normal", True),
]


def made_up_frame(rows):
    """Farms of log-normal sizes, with values that go along with these more or less, in strata whose numbers are as far apart as 1 and 10."""
    chance = random.Random(rows)
    shares = [stratum + 1 for stratum in range(STRATA)]
    strata = chance.choices([f"r{stratum}" for stratum in range(STRATA)], shares, k=rows)
    frame = []
    for row, stratum in enumerate(strata):
        size = math.exp(chance.gauss(0, 1))
        herd, workers = 20 * size**0.5 * math.exp(chance.gauss(0, 0.8)), 2 * math.exp(chance.gauss(0, 0.7))
        values = [min(10000, round(300 * size)), min(500, round(herd)), min(20, round(workers))]
        places = {"east": chance.randrange(1_000_000), "north": chance.randrange(1_000_000)}
        frame.append({"id": f"u{row}", "region": stratum, "size": 1 + round(100 * size), **dict(zip(COLUMNS, values)), **places})
    return frame


def design_of(method, sizes, rows):
    design = {"version": 2, "method": method, "id": "id", "n": max(STRATA, rows // 10), "balance": COLUMNS}
    design |= {"size": "size"} if sizes != "equal" else {}
    design |= {"near": ["east", "north"]} if method == "local_cube" else {}
    return design | ({"stratum": "region"} if method == "stratified_cube" else {})


def main():
    work = tempfile.mkdtemp()
    if "SAMPLER" not in os.environ:
        subprocess.run([os.path.join(TOP, "sampler")], stdout=subprocess.DEVNULL)
        os.environ["SAMPLER"] = os.path.join(TOP, "crates", "sampler", "out", "sampler")
    import sampler
    from sampler.frame import carry

    print("method, sizes, fitted in seconds, rows: flights, undecided, wide; seconds, megabytes, millions of instructions")
    for rows in [int(word) for word in sys.argv[1:]] or [1_000, 10_000]:
        frame = made_up_frame(rows)
        for method, sizes, is_fitted in KINDS:
            design, given, before = design_of(method, sizes, rows), frame, time.monotonic()
            if is_fitted:
                fitted = sampler.fit(design, given)
                design, given = fitted.design, fitted.frame
            fitting = f"{time.monotonic() - before:.1f}" if is_fitted else "-"
            carry(work, design, given)
            files = [word for name in ("design.toml", "frame.csv", "log.txt", "sample.csv") for word in ("--" + name.split(".")[0], os.path.join(work, name))]
            words = [os.environ["SAMPLER"], "draw", *files, "--seed", SEED]
            report = subprocess.run(words, stdout=subprocess.PIPE, text=True, check=True).stdout
            with open(os.path.join(work, "log.txt")) as log:
                steps = log.read()
            left = re.search(r"^left 1 (\d+)$", report, re.M).group(1)
            _, seconds, megabytes = run(words)
            count = f"{millions(words, work)[0]:.0f}" if shutil.which("valgrind") else "not counted"
            wide = "wide" if "\nwide " in steps else "not wide"
            flights = steps.count("\nflight ")
            print(f"{method}, {sizes}, {fitting}, {rows}: {flights}, {left}, {wide}; {seconds:.3f}, {megabytes:.0f}, {count}", flush=True)
    shutil.rmtree(work)


if __name__ == "__main__":
    main()
