"""Draws by each number below a bound, and compares the estimated variances with the variance of the estimates.

    python3 examples/all_draws.py PROGRAM FOLDER COLUMN BOUND

FOLDER has a design and a frame, of which each sample takes one number below BOUND, and the answers of all units. Puts the mean of the estimated totals,
their variance, and the mean of the estimated variances by joint.py, as fractions. The last two are the same.
"""
import os
import subprocess
import sys
import tempfile
from fractions import Fraction

import joint


def main():
    if len(sys.argv) != 5:
        sys.exit(__doc__)
    program, folder, column, bound = sys.argv[1:]
    plan = ["--design", os.path.join(folder, "design.toml"), "--frame", os.path.join(folder, "frame.csv")]
    estimates = []
    with tempfile.TemporaryDirectory() as work:
        tape, sample, pairs = (os.path.join(work, name) for name in ("tape", "sample", "joint"))
        with open(pairs, "wb") as file:
            subprocess.run([program, "joint", *plan], stdout=file, check=True)
        for draw in range(int(bound)):
            with open(tape, "w", encoding="ascii") as file:
                file.write(f"{draw}\n")
            words = ["draw", *plan, "--tape", tape, "--log", os.path.join(work, "log"), "--sample", sample]
            subprocess.run([program, *words], stdout=subprocess.DEVNULL, check=True)
            estimates.append(joint.estimated(pairs, sample, os.path.join(folder, "answers.csv"), column))
    totals, variances = zip(*estimates)
    mean = sum(totals) / len(totals)
    print(mean, sum((total - mean) ** 2 for total in totals) / len(totals), Fraction(sum(variances), len(variances)))


if __name__ == "__main__":
    main()
