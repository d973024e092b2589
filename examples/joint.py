"""Estimates a total from a sample of fixed size and the answers of its units, and how far it may be off, by the joint probabilities.

    python3 examples/joint.py JOINT SAMPLE ANSWERS COLUMN

JOINT is what `joint` puts. ANSWERS has a row for each unit of SAMPLE, with its id in the first column. Puts the estimated total and its standard error
(Sen 1953; Yates and Grundy 1953). That needs a joint probability above 0 of each two units of the frame, and as many drawn whatever the numbers.
"""
import csv
import itertools
import math
import sys
from fractions import Fraction


def rows_of(path):
    with open(path, newline="", encoding="utf-8") as file:
        return list(csv.DictReader(file))


def estimated(joint, sample, answers, column):
    """The estimated total and its estimated variance, as fractions."""
    joints = {frozenset((row["first"], row["second"])): Fraction(row["probability"]) for row in rows_of(joint)}
    if 0 in joints.values():
        sys.exit("a pair of probability 0 leaves no unbiased estimate of the variance")
    rows = rows_of(answers)
    key = next(iter(rows[0]))
    by_id = {row[key]: row for row in rows}
    weights = {row["id"]: Fraction(row["weight"]) for row in rows_of(sample)}
    parts = {unit: weight * Fraction(by_id[unit][column]) for unit, weight in weights.items()}
    variance = Fraction(0)
    for one, other in itertools.combinations(parts, 2):
        both = joints[frozenset((one, other))]
        variance += (1 / (weights[one] * weights[other]) - both) / both * (parts[one] - parts[other]) ** 2
    return sum(parts.values()), variance


def main():
    if len(sys.argv) != 5:
        sys.exit(__doc__)
    total, variance = estimated(*sys.argv[1:])
    if variance < 0:
        sys.exit(f"{float(total):.2f}, and an estimated variance below 0: this sample doesn't tell how far that may be off")
    print(f"{float(total):.2f} {math.sqrt(variance):.2f}")


if __name__ == "__main__":
    main()
