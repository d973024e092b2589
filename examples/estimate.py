"""Estimates a total from a sample and the answers of its units, and how far it may be off.

    python3 examples/estimate.py SAMPLE ANSWERS COLUMN [STRATUM [PSU]]

ANSWERS has a row for each unit of SAMPLE, with its id in the first column. STRATUM and PSU name its columns of strata and of first stage units; - stands
for no strata. Puts the estimated total and its standard error, as if the first stage units of each stratum had been drawn with replacement.
"""
import collections
import csv
import math
import sys
from fractions import Fraction


def rows_of(path):
    with open(path, newline="", encoding="utf-8") as file:
        return list(csv.DictReader(file))


def main():
    if not 4 <= len(sys.argv) <= 6:
        sys.exit(__doc__)
    sample, answers, column, stratum, psu = (sys.argv[1:] + ["-", "-"])[:5]
    rows = rows_of(answers)
    key = next(iter(rows[0]))
    by_id = {row[key]: row for row in rows}
    parts = collections.defaultdict(Fraction)
    for drawn in rows_of(sample):
        row = by_id[drawn["id"]]
        place = (row[stratum] if stratum != "-" else "", row[psu] if psu != "-" else drawn["id"])
        parts[place] += Fraction(drawn["weight"]) * Fraction(row[column])
    strata = collections.defaultdict(list)
    for (name, _), part in parts.items():
        strata[name].append(part)
    variance = Fraction(0)
    for name, those in strata.items():
        if len(those) == 1:
            sys.exit(f"one first stage unit alone can't tell how far it may be off: {name}")
        mean = sum(those) / len(those)
        variance += Fraction(len(those), len(those) - 1) * sum((part - mean) ** 2 for part in those)
    print(f"{float(sum(parts.values())):.2f} {math.sqrt(variance):.2f}")


if __name__ == "__main__":
    main()
