"""Reads a sample file, its weights as exact fractions, and prints their sum."""
import csv
import sys
from fractions import Fraction

with open(sys.argv[1], newline="", encoding="utf-8") as file:
    sample = [(row["id"], Fraction(row["weight"])) for row in csv.DictReader(file)]
print(f"{float(sum(weight for _, weight in sample)):.2f}")
