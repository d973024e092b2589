"""Tries four designs of one frame by the same seeds, and puts how often each went wide and how far its estimates are off, as CSV.

    python3 examples/compare.py examples/firms 20

The folder has a design by the stratified cube with sizes, and its frame. The seeds are the numbers from 1 on: known to everybody, so that nobody can take
one of them for a draw.
"""
import os
import sys
import tomllib

sys.dont_write_bytecode = True
sys.path.insert(0, os.path.join(os.path.dirname(os.path.dirname(os.path.abspath(__file__))), "clients", "python"))
import sampler


def tried(name, design, frame, columns, seeds):
    """A line: the name, the share of draws that went wide in some stratum, the undecided units of all strata at most, and the error of each column."""
    try_of = sampler.trial(design, frame, columns=columns, seeds=seeds)
    wide = max(one.wide for one in try_of.strata)
    undecided = [one.most_left for one in try_of.strata if one.most_left is not None]
    errors = {one.column: f"{100 * one.error:.1f}" for one in try_of.columns}
    return [name, f"{100 * wide:.0f}", sum(undecided) if undecided else "", *(errors[column] for column in columns)]


def main(folder, draws):
    design, frame = (os.path.join(folder, name) for name in ("design.toml", "frame.csv"))
    seeds = [f"{number:064x}" for number in range(1, draws + 1)]
    with open(design, "rb") as file:
        given = tomllib.load(file)
    columns = given["balance"]
    pivotal = {key: value for key, value in given.items() if key != "balance"} | {"method": "pivotal"}
    lines = [["design", "wide", "undecided", *columns], tried("pivotal", pivotal, frame, columns, seeds), tried("as it stands", given, frame, columns, seeds)]
    for name, method in (("cube in each stratum, fitted", "cube"), ("stratified cube, fitted", "stratified_cube")):
        fitted = sampler.fit(given | {"method": method}, frame)
        lines.append(tried(name, fitted.design, fitted.frame, columns, seeds))
    for line in lines:
        print(",".join(map(str, line)))


if __name__ == "__main__":
    main(sys.argv[1], int(sys.argv[2]))
