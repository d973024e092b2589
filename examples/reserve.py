"""Draws a sample and a reserve in order from one frame, by one seed.

    python3 examples/reserve.py PROGRAM DESIGN FRAME SEED RESERVE FOLDER

DESIGN draws n units by the elimination procedure, from the frame as a whole and in one stage; SEED is the file of the seed. Into
FOLDER, a new one, go design_N.toml, log_N.txt, sample_N.csv and report_N.txt of the draws of N = n, n + 1, .. n + RESERVE units,
and reserve.csv: which unit is the first of the reserve, the second and so on. Each sample has the one before and one unit more,
since the steps of each log are the first ones of the log before. That is looked at; where it isn't so, no file is left.
"""
import csv
import os
import re
import shutil
import subprocess
import sys
import tempfile


def number_line(design):
    """The line that says how many are drawn: `n = 12`."""
    lines = [line for line in design.splitlines() if re.fullmatch(r"n *= *[0-9]+ *(#.*)?", line)]
    if len(lines) != 1 or not re.search(r'^method *= *"elimination"', design, re.MULTILINE):
        sys.exit("reserve.py: the design has to draw n units by the method elimination")
    if re.search(r"^(stratum *=|\[second\])", design, re.MULTILINE):
        sys.exit("reserve.py: the design has to draw from the frame as a whole, in one stage")
    return lines[0]


def design_of(design, line, count, folder):
    """The design with another number of draws, as a file of the folder."""
    name = os.path.join(folder, f"design_{count}.toml")
    with open(name, "w", encoding="utf-8", newline="") as file:
        file.write(re.sub(rf"^{re.escape(line)}(?=\r?$)", f"n = {count}", design, flags=re.MULTILINE))
    return name


def put(words):
    """What the program puts; a refusal ends here, with its line."""
    done = subprocess.run(words, stdout=subprocess.PIPE, encoding="utf-8")
    if done.returncode != 0:
        sys.exit(f"reserve.py: {done.stdout.strip() or 'no file, or none that can be written'} (code {done.returncode})")
    return done.stdout


def drawn(program, design, frame, seed, folder, count):
    """The ids of a draw of so many units, and the steps of its log."""
    names = [os.path.join(folder, name.format(count)) for name in ("log_{}.txt", "sample_{}.csv", "report_{}.txt")]
    log, sample, report = names
    said = put([program, "draw", "--design", design, "--frame", frame, "--seed", seed, "--log", log, "--sample", sample])
    with open(report, "w", encoding="utf-8", newline="") as file:
        file.write(said)
    with open(sample, newline="", encoding="utf-8") as file:
        ids = [row["id"] for row in csv.DictReader(file)]
    with open(log, encoding="ascii") as file:
        return ids, [line for line in file if line.startswith("eliminate ")]


def reserve_of(draws):
    """The unit that each draw has more than the one before, where each log goes on behind the next one."""
    order = []
    for (ids, steps), (more_ids, fewer_steps) in zip(draws, draws[1:]):
        further = [unit for unit in more_ids if unit not in set(ids)]
        if steps[: len(fewer_steps)] != fewer_steps:
            sys.exit(f"reserve.py: the draws of {len(ids)} and {len(more_ids)} have other steps, so they aren't nested")
        if len(further) != 1 or len(more_ids) != len(ids) + 1:
            sys.exit(f"reserve.py: the samples of {len(ids)} and {len(more_ids)} aren't nested")
        order += further
    return order


def main():
    if len(sys.argv) != 7 or not sys.argv[5].isdigit():
        sys.exit(__doc__)
    program, design_name, frame, seed_name, reserve, folder = sys.argv[1:]
    with open(design_name, encoding="utf-8", newline="") as file:
        design = file.read()
    with open(seed_name, encoding="ascii") as file:
        seed = file.read().strip()
    line = number_line(design)
    least = int(re.search("[0-9]+", line)[0])
    counts = range(least, least + int(reserve) + 1)
    if os.path.exists(folder):
        sys.exit(f"reserve.py: {folder} is there already")
    with tempfile.TemporaryDirectory() as work:
        order = reserve_of([drawn(program, design_of(design, line, count, work), frame, seed, work, count) for count in counts])
        with open(os.path.join(work, "reserve.csv"), "w", newline="", encoding="utf-8") as file:
            csv.writer(file, lineterminator="\n").writerows([("place", "id"), *enumerate(order, 1)])
        shutil.copytree(work, folder)
    print(f"sample {least}, reserve {len(order)}")


if __name__ == "__main__":
    main()
