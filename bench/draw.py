#!/usr/bin/env python3
"""Times `sampler draw`, CSV to CSV, on made-up frames, and prints method, rows, steps, seconds and megabytes. It is no test.

    bench/draw.py [ROWS ..]       100,000 rows where none are given, half of the most that a frame has

A tenth of the rows is drawn. Each method is drawn with two tapes: one of the least value of every draw, one of the greatest.
"""
import math
import os
import subprocess
import sys
import tempfile

TOP = os.path.dirname(os.path.dirname(os.path.abspath(__file__)))


def made_up_sizes(rows):
    state, sizes = 1, []
    for _ in range(rows):
        state = (state * 6364136223846793005 + 1442695040888963407) % 2**64
        sizes.append(state // 2**33 % 1000 + 1)
    return sizes


def numerators(sizes, n):
    """The numerators of the requested probabilities and their common denominator, where no unit is certain."""
    divisor = math.gcd(*sizes)
    total = sum(sizes) // divisor
    common = math.gcd(total, n)
    return [size // divisor * (n // common) for size in sizes], total // common


def pivotal_tape(sizes, n, choose):
    """The values of a full tape, where `choose` gives the draw for each bound."""
    numer, den = numerators(sizes, n)
    values, held = [], None
    for unit in range(len(numer)):
        if held is None:
            held = unit
            continue
        a, b = numer[held], numer[unit]
        first, second = (a, b) if a + b <= den else (den - b, den - a)
        value = choose(first + second)
        values.append(value)
        high, low = min(a + b, den), max(a + b - den, 0)
        numer[held], numer[unit] = (high, low) if value < first else (low, high)
        held = next((u for u in (held, unit) if 0 < numer[u] < den), None)
    return values


def systematic_tape(sizes, n, choose):
    return [choose(numerators(sizes, n)[1])]


def random_tape(sizes, n, choose):
    places = len(sizes)
    return [choose(places - i) for i in range(places - 1)] + systematic_tape(sizes, n, choose)


def support_tape(sizes, n, choose):
    numer, den = numerators(sizes, n)
    numer, values = sorted(numer), []
    small, large = numer[: len(numer) - n], numer[len(numer) - n :]
    while any(0 < value < den for value in (small[-1], large[0])):
        weight = min(den - small[-1], large[0])
        values.append(choose(den))
        if values[-1] < weight:
            break
        large, den = [value - weight for value in large], den - weight
        numer = sorted(small + large)
        small, large = numer[: len(numer) - n], numer[len(numer) - n :]
    return values


METHODS = [
    ("pivotal", "frame", pivotal_tape),
    ("systematic", "frame", systematic_tape),
    ("systematic", "random", random_tape),
    ("minimum_support", None, support_tape),
]


# A process counts the most pages of the one that it was made from too, so a small one starts the program.
STARTER = """
import resource, subprocess, sys, time
begin = time.monotonic()
code = subprocess.run(sys.argv[1:], stdout=subprocess.DEVNULL).returncode
print(code, time.monotonic() - begin, resource.getrusage(resource.RUSAGE_CHILDREN).ru_maxrss)
"""


def run(words):
    """The exit code, the seconds and the most megabytes, of 1,000,000 bytes, of a call."""
    told = subprocess.run([sys.executable, "-c", STARTER, *words], stdout=subprocess.PIPE, check=True, text=True).stdout.split()
    return int(told[0]), float(told[1]), int(told[2]) * 1024 / 1_000_000


def write(folder, name, text):
    path = os.path.join(folder, name)
    with open(path, "w") as file:
        file.write(text)
    return path


def main():
    work = tempfile.mkdtemp()
    subprocess.run([os.path.join(TOP, "sampler")], stdout=subprocess.DEVNULL)
    program = os.path.join(TOP, "crates", "sampler", "out", "sampler")
    print("method order rows values draws seconds megabytes")
    for rows in [int(word) for word in sys.argv[1:]] or [100_000]:
        sizes = made_up_sizes(rows)
        n = max(1, rows // 10)
        frame = write(work, "frame.csv", "id,size\n" + "".join(f"U{i},{size}\n" for i, size in enumerate(sizes)))
        for method, order, full_tape in METHODS:
            text = f'version = 1\nmethod = "{method}"\nid = "id"\nsize = "size"\nn = {n}\n'
            text += f'order = "{order}"\n' if order else ""
            design = write(work, "design.toml", text)
            for name, choose in [("least", lambda bound: 0), ("greatest", lambda bound: bound - 1)]:
                values = full_tape(sizes, n, choose)
                tape = write(work, "tape.txt", "".join(f"{value}\n" for value in values))
                words = [program, "draw", "--design", design, "--frame", frame, "--tape", tape]
                words += ["--log", os.path.join(work, "log.txt"), "--sample", os.path.join(work, "sample.csv")]
                code, seconds, megabytes = run(words)
                note = "" if code == 0 else f" (ended with code {code})"
                print(f"{method} {order} {rows} {len(values)} {name} {seconds:.3f} {megabytes:.0f}{note}")


if __name__ == "__main__":
    main()
