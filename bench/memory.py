#!/usr/bin/env python3
"""Measures the memory of `sampler draw`, CSV to CSV, on made-up frames, and prints the most megabytes, those of the log, and seconds. It is no test.

    bench/memory.py [ROWS [COLUMNS]]       100,000 rows and 15 columns of values where nothing is given

A tenth of the rows is drawn by each method, by a seed. The frame is the same for all: the cube balances all columns, the local pivotal method takes
the first two as coordinates, the local cube does both, the stratified cube balances all columns with one stratum, and the other methods ask for
none. Last comes the longest log that a draw of so many rows may have: Brewer's method by a tape that refuses as many offers as there may be, with the
largest sizes. The most of memory is the most pages that the system counts (the resident set). A megabyte is 1,000,000 bytes.
"""
import os
import subprocess
import sys
import tempfile

sys.dont_write_bytecode = True
import draw

METHODS = ("systematic", "pivotal", "minimum_support", "brewer", "elimination", "local_pivotal", "cube", "local_cube", "stratified_cube")
BALANCING = ("cube", "local_cube", "stratified_cube")
MEGABYTE = 1_000_000
MAX_SIZE = 2_147_483_647
OFFERS_FOR_EACH = 64


def made_up_frame(rows, columns):
    numbers = draw.made_up_sizes(rows * (columns + 1))
    lines = ["id,size," + ",".join(f"x{column}" for column in range(1, columns + 1))]
    for row in range(rows):
        lines.append(f"u{row + 1}," + ",".join(map(str, numbers[row * (columns + 1):(row + 1) * (columns + 1)])))
    return "\n".join(lines) + "\n"


def design_of(method, n, columns):
    lines = ["version = 2", f'method = "{method}"', 'id = "id"', f"n = {n}"]
    names = [f'"x{column}"' for column in range(1, columns + 1)]
    if method in BALANCING:
        lines.append("balance = [" + ", ".join(names) + "]")
    if method in ("local_pivotal", "local_cube"):
        lines.append("near = [" + ", ".join(names[:2]) + "]")
    if method not in (*BALANCING, "local_pivotal"):
        lines.append('size = "size"')
    return "\n".join(lines) + "\n"


def refusing_tape(sizes):
    """A tape of Brewer's method for two units that offers the last unit, which is smaller than the first, and refuses it, as often as it may."""
    total = sum(sizes)
    refused = f"{total - 1}\n{(total - sizes[0]) * (total - 2 * sizes[-1]) - 1}\n"
    yield refused * (OFFERS_FOR_EACH * len(sizes))
    for value in draw.pivotal_tape(sizes, 2, lambda bound: 0):
        yield f"{value}\n"


def measured(program, what, chance):
    code, seconds, megabytes = draw.run([program, *"draw --design design --frame frame --log log --sample sample".split(), *chance])
    assert code == 0, f"{what} ended with code {code}"
    print(f"{what:16} {megabytes:7.1f} MB, log {os.path.getsize('log') / MEGABYTE:7.1f} MB, {seconds:6.2f} s", flush=True)


def main():
    rows, columns = [int(word) for word in sys.argv[1:]] + [100_000, 15][len(sys.argv) - 1:]
    # The program is built where it isn't yet.
    subprocess.run([os.path.join(draw.TOP, "sampler")], stdout=subprocess.DEVNULL)
    program = os.path.join(draw.TOP, "crates", "sampler", "out", "sampler")
    with tempfile.TemporaryDirectory() as folder:
        os.chdir(folder)
        draw.write(folder, "frame", made_up_frame(rows, columns))
        print(f"{rows} rows, {columns} columns, {os.path.getsize('frame') / MEGABYTE:.1f} MB")
        for method in METHODS:
            draw.write(folder, "design", design_of(method, rows // 10, columns))
            measured(program, method, ("--seed", "1" * 64))
        sizes = [MAX_SIZE] * (rows - 1) + [MAX_SIZE - 1]
        draw.write(folder, "frame", "id,size\n" + "".join(f"u{row + 1},{size}\n" for row, size in enumerate(sizes)))
        draw.write(folder, "design", design_of("brewer", 2, 0))
        with open("tape", "w") as tape:
            tape.writelines(refusing_tape(sizes))
        measured(program, "longest log", ("--tape", "tape"))


if __name__ == "__main__":
    main()
