#!/usr/bin/env python3
"""Times `sampler joint`, CSV to CSV, on made-up frames, and counts its instructions where valgrind is there. It is no test.

    bench/joint.py [ROWS ..]       500, 1,000 and 2,000 rows where none are given, the last of which is the most

A tenth of the rows is drawn systematically, in proportion to size, in one stratum, in ten, and by given probabilities. It prints what is drawn, the rows,
the pairs, seconds, megabytes and millions of instructions. With the name of a program in SAMPLER it is that one.
"""
import os
import shutil
import subprocess
import sys
import tempfile

sys.dont_write_bytecode = True
from draw import TOP, made_up_sizes, run, write
from instructions import millions

FRONT = 'version = 2\nmethod = "systematic"\nid = "id"\n'


def surveys(rows):
    """What is drawn: its name and its design."""
    yield "one stratum", f'{FRONT}size = "size"\nn = {rows // 10}\n'
    yield "ten strata", f'{FRONT}size = "size"\nstratum = "group"\nn = {rows // 10}\n'
    yield "given", f'{FRONT}prob = "prob"\n'


def main():
    counts = [int(word) for word in sys.argv[1:]] or [500, 1_000, 2_000]
    work = tempfile.mkdtemp()
    program = os.environ.get("SAMPLER")
    if program is None:
        subprocess.run([os.path.join(TOP, "sampler")], stdout=subprocess.DEVNULL)
        program = os.path.join(TOP, "crates", "sampler", "out", "sampler")
    print("drawn, rows, pairs, seconds, megabytes, instructions (millions)")
    for rows in counts:
        lines = [f"u{row},g{row % 10},{size},{size}/1001\n" for row, size in enumerate(made_up_sizes(rows))]
        frame = write(work, "frame.csv", "id,group,size,prob\n" + "".join(lines))
        for name, text in surveys(rows):
            words = [program, "joint", "--design", write(work, "design.toml", text), "--frame", frame]
            code, seconds, megabytes = run(words)
            counted = f"{millions(words, work)[0]:.0f}" if shutil.which("valgrind") else "not counted"
            note = "" if code == 0 else f" (ended with code {code})"
            print(f"{name}, {rows}, {rows * (rows - 1) // 2}, {seconds:.2f}, {megabytes:.1f}, {counted}{note}")


if __name__ == "__main__":
    main()
