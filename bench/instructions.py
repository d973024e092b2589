#!/usr/bin/env python3
"""Counts the instructions of `sampler draw` and `sampler probs`, CSV to CSV, on a made-up frame, where valgrind is there.

    bench/instructions.py [ROWS]       100,000 rows where none are given, half of the most that a frame has

A fifth of the rows is drawn; by Brewer's method and the elimination procedure by a seed alone. The counts are the same from run to run, whatever else the machine does. It is no test.
"""
import os
import re
import shutil
import subprocess
import sys
import tempfile

from draw import TOP, made_up_sizes, pivotal_tape, systematic_tape, write


def millions(words, work):
    """The instructions of a call, in millions, and its exit code."""
    out = os.path.join(work, "callgrind.out")
    call = ["valgrind", "--tool=callgrind", f"--callgrind-out-file={out}", *words]
    done = subprocess.run(call, stdout=subprocess.DEVNULL, stderr=subprocess.PIPE, text=True)
    return int(re.search(r"Collected : (\d+)", done.stderr).group(1)) / 1e6, done.returncode


def main():
    if shutil.which("valgrind") is None:
        sys.exit("valgrind isn't there")
    work = tempfile.mkdtemp()
    subprocess.run([os.path.join(TOP, "sampler")], stdout=subprocess.DEVNULL)
    program = os.path.join(TOP, "crates", "sampler", "out", "sampler")
    rows = int(sys.argv[1]) if len(sys.argv) > 1 else 100_000
    sizes = made_up_sizes(rows)
    n = max(1, rows // 5)
    frame = write(work, "frame.csv", "id,size\n" + "".join(f"U{i},{size}\n" for i, size in enumerate(sizes)))
    print("command method rows instructions (millions)")
    for method, full_tape in [("systematic", systematic_tape), ("pivotal", pivotal_tape), ("brewer", None), ("elimination", None)]:
        text = f'version = 2\nmethod = "{method}"\nid = "id"\nsize = "size"\nn = {n}\n'
        design = write(work, "design.toml", text)
        files = ["--log", os.path.join(work, "log.txt"), "--sample", os.path.join(work, "sample.csv")]
        inputs = ["--design", design, "--frame", frame]
        calls = [("seeded", ["draw", *inputs, "--seed", "0" * 64, *files])]
        if full_tape is not None:
            values = full_tape(sizes, n, lambda bound: bound // 2)
            tape = write(work, "tape.txt", "".join(f"{value}\n" for value in values))
            calls = [("draw", ["draw", *inputs, "--tape", tape, *files]), *calls, ("probs", ["probs", *inputs])]
        for command, words in calls:
            count, code = millions([program, *words], work)
            note = "" if code == 0 else f" (ended with code {code})"
            print(f"{command} {method} {rows} {count:.0f}{note}")


if __name__ == "__main__":
    main()
