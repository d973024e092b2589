#!/usr/bin/env python3
"""Times what the clients for Python and R add to a draw. It is no test.

    bench/clients.py [ROWS]       100,000 rows where none are given

A tenth of the rows is drawn systematically in ten strata, in proportion to size, and by the cube on four columns with equal sizes. The frame is in memory, a list
of dicts or a data frame. It prints what is drawn, the client, the seconds of the call, those of the program alone on the same files, and the difference, and
then the same in seconds of a processor, which say more where other programs run beside. Each is the median of five. With the name of a program in SAMPLER it
is that one. R is left out where it isn't there, or hasn't the package (`R CMD INSTALL clients/r`).
"""
import os
import shutil
import statistics
import subprocess
import sys
import tempfile

sys.dont_write_bytecode = True
from draw import TOP, made_up_sizes

sys.path.insert(0, os.path.join(TOP, "clients", "python"))
import sampler
from sampler.folder import INPUTS

SEED = "0" * 64
TIMES = 5
R = """
library(sampler)
frame <- read.csv(commandArgs(TRUE)[1])
times <- vapply(seq_len(%d), function(time) unclass(system.time(draw(commandArgs(TRUE)[2], frame, seed = strrep("0", 64)))), numeric(5))
cat(median(times[3, ]), median(colSums(times[-3, ])))
""" % TIMES


def median(call):
    """The medians of the seconds, and of the seconds of a processor, that a call takes."""
    seconds, busy = [], []
    for _ in range(TIMES):
        start = os.times()
        call()
        end = os.times()
        seconds.append(end.elapsed - start.elapsed)
        busy.append(sum(end[:4]) - sum(start[:4]))
    return statistics.median(seconds), statistics.median(busy)


def main():
    rows = int(sys.argv[1]) if len(sys.argv) > 1 else 100_000
    if "SAMPLER" not in os.environ:
        subprocess.run([os.path.join(TOP, "sampler")], stdout=subprocess.DEVNULL)
        os.environ["SAMPLER"] = os.path.join(TOP, "crates", "sampler", "out", "sampler")
    frame = [
        {"id": f"u{row}", "group": f"g{row % 10}", "size": size, **{f"x{column}": size * (row + column) % 1000 for column in range(4)}}
        for row, size in enumerate(made_up_sizes(rows))
    ]
    systematic = {"version": 1, "method": "systematic", "id": "id", "stratum": "group", "size": "size", "n": rows // 10}
    cube = {"version": 1, "method": "cube", "id": "id", "balance": [f"x{column}" for column in range(4)], "n": rows // 10}
    print("drawn, client, seconds, of the program, difference, seconds of a processor, of the program, difference")
    for name, design in ("systematic", systematic), ("cube", cube):
        with tempfile.TemporaryDirectory() as work:
            record = os.path.join(work, "record")
            sampler.draw(design, frame, seed=SEED, record=record)
            words = [os.path.abspath(os.environ["SAMPLER"]), "draw", *INPUTS, "--seed", SEED, "--log", "log", "--sample", "sample"]
            alone = median(lambda: subprocess.run(words, cwd=record, stdout=subprocess.DEVNULL, check=True))
            seconds = {"Python": median(lambda: sampler.draw(design, frame, seed=SEED))}
            if shutil.which("Rscript") and subprocess.run(["Rscript", "-e", "library(sampler)"], capture_output=True).returncode == 0:
                given = [os.path.join(record, "frame.csv"), os.path.join(record, "design.toml")]
                seconds["R"] = map(float, subprocess.run(["Rscript", "-e", R, *given], check=True, capture_output=True, text=True).stdout.split())
            for client, of_client in seconds.items():
                print(f"{name}, {client}", *(f"{one:.2f}, {other:.2f}, {one - other:.2f}" for one, other in zip(of_client, alone)), sep=", ")


if __name__ == "__main__":
    main()
