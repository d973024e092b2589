#!/usr/bin/env python3
"""Draws fitted designs of made-up frames, and says of each that went wide, or in which a stratum hasn't its number; ends with code 1 where there is one.

    bench/narrow.py [FRAMES [DRAWS]]       200 frames and ten draws of each where none are given

The frames have 1 to 15 columns, equal or log-normal sizes over some four powers of ten, in 1 to 12 strata of random numbers, by the cube, the local cube and
the stratified cube; half as many more are at the edge of the bound, with levels of 0 and of the largest range alone, which aren't fitted.
"""
import math
import os
import random
import subprocess
import sys
import warnings
from fractions import Fraction

TOP = os.path.dirname(os.path.dirname(os.path.abspath(__file__)))
sys.dont_write_bytecode = True
sys.path[:0] = [os.path.join(TOP, "clients", "python"), os.path.join(TOP, "clients", "python", "tests")]
if "SAMPLER" not in os.environ:
    os.environ["SAMPLER"] = os.path.join(TOP, "sampler")

import fitting
import sampler


def main():
    frames = int(sys.argv[1]) if len(sys.argv) > 1 else 200
    draws = int(sys.argv[2]) if len(sys.argv) > 2 else 10
    subprocess.run([os.environ["SAMPLER"]], stdout=subprocess.DEVNULL)
    bad, tried, moved = 0, 0, []
    warnings.simplefilter("ignore", sampler.WideWarning)
    for number in range(frames + frames // 2):
        if number < frames:
            design, frame = fitting.made_up(number)
            fitted = sampler.fit(design, frame)
            design, frame = fitted.design, fitted.frame
            wanted = {one.stratum: one.number for one in fitted.strata}
            moved += [one.median for one in fitted.strata if one.median is not None]
        else:
            design, frame, wanted = fitting.at_the_edge(number)
        for seed in range(draws):
            drawn = sampler.draw(design, frame, seed=f"{1000 * number + seed:064x}")
            found = dict.fromkeys(wanted, 0)
            for row in drawn.sample:
                found[row[design["stratum"]] if "stratum" in design else None] += 1
            tried += 1
            if drawn.wide or found != wanted:
                bad += 1
                print(f"frame {number}, seed {1000 * number + seed}: wide {drawn.wide}, drawn {found} of {wanted}", flush=True)
    moved.sort()
    print(f"{tried} draws of {frames + frames // 2} frames, {bad} of them went wide or have another number in a stratum")
    median, most = (100 * moved[len(moved) * part // 10] for part in (5, 9))
    print(f"the probabilities of a stratum moved by {median:.1f} % in the median, and in nine of ten by at most {most:.1f} %")
    sys.exit(bad > 0)


if __name__ == "__main__":
    main()
