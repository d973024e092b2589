#!/usr/bin/env python3
"""Lists what took longest in the last proof of a crate from nothing, by the times at which the kit kept it.

    cd crates/smp_app && rm -rf out/incremental && rt check --jobs 1 && ../../bench/slowest.py smp_app

A line has the seconds since the file that was kept before it. `F.Lts` has the steps of the function F, with all that it lets go at each of its exits;
`F.Proof` its goals. With more than one job the times mean little. It is no test.
"""
import os
import sys

TOP = os.path.dirname(os.path.dirname(os.path.abspath(__file__)))
MOST = 15


def main():
    if len(sys.argv) != 2:
        sys.exit(__doc__)
    kept = []
    for folder, _, names in os.walk(os.path.join(TOP, "crates", sys.argv[1], "out", "incremental")):
        kept += [(os.stat(os.path.join(folder, it)).st_mtime, it) for it in names if it.endswith(".oantt")]
    kept.sort()
    taken = [(after - before, name) for (before, _), (after, name) in zip(kept, kept[1:])]
    for seconds, name in sorted(taken, reverse=True)[:MOST]:
        print(f"{seconds:8.1f} {name.removesuffix('.oantt').removesuffix('.decls').partition('-proofs.')[2] or name}")


if __name__ == "__main__":
    main()
