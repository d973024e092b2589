#!/usr/bin/env python3
"""Looks for the names of a page of docs/ in the files that it names them of.

    .ci/names.py PAGE..

In a row of a table whose first cell is a file of crates/, in backticks, each word in backticks of the second cell has to be a
function of that file. Every other path of crates/ in backticks has to be there.
"""

import pathlib
import re
import sys

HERE = pathlib.Path(__file__).resolve().parent.parent


def faults_of(line):
    paths = re.findall(r"`(crates/[\w/.]+)`", line)
    missing = [f"there is no {path}" for path in paths if not (HERE / path).exists()]
    cells = [cell.strip() for cell in line.split("|")[1:3]]
    row = re.fullmatch(r"`(crates/[\w/.]+)`", cells[0]) if len(cells) == 2 else None
    if row is None or missing:
        return missing
    text = (HERE / row[1]).read_text(encoding="utf-8")
    names = re.findall(r"`(\w+)`", cells[1])
    return [f"{row[1]} has no function {name}" for name in names if not re.search(rf"\bfn {name}\b", text)]


def main(pages):
    faults = []
    for page in pages:
        lines = (HERE / page).read_text(encoding="utf-8").splitlines()
        faults += [f"{page}:{number}: {fault}" for number, line in enumerate(lines, 1) for fault in faults_of(line)]
    for fault in faults:
        print(fault, file=sys.stderr)
    return 1 if faults else 0


if __name__ == "__main__":
    sys.exit(main(sys.argv[1:]))
