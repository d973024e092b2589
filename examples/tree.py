"""See it yourself: goes through the whole draw tree of a design with the program, and puts each row's share beside what was asked for it.

    python3 examples/tree.py PROGRAM DESIGN FRAME [WAYS]

It begins without a number. Behind the numbers so far it puts one that is too large for any bound: code 8 tells the bound of the next number, and
code 9 that there is none. So each number below each bound is tried, one way down after the other, and at the end of each the sample has the rows that it
selects. A way has the probability 1 / (its bounds, multiplied), which is what uniform and independent numbers give it. A row's share is the sum over the
ways that select it. Beside it stands what `probs` puts for the row. It knows no method: any design whose tree is small enough will do.

Puts `id share asked` for each row, how many ways there are, how many numbers the longest takes, and `the same` or `other`. Ends with 1 where a share is
another than what was asked, and with 2 where there are more than WAYS ways (100,000 where it isn't said).
"""
import csv
import io
import os
import re
import subprocess
import sys
import tempfile
from fractions import Fraction

# No bound is as large as this: the largest number that a line of a tape may have.
LARGE = 2**128 - 1
MOST_WAYS = 100_000


class Tree:
    """The ways down the draw tree of a design and a frame, as the program goes them."""

    def __init__(self, program, design, frame, folder):
        self.program, self.plan = program, ["--design", design, "--frame", frame]
        self.tape, self.log, self.sample = (os.path.join(folder, name) for name in ("tape", "log", "sample"))

    def drawn(self, numbers):
        """The code of a draw by these numbers, and the line that it puts."""
        with open(self.tape, "w", encoding="ascii") as file:
            file.writelines(f"{number}\n" for number in numbers)
        words = [self.program, "draw", *self.plan, "--tape", self.tape, "--log", self.log, "--sample", self.sample]
        done = subprocess.run(words, stdout=subprocess.PIPE, check=False)
        return done.returncode, done.stdout.decode("utf-8", "replace").split("\n")[0]

    def selected(self):
        """The ids in the sample."""
        with open(self.sample, encoding="utf-8", newline="") as file:
            return [row[0] for row in csv.reader(file)][1:]

    def bound(self, numbers):
        """The bound of the number that comes after these, or nothing where they are all."""
        code, line = self.drawn([*numbers, LARGE])
        if code == 8:
            return int(re.fullmatch(rf"error 8 tape value {len(numbers) + 1} is {LARGE}, bound (\d+)", line)[1])
        if code == 9:
            return None
        sys.exit(f"the draw by {numbers} and {LARGE} ended with code {code}: {line}")

    def ways(self):
        """Each way down: its share and its numbers."""
        waiting = [((), Fraction(1))]
        while waiting:
            numbers, share = waiting.pop()
            bound = self.bound(numbers)
            if bound is None:
                yield share, numbers
            else:
                waiting += [((*numbers, number), share / bound) for number in reversed(range(bound))]

    def asked(self):
        """What `probs` puts: each row's id and its requested probability, in order."""
        done = subprocess.run([self.program, "probs", *self.plan], stdout=subprocess.PIPE, check=True)
        rows = list(csv.reader(io.StringIO(done.stdout.decode("utf-8"), newline="")))
        return {row: Fraction(asked) for row, asked in rows[1:]}


def shares(tree, rows, most):
    """The share of each row, the number of ways, and of the numbers on the longest."""
    found, count, longest = dict.fromkeys(rows, Fraction(0)), 0, 0
    for share, numbers in tree.ways():
        count, longest = count + 1, max(longest, len(numbers))
        if count > most:
            print(f"more than {most} ways")
            sys.exit(2)
        code, line = tree.drawn(numbers)
        if code != 0:
            sys.exit(f"the draw by {numbers} ended with code {code}: {line}")
        for row in tree.selected():
            found[row] += share
    return found, count, longest


def main():
    if len(sys.argv) not in (4, 5):
        sys.exit(__doc__)
    most = int(sys.argv[4]) if len(sys.argv) == 5 else MOST_WAYS
    with tempfile.TemporaryDirectory() as folder:
        tree = Tree(*sys.argv[1:4], folder)
        asked = tree.asked()
        found, count, longest = shares(tree, asked, most)
    for row, share in found.items():
        print(row, share, asked[row])
    print(f"ways {count}\nnumbers {longest}")
    print("the same" if found == asked else "other")
    return 0 if found == asked else 1


if __name__ == "__main__":
    sys.exit(main())
