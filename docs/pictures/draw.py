#!/usr/bin/env python3
"""Draws the pictures of the documents from crates.txt and from what the program itself writes.

    docs/pictures/draw.py            writes them
    docs/pictures/draw.py --check    ends with 1 where one isn't as it would be written, and names it
"""
import collections
import csv
import math
import os
import subprocess
import sys
import tempfile
from fractions import Fraction
from xml.sax.saxutils import escape

HERE = os.path.dirname(os.path.abspath(__file__))
TOP = os.path.dirname(os.path.dirname(HERE))
PROGRAM = os.path.join(TOP, "crates", "sampler", "out", "sampler")
PAST_ALL_BOUNDS = 2**128 - 1
STYLE = """text { font-family: sans-serif; font-size: 13px; fill: #1f2328 }
.small { font-size: 11px }
.ground { fill: #ffffff }
.line { stroke: #8a94a0; fill: none }
.box { fill: #eef1f5; stroke: #8a94a0 }
.plain { fill: #8a94a0 }
.first { fill: #c2570c; stroke: none }
.second { fill: #1d5fbf; stroke: none }
@media (prefers-color-scheme: dark) {
text { fill: #e6edf3 }
.ground { fill: #0d1117 }
.box { fill: #1c2430 }
.first { fill: #ff9d57 }
.second { fill: #6cb0ff }
}"""


# ---- the program

def run(folder, *words):
    """The exit code of a call in a folder, and the lines that it puts."""
    ended = subprocess.run([PROGRAM, *words], cwd=folder, stdout=subprocess.PIPE, text=True)
    return ended.returncode, ended.stdout.splitlines()


def write(folder, name, lines):
    with open(os.path.join(folder, name), "w", encoding="utf-8") as file:
        file.writelines(f"{line}\n" for line in lines)


def rows_of(path):
    with open(path, newline="", encoding="utf-8") as file:
        return list(csv.DictReader(file))


def drawn(folder, design, frame, seed):
    """The sample of a draw by a seed: each id with its weight."""
    code, put = run(folder, "draw", "--design", design, "--frame", frame, "--seed", f"{seed:064x}", "--log", "log", "--sample", "sample")
    assert code == 0, put
    return {row["id"]: Fraction(row["weight"]) for row in rows_of(os.path.join(folder, "sample"))}


# ---- SVG

def text(x, y, words, anchor="middle", kind=""):
    named = f' class="{kind}"' if kind else ""
    return f'<text x="{x:.1f}" y="{y:.1f}" text-anchor="{anchor}"{named}>{escape(words)}</text>'


def line(x1, y1, x2, y2):
    return f'<line class="line" x1="{x1:.1f}" y1="{y1:.1f}" x2="{x2:.1f}" y2="{y2:.1f}"/>'


def box(x, y, width, height):
    return f'<rect class="box" x="{x:.1f}" y="{y:.1f}" width="{width:.1f}" height="{height:.1f}" rx="4"/>'


def dot(x, y, radius, kind):
    return f'<circle class="{kind}" cx="{x:.1f}" cy="{y:.1f}" r="{radius}"/>'


def picture(title, width, height, parts):
    head = [f'<svg xmlns="http://www.w3.org/2000/svg" viewBox="0 0 {width} {height}" width="{width}" height="{height}" role="img">',
            f"<title>{escape(title)}</title>", f"<style>{STYLE}</style>", f'<rect class="ground" width="{width}" height="{height}"/>']
    return "\n".join([*head, *parts, "</svg>", ""])


# ---- the map of the crates

def levels(stands_on):
    """The crates by the longest chain of crates below them."""
    level = {}

    def find(name):
        if name not in level:
            level[name] = 1 + max((find(below) for below in stands_on[name]), default=-1)
        return level[name]

    rows = [[] for _ in range(1 + max(map(find, stands_on)))]
    for name in stands_on:
        rows[level[name]].append(name)
    return rows


def without_shortcuts(stands_on):
    """What each crate stands on, but for what it stands on by another crate too."""
    def all_below(name):
        return set(stands_on[name]).union(*map(all_below, stands_on[name]))

    return {name: [it for it in below if not any(it in all_below(other) for other in below)] for name, below in stands_on.items()}


def crates():
    with open(os.path.join(TOP, "crates.txt"), encoding="utf-8") as file:
        named = [it.partition(":") for it in file if it.strip() and not it.startswith("#")]
    named = [it for it in named if not it[0].endswith("_tests")]
    known = {name.strip() for name, _, _ in named}
    stands_on = {name.strip(): [it for it in below.split() if it in known] for name, _, below in named}
    rows = levels(stands_on)
    level = {name: at for at, row in enumerate(rows) for name in row}
    # A line that passes a row has a place of its own there, as a crate has.
    pieces = []
    for name, those in without_shortcuts(stands_on).items():
        for it in those:
            stops = [it, *((it, name, at) for at in range(level[it] + 1, level[name])), name]
            for at, stop in enumerate(stops[1:-1], level[it] + 1):
                rows[at].append(stop)
            pieces += zip(stops, stops[1:])
    near = collections.defaultdict(list)
    for one, other in pieces:
        near[one].append(other)
        near[other].append(one)
    wide, thin, high, apart, width = 114, 20, 24, 84, 1340
    place = {}

    def set_places(row):
        sizes = [wide if isinstance(it, str) else thin for it in row]
        gap = (width - sum(sizes)) / (len(row) + 1)
        x = gap
        for it, size in zip(row, sizes):
            place[it] = x + size / 2
            x += size + gap

    for row in rows:
        set_places(row)
    for _ in range(40):
        for row in [*rows, *rows[::-1]]:
            row.sort(key=lambda it: (math.fsum(place[other] for other in near[it]) / max(1, len(near[it])), str(it)))
            set_places(row)
    height = apart * len(rows) + 30
    y = {it: height - 60 - apart * at for at, row in enumerate(rows) for it in row}
    parts = [line(place[one], y[one] - high / 2, place[other], y[other] + high / 2) for one, other in pieces]
    for it in y:
        if isinstance(it, str):
            short = it.removeprefix("smp_")
            parts += [box(place[it] - wide / 2, y[it] - high / 2, wide, high), text(place[it], y[it] + 4.5, it if short != it and short in known else short)]
        else:
            parts.append(line(place[it], y[it] - high / 2, place[it], y[it] + high / 2))
    parts.append(text(width / 2, height - 14, "A line leads down to a crate that one stands on. Lines that follow from others are left out, and so are the crates of tests, and smp_ in front of most names.",
                      kind="small"))
    return picture("The crates", width, height, parts)


# ---- the tree of a small draw

Leaf = collections.namedtuple("Leaf", "ids")
Node = collections.namedtuple("Node", "bound parts")
Part = collections.namedtuple("Part", "first last below")


def draw_tree(folder, frame, values):
    """The draw tree of two of four units below the state to which these values lead, found out by tapes."""
    write(folder, "tape", [*values, PAST_ALL_BOUNDS])
    code, put = run(folder, "quick", frame, "2", "tape", "ids")
    if code == 9:
        write(folder, "tape", values)
        assert run(folder, "quick", frame, "2", "tape", "ids")[0] == 0
        return Leaf(tuple(row["id"] for row in rows_of(os.path.join(folder, "ids"))))
    assert code == 8, put
    parts = []
    for value in range(int(put[0].split()[-1])):
        below = draw_tree(folder, frame, [*values, value])
        if parts and parts[-1].below == below:
            parts[-1] = parts[-1]._replace(last=value)
        else:
            parts.append(Part(value, value, below))
    return Node(int(put[0].split()[-1]), tuple(parts))


def probability(node, unit):
    """That a unit is selected, where each number below a bound counts the same."""
    if isinstance(node, Leaf):
        return Fraction(unit in node.ids)
    return sum(Fraction(it.last - it.first + 1, node.bound) * probability(it.below, unit) for it in node.parts)


def tree():
    frame = os.path.join(TOP, "examples", "four", "frame.csv")
    units = [row["id"] for row in rows_of(frame)]
    with tempfile.TemporaryDirectory() as folder:
        write(folder, "design", ["version = 1", 'method = "pivotal"', 'id = "id"', 'size = "size"', "n = 2"])
        asked = [it.split(",")[1] for it in run(folder, "probs", "--design", "design", "--frame", frame)[1][1:]]
        root = draw_tree(folder, frame, [])
    assert [probability(root, unit) for unit in units] == [Fraction(it) for it in asked], "the tree hasn't the probabilities that are asked"
    parts, step, wide, gap = [], 46, 196, 120
    rows = iter(range(100))

    def place(node, depth, share):
        """Draws a node and what is below it, and answers its height."""
        x = 20 + depth * (wide + gap)
        if isinstance(node, Leaf):
            y = 80 + next(rows) * step
            parts.extend([box(x, y - 13, wide, 26), text(x + wide / 2, y + 4.5, f"{' and '.join(node.ids)}: {share}")])
            return y
        places = []
        for it in node.parts:
            weight = it.last - it.first + 1
            y = place(it.below, depth + 1, share * Fraction(weight, node.bound))
            places.append((y, f"{it.first}" if weight == 1 else f"{it.first} to {it.last}", f"{weight} of {node.bound}"))
        y = (places[0][0] + places[-1][0]) / 2
        for below, values, weight in places:
            parts.insert(0, line(x + wide, y, x + wide + gap, below))
            parts.append(text(x + wide + gap - 8, below + (-8 if below < y else 17), f"{values}: {weight}", "end", "small"))
        chances = ", ".join(f"{unit} {probability(node, unit)}" for unit in units)
        parts.extend([box(x, y - 22, wide, 44), text(x + wide / 2, y - 4, chances), text(x + wide / 2, y + 14, f"a number below {node.bound}", kind="small")])
        return y

    place(root, 0, Fraction(1))
    width, height = 40 + 3 * (wide + gap) + wide, 80 + next(rows) * step
    parts += [text(20, 26, "Two of the units a, b, c and d with the sizes 1, 2, 3 and 4, by pivotal steps", "start"),
              text(20, 46, "A box has the probabilities of the units from there on. A line has the numbers that lead along it, and how many of all they are. At the "
                   "end stands the sample with its probability.", "start", "small")]
    return picture("The tree of a small draw", width, height, parts)


# ---- the spread of samples

def made_up_points(count):
    """Points in a square of 1,000,000, by the generator of Lehmer with the factor 16807."""
    state, points = 1, []
    for _ in range(count):
        place = []
        for _ in range(2):
            state = state * 16807 % (2**31 - 1)
            place.append(state % 1_000_000)
        points.append(tuple(place))
    return points


def spread():
    points, side, parts = made_up_points(400), 400, []
    totals = [sum(point[axis] for point in points) for axis in range(2)]
    with tempfile.TemporaryDirectory() as folder:
        write(folder, "frame", ["id,x,y", *(f"{at},{x},{y}" for at, (x, y) in enumerate(points))])
        near, balance = 'near = ["x", "y"]', 'balance = ["x", "y"]'
        for left, method, title, keys in [(20, "pivotal", "pivotal, in the order of the frame", []), (460, "local_pivotal", "local pivotal", [near]),
                                          (900, "local_cube", "local cube, balanced on both coordinates", [near, balance])]:
            write(folder, method, ["version = 2", f'method = "{method}"', 'id = "id"', *keys, "n = 40"])
            weights = drawn(folder, method, "frame", 1)
            sample = [points[int(it)] for it in weights]
            away = math.fsum(min(math.dist(point, other) for other in sample) for point in points) / len(points)
            missed = [abs(float(sum(weights[it] * points[int(it)][axis] for it in weights) / totals[axis] - 1)) for axis in range(2)]
            parts += [box(left, 44, side, side), text(left, 26, title, "start")]
            for kind, radius, some in [("plain", 1.8, points), ("first", 5, sample)]:
                parts += [dot(left + 8 + x * (side - 16) / 1e6, 52 + y * (side - 16) / 1e6, radius, kind) for x, y in some]
            parts += [text(left, 466, f"A point is {away / 10_000:.1f}% of the side away from the nearest drawn one, on average.", "start", "small"),
                      text(left, 482, f"The totals of the coordinates are missed by {missed[0]:.1%} and {missed[1]:.1%}.", "start", "small")]
    parts.append(text(20, 506, "40 of 400 made-up points with equal probabilities, by the same seed.", "start", "small"))
    return picture("A pivotal sample, a local pivotal one, and one by the local cube", 1320, 522, parts)


# ---- the balance of a draw by the cube

def balance():
    frame, names = os.path.join(TOP, "examples", "parishes", "frame.csv"), ("households", "farmland")
    parishes = {row["parish"]: [int(row[name]) for name in names] for row in rows_of(frame)}
    totals = [sum(values) for values in zip(*parishes.values())]
    seeds, side, most, parts = range(1, 201), 520, 50, []
    left, top = 70, 44

    def place(error):
        return left + side / 2 + float(error) * 100 / most * side / 2

    with tempfile.TemporaryDirectory() as folder:
        write(folder, "cube", ["version = 1", 'method = "cube"', 'id = "parish"', 'balance = ["households", "farmland"]', "n = 9"])
        write(folder, "pivotal", ["version = 1", 'method = "pivotal"', 'order = "random"', 'id = "parish"', "n = 9"])
        parts += [box(left, top, side, side)]
        for tick in range(-most, most + 1, 25):
            x = place(Fraction(tick, 100))
            parts += [line(x, top, x, top + side), line(left, x - left + top, left + side, x - left + top), text(x, top + side + 18, f"{tick}%", kind="small"),
                      text(left - 8, top + side - (x - left) + 4, f"{tick}%", "end", "small")]
        root = {}
        for design, kind in [("pivotal", "second"), ("cube", "first")]:
            errors = []
            for seed in seeds:
                sample = drawn(folder, design, frame, seed)
                estimates = [sum(weight * parishes[it][at] for it, weight in sample.items()) for at in range(2)]
                errors.append([estimate / total - 1 for estimate, total in zip(estimates, totals)])
            root[design] = [math.sqrt(math.fsum(float(it[at]) ** 2 for it in errors) / len(errors)) for at in range(2)]
            assert all(abs(it) * 100 <= most for pair in errors for it in pair), "a point lies outside the picture"
            parts += [dot(place(x), top + side - (place(y) - left), 3.2, kind) for x, y in errors]
    parts += [text(left + side / 2, top + side + 40, "error of the estimated total of households"),
              f'<g transform="rotate(-90 20 {top + side / 2:.1f})">{text(20, top + side / 2, "error of the estimated total of farmland")}</g>',
              dot(left + 6, 22, 5, "first"), text(left + 18, 26, "cube, balanced on both totals", "start"),
              dot(left + 246, 22, 5, "second"), text(left + 258, 26, "pivotal, in a random order", "start"),
              text(left, top + side + 66, f"{len(seeds)} draws of 9 of 36 parishes by each. Root mean square errors of the two totals:", "start", "small"),
              text(left, top + side + 82, f"cube {root['cube'][0]:.1%} and {root['cube'][1]:.1%}, pivotal {root['pivotal'][0]:.1%} and {root['pivotal'][1]:.1%}.", "start", "small")]
    return picture("The balance of draws by the cube", left + side + 30, top + side + 98, parts)


def main():
    if sys.argv[1:] not in ([], ["--check"]):
        sys.exit(__doc__)
    # Without words it ends with its code for usage; it is built first where it has to be.
    if subprocess.run([os.path.join(TOP, "sampler")], stdout=subprocess.DEVNULL).returncode != 2:
        sys.exit("the program isn't there")
    other = False
    for name, made in [("crates", crates), ("tree", tree), ("spread", spread), ("balance", balance)]:
        path, drawing = os.path.join(HERE, f"{name}.svg"), made()
        if sys.argv[1:]:
            there = open(path, encoding="utf-8").read() if os.path.exists(path) else None
            if there != drawing:
                other = True
                print(f"{os.path.relpath(path, TOP)} isn't up to date", file=sys.stderr)
        else:
            with open(path, "w", encoding="utf-8") as file:
                file.write(drawing)
    sys.exit(other)


if __name__ == "__main__":
    main()
