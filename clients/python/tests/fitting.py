"""Made-up frames to fit, and what a fitted one has to keep to, reckoned apart from the package."""
import math
import random
from fractions import Fraction

from sampler.bound import steps_beside

CUBES = ("cube", "local_cube", "stratified_cube")


def made_up(number, columns=None):
    """A design and a frame, by a number: 1 to 15 columns, equal sizes or log-normal ones over some four powers of ten, in 1 to 12 strata of random numbers."""
    chance = random.Random(number)
    method = CUBES[number % 3]
    columns = columns or 1 + number // 3 % 15
    strata = chance.randint(1, 12)
    if method == "stratified_cube":
        strata = chance.randint(2 if columns < 15 else 1, min(12, 16 - columns))
    spread = chance.choice([0.0, 0.7, 1.3, 2.3])
    rows = []
    for stratum in range(strata):
        for _ in range(chance.randint(4 + columns, 60)):
            size = max(1, round(math.exp(chance.gauss(5, spread)))) if spread else 1
            row = {"id": f"u{len(rows)}", "region": f"r{stratum}", "size": size, "east": chance.randrange(10000), "north": chance.randrange(10000)}
            for column in range(columns):
                row[f"x{column}"] = value(chance, column, size)
            rows.append(row)
    chance.shuffle(rows)
    design = {"version": 2, "method": method, "id": "id", "balance": [f"x{column}" for column in range(columns)]}
    design |= {"stratum": "region"} if strata > 1 else {}
    design |= {"near": ["east", "north"]} if method == "local_cube" else {}
    design |= {"size": "size"} if spread else {}
    design["n"] = max(strata * 3, len(rows) // chance.choice([3, 5, 8]))
    return design, rows


def value(chance, column, size):
    """A value that goes along with the size more or less, or none of its like: one in six columns has both signs, one is 0 or 1, and one has decimals."""
    x = size ** (column % 4 / 3) * math.exp(chance.gauss(2, 0.2 + 0.15 * (column % 5)))
    return [round(x), round(x), round(x) - 8, chance.randrange(2), round(x, 2), round(x)][column % 6]


def at_the_edge(number):
    """A design and a frame that aren't fitted, but at the edge of the bound: levels of 0 and of the largest range that it allows, and how many are drawn of each
    stratum. The probabilities are 1/2k, in blocks of 2k units, so that each block has a whole sum."""
    chance = random.Random(number)
    method = CUBES[number % 3]
    columns = chance.randint(1, 15)
    strata = chance.randint(2 if columns < 15 else 1, min(6, 16 - columns)) if method == "stratified_cube" else 1
    kinds = sorted(chance.sample((1, 2, 3, 4, 5, 6, 8, 9), chance.randint(1, 3)))
    multiple = math.lcm(*kinds)
    most = steps_beside(multiple, columns, strata, (2**31 - 1) // multiple)
    if most == 0:
        return at_the_edge(number + 3000)
    frame, wanted = [], {}
    for stratum in range(strata):
        blocks = [chance.choice(kinds) for _ in range(chance.randint(columns // 6 + 1, 8))] + (kinds if stratum == 0 else [])
        wanted[f"r{stratum}" if strata > 1 else None] = len(blocks)
        for kind in (kind for kind in blocks for _ in range(2 * kind)):
            row = {"id": f"u{len(frame)}", "region": f"r{stratum}", "p": Fraction(1, 2 * kind), "east": chance.randrange(999), "north": chance.randrange(999)}
            frame.append(row | {f"x{column}": multiple // kind * chance.choice([0, most]) for column in range(columns)})
    chance.shuffle(frame)
    design = {"version": 2, "method": method, "id": "id", "prob": "p", "balance": [f"x{column}" for column in range(columns)]}
    design |= {"stratum": "region"} if strata > 1 else {}
    return design | ({"near": ["east", "north"]} if method == "local_cube" else {}), frame, wanted


def flights(design, frame, probabilities):
    """What is drawn in one, by the written probabilities: the rows of each with a probability between 0 and 1, by their strata."""
    groups = {}
    for row, probability in zip(frame, probabilities):
        stratum = row[design["stratum"]] if "stratum" in design else ""
        if 0 < probability < 1:
            groups.setdefault("" if design["method"] == "stratified_cube" else stratum, {}).setdefault(stratum, []).append((row, probability))
    return list(groups.values())


def is_narrow(strata, columns):
    """Whether a flight keeps to the bound of docs/narrow.md, from its rows and probabilities alone. In fractions and whole numbers."""
    units = [unit for own in strata.values() for unit in own]
    over = math.lcm(*(p.denominator for _, p in units))
    one = Fraction(math.gcd(*(p.numerator * over // p.denominator for _, p in units)), over)
    numerator = {id(row): int(p / one) for row, p in units}
    levels = {id(row): [Fraction(row[column], numerator[id(row)]) for column in columns] for row, _ in units}
    if any(level.denominator != 1 for own in levels.values() for level in own) or any(p.denominator >= 2**31 for _, p in units):
        return False
    inside, outside = [], []
    for place in range(len(columns)):
        groups = [[int(levels[id(row)][place]) for row, _ in own] for own in strata.values()]
        inside.append(max(1, *(max(group) - min(group) for group in groups)))
        every = [0, *(level for group in groups for level in group)]
        outside.append(max(1, max(every) - min(every)))
    several = min(len(columns), len(strata))
    multiple = math.lcm(*numerator.values())
    divisor = max(math.gcd(*(numerator[id(row)] for row, _ in own)) for own in strata.values())

    def within(factor, ranges):
        square = Fraction((len(columns) + several) ** (len(columns) + several), several**several * 4 ** len(columns))
        return square * (factor * math.prod(ranges)) ** 2 <= 2**88

    return within(multiple, inside) and within(divisor, outside)
