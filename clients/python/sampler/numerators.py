"""Probabilities in proportion to numerators that all divide one number, near to wanted ones, with a whole sum in each stratum.

Each step here is a comparison or one operation on doubles, or in whole numbers below 2^53, so that the R package comes to the same numerators."""
from bisect import bisect_right
from collections.abc import Iterator, Sequence
from fractions import Fraction
from math import gcd, sqrt
from typing import NamedTuple

from .bound import MOST_OF_A_NUMBER, largest, multiple_within

# Numbers with more divisors than any smaller one, from 12 on.
MULTIPLES = (
    12, 24, 36, 48, 60, 120, 180, 240, 360, 720, 840, 1260, 1680, 2520, 5040, 7560, 10080, 15120, 20160, 25200, 27720, 45360, 50400, 55440, 83160,
    110880, 166320, 221760, 277200, 332640, 498960, 554400, 665280, 720720, 1081080, 1441440, 2162160, 2882880, 3603600, 4324320, 6486480, 7207200, 8648640,
    10810800, 14414400, 17297280, 21621600, 32432400, 36756720, 43243200, 61261200,
)
FAMILIES = 6  # how many of these are tried, the largest that may be
SHIFTS = (0.5, 0.625, 0.75, 0.875, 1.0, 1.25, 1.5, 1.75, 2.0)
LOOKED_AT = 200  # of how many units each family is tried first
TRIED = 4  # how many families are then tried of all units
MENDED = 8  # how many units of a stratum make its sum whole at last
REACH = 3  # and how far each may go
LOWERED = 100  # in how many steps all may be lowered, a thirty-second part each time

class Rounded(NamedTuple):
    """The free units of one flight.

    numerators: without a common divisor. probabilities: a Fraction each. forced: the places of those whose numerator isn't one of the two next to the wanted
    one. off: how far each probability is from the wanted one, 0.05 for a twentieth more or less, by the larger of the two quotients."""

    numerators: list[int]
    probabilities: list[Fraction]
    forced: list[int]
    off: list[float]


Numbers = Sequence[int]
Doubles = Sequence[float]


def divisors(number: int) -> list[int]:
    """The divisors of a number, rising."""
    low = [divisor for divisor in range(1, int(sqrt(number)) + 1) if number % divisor == 0]
    return sorted({*low, *(number // divisor for divisor in low)})


def apart(value: float, wanted: float) -> float:
    """How far a value is from the wanted one: 0.05 for a twentieth more or less."""
    return max(value / wanted, wanted / value) - 1.0


def rounded(
    wanted: Doubles, exact: Sequence[Fraction] | None, strata: Numbers, numbers: Numbers, most_multiple: int, most_numerator: int
) -> Rounded | None:
    """Numerators for the free units of one flight, as Rounded, or None where no family serves.

    wanted: a double each. exact: a Fraction each, or None in place of the list. strata: the stratum of each, counted from 0. numbers: how many are drawn
    of each stratum. most_multiple: what their least common multiple may be. most_numerator: what a numerator may be."""
    kept = _kept(exact, wanted, strata, numbers, most_multiple, most_numerator)
    if kept is not None:
        return kept
    families = [multiple for multiple in MULTIPLES if multiple <= most_multiple][-FAMILIES:]
    is_shared = len(numbers) > 1
    served = []
    for _, multiple, scale in sorted(_tried(wanted, families, most_numerator, is_shared)):
        if is_shared:
            found = _shared(wanted, strata, numbers, divisors(multiple), scale)
        else:
            found = _sized(wanted, numbers[0], divisors(multiple), scale)
        served += [found] if found is not None else []
        if len(served) == TRIED:
            break
    return min(served, key=lambda found: sum(int(1e6 * value) for value in found.off), default=None)


def _kept(
    exact: Sequence[Fraction] | None, wanted: Doubles, strata: Numbers, numbers: Numbers, most_multiple: int, most_numerator: int
) -> Rounded | None:
    """The wanted probabilities themselves, where their sums are whole and their numerators serve."""
    if exact is None:
        return None
    denominator = multiple_within((value.denominator for value in exact), MOST_OF_A_NUMBER)
    if denominator is None:
        return None
    over = [value.numerator * (denominator // value.denominator) for value in exact]
    sums = [0] * len(numbers)
    for numerator, stratum in zip(over, strata):
        sums[stratum] += numerator
    numerators = _reduced(over)
    fits = sums == [number * denominator for number in numbers] and max(numerators) <= most_numerator
    if not fits or multiple_within(numerators, most_multiple) is None:
        return None
    return _of(numerators, list(exact), [], wanted)


def _reduced(numerators: Numbers) -> list[int]:
    divisor = gcd(*numerators)
    return [numerator // divisor for numerator in numerators]


def _tried(wanted: Doubles, families: Numbers, most_numerator: int, is_shared: bool) -> Iterator[tuple[int, int, float]]:
    """Families and scales as (how far off, multiple, scale), by some of the units alone: the numerator of a unit is near its probability times the scale."""
    ordered = sorted(wanted)
    count = min(len(ordered), LOOKED_AT)
    some = [ordered[place * len(ordered) // count] for place in range(count - 1)] + ordered[-1:]
    for multiple in families:
        grid = divisors(multiple)
        centre = sqrt(multiple / (ordered[0] * ordered[-1]))
        scales = [scale for scale in grid if scale <= 4.0 * centre] if is_shared else [shift * centre for shift in SHIFTS]
        for scale in scales:
            if scale * ordered[-1] <= most_numerator:
                below = grid[: bisect_right(grid, scale - 1)] if is_shared else grid
                if below:
                    yield sum(int(1e6 * apart(_nearest(value * scale, below), value * scale)) for value in some), multiple, scale


def _nearest(value: float, grid: Numbers) -> int:
    """The number of the grid that is nearest to a value, by their quotient."""
    above = bisect_right(grid, value)
    if above in (0, len(grid)):
        return grid[max(0, above - 1)]
    low, high = grid[above - 1], grid[above]
    return low if value * value <= low * high else high


def _sized(wanted: Doubles, number: int, grid: Numbers, scale: float) -> Rounded | None:
    """As sizes: a probability is the numerator's share of their sum, times the number drawn. No unit becomes certain."""
    numerators = [_nearest(value * scale, grid) for value in wanted]
    while max(numerators) * number >= sum(numerators):
        top = max(numerators)
        below = grid[bisect_right(grid, top) - 2]
        numerators = [below if numerator == top else numerator for numerator in numerators]
    total = sum(numerators)
    if total > MOST_OF_A_NUMBER:
        return None
    forced = [place for place, value in enumerate(wanted) if not _is_next(numerators[place], value * scale, grid)]
    each = {numerator: Fraction(numerator * number, total) for numerator in set(numerators)}
    return _of(numerators, [each[numerator] for numerator in numerators], forced, wanted)


def _of(numerators: Numbers, probabilities: list[Fraction], forced: list[int], wanted: Doubles) -> Rounded:
    off = [apart(value.numerator / value.denominator, near) for value, near in zip(probabilities, wanted)]
    return Rounded(_reduced(numerators), probabilities, forced, off)


def _is_next(numerator: int, value: float, grid: Numbers) -> bool:
    """Whether a numerator is one of the two of the grid next to a value."""
    above = bisect_right(grid, value)
    return numerator in grid[max(0, above - 1) : above + 1]


def _shared(wanted: Doubles, strata: Numbers, numbers: Numbers, grid: Numbers, denominator: int) -> Rounded | None:
    """Over one denominator, with numerators whose sum is whole in each stratum."""
    grid = grid[: bisect_right(grid, denominator - 1)]
    numerators = [0] * len(wanted)
    for stratum, number in enumerate(numbers):
        places = [place for place, own in enumerate(strata) if own == stratum]
        found = _summed([wanted[place] * denominator for place in places], grid, number * denominator) if places else []
        if found is None:
            return None
        for place, numerator in zip(places, found):
            numerators[place] = numerator
    forced = [place for place, value in enumerate(wanted) if not _is_next(numerators[place], value * denominator, grid)]
    each = {numerator: Fraction(numerator, denominator) for numerator in set(numerators)}
    return _of(numerators, [each[numerator] for numerator in numerators], forced, wanted)


def _summed(values: Doubles, grid: Numbers, total: int) -> list[int] | None:
    """Numbers of the grid near to these values, with this sum, or None: all go to the next below, and then those go to the next above that lose least by it."""
    values = _lowered(values, grid, total)
    at = [max(0, bisect_right(grid, value) - 1) for value in values]
    rest = total - sum(grid[place] for place in at)
    up = [unit for unit, place in enumerate(at) if place + 1 < len(grid)]
    steps = {unit: grid[at[unit] + 1] - grid[at[unit]] for unit in up}
    up.sort(key=lambda unit: (grid[at[unit]] + grid[at[unit] + 1] - 2.0 * values[unit]) / (values[unit] * steps[unit]))
    for unit in up:
        if steps[unit] <= rest:
            rest -= steps[unit]
            at[unit] += 1
    return _mended(values, grid, at, rest) if rest else [grid[place] for place in at]


def _lowered(values: Doubles, grid: Numbers, total: int) -> Doubles:
    """The values, all lowered in one proportion where those that the grid has nothing below would else take more than this sum."""
    shares = [1.0]
    while len(shares) < LOWERED:
        shares.append(shares[-1] * 0.96875)

    def passes(turns):
        return sum(grid[max(0, bisect_right(grid, value * shares[turns]) - 1)] for value in values) > total

    turns = largest(lambda turns: passes(turns - 1), LOWERED - 1)
    return [value * shares[turns] for value in values] if turns else values


def _mended(values: Doubles, grid: Numbers, at: Numbers, rest: int) -> list[int] | None:
    """The same numbers, a few of them moved so that their sum is larger by `rest`, or None where none of the moves that are tried does it."""
    few = _different(at)
    halves = [_moves(values, grid, at, half) for half in (few[: len(few) // 2], few[len(few) // 2 :])]
    first = {}
    for sum_, cost, moves in halves[0]:
        if sum_ not in first or cost < first[sum_][0]:
            first[sum_] = cost, moves
    best = None
    for sum_, cost, moves in halves[1]:
        if rest - sum_ in first and (best is None or first[rest - sum_][0] + cost < best[0]):
            best = first[rest - sum_][0] + cost, first[rest - sum_][1] + moves
    if best is None:
        return None
    moved = list(at)
    for unit, place in zip(few, best[1]):
        moved[unit] = place
    return [grid[place] for place in moved]


def _different(at: Numbers) -> list[int]:
    """A few units whose numbers differ as far as they can: the first one of each number, evenly among the numbers, then the second ones."""
    seen, ranked = {}, []
    for unit, place in enumerate(at):
        seen[place] = seen.get(place, -1) + 1
        ranked.append((seen[place], place, unit))
    ranked.sort()
    firsts = sum(rank == 0 for rank, _, _ in ranked)
    if firsts >= MENDED:
        return [ranked[turn * firsts // MENDED][2] for turn in range(MENDED)]
    return [unit for _, _, unit in ranked[:MENDED]]


def _moves(values: Doubles, grid: Numbers, at: Numbers, units: Numbers) -> list[tuple[int, float, tuple[int, ...]]]:
    """All ways to move these units by up to so many places of the grid: how much it adds, how far off they then are, and their places."""
    ways = [(0, 0.0, ())]
    for unit in units:
        to = range(max(0, at[unit] - REACH), min(len(grid), at[unit] + REACH + 1))
        own = [(grid[place] - grid[at[unit]], apart(grid[place], values[unit]), place) for place in to]
        ways = [(sum_ + more, cost + off, (*places, place)) for sum_, cost, places in ways for more, off, place in own]
    return ways
