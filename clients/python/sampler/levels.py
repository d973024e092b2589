"""Values on so few levels that the bound holds.

A fitted value is a numerator times a level, so a level counts the same in each drawn unit's part of the estimated total. Each step here is a comparison or one
operation on doubles, or in whole numbers below 2^53, so that the R package comes to the same levels."""
from collections.abc import Sequence
from math import floor, gcd
from typing import NamedTuple

from .bound import MOST_OF_A_NUMBER, holds, is_promised, largest, multiple_within

SHRINKS = (1.0, 0.875, 0.75, 0.625, 0.5, 0.375, 0.25, 0.1875, 0.125)
MOST_STEPS = 1_000_000  # where they aren't exact
NEARLY_ONE = 1000.0  # shares that differ by less than a thousandth part are as good as one
MOST_CUT = 255  # with more steps than these none is worth cutting the largest values for
LOOKED_AT = 4000  # of how many units it is judged whether to cut
PARTS = 8192.0  # in parts of the spread

class Levels(NamedTuple):
    """One column of one flight.

    levels: a whole number for each free unit. steps: how many steps there are from the least to the largest level within a stratum. unit: what 1 of a fitted
    value stands for. beyond: how many units have the last level though their value lies beyond it. is_exact: whether the values, or their differences,
    are kept whole, or are nearly none."""

    levels: list[int]
    steps: int
    unit: float
    beyond: int
    is_exact: bool


class _Column(NamedTuple):
    """What the levels of a column depend on.

    shares: each value by the numerator. lows: the least one of each stratum. spread: the largest difference within a stratum. ends: that of all and 0.
    far: the largest size of a value. cap: how many steps are of use. is_whole: whether with these the values are kept whole."""

    shares: list[float]
    lows: dict[int, float]
    spread: float
    ends: float
    far: float
    cap: int
    is_whole: bool


Numbers = Sequence[int]
Doubles = Sequence[float]


def levelled(
    values: Sequence[Doubles], numerators: Numbers, strata: Numbers, others: Doubles, steps: int | None = None
) -> list[Levels] | None:
    """Levels for each column of one flight, as many as the bound allows, or None where it allows none; steps: as many as these, whatever the bound allows.

    values: for each column those of the free units. numerators, strata: as in numerators.rounded. others: for each column the largest size of a value of
    the units that aren't free."""
    columns = [_column(own, numerators, strata, other) for own, other in zip(values, others)]
    if steps is not None:
        return [_quantised(column, min(steps, column.cap), numerators, strata, True) for column in columns]
    multiple, count = multiple_within(numerators, 2**53), len(set(strata))
    divisor = max(gcd(*(numerator for numerator, own in zip(numerators, strata) if own == stratum)) for stratum in set(strata))
    columns, steps = _steps(columns, multiple, divisor, count)
    while True:
        for is_cut in (True, False):
            found = [_quantised(column, number, numerators, strata, is_cut) for column, number in zip(columns, steps)]
            if is_promised(numerators, strata, [column.levels for column in found]):
                return found
        if max(steps) <= 1:
            return None
        steps = [min(number, max(1, number - 1)) for number in steps]


def _column(values: Doubles, numerators: Numbers, strata: Numbers, other: float) -> _Column:
    """What the levels of a column depend on. Where all shares of the numerators are whole, they have a common divisor, and steps of it are exact."""
    shares = [value / numerator for value, numerator in zip(values, numerators)]
    lows, highs = {}, {}
    for share, stratum in zip(shares, strata):
        lows[stratum] = min(share, lows.get(stratum, share))
        highs[stratum] = max(share, highs.get(stratum, share))
    spread = max(highs[stratum] - lows[stratum] for stratum in lows)
    ends = max(0.0, *highs.values()) - min(0.0, *lows.values())
    is_whole = all(share == floor(share) and abs(share) < 2.0**53 for share in shares) and any(shares)
    unit = float(gcd(*map(int, shares))) if is_whole else 0.0
    far = max(other, max(numerators) * max(abs(min(lows.values())), abs(max(highs.values()))))
    cap = floor(spread / (far / (MOST_OF_A_NUMBER - max(numerators)))) if far > 0.0 else 0
    is_whole = is_whole and cap >= floor(spread / unit)
    cap = floor(spread / unit) if is_whole else min(cap, MOST_STEPS)
    return _Column(shares, lows, spread, ends, far, cap, is_whole)


def _steps(columns: list[_Column], multiple: int, divisor: int, strata: int) -> tuple[list[_Column], list[int]]:
    """The columns, and the steps of each: as many as may be, the same number for all that can use it, and one more for the first ones where there is room.
    A column whose shares differ by so little that not even one step is left is one without steps."""
    def capped(number):
        return [min(number, column.cap) for column in columns]

    while not _fits(columns, capped(1), multiple, divisor, strata) and any(column.cap for column in columns):
        finest = max((place for place, column in enumerate(columns) if column.cap), key=lambda place: columns[place].ends / columns[place].spread)
        columns = [column._replace(cap=0, is_whole=False) if place == finest else column for place, column in enumerate(columns)]
    most = max(column.cap for column in columns)
    steps = capped(largest(lambda number: _fits(columns, capped(number), multiple, divisor, strata), most))
    for place, column in enumerate(columns):
        more = [number + (other == place) for other, number in enumerate(steps)]
        if column.cap > steps[place] and _fits(columns, more, multiple, divisor, strata):
            steps = more
    return columns, steps


def _fits(columns: list[_Column], steps: Numbers, multiple: int, divisor: int, strata: int) -> bool:
    """Whether the bound holds beside so many steps of each column, as far as can be seen before the levels are made."""
    outside = [floor(number * (column.ends / column.spread)) + 2 if number else 1 for column, number in zip(columns, steps)]
    return holds(multiple, [max(1, number) for number in steps], strata) and holds(divisor, outside, strata)


def _quantised(column: _Column, steps: int, numerators: Numbers, strata: Numbers, is_cut: bool) -> Levels:
    """The column on so many steps; is_cut: whether the largest values may go to the last level, so that the steps are shorter."""
    if steps == 0:
        unit = max(map(abs, column.shares)) or 1.0
        is_exact = column.spread * NEARLY_ONE <= unit and column.far / unit <= MOST_OF_A_NUMBER - max(numerators)
        return Levels([floor(share / unit + 0.5) for share in column.shares], 0, unit, 0, is_exact)
    unit = column.spread / steps
    if is_cut and steps <= MOST_CUT and not (column.is_whole and steps == column.cap) and min(column.lows.values()) >= 0.0:
        unit = _unit(column, steps, numerators, strata)
    tops = {stratum: floor(low / unit + 0.5) + steps for stratum, low in column.lows.items()}
    free = [floor(share / unit + 0.5) for share in column.shares]
    levels = [min(level, tops[stratum]) for level, stratum in zip(free, strata)]
    return Levels(levels, steps, unit, sum(level < own for level, own in zip(levels, free)), column.is_whole and steps == column.cap)


def _unit(column: _Column, steps: int, numerators: Numbers, strata: Numbers) -> float:
    """The step by which the shares are least off, by the sum of squares, each weighted by its numerator."""
    ordered = sorted(range(len(strata)), key=lambda unit: -column.shares[unit])
    some = ordered[:: (len(ordered) + LOOKED_AT - 1) // LOOKED_AT]
    most = max(numerators)
    weights = [floor(255.0 * numerators[unit] / most) for unit in some]
    best = None
    for shrink in SHRINKS:
        unit = shrink * column.spread / steps
        if column.far / unit > MOST_OF_A_NUMBER - most:
            break
        tops = {stratum: floor(low / unit + 0.5) + steps for stratum, low in column.lows.items()}
        off = 0
        for place, weight in zip(some, weights):
            share = column.shares[place]
            level = min(floor(share / unit + 0.5), tops[strata[place]])
            off += weight * floor(PARTS * abs(share - level * unit) / column.spread) ** 2
        if best is None or off < best[0]:
            best = off, unit
    return best[1]
