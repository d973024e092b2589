"""When no draw by a cube can go `wide`, in whole numbers alone: by the theorem that is proved of the program, or by the sharper bound of docs/narrow.md.

A *flight* is what is drawn in one: a stratum by the cube and the local cube, the whole frame by the stratified cube. Its probabilities are in proportion to
whole *numerators* without a common divisor, and a fitted value is a numerator times a whole *level*."""
from collections.abc import Callable, Iterable, Sequence
from fractions import Fraction
from math import gcd, prod

MOST_OF_A_VECTOR = 2**44  # of an entry of a circuit, a direction or an elimination table, docs/formats.md
MOST_OF_A_DENOMINATOR = 2**80  # of the common denominator of the values of a step
MOST_OF_A_NUMBER = 2**31 - 1  # of a value and of a common denominator


def holds(factor: int, ranges: Sequence[int], strata: int) -> bool:
    """Whether `factor` times every minor of levels keeps to 2^44, in a flight of so many strata; ranges: those of the levels of each column, at least 1.

    With p columns and a the smaller of p and of the number of strata, a minor is at most the root of (p + a)^(p + a) / (a^a * 4^p), times all ranges."""
    columns = len(ranges)
    several = min(columns, strata)
    most = (columns + several) ** (columns + several) * (factor * prod(ranges)) ** 2
    return most <= MOST_OF_A_VECTOR**2 * several**several * 4**columns


def largest(fits: Callable[[int], bool], most: int) -> int:
    """The largest number from 1 to `most` that fits, where all below one that fits do, or 0."""
    low, high = 0, 1
    while high <= most and fits(high):
        low, high = high, 2 * high
    high = min(high, most + 1)
    while high - low > 1:
        middle = (low + high) // 2
        low, high = (middle, high) if fits(middle) else (low, middle)
    return low


def steps_beside(factor: int, columns: int, strata: int, most: int) -> int:
    """How many steps of levels each of so many columns may have beside this factor, at most `most`."""
    return largest(lambda steps: holds(factor, [steps] * columns, strata), most)


def factor_beside(steps: int, columns: int, strata: int) -> int:
    """The largest factor beside so many steps of each column."""
    return largest(lambda factor: holds(factor, [steps] * columns, strata), MOST_OF_A_VECTOR)


def multiple_within(numbers: Iterable[int], most: int) -> int | None:
    """The least common multiple, or None where it passes `most`; it is looked at as it grows."""
    multiple = 1
    for number in sorted(set(numbers)):
        multiple *= number // gcd(multiple, number)
        if multiple > most:
            return None
    return multiple


def is_promised(numerators: Sequence[int], strata: Sequence, levels: Sequence[Sequence[int]]) -> bool:
    """Whether no draw can go wide: numerators, the stratum and the list of levels of each free unit of one flight. It looks at these numbers alone."""
    multiple = multiple_within(numerators, MOST_OF_A_VECTOR)
    places: dict = {}
    for place, stratum in enumerate(strata):
        places.setdefault(stratum, []).append(place)
    if multiple is None or not places:
        return not places
    inside = [_range([[column[place] for place in own] for own in places.values()]) for column in levels]
    with_zero = [_range([[0, *column]]) for column in levels]
    divisor = max(gcd(*(numerators[place] for place in own)) for own in places.values())
    return holds(multiple, inside, len(places)) and holds(divisor, with_zero, len(places))


def is_narrow(sizes: Sequence[int], columns: Sequence[Sequence[int]], denominator: int) -> bool:
    """Whether the free units of a stratum are narrow, as the library's `is_narrow` says: no draw of theirs by the cube or the local cube goes wide, which is
    proved of the program (docs/proved.md).

    sizes: from 1 on. columns: the balancing values of each column. denominator: that of the requested probabilities together. A row is that of the sizes, or a
    column, and is bounded by its greatest number, or 1. No minor of the rows passes half of their permutations times all bounds."""
    rows = [sizes, *columns]
    bounds = [max([1, *row]) for row in rows]
    minor = prod(range(3, len(rows) + 1)) * prod(bounds)
    multiple = multiple_within([denominator, *sizes], MOST_OF_A_DENOMINATOR)
    if multiple is None or any(number < 0 for row in rows for number in row):
        return False
    return bounds[0] * minor <= MOST_OF_A_VECTOR and multiple * minor <= MOST_OF_A_DENOMINATOR


def promised_by(probabilities: Sequence[Fraction], strata: Sequence, columns: Sequence[Sequence[int]], is_together: bool) -> str | None:
    """By what it is promised that no draw of a flight goes wide: `proved` of the program, `on paper` in docs/narrow.md, or None, by nothing.

    probabilities, strata: of each free unit. columns: the balancing values of each column. is_together: whether the strata are drawn in one, by the
    stratified cube, of which nothing is proved."""
    denominator = 1
    for one in sorted({probability.denominator for probability in probabilities}):
        denominator *= one // gcd(denominator, one)
    over = [probability.numerator * (denominator // probability.denominator) for probability in probabilities]
    divisor = gcd(*over) or 1
    numerators = [number // divisor for number in over]
    if not is_together and is_narrow(numerators, columns, denominator):
        return "proved"
    levels = [[value // numerator for value, numerator in zip(column, numerators)] for column in columns]
    is_fitted = all(value == numerator * level for column, own in zip(columns, levels) for value, numerator, level in zip(column, numerators, own))
    if is_fitted and denominator <= MOST_OF_A_NUMBER and is_promised(numerators, strata, levels):
        return "on paper"
    return None


def _range(groups: Iterable[Sequence[int]]) -> int:
    """The largest difference within a group, at least 1."""
    return max(1, *(max(group) - min(group) for group in groups))
