"""A design by a cube, and a frame, with which no draw goes `wide`: probabilities by few numerators, and values on few levels. docs/narrow.md has the bound."""
import re
import tomllib
from collections.abc import Iterator, Mapping
from decimal import Decimal
from fractions import Fraction
from math import floor, isfinite
from typing import Any, NamedTuple

from .bound import MOST_OF_A_NUMBER, factor_beside, multiple_within, promised_by, steps_beside
from .commands import probs
from .errors import BadValue
from .folder import is_path
from .levels import Levels, levelled
from .numerators import Rounded, rounded
from .tables import Rows, Table
from .trial import Trial, rows_of, trial
from .values import is_missing, listed, shown, single, whole

CUBES = ("cube", "local_cube", "stratified_cube")
USUAL_MULTIPLE = 2520  # beside numerators that divide it as many steps are left as are usually asked for
USUAL_STEPS = 1000  # at most
LEAST_MULTIPLE = 12
MOST_ROWS = 16  # strata and columns together, by the stratified cube
SHOWN = 20  # of how many strata, and columns, a line is printed


class FittedStratum(NamedTuple):
    """A stratum by its name, None in a design without strata, with its numbers of units and of those that are neither certain nor without a chance.

    number: how many are drawn. asked: what the wanted probabilities add up to. multiple: what all numerators divide.
    median, greatest: how far the probabilities of the free units moved, 0.05 for a twentieth more or less; None without free units.
    by: `proved`, where a theorem that is proved of the program says that no draw goes wide (docs/proved.md); `on paper`, where the argument of docs/narrow.md
    does; None where nothing does."""

    stratum: str | None
    units: int
    free: int
    number: int
    asked: float
    multiple: int
    median: float | None
    greatest: float | None
    by: str | None


class FittedColumn(NamedTuple):
    """A column of `balance` in one stratum, by its name, or in all where there are none or they are drawn in one, and it is None.

    fitted: the new column's name. steps: how many steps of levels there are, 0 where all units have one level. unit: what 1 in the new column stands for.
    beyond: how many units have the last level though their value lies beyond it."""

    stratum: str | None
    column: str
    fitted: str
    steps: int
    unit: float
    beyond: int


class Fitted(NamedTuple):
    """A design and a frame, ready for draw.

    design, frame: the frame has all its columns, and `prob_fitted` (with a second stage `size_fitted`), and for each column of `balance` one whose name ends
    in `_fitted`; the design names these.
    strata: a FittedStratum for each. columns: a FittedColumn for each stratum and column of `balance`.
    forced: the ids, of first stage units with a second stage, whose numerator isn't one of the two next to the wanted one, since a whole sum asked for it.
    tried: None where it is promised that no draw goes wide, by what `by` of each stratum says; else the Trial that was made in place of a promise."""

    design: dict[str, Any]
    frame: Any
    strata: list[FittedStratum]
    columns: list[FittedColumn]
    forced: list
    tried: Trial | None

    def __repr__(self) -> str:
        lines = ["tried, not promised: see the trial"]
        if self.tried is None:
            lines = ["promised: no draw by this design goes wide, whatever its seed", _by([one.by for one in self.strata])]
        lines += ["", f"{'stratum':<20} {'units':>7} {'free':>7} {'drawn':>6} {'asked':>10} {'numerators divide':>18} {'moved by':>9} {'at most':>9}"]
        for one in self.strata[:SHOWN]:
            moved = ["-", "-"] if one.median is None else [f"{100 * one.median:.2f} %", f"{100 * one.greatest:.2f} %"]
            numbers = f"{one.units:>7} {one.free:>7} {one.number:>6} {one.asked:>10.6g} {one.multiple:>18}"
            lines.append(f"{one.stratum or 'all':<20.20} {numbers} {moved[0]:>9} {moved[1]:>9}")
        lines += [f"and {len(self.strata) - SHOWN} strata more"] * (len(self.strata) > SHOWN)
        lines += [f"numerators that aren't one of the two next to the wanted one: {len(self.forced)}"] * bool(self.forced)
        lines += ["", f"{'stratum':<20} {'column':<20} {'steps':>10} {'1 stands for':>14} {'beyond the last':>16}"]
        for one in self.columns[:SHOWN]:
            lines.append(f"{one.stratum or 'all':<20.20} {one.column:<20.20} {one.steps or 'one level':>10} {one.unit:>14.6g} {one.beyond:>16}")
        lines += [f"and {len(self.columns) - SHOWN} lines more"] * (len(self.columns) > SHOWN)
        return "\n".join(lines + (["", repr(self.tried)] if self.tried is not None else []))


def _by(each: list[str | None]) -> str:
    """By what a promise holds in all strata."""
    proved, paper = "a theorem that is proved of the program (docs/proved.md)", "an argument on paper (docs/narrow.md)"
    count = each.count("proved")
    if count == len(each):
        return f"by {proved}"
    return f"by {paper}" if count == 0 else f"by {proved} in {count} of {len(each)} strata, and by {paper} in the others"


class Unfit(ValueError):
    """A design that can't be fitted. column: the column that it is about, or None; stratum: the stratum's name, or None."""

    def __init__(self, reason: str, column: str | None = None, stratum: str | None = None):
        super().__init__(reason, column, stratum)
        self.reason, self.column, self.stratum = reason, column, stratum

    def __str__(self) -> str:
        places = [f"stratum {self.stratum}"] * (self.stratum is not None) + [f"column {self.column}"] * (self.column is not None)
        return ", ".join(places) + ": " * bool(places) + self.reason


def fit(design: Any, frame: Any, levels: int | None = None, tries: int = 0) -> Fitted:
    """Gives a design and a frame, as Fitted, with which no draw by the cube, the local cube or the stratified cube goes wide, or raises Unfit.

    design, frame: as for draw, with the probabilities that are wanted: by `n` or `sizes`, with or without `size`, or by a column `prob` of doubles, Fractions or
    texts such as 1/3. The columns of `balance` hold numbers of any kind.
    levels: how many steps each column needs at least. The more, the more the probabilities move.
    tries: where so many levels leave no promise, as many draws are tried in its place, by trial."""
    design = _read(design)
    levels = None if levels is None else whole(levels, "levels", None)
    if levels is not None and levels < 1:
        raise ValueError("levels is a number from 1 on")
    rows = rows_of(frame)
    new = ["size_fitted" if "second" in design else "prob_fitted", *(name + "_fitted" for name in design["balance"])]
    for name in new:
        if name in rows.names:
            raise BadValue(name, None, "the frame has a column of this name already")
    units = units_of(design, rows)
    groups: dict[Any, list[int]] = {}
    for place, stratum in enumerate(units.strata):
        groups.setdefault("" if design["method"] == "stratified_cube" else stratum, []).append(place)
    if design["method"] == "stratified_cube" and len(set(units.strata)) + len(design["balance"]) > MOST_ROWS:
        raise Unfit(f"{len(set(units.strata))} strata and {len(design['balance'])} columns are more than {MOST_ROWS} together")
    flights = [_Flight(design, units, places, levels, tries) for places in groups.values()]
    fitted = Fitted(
        design=_fitted_design(design, new),
        frame=_with(rows, dict(zip(new, _fitted_columns(design, units, flights)))),
        strata=[stratum for flight in flights for stratum in flight.told_strata()],
        columns=[column for flight in flights for column in flight.told_columns()],
        forced=[units.ids[flight.free[place]] for flight in flights for place in flight.found.forced],
        tried=None,
    )
    if all(flight.is_promised for flight in flights):
        return fitted
    return fitted._replace(tried=trial(fitted, draws=tries))


# ---------------------------------------------------------------------------------------------------------------------------------------------
# What is wanted


class Units(NamedTuple):
    """The first stage units: their ids, the places of their rows, their strata, the wanted probabilities, exactly too or None, and the values of each column."""

    ids: list
    rows: list[list[int]]
    strata: list
    wanted: list[float]
    exact: list[Fraction | None]
    values: list[list[float]]


def design_in(design: Any) -> dict[str, Any]:
    """A design as a dict, in which `balance` is a list."""
    if is_path(design):
        with open(design, "rb") as file:
            design = tomllib.load(file)
    if not isinstance(design, Mapping):
        raise TypeError(f"a design is a dict or the path of a file, not {shown(design)}")
    return {**design, "balance": listed(design.get("balance"))}


def _read(design: Any) -> dict[str, Any]:
    design = design_in(design)
    if design.get("method") not in CUBES:
        raise Unfit("only a design by cube, local_cube or stratified_cube is fitted")
    balance = design["balance"]
    if not balance or len(balance) > 15 or len(set(balance)) < len(balance):
        raise Unfit("balance names 1 to 15 columns, each once")
    return design


def _column(rows: Rows, name: Any) -> list:
    places = [place for place, own in enumerate(rows.names) if own == name]
    if len(places) != 1:
        raise BadValue(str(name), None, "the frame has no column of this name" if not places else "the frame has this column more than once")
    return rows.column(places[0])


def _number(value: Any, column: str, row: int) -> float:
    """The double of a number, or of a text that is one."""
    if is_missing(value):
        raise BadValue(column, row, "a value is missing")
    try:
        number = float(value)
    except (TypeError, ValueError, OverflowError):
        raise BadValue(column, row, f"{shown(value)} is no number") from None
    if not isfinite(number):
        raise BadValue(column, row, "an infinite value")
    return number


def _probability(value: Any, column: str, row: int) -> tuple[float, Fraction | None]:
    """A wanted probability as a double and, where it is a fraction, exactly."""
    value = single(value)
    if isinstance(value, str) and re.fullmatch("[0-9]+/[0-9]+", value):
        parts = list(map(int, value.split("/")))
    elif isinstance(value, (Fraction, Decimal)) and not is_missing(value):
        parts = list(value.as_integer_ratio())
    else:
        parts = []
    if parts and not 0 <= parts[0] <= parts[1] > 0:
        raise BadValue(column, row, f"{value} is no probability")
    near = parts[0] / parts[1] if parts else _number(value, column, row)
    if not 0.0 <= near <= 1.0:
        raise BadValue(column, row, f"{shown(value)} is no probability")
    return near, Fraction(*parts) if parts and parts[1] < 2**53 else None


def units_of(design: dict, rows: Rows) -> Units:
    """The first stage units: the places of their rows, their ids and strata, and what is wanted of them."""
    ids = _column(rows, design.get("id"))
    strata = _column(rows, design["stratum"]) if "stratum" in design else [""] * len(ids)
    psus = _column(rows, design["second"]["psu"]) if "second" in design else range(len(ids))
    inside = {}
    for place, psu in enumerate(psus):
        inside.setdefault(psu, []).append(place)
    own = [strata[places[0]] for places in inside.values()]
    names = list(inside) if "second" in design else ids
    column = design.get("prob")
    if column is not None:
        wanted = [_probability(value, column, row) for row, value in enumerate(_column(rows, column), 1)]
    else:
        wanted = _by_size(design, rows, list(inside.values()), own)
    values = []
    for name in design["balance"]:
        numbers = [_number(value, name, row) for row, value in enumerate(_column(rows, name), 1)]
        values.append([sum(numbers[place] for place in places) for places in inside.values()])
    return Units(names, list(inside.values()), own, [near for near, _ in wanted], [exact for _, exact in wanted], values)


def _by_size(design: dict, rows: Rows, inside: list[list[int]], strata: list) -> list[tuple[float, Fraction]]:
    """The probabilities that the program has for these first stage units by their sizes."""
    name = design.get("size")
    sizes = [1] * len(strata) if name is None else _column(rows, name)
    if name is None or "second" in design:
        sizes = [sum(1 if name is None else _size(sizes[place], name, place + 1) for place in places) for places in inside]
    frame = [{"id": place, "stratum": stratum, "size": size} for place, (stratum, size) in enumerate(zip(strata, sizes))]
    alone = {"version": 2, "method": "pivotal", "id": "id", "size": "size"} | ({"stratum": "stratum"} if "stratum" in design else {})
    listed = probs(alone | {key: design[key] for key in ("n", "sizes") if key in design}, frame)
    return [(one.probability.numerator / one.probability.denominator, one.probability) for one in listed]


def _size(value: Any, column: str, row: int) -> int:
    return int(value) if isinstance(value, str) and value.isdecimal() else whole(value, column, row)


# ---------------------------------------------------------------------------------------------------------------------------------------------
# One flight


class _Number(NamedTuple):
    """The numbers of free units of a stratum, of what their probabilities add up to, and of how many are drawn."""

    free: int
    asked: float
    drawn: int


class _Flight:
    """What is drawn in one, and what it is fitted to: `found`, and `levels` for each column."""

    def __init__(self, design: dict, units: Units, places: list[int], levels: int | None, tries: int):
        self.design, self.units, self.places = design, units, places
        self.free = [place for place in places if 0.0 < units.wanted[place] < 1.0]
        self.others = [place for place in places if not 0.0 < units.wanted[place] < 1.0]
        self.names = list(dict.fromkeys(units.strata[place] for place in places))
        self.numbers = {name: self._number(name) for name in self.names}
        flying = [name for name in self.names if self.numbers[name].free]
        self.own = [flying.index(units.strata[place]) for place in self.free]
        self.far = [max((abs(column[place]) for place in self.others), default=0.0) for column in units.values]
        self.values = [[column[place] for place in self.free] for column in units.values]
        if not self.free:
            self.found, self.levels, self.is_promised = Rounded([], [], [], []), [_whole_levels(far) for far in self.far], True
            return
        exact = [units.exact[place] for place in self.free]
        for number, name in enumerate(flying):
            exact = self._equal(number, self.numbers[name], exact)
        exact = None if None in exact else exact
        self._solve(exact, [self.numbers[name].drawn for name in flying], levels, tries)

    def _number(self, name: Any) -> _Number:
        """How many are asked for, and drawn, of the free units of a stratum: the nearest whole number, in fractions of 2^32, of which each sum is exact."""
        own = [self.units.wanted[place] for place in self.free if self.units.strata[place] == name]
        asked = sum(floor(value * 2.0**32 + 0.5) for value in own) / 2.0**32
        drawn = floor(asked + 0.5)
        if own and not 0 < drawn < len(own):
            reason = f"its {len(own)} probabilities between 0 and 1 add up to {asked:.6g}: no whole number of them can be drawn"
            raise Unfit(reason, None, name_of(self.design, name))
        return _Number(len(own), asked, drawn)

    def _equal(self, number: int, of_stratum: _Number, exact: list) -> list:
        """Where all free units of a stratum have one probability, it is the number drawn by that of the units, and so a fraction."""
        near = {self.units.wanted[place] for place, own in zip(self.free, self.own) if own == number}
        if len(near) > 1:
            return exact
        return [Fraction(of_stratum.drawn, of_stratum.free) if own == number else one for one, own in zip(exact, self.own)]

    def _solve(self, exact: list | None, numbers: list[int], levels: int | None, tries: int) -> None:
        """Finds numerators, and then levels, so that the bound holds; else, where draws may be tried, as many levels as are asked for."""
        columns, strata = len(self.values), len(numbers)
        steps = steps_beside(USUAL_MULTIPLE, columns, strata, USUAL_STEPS) if levels is None else levels
        wanted = [self.units.wanted[place] for place in self.free]
        for factor, forced in ((factor_beside(steps, columns, strata), None), *[(USUAL_MULTIPLE, steps)] * (tries > 0)):
            self.found = rounded(wanted, exact, self.own, numbers, factor, MOST_OF_A_NUMBER // steps) if factor else None
            self.is_promised = forced is None
            if self.found is not None:
                self.levels = levelled(self.values, self.found.numerators, self.own, self.far, forced)
                if self.levels is not None and not self._short(levels):
                    return
        name = name_of(self.design, self.names[0]) if len(self.names) == 1 else None
        if self.found is None:
            most = steps_beside(LEAST_MULTIPLE, columns, strata, MOST_OF_A_NUMBER)
            reason = f"no numerators were found beside {steps} steps of {columns} columns, of which the bound allows at most {most}"
            raise Unfit(reason, self.design["balance"][-1], name)
        place, most = (-1, 0) if self.levels is None else (self._short(levels)[0], self.levels[self._short(levels)[0]].steps)
        raise Unfit(f"{most} steps are left, and {levels or 1} are needed", self.design["balance"][place], name)

    def _short(self, levels: int | None) -> list[int]:
        """The columns that have fewer steps than are needed, and aren't exact without them."""
        return [place for place, one in enumerate(self.levels) if one.steps < (levels or 1) and not one.is_exact]

    def told_strata(self) -> Iterator[FittedStratum]:
        by = self.by()
        for name in self.names:
            number = self.numbers[name]
            off = sorted(off for place, off in zip(self.free, self.found.off) if self.units.strata[place] == name)
            certain = sum(self.units.wanted[place] == 1.0 for place in self.others if self.units.strata[place] == name)
            yield FittedStratum(
                stratum=name_of(self.design, name),
                units=sum(self.units.strata[place] == name for place in self.places),
                free=number.free,
                number=number.drawn + certain,
                asked=round(number.asked + certain, 6),
                multiple=multiple_within(self.found.numerators, 2**53),
                median=(off[(len(off) - 1) // 2] + off[len(off) // 2]) / 2.0 if off else None,
                greatest=off[-1] if off else None,
                by=by,
            )

    def told_columns(self) -> Iterator[FittedColumn]:
        stratum = name_of(self.design, self.names[0]) if self.design["method"] != "stratified_cube" else None
        for name, one in zip(self.design["balance"], self.levels):
            yield FittedColumn(stratum, name, name + "_fitted", one.steps, one.unit, one.beyond)

    def by(self) -> str | None:
        """By what it is promised that no draw goes wide."""
        if not self.is_promised:
            return None
        values = [[numerator * level for numerator, level in zip(self.found.numerators, one.levels)] for one in self.levels]
        return promised_by(self.found.probabilities, self.own, values, self.design["method"] == "stratified_cube")

    def probabilities(self) -> dict[int, Fraction]:
        """The probability of each unit, by its place."""
        return dict(zip(self.free, self.found.probabilities)) | {place: Fraction(int(self.units.wanted[place])) for place in self.others}

    def sizes(self) -> dict[int, int]:
        """A size for each unit, by its place, by which the program has the same probabilities: it makes a unit certain at the mean of the numbers drawn."""
        certain = 1
        if self.free:
            drawn = self.numbers[self.names[0]].drawn
            certain = (sum(self.found.numerators) + drawn - 1) // drawn
        return dict(zip(self.free, self.found.numerators)) | {place: certain * int(self.units.wanted[place]) for place in self.others}

    def fitted(self, column: int) -> dict[int, int]:
        """The new value of each unit in this column, by its place."""
        one = self.levels[column]
        free = {place: numerator * level for place, numerator, level in zip(self.free, self.found.numerators, one.levels)}
        return free | {place: floor(self.units.values[column][place] / one.unit + 0.5) for place in self.others}


def name_of(design: dict, stratum: Any) -> str | None:
    """The name of a stratum as it is told, None in a design without strata."""
    return str(stratum) if "stratum" in design else None


def _whole_levels(far: float) -> Levels:
    """A column of a flight without free units: its values rounded, in such a unit that they can be written."""
    return Levels([], 0, max(1.0, far / (MOST_OF_A_NUMBER - 1.0)), 0, True)


# ---------------------------------------------------------------------------------------------------------------------------------------------
# What is given


def _fitted_design(design: dict, new: list[str]) -> dict[str, Any]:
    """The design that names the new columns: the keys that every design has in one order, so that it has the same bytes from R."""
    fitted = {"version": 2, "method": design["method"], "id": design["id"]}
    fitted |= {"stratum": design["stratum"]} if "stratum" in design else {}
    if "second" in design:
        fitted |= {"size": new[0]} | {key: design[key] for key in ("n", "sizes") if key in design}
    else:
        fitted |= {"prob": new[0]}
    return fitted | {"balance": new[1:]} | {key: design[key] for key in ("near", "second") if key in design}


def _fitted_columns(design: dict, units: Units, flights: list[_Flight]) -> Iterator[list]:
    """The new columns, row by row. What a first stage unit has stands in its first row, and 0 in its others."""
    count = sum(map(len, units.rows))
    by_place = [(flight.sizes() if "second" in design else flight.probabilities(), *(flight.fitted(column) for column in range(len(units.values)))) for flight in flights]
    for column in range(1 + len(units.values)):
        listed = [0] * count
        for flight in by_place:
            for place, value in flight[column].items():
                listed[units.rows[place][0]] = value
        yield listed


def _with(rows: Rows, new: dict[str, list]) -> Any:
    """The frame with these columns more."""
    if isinstance(rows, Table):
        return rows.rows.assign(**new)
    return [{**rows.row(place), **dict(zip(new, values))} for place, values in enumerate(zip(*new.values()))]
