"""A design tried many times before its seed is settled: how often it goes `wide`, and how far its estimated totals are off."""
import re
import secrets
import tomllib
from collections.abc import Iterable
from math import sqrt
from typing import Any, NamedTuple

from .errors import BadValue
from .folder import INPUTS, bytes_of, is_path, new_folder, run
from .frame import carry
from .result import weights_in, wide_sections
from .tables import File, Rows, Table, is_table
from .values import is_missing, shown

SHOWN = 20  # of how many strata a line is printed


class TrialStratum(NamedTuple):
    """What a section of the logs showed: a stratum by its name, or the whole frame, None, in a design without strata and by the stratified cube.

    wide: in what share of the draws it went wide. flights: how many flights came before, the median of those draws, None where there is none.
    left, most_left: how many units were undecided when the landing began, the median and the most; None by a method that balances nothing."""

    stratum: str | None
    wide: float
    flights: float | None
    left: float | None
    most_left: int | None


class TrialColumn(NamedTuple):
    """A column's known total, over all rows of the frame, and the relative errors of its estimates, 0.05 for a twentieth: their mean, and the root of the
    mean of their squares; None where the known total is 0."""

    column: str
    known: float
    mean: float | None
    error: float | None


class Trial(NamedTuple):
    """What so many draws showed. They are no samples: their seeds were thrown away.

    strata: a TrialStratum for each. columns: a TrialColumn for each. drawn: the least and the largest number of drawn rows.
    errors: for each column the relative error of each draw."""

    draws: int
    strata: list[TrialStratum]
    columns: list[TrialColumn]
    drawn: tuple[int, int]
    errors: dict[str, list[float]]

    def __repr__(self) -> str:
        lines = [f"{self.draws} draws by seeds that were thrown away: no samples, and none of them may become one",
                 f"drawn: {self.drawn[0]}" + (f" to {self.drawn[1]}" if self.drawn[1] != self.drawn[0] else "")]
        if any(one.left is not None for one in self.strata):
            lines += ["", f"{'stratum':<20} {'went wide':>10} {'flights before':>15} {'undecided':>10} {'at most':>8}"]
            shown = sorted(self.strata, key=lambda one: -one.wide)[:SHOWN]
            for one in shown:
                flights = "-" if one.flights is None else f"{one.flights:g}"
                lines.append(f"{one.stratum or 'all in one':<20.20} {100 * one.wide:>8.1f} % {flights:>15} {one.left:>10g} {one.most_left:>8}")
            lines += [f"and {len(self.strata) - SHOWN} strata more, which went wide no oftener"] * (len(self.strata) > SHOWN)
        lines += ["", f"{'column':<20} {'known total':>18} {'mean error':>11} {'error':>9}"] if self.columns else []
        for one in self.columns:
            errors = ["-", "-"] if one.error is None else [f"{round(100 * one.mean, 2) + 0.0:+.2f} %", f"{100 * one.error:.2f} %"]
            lines.append(f"{one.column:<20.20} {one.known:>18g} {errors[0]:>11} {errors[1]:>9}")
        return "\n".join(lines)

    def plot(self, axes: Any = None) -> Any:
        """The relative errors of each column as a box plot, by matplotlib. Gives its axes."""
        from matplotlib import pyplot

        axes = pyplot.subplots()[1] if axes is None else axes
        columns = [one.column for one in self.columns if one.error is not None]
        axes.boxplot([[100 * error for error in self.errors[column]] for column in columns])
        axes.set_xticks(range(1, len(columns) + 1), columns)
        axes.axhline(0, color="grey", linewidth=0.5)
        axes.set_ylabel("error of the estimated total, %")
        axes.set_title(f"{self.draws} draws by seeds that were thrown away")
        return axes


def rows_of(frame: Any) -> Rows:
    """A frame of any kind, with its columns."""
    return File(bytes_of("", frame)) if is_path(frame) else Table(frame) if is_table(frame) else Rows(frame)


def trial(design: Any, frame: Any = None, draws: int = 20, columns: Iterable[str] | None = None, seeds: Iterable[str] | None = None) -> Trial:
    """Draws a design so many times, and gives as Trial how it went. These are no samples: each seed is thrown away.

    design, frame: as for draw; or a Fitted alone, whose errors are then those of the values as they were before they were put on levels.
    columns: those whose totals are estimated too; those of `balance` come first by themselves.
    seeds: in place of new ones these, of 64 hexadecimal digits each, so that designs are compared by the same; draws is then their number. The seed of the
    draw itself must not be among them."""
    design, frame, balance = _given(design, frame)
    rows = rows_of(frame)
    values = {name: _numbers(rows, name) for name in dict.fromkeys([*balance, *(columns or ())])}
    seeds = [secrets.token_hex(32) for _ in range(draws)] if seeds is None else list(seeds)
    if not seeds or not all(isinstance(seed, str) and re.fullmatch("[0-9A-Fa-f]{64}", seed) for seed in seeds):
        raise ValueError("draws is a number from 1 on, and each seed has 64 hexadecimal digits")
    with new_folder() as folder:
        carried = carry(folder, design, frame, is_drawn=True)
        names = carried.names_of_strata()
        tried = [_tried(folder, carried.ids, seed, values) for seed in seeds]
    known = {name: sum(own) for name, own in values.items()}
    errors = {name: [one.estimates[name] / known[name] - 1 for one in tried] for name in values if known[name] != 0}
    drawn = [one.drawn for one in tried]
    return Trial(
        draws=len(seeds),
        strata=[_stratum(number, name, tried) for number, name in names.items()],
        columns=[TrialColumn(name, known[name], *_error(errors.get(name))) for name in values],
        drawn=(min(drawn), max(drawn)),
        errors=errors,
    )


class _Tried(NamedTuple):
    """One draw: the number drawn, the estimated totals, the flights before each step `wide` by the number of its section, and of each section how many units
    were undecided."""

    drawn: int
    estimates: dict[str, float]
    wide: dict[int, int]
    left: dict[int, int]


def _tried(folder: str, ids: list[str], seed: str, values: dict[str, list[float]]) -> _Tried:
    report = run(folder, "draw", *INPUTS, "--seed", seed, "--log", "log.txt", "--sample", "sample.csv").decode()
    sample = [(place, float(weight)) for place, weight in weights_in(folder, ids)]
    return _Tried(
        len(sample),
        {name: sum(weight * own[place] for place, weight in sample) for name, own in values.items()},
        dict(wide_sections(bytes_of(folder, "log.txt").decode(), None)),
        {int(stratum): int(number) for stratum, number in re.findall(r"^left (\d+) (\d+)$", report, re.M)},
    )


def _given(design: Any, frame: Any) -> tuple[dict, Any, list[str]]:
    """The design as a dict, the frame, and the columns whose totals are looked at first."""
    if frame is None:
        return design.design, design.frame, list(dict.fromkeys(one.column for one in design.columns))
    if is_path(design):
        with open(design, "rb") as file:
            design = tomllib.load(file)
    return design, frame, list(design.get("balance", []))


def _numbers(rows: Rows, name: str) -> list[float]:
    if rows.names.count(name) != 1:
        raise BadValue(name, None, "the frame needs one column of this name")
    numbers = []
    for row, value in enumerate(rows.column(rows.names.index(name)), 1):
        try:
            numbers.append(float(value))
        except (TypeError, ValueError):
            raise BadValue(name, row, f"{shown(value)} is no number") from None
        if is_missing(value):
            raise BadValue(name, row, "a value is missing")
    return numbers


def _middle(values: list) -> float:
    ordered = sorted(values)
    return (ordered[(len(ordered) - 1) // 2] + ordered[len(ordered) // 2]) / 2


def _stratum(number: int, name: str | None, tried: list[_Tried]) -> TrialStratum:
    """What a section showed in all draws."""
    flights = [one.wide[number] for one in tried if number in one.wide]
    left = [one.left[number] for one in tried if number in one.left]
    return TrialStratum(name, len(flights) / len(tried), _middle(flights) if flights else None, _middle(left) if left else None, max(left) if left else None)


def _error(errors: list[float] | None) -> tuple[float | None, float | None]:
    """The mean of errors, and the root of the mean of their squares."""
    if errors is None:
        return None, None
    return sum(errors) / len(errors), sqrt(sum(error * error for error in errors) / len(errors))
