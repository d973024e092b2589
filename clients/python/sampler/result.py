"""What the program wrote and put, as values."""
import html
import os
import re
from fractions import Fraction
from typing import Any, NamedTuple

from .folder import bytes_of, write
from .tables import is_table, records_of


class Stratum(NamedTuple):
    """A stratum: its number, from 1 on in the order of the frame, its name, or None of a frame without strata, and its number of units."""

    number: int
    name: str | None
    units: int


class Accepted(NamedTuple):
    """A design and a frame that go together: the numbers of units and of strata, and the strata by their names, each with its number of units."""

    units: int
    strata: int
    of_strata: list[Stratum]

    def __repr__(self) -> str:
        named = [stratum for stratum in self.of_strata if stratum.name is not None]
        return "\n".join([f"accepted {self.units} units in {self.strata} strata", *(f"{part.number} {part.name!r}: {part.units} units" for part in named)])


class Unit(NamedTuple):
    """A row's id and its probability."""

    id: str
    probability: Fraction


class Pair(NamedTuple):
    """The ids of two rows and their joint probability."""

    first: str
    second: str
    probability: Fraction


class Left(NamedTuple):
    """A stratum's number and name, and how many of its first stage units were undecided when its landing began."""

    stratum: int
    stratum_name: str | None
    left: int


class Balance(NamedTuple):
    """A stratum's number and name, those of a column of `balance`, the estimated total, or None where it is wide, and the known total."""

    stratum: int
    stratum_name: str | None
    column: int
    column_name: str
    estimate: Fraction | None
    total: int


class Wide(NamedTuple):
    """A stratum whose balance ended by a step `wide`: its number and name, and the flight steps before. All are None of a log of version 1."""

    stratum: int | None
    stratum_name: str | None
    flights: int | None


class WideWarning(UserWarning):
    """A draw went wide in a stratum."""


class Draw(NamedTuple):
    """A draw, as the program wrote and reported it.

    sample: the drawn rows in the order of the frame, with all their columns, and with the weight as a Fraction in the column `weight`; in a DataFrame also
    as the nearest float in `weight_float`.
    selected, units, steps: the numbers of drawn rows, of rows and of steps.
    left: a Left for each stratum; [] where the method balances nothing. balance: a Balance for each stratum and column of `balance`.
    wide: a Wide for each stratum that went wide. By the stratified cube there is one draw from all strata, with 1 as its number and None as its name.
    seed: the seed; None of a draw by a tape and of a replay."""

    sample: Any
    selected: int
    units: int
    steps: int
    left: list[Left]
    balance: list[Balance]
    wide: list[Wide]
    seed: str | None

    def __repr__(self) -> str:
        return "\n".join(_summary(self))

    def _repr_html_(self) -> str:
        lines = "<br>".join(html.escape(line) for line in _summary(self))
        return f"<p>{lines}</p>{_html_of(self.sample)}"


def _summary(drawn: Draw) -> list[str]:
    """A draw in a few lines."""
    lines = [f"{drawn.selected} of {drawn.units} rows drawn in {drawn.steps} steps" + (f", seed {drawn.seed}" if drawn.seed else "")]
    if drawn.left:
        lines.append(f"{sum(part.left for part in drawn.left)} units undecided when the landing began" + _in_strata(len(drawn.left)))
    lines += [wide_text(part, drawn) for part in drawn.wide]
    if drawn.balance:
        off = [(abs(float(part.estimate) / part.total - 1), part) for part in drawn.balance if part.estimate is not None and part.total]
        if off:
            most, part = max(off, key=lambda pair: pair[0])
            lines.append(f"greatest relative difference of a balancing total: {most:.2g} ({_place(part.stratum_name, part.column_name)})")
    return lines


def _in_strata(number: int) -> str:
    return f", in {number} strata" if number > 1 else ""


def _place(stratum: str | None, column: str) -> str:
    return column if stratum is None else f"{column}, stratum {stratum}"


def wide_text(part: Wide, drawn: Draw) -> str:
    """Where and when a draw went wide."""
    where = "the draw" if part.stratum_name is None else f"stratum {part.stratum_name!r}"
    when = "" if part.flights is None else f" after {part.flights} flight steps"
    left = [line.left for line in drawn.left if line.stratum == part.stratum]
    return f"{where} went wide{when}" + (f", with {left[0]} units undecided" if left else "")


def _html_of(sample: Any, most: int = 10) -> str:
    """The first rows of a sample as a table."""
    if is_table(sample):
        return sample.head(most).to_html()
    if not sample:
        return ""
    cells = lambda tag, values: "".join(f"<{tag}>{html.escape(str(value))}</{tag}>" for value in values)
    rows = "".join(f"<tr>{cells('td', row.values())}</tr>" for row in sample[:most])
    return f"<table><thead><tr>{cells('th', sample[0])}</tr></thead><tbody>{rows}</tbody></table>"


class Fractions(dict):
    """The fractions of texts, each made once."""

    def __missing__(self, text: str) -> Fraction:
        self[text] = Fraction(*map(int, text.split("/")))
        return self[text]


def wide_sections(log: str, alone: int | None) -> list[tuple[int | None, int | None]]:
    """The numbers of the sections of a log in which a step `wide` stands, with the steps `flight` before it; of one section alone where its number is given."""
    if "\nwide " not in log:
        return []
    if not log.startswith("sampler-log 2\n"):
        return [(None, None)] * log.count("\nwide ")
    found = []
    for section in re.finditer(r"^stratum (\d+) \d+\n(.*?)^done \1 \d+\n", log, re.M | re.S):
        before, wide, _ = section[2].partition("wide ")
        if wide and (alone is None or int(section[1]) == alone):
            found.append((int(section[1]), before.count("flight ")))
            if alone is not None:
                break
    return found


def drawn(folder: str, carried: Any, report: bytes, seed: str | None, alone: int | None = None) -> Draw:
    """The draw that stands in the folder: its rows are found by their ids, of which the program lets none stand twice."""
    text = report.decode()
    write(folder, "report.txt", text)
    selected, units, steps = map(int, re.match(r"selected (\d+) of (\d+)\nsteps (\d+)\n", text).groups())
    names, columns = carried.names_of_strata(), carried.design.get("balance", [])
    left = [Left(int(stratum), names[int(stratum)], int(number)) for stratum, number in re.findall(r"^left (\d+) (\d+)$", text, re.M)]
    balance = [
        Balance(int(stratum), names[int(stratum)], int(column), columns[int(column) - 1], None if estimate == "wide" else Fraction(estimate), int(total))
        for stratum, column, estimate, total in re.findall(r"^balance (\d+) (\d+) (\S+) (\S+)$", text, re.M)
    ]
    log = bytes_of(folder, "log.txt").decode("utf-8", "replace")
    wide = [Wide(stratum, names.get(stratum), flights) for stratum, flights in wide_sections(log, alone)]
    sample = carried.rows.sample(weights_in(folder, carried.ids))
    return Draw(sample, selected, units, steps, left, balance, wide, seed)


def weights_in(folder: str, ids: list[str]) -> list[tuple[int, Fraction]]:
    """The places of the drawn rows in the frame, with their weights."""
    places = {id: place for place, id in enumerate(ids)}
    fractions = Fractions()
    records = records_of(bytes_of(folder, "sample.csv"))
    next(records)
    return [(places[id], fractions[text]) for id, text in records]


def write_weights(folder: str) -> None:
    """Writes weights.csv: the sample of the program with a second column of weights, each rounded to twelve significant digits."""
    records = records_of(bytes_of(folder, "sample.csv"))
    next(records)
    quoted = lambda text: '"' + text.replace('"', '""') + '"'
    rounded = lambda text: "%.12g" % (float(int(text.split("/")[0])) / float(int(text.split("/")[1])))
    lines = [f'{quoted(id)},"{text}",{rounded(text)}\n' for id, text in records]
    write(folder, "weights.csv", '"id","weight_exact","weight_rounded"\n' + "".join(lines))
