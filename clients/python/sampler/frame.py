"""The files of a call: the design, and of the frame the columns that the design asks for."""
import collections
import os
import shutil
from collections.abc import Mapping
from typing import Any

from .design import design_in, toml
from .errors import BadValue, Refusal
from .folder import INPUTS, bytes_of, is_path, new_folder, put_file, run
from .result import Stratum
from .tables import File, Rows, Table, is_table, write_csv
from .values import fields, shown


def asked(folder: str) -> list[str]:
    """The columns that the design asks for, that of the ids first, as the program tells them: it names the first one that a header hasn't."""
    # A column that no design of this length can name.
    names = ["-" * (os.path.getsize(os.path.join(folder, "design.toml")) + 1)]
    with new_folder() as aside:
        shutil.copyfile(os.path.join(folder, "design.toml"), os.path.join(aside, "design.toml"))
        while True:
            write_csv(aside, "frame.csv", names)
            try:
                run(aside, "check", *INPUTS)
            except Refusal as refusal:
                if refusal.line == "error 4.10 no rows":
                    return names[1:]
                if not refusal.line.startswith("error 4.2 missing column "):
                    raise
                names.append(refusal.column)


class Carried:
    """A frame whose file stands in a folder, and the columns of it that the program reads, as they are written there.

    rows: the frame. names: the columns that the design asks for, that of the ids first. design: the design, as a dict."""

    def __init__(self, rows: Rows, names: list[str], design: dict[str, Any], columns: Mapping[str, list]):
        self.rows, self.names, self.design, self._columns = rows, names, design, columns

    def column(self, name: str) -> list[str]:
        """A column of the frame as it is written."""
        values = self._columns[name] if name in self._columns else self.rows.column(self.rows.names.index(name))
        return list(map(str, values))

    @property
    def ids(self) -> list[str]:
        return self.column(self.names[0])

    def strata(self) -> list[Stratum]:
        """The strata in their order, that of their first rows, with their names and their numbers of rows. For a frame that the program has accepted."""
        if "stratum" not in self.design:
            return [Stratum(1, None, len(self.rows.rows))]
        counts = collections.Counter(self.column(self.design["stratum"]))
        return [Stratum(number, name, units) for number, (name, units) in enumerate(counts.items(), 1)]

    def names_of_strata(self) -> dict[int, str | None]:
        """The names that go with the numbers of strata in a report. What draws from all strata in one has 1 as its number, and no name."""
        if self.design["method"] == "stratified_cube":
            return {1: None}
        return {stratum.number: stratum.name for stratum in self.strata()}


def _put_design(folder: str, design: Any) -> None:
    if not is_path(design) and not isinstance(design, Mapping):
        swapped = is_table(design) or isinstance(design, (list, tuple))
        raise TypeError(f"a design is a dict or the path of a file, not {shown(design)}" + (": the design comes first, and then the frame" if swapped else ""))
    put_file(folder, "design.toml", design, toml)


def carry(folder: str, design: Any, frame: Any, is_drawn: bool = False) -> Carried:
    """Puts the design and the frame into the folder, and gives what is known of them."""
    _put_design(folder, design)
    if is_path(frame):
        return _carry_file(folder, frame, is_drawn)
    rows = Table(frame) if is_table(frame) else Rows(frame)
    _refuse_added(rows, is_drawn)
    names = asked(folder)
    places = [place for wanted in names for place, name in enumerate(rows.names) if name == wanted]
    columns = [fields(rows.column(place), rows.names[place]) for place in places]
    # Of a frame without any of them the header goes, so that the program says what is missing.
    header = [rows.names[place] for place in places] or [str(name) for name in rows.names]
    write_csv(folder, "frame.csv", header, zip(*columns))
    return Carried(rows, names, design_in(folder), dict(zip(header, columns)))


def _carry_file(folder: str, frame: Any, is_drawn: bool) -> Carried:
    """The same of a frame in a file, which goes byte for byte."""
    shutil.copyfile(frame, os.path.join(folder, "frame.csv"))
    rows = File(bytes_of(folder, "frame.csv"))
    _refuse_added(rows, is_drawn)
    return Carried(rows, asked(folder), design_in(folder), {})


def _refuse_added(rows: Rows, is_drawn: bool) -> None:
    """Refuses a frame to be drawn from that has a column already which its sample would get."""
    for name in rows.added:
        if is_drawn and name in rows.names:
            raise BadValue(name, None, "the frame has a column of this name; give it another one")
