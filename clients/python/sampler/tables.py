"""CSV files, and the kinds of frames."""
import csv
import io
import os
import sys
from collections.abc import Iterable, Iterator, Mapping
from fractions import Fraction
from typing import Any


def write_csv(folder: str, name: str, header: Iterable, rows: Iterable = ()) -> None:
    """Writes a CSV file: each text in quotes, a quote in it twice, and each number without."""
    with open(os.path.join(folder, name), "w", encoding="utf-8", newline="") as file:
        writer = csv.writer(file, quoting=csv.QUOTE_NONNUMERIC, lineterminator="\n")
        writer.writerow(header)
        writer.writerows(rows)


def records_of(content: bytes) -> Iterator[list[str]]:
    """The records of the bytes of a CSV file, one by one, as docs/formats.md has them: an empty line is none, and a field may be of any length."""
    limit = csv.field_size_limit(2**31 - 1)
    try:
        yield from filter(None, csv.reader(io.TextIOWrapper(io.BytesIO(content), "utf-8", "replace", newline="")))
    finally:
        csv.field_size_limit(limit)


def is_table(frame: Any) -> bool:
    """Whether this is a DataFrame of pandas, which is never imported here: where it is one, it has been."""
    return "pandas" in sys.modules and isinstance(frame, sys.modules["pandas"].DataFrame)


class Rows:
    """A frame in dicts, whose first one tells the names of the columns."""

    # The names of the columns that a sample has more than its frame.
    added: tuple[str, ...] = ("weight",)

    def __init__(self, frame: Any):
        if isinstance(frame, Mapping) or not isinstance(frame, Iterable):
            raise TypeError(_what_a_frame_is(frame))
        self.rows = list(frame)
        if self.rows and not isinstance(self.rows[0], Mapping):
            raise TypeError(_what_a_frame_is(frame))
        self.names = list(self.rows[0]) if self.rows else []

    def column(self, place: int) -> list:
        return [row.get(self.names[place]) for row in self.rows]

    def row(self, place: int) -> Any:
        return self.rows[place]

    def sample(self, weights: list[tuple[int, Fraction]]) -> Any:
        """The rows at these places with these weights."""
        return [{**self.row(place), "weight": weight} for place, weight in weights]


def _what_a_frame_is(frame: Any) -> str:
    swapped = isinstance(frame, Mapping) and "method" in frame
    return "a frame is a list of dicts, a DataFrame or the path of a file" + (": the design comes first, and then the frame" if swapped else "")


class File(Rows):
    """A frame in the bytes of a CSV file. Where it isn't UTF-8, the program says so."""

    def __init__(self, content: bytes):
        while content.startswith(b"\xef\xbb\xbf"):
            content = content[3:]
        records = records_of(content)
        self.names = next(records, [])
        self.rows = list(records)

    def column(self, place: int) -> list:
        return [record[place] if place < len(record) else "" for record in self.rows]

    def row(self, place: int) -> Any:
        return dict(zip(self.names, self.rows[place]))


class Table(Rows):
    """A frame in a DataFrame."""

    added = ("weight", "weight_float")

    def __init__(self, frame: Any):
        self.rows = frame
        self.names = list(frame.columns)

    def column(self, place: int) -> list:
        return self.rows.iloc[:, place].tolist()

    def sample(self, weights: list[tuple[int, Fraction]]) -> Any:
        drawn = self.rows.iloc[[place for place, _ in weights]].copy()
        drawn["weight"] = [weight for _, weight in weights]
        drawn["weight_float"] = [float(weight) for _, weight in weights]
        return drawn
