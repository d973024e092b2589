"""What a call is refused with."""
import re

PLACE = re.compile(r"error 4\.\d+ (?:(?:missing|repeated) column (?P<column>.*)|[a-z ]*row (?P<row>\d+)(?: column (?P<of_row>.*)| isn't UTF-8)?)", re.S)
WITHOUT_LINE = {12: "a file couldn't be read", 13: "a file couldn't be written, or the result couldn't be put", 14: "memory ran out"}


class Refusal(Exception):
    """The program refused, or failed.

    code, line: its exit code and the line that it put, "" with the codes 12 to 14; docs/formats.md has them all.
    row, column: those that the line names, else None. Row 1 is the first one after the header, so of a list the one at place 0."""

    def __init__(self, code: int, line: str):
        super().__init__(code, line)
        self.code, self.line = code, line
        place = PLACE.fullmatch(line)
        self.row = int(place["row"]) if place and place["row"] else None
        self.column = next((name for name in place.group("column", "of_row") if name is not None), None) if place else None

    def __str__(self) -> str:
        return self.line or WITHOUT_LINE.get(self.code, f"the program ended with code {self.code}")


class BadValue(ValueError):
    """A value that can't be written without a guess. column: its column, or its key in a design; row: as in Refusal, None of a design."""

    def __init__(self, column: str, row: int | None, reason: str):
        super().__init__(column, row, reason)
        self.column, self.row, self.reason = column, row, reason

    def __str__(self) -> str:
        return f"{self.column}: {self.reason}" if self.row is None else f"column {self.column}, row {self.row}: {self.reason}"
