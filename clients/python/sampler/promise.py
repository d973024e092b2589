"""What is promised of a draw before its seed is known: in which strata none goes `wide`, and by what."""
from typing import Any, NamedTuple

from .bound import promised_by
from .commands import check
from .fit import CUBES, design_in, name_of, units_of
from .trial import rows_of

SHOWN = 20  # of how many strata a line is printed


class PromisedStratum(NamedTuple):
    """A stratum by its name, or the whole frame, None, in a design without strata and by the stratified cube, with its number of units that are neither certain
    nor without a chance.

    by: `proved`, where a theorem that is proved of the program says that no draw goes wide (docs/proved.md); `on paper`, where the argument of docs/narrow.md
    does; None, where nothing does, and a draw may go wide or not."""

    stratum: str | None
    free: int
    by: str | None


class Promise(NamedTuple):
    """What is promised of a design and a frame. strata: a PromisedStratum for each."""

    strata: list[PromisedStratum]

    def __repr__(self) -> str:
        lines = [f"{'stratum':<20} {'free':>7}  no draw goes wide"]
        for one in self.strata[:SHOWN]:
            lines.append(f"{one.stratum or 'all':<20.20} {one.free:>7}  {one.by or 'not promised'}")
        return "\n".join(lines + [f"and {len(self.strata) - SHOWN} strata more"] * (len(self.strata) > SHOWN))


def promise(design: Any, frame: Any) -> Promise:
    """Says by what it is promised, in each stratum, that no draw goes wide, whatever its seed: by a theorem that is proved of the program, by the argument of
    docs/narrow.md, or by nothing. Nothing is drawn.

    design, frame: as for draw, by cube, local_cube or stratified_cube. It is a Refusal where the program refuses them."""
    keys = design_in(design)
    if keys.get("method") not in CUBES:
        raise ValueError("only a draw by cube, local_cube or stratified_cube can go wide")
    check(design, frame)
    units = units_of(keys, rows_of(frame))
    is_together = keys["method"] == "stratified_cube"
    places: dict[Any, list[int]] = {}
    for place, stratum in enumerate(units.strata):
        places.setdefault("" if is_together else stratum, []).append(place)
    promised = []
    for stratum, own in places.items():
        free = [place for place in own if 0.0 < units.wanted[place] < 1.0]
        values = [[int(column[place]) for place in free] for column in units.values]
        by = promised_by([units.exact[place] for place in free], [units.strata[place] for place in free], values, is_together)
        promised.append(PromisedStratum(None if is_together else name_of(keys, stratum), len(free), by))
    return Promise(promised)
