"""The commands."""
import hashlib
import os
import re
import secrets
import shutil
import sys
import warnings
from collections.abc import Iterable
from typing import Any

from .design import Design
from .folder import INPUTS, is_path, new_folder, put_file, run, write
from .frame import Carried, carry
from .program import versions
from .result import Accepted, Draw, Fractions, Pair, Unit, WideWarning, drawn, wide_text, write_weights
from .tables import is_table, records_of
from .values import shown, whole

Path = str | os.PathLike


def check(design: Design, frame: Any) -> Accepted:
    """Says whether a design and a frame go together: the numbers of units and of strata, and each stratum's name and number of units, or a Refusal.

    Compare them with your own: an empty row at the end of a frame may be a unit, and "ZG " is another stratum than "ZG"."""
    with new_folder() as folder:
        carried = carry(folder, design, frame)
        put = run(folder, "check", *INPUTS).decode()
        units, strata = re.fullmatch(r"accepted (\d+) units in (\d+) strata\n", put).groups()
        return Accepted(int(units), int(strata), carried.strata())


def probs(design: Design, frame: Any) -> Any:
    """Gives each row's id and probability, a Fraction, in the order of the frame, as a list of Unit. Of a DataFrame it gives a DataFrame, in which
    `probability_float` has the nearest float beside the Fraction."""
    return _listed(Unit, "probs", design, frame)


def joint(design: Design, frame: Any) -> Any:
    """Gives the joint probability of each two rows, a Fraction, as a list of Pair, or as a DataFrame where one was given, as probs does."""
    return _listed(Pair, "joint", design, frame)


def seed_of(sentence: str) -> str:
    """The seed that a sentence gives, its SHA-256: what `printf '%s' SENTENCE | sha256sum` puts. The sentence is to be settled before the frame is final
    (docs/guide.md, section 4)."""
    if not isinstance(sentence, str):
        raise TypeError(f"a sentence is a text, not {shown(sentence)}")
    return hashlib.sha256(sentence.encode()).hexdigest()


def _checked_seed(seed: Any) -> str:
    if not isinstance(seed, str) or not re.fullmatch("[0-9A-Fa-f]{64}", seed):
        raise ValueError(f"a seed is a text of 64 hexadecimal digits, not {shown(seed)}; seed_of makes one of a sentence that was settled beforehand")
    return seed


def draw(design: Design, frame: Any, seed: str | None = None, tape: Path | Iterable[int] | None = None, record: Path | None = None) -> Draw:
    """Draws a sample, and gives it as Draw. Where a stratum went wide, so that its balance was lost, a WideWarning says so.

    seed: 64 hexadecimal digits. tape: the path of a tape, or whole numbers. With neither, the seed is 32 bytes of the operating system.
    record: the name of a new folder, for design.toml, frame.csv, seed.txt or tape.txt, log.txt, sample.csv and report.txt, byte for byte as they went to
    the program and came from it; weights.csv, the sample with a rounded decimal weight beside the exact one, for spreadsheets; and versions.txt, with the
    SHA-256 and the version of the program and of this package, and the SHA-256 of the files that were given by their paths. It is there whole, or, where
    a call fails, not at all."""
    if seed is not None and tape is not None:
        raise ValueError("a draw goes by a seed or by a tape, not by both")
    seed = secrets.token_hex(32) if seed is None and tape is None else seed
    if seed is not None:
        _checked_seed(seed)
    with new_folder(record) as folder:
        carried = carry(folder, design, frame, is_drawn=True)
        report = run(folder, "draw", *INPUTS, *_source(folder, seed, tape), "--log", "log.txt", "--sample", "sample.csv")
        result = drawn(folder, carried, report, seed)
        if record is not None:
            _complete(folder, design, frame)
    # Behind the record, which is kept also where a warning is made an error.
    if result.wide:
        warnings.warn(_advice(result), WideWarning, stacklevel=2)
    return result


def _source(folder: str, seed: str | None, tape: Any) -> tuple[str, str]:
    """The words for a seed or a tape, whose file is put into the folder."""
    if seed is not None:
        write(folder, "seed.txt", seed + "\n")
        return "--seed", seed
    put_file(folder, "tape.txt", tape, lambda values: "".join(f"{whole(value, 'tape', line)}\n" for line, value in enumerate(values, 1)))
    return "--tape", "tape.txt"


def _complete(folder: str, design: Any, frame: Any) -> None:
    """Writes what a record has more than the files of the program."""
    write_weights(folder)
    write(folder, "versions.txt", versions(*(os.fspath(given) if is_path(given) else None for given in (design, frame))))


def _advice(result: Draw) -> str:
    """What is said of a draw that went wide."""
    places = "; ".join(wide_text(part, result) for part in result.wide[:10])
    more = f"; and {len(result.wide) - 10} strata more" if len(result.wide) > 10 else ""
    return f"{places}{more}. The probabilities are exact, but balance is lost there. For the next draw see sampler.fit; don't draw this one again."


def replay(design: Design, frame: Any, log: Path, stratum: int | str | None = None, record: Path | None = None) -> Draw:
    """Goes through a draw again by its log, and gives it as Draw.

    log: its path. stratum: the one stratum to go through: its name, a text, or its number, from 1 on in the order of the frame.
    record: as in draw, without seed and tape."""
    with new_folder(record) as folder:
        carried = carry(folder, design, frame, is_drawn=True)
        shutil.copyfile(log, os.path.join(folder, "log.txt"))
        number = None if stratum is None else _number(folder, carried, stratum)
        alone = () if number is None else ("--stratum", str(number))
        report = run(folder, "replay", *INPUTS, "--log", "log.txt", *alone, "--sample", "sample.csv")
        result = drawn(folder, carried, report, None, number)
        if record is not None:
            _complete(folder, design, frame)
        return result


def _number(folder: str, carried: Carried, stratum: int | str) -> int:
    """The number of a stratum that is given by its name or its number."""
    if not isinstance(stratum, str):
        return whole(stratum, "stratum", None)
    run(folder, "check", *INPUTS)
    names = {part.name: part.number for part in carried.strata() if part.name is not None}
    if stratum not in names:
        known = ", ".join(map(repr, list(names)[:20])) + (", .." if len(names) > 20 else "")
        raise ValueError(f"the frame has no stratum {stratum!r}; " + (f"it has {known}" if names else "the design has no strata"))
    return names[stratum]


def _listed(kind: Any, command: str, design: Any, frame: Any) -> Any:
    """What a command lists of a frame: rows of ids and one fraction."""
    with new_folder() as folder:
        carry(folder, design, frame)
        records = records_of(run(folder, command, *INPUTS))
    next(records)
    fractions = Fractions()
    listed = [kind(*ids, fractions[text]) for *ids, text in records]
    if not is_table(frame):
        return listed
    table = sys.modules["pandas"].DataFrame(listed, columns=kind._fields)
    table["probability_float"] = [float(row.probability) for row in listed]
    return table
