"""`sampler` from Python in one call: check, probs, draw, replay and joint. The program draws; this package only carries.

    import sampler
    drawn = sampler.draw({"version": 1, "method": "pivotal", "id": "farm", "size": "area", "n": 6}, farms, record="draw")
    drawn.sample[0]["weight"]

It writes a design and a frame into a folder, calls the program there, without a shell, and reads what the program wrote and put. It computes no
probability and no weight, and finds no fault of a design or a frame but a value that it can't write without a guess. `fit` and `trial` stand before a draw:
the one makes a design and a frame near those that are wanted, with which a balanced draw doesn't go wide, and the other tries a design by seeds that are
thrown away. `promise` says of a design in which strata no draw can go wide, and by what.

- A design is a dict of the keys in docs/formats.md, or the path of a TOML file.
- A frame is a list of dicts, a pandas DataFrame, or the path of a CSV file. Of rows and of a DataFrame those columns are written that the design asks
  for, in the order in which the program asks: a text in quotes, a whole number in digits, a Fraction or a Decimal that isn't whole as 1/2. The same
  values make the same bytes, here and in the R package. A file goes to the program byte for byte, and comes back with a text in each field.
- The program is the one whose path is in the environment's SAMPLER, or else the one that this package brings, or else `sampler` on the path. `program()`
  says which one, and its version; where that is known and another than the package's, a VersionWarning says so.

It needs Python from 3.11 on, and nothing else.
"""
from .commands import check, draw, joint, probs, replay, seed_of
from .design import toml
from .errors import BadValue, Refusal
from .fit import Fitted, FittedColumn, FittedStratum, Unfit, fit
from .promise import Promise, PromisedStratum, promise
from .program import Program, VersionWarning, own_version, program
from .result import Accepted, Balance, Draw, Left, Pair, Stratum, Unit, Wide, WideWarning
from .trial import Trial, TrialColumn, TrialStratum, trial

__version__ = own_version()
__all__ = [
    "check", "probs", "draw", "replay", "joint", "fit", "promise", "trial", "toml", "seed_of", "program", "Accepted", "Stratum", "Unit", "Pair", "Draw", "Left", "Balance",
    "Wide", "Fitted", "FittedStratum", "FittedColumn", "Trial", "TrialStratum", "TrialColumn", "Program", "Refusal", "BadValue", "Unfit", "VersionWarning",
    "WideWarning",
]
