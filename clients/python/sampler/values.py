"""Values as they are written: a text, a whole number or a fraction. What isn't one of these without a guess is refused by name."""
import numbers
import re
from collections.abc import Iterable, Mapping, Set
from decimal import Decimal
from fractions import Fraction
from typing import Any

from .errors import BadValue

SURROGATE = re.compile("[\ud800-\udfff]")


def shown(value: Any) -> str:
    """A value for a message, cut where it is long."""
    text = repr(value)
    return text if len(text) <= 60 and "\n" not in text else f"a value of type {type(value).__name__}"


def single(value: Any) -> Any:
    """The one value of an array of no dimension, as of numpy; any other value as it is."""
    return value.item() if getattr(value, "ndim", None) == 0 and hasattr(value, "item") else value


def listed(value: Any) -> list | None:
    """The values of a sequence of any kind, in its order: a list, a tuple, an array, a Series, an Index; or None where it is no sequence."""
    if isinstance(value, (str, bytes, bytearray, Mapping, set, frozenset)) or not isinstance(value, Iterable) or getattr(value, "ndim", 1) != 1:
        return None
    return value.tolist() if hasattr(value, "tolist") else list(value)


def paired(value: Any) -> Mapping | None:
    """The keys and values of a dict, or of a Series by its index; or None where it is neither."""
    if isinstance(value, Mapping):
        return value
    if hasattr(value, "index") and hasattr(value, "to_dict") and getattr(value, "ndim", None) == 1:
        if not value.index.is_unique:
            raise ValueError("a Series whose index has one name twice")
        return value.to_dict()
    return None


def is_missing(value: Any) -> bool:
    """Whether a value says that there is none."""
    if value is None or type(value).__name__ in ("NAType", "NaTType"):
        return True
    return isinstance(value, (float, Decimal)) and value != value


def is_truth(value: Any) -> bool:
    return isinstance(value, bool) or type(value).__name__ in ("bool_", "bool")


def whole(value: Any, column: str, row: int | None) -> int:
    """The whole number that a value is; a double counts where it is whole and below 2^53, from where on it may have been rounded."""
    value = single(value)
    if isinstance(value, numbers.Integral) and not is_truth(value):
        return int(value)
    if is_missing(value):
        raise BadValue(column, row, "a value is missing")
    if isinstance(value, (Decimal, Fraction)) and _is_whole(value):
        return int(value)
    if isinstance(value, numbers.Real) and not isinstance(value, Fraction) and not is_truth(value):
        if float(value).is_integer() and abs(value) < 2**53:
            return int(value)
        raise BadValue(column, row, f"{value!r} is neither a text nor a whole number below 2^53{_hint(value)}")
    raise BadValue(column, row, f"{shown(value)} is neither a text nor a whole number{_hint(value)}")


def _is_whole(value: Decimal | Fraction) -> bool:
    if isinstance(value, Fraction):
        return value.denominator == 1
    return value.is_finite() and value == value.to_integral_value()


def _hint(value: Any) -> str:
    """What to do about a value that can't be written."""
    if is_truth(value):
        return ": take texts, such as 'yes' and 'no'"
    if isinstance(value, float) and 0 < value < 1:
        return ": a probability has to be a text such as '1/3', a Fraction or a Decimal; sampler.fit makes them of doubles"
    return ""


def _field(value: Any, column: str, row: int) -> str | int:
    """A value of a frame as it is written: a text, a whole number, or a fraction with its slash."""
    value = single(value)
    if isinstance(value, str):
        return str(value)
    if isinstance(value, Decimal) and value.is_finite() and not _is_whole(value):
        value = Fraction(value)
    if isinstance(value, Fraction):
        return f"{value.numerator}/{value.denominator}"
    return whole(value, column, row)


def fields(values: list, column: str) -> list:
    """The values of a column as they are written."""
    kinds = set(map(type, values))
    if not kinds <= {str, int}:
        values = [_field(value, column, row) for row, value in enumerate(values, 1)]
    if kinds != {int} and SURROGATE.search("".join(values if kinds == {str} else map(str, values))):
        row, value = next((row, value) for row, value in enumerate(values, 1) if SURROGATE.search(str(value)))
        raise BadValue(column, row, f"{value!r} isn't Unicode")
    return values
