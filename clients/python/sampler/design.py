"""A design: its text in TOML, and what the client itself has to know of it, the names of strata and of columns."""
import os
import re
import tomllib
from collections.abc import Mapping
from typing import Any

from .errors import BadValue
from .folder import bytes_of
from .values import is_truth, listed, paired, shown, single, whole

Design = Mapping[str, Any] | str | os.PathLike

# Keys whose value is an array of names, also where one name is given.
ARRAYS = ("balance", "near")


def toml(design: Mapping[str, Any]) -> str:
    """The text of a design, a dict, as TOML: its tables last, every text escaped, every number whole.

    An entry of `sizes` may have a whole number as its key, the name of a stratum as it is written. `sizes` may be a Series, and an array of names any
    sequence; a name of `balance` or `near` may stand alone."""
    design = {name: _given(name, value) for name, value in design.items()}
    tables = [key for key in design if isinstance(design[key], Mapping)]
    text = "".join(f"{_key(key)} = {_value(design[key], key)}\n" for key in design if key not in tables)
    for name in tables:
        text += f"\n[{_key(name)}]\n" + "".join(f"{_key(key, name)} = {_value(value, f'{name}.{key}')}\n" for key, value in design[name].items())
    return text


def _given(key: Any, value: Any) -> Any:
    """A value of a design with what stands in place of a dict or of an array turned into one."""
    if key in ARRAYS:
        return [value] if isinstance(value, str) else value
    return value if paired(value) is None else paired(value)


def _key(name: Any, front: str = "") -> str:
    """A key of a design, or of a table in it: a text, or a whole number in digits."""
    if not isinstance(name, str):
        try:
            name = str(whole(name, front, None))
        except BadValue:
            where = f"of {front} " if front else ""
            raise BadValue(front or shown(name), None, f"the key {shown(name)} {where}is neither a text nor a whole number") from None
    return name if re.fullmatch("[A-Za-z0-9_-]+", name) else _quoted(name)


def _quoted(text: str) -> str:
    return '"' + re.sub(r'["\\]|[\x00-\x1f\x7f]', lambda c: "\\" + c[0] if c[0] in '"\\' else f"\\u{ord(c[0]):04X}", text) + '"'


def _value(value: Any, key: str) -> str:
    value = single(value)
    if isinstance(value, str):
        return _quoted(value)
    if is_truth(value):
        return str(bool(value)).lower()
    if (parts := listed(value)) is not None:
        return "[" + ", ".join(_value(part, key) for part in parts) + "]"
    if isinstance(value, Mapping):
        return "{ " + ", ".join(f"{_key(name, key)} = {_value(part, f'{key}.{name}')}" for name, part in value.items()) + " }"
    if isinstance(value, (set, frozenset)):
        raise BadValue(key, None, "a set has no order: take a list")
    return str(whole(value, key, None))


def design_in(folder: str) -> dict[str, Any]:
    """The design that stands in the folder, which the program has accepted."""
    return tomllib.loads(bytes_of(folder, "design.toml").decode())
