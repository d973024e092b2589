"""Which records are values, and which are statements."""
import re

import specs

# Words of the kit that say something of what stands behind them, and signs that do.
SAYING = {"IfSome", "IfOk", "IfErr", "IsTrue", "All", "AllPairs", "EachIndex", "HoldsAt", "Contains", "IsPermutation", "¬"}
SIGNS = ("≡", "≢", "≤", "<", "≤ℤ", "<ℤ", "∣", "⊎", "¬")
# The proofs that values carry: for the prover, and of no weight to what is said.
CARRIED = {"Fraction": ("positive",), "Frac": ("positive", "lowest"), "Signed": ("sign",), "Source": ("below", "idle"),
           "Method": ("belongs", "lawful")}


def fields_of(definition):
    """The types of a record's fields by name, each in one line."""
    found, name = {}, None
    for line in specs.without_comments(definition.lines[1:]):
        field = specs.FIELD.match(line)
        if field:
            name = field[1]
            found[name] = line[field.end():].strip()
        elif name and line.strip():
            found[name] += " " + line.strip()
    return found


def named_by(modules, module, word):
    """The module and the name for which a word of a module stands, with a prefix or without."""
    first, dot, rest = word.partition(".")
    here = modules[module]
    if dot and first in here.aliases:
        return specs.target(modules, here.aliases[first], rest.split(".")[0])
    return specs.target(modules, module, first)


def says(modules, module, told, seen=()):
    """Whether the type of a field is a statement: by a sign in what it ends in, or by a name that is one."""
    parts = told.split("→")[-1].strip().replace("(", " ( ").split()
    if any(part in SIGNS for part in parts) or (parts and parts[0] in SAYING):
        return True
    at = named_by(modules, module, parts[0] if parts else "")
    definition = modules[at[0]].definitions.get(at[1]) if at[0] in modules else None
    if definition is None or at in seen:
        return False
    if definition.kind == "record":
        return not is_value(modules, definition, (*seen, at))
    ends = " ".join(line.strip() for line in definition.head()).split(" : ", 1)[-1].split("→")[-1].strip()
    return definition.kind == "abbrev" and ends == "Type 0" and len(parts) > 1


def is_value(modules, definition, seen=()):
    """Whether a record or a `data` is a value and no statement: none of its fields says something, but for proofs that it carries."""
    if definition.kind == "data":
        head = " ".join(definition.head())
        return all(told.endswith(": Type 0") for told in re.findall(r"\(([^()]*)\)", head)) and "→ Type 0" not in head
    if definition.kind != "record":
        return False
    carried = CARRIED.get(definition.name, ())
    return all(name in carried or not says(modules, definition.module, told, seen) for name, told in fields_of(definition).items())
