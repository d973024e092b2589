"""The draw that is worked by hand: its steps and its values, as the laws of the files `Four` have them, which the prover has computed."""
import os
import re
from fractions import Fraction

import records

FRAME = "frame  a,1  b,2  c,3  d,4    n = 2, pivotal   π = 2/10  4/10  6/10  8/10  (2·4 < 10: none certain)"
IDS = "abcd"
# A field of a record of such a file, with the name and the value in the comment above it.
VALUE = re.compile(r"\s*-- (?P<name>[A-Za-z_]+): (?P<value>.*)")
STATE = r"state \(([0-9 ∷]*)∷ \[\]\)"


def laws(statement):
    """The records of laws of the worked draw."""
    of = [module for name, module in sorted(statement.modules.items()) if name.endswith(".specs.Four")]
    return [definition for module in of for definition in module.definitions.values() if definition.kind == "record"]


def values(statement):
    """The values by the names of the definitions that have them: each in the comment of a field."""
    found = {}
    for law in laws(statement):
        for line, after in zip(law.lines, law.lines[1:]):
            match = VALUE.match(line)
            if match and re.match(r"\s*pub \S+ :", after):
                found.setdefault(match["name"], []).append(match["value"])
    return found


def wrong_values(statement):
    """Each definition whose comment has a value that no law has in the same words; and each value of a law that no definition has."""
    those, found, seen = values(statement), [], set()
    for module in statement.modules.values():
        for definition in module.definitions.values():
            value = definition.marked("e.g.")
            seen.add((definition.name, value))
            if value and value not in those.get(definition.name, ()):
                found.append(f"{definition.path}:{definition.line} {definition.name}: no law has the value {value}")
    for name, told in those.items():
        found += [f"the worked draw: the comment of {name} hasn't the value {value}" for value in told if (name, value) not in seen]
    return found


# The shipped files of the draw, and the definitions that have their bytes.
FILES = {"frame_bytes": "frame.csv", "tape_bytes": "tape.txt", "sample_bytes": "sample.csv"}


def wrong_files(statement):
    """Each shipped file of the draw that hasn't the bytes that the law reads or writes."""
    found, told = [], {}
    for name, module in statement.modules.items():
        if name.endswith(".specs.Four"):
            told.update({one.name: one for one in module.definitions.values() if one.name in FILES})
    for name, file in FILES.items():
        with open(os.path.join(statement.top, "examples/four", file), encoding="ascii") as shipped:
            text = shipped.read()
        law = re.search(r'codes "(.*)"$', " ".join(told[name].lines)) if name in told else None
        if law is None or law[1].replace("\\n", "\n") != text:
            found.append(f"examples/four/{file} hasn't the bytes of {name}")
    return found


# ---- the steps

def numbers_in(told):
    return tuple(int(number) for number in re.findall(r"\d+", told))


def steps(statement):
    """The start, and of each state its parts, a weight and a state each, as the law has them."""
    law = next(law for law in laws(statement) if "steps" in records.fields_of(law))
    module = statement.modules[law.module]
    start = numbers_in(re.search(STATE, " ".join(module.definitions["start"].lines))[1])
    told = records.fields_of(law)["steps"].replace("tree.parts start", f"tree.parts (state ({' ∷ '.join(map(str, start))} ∷ []))")
    parts = {}
    for one in re.findall(r"tree\.parts \(" + STATE + r"\)\s*≡([^)]*(?:\)\)[^)×]*)*)", told):
        parts[numbers_in(one[0])] = [(int(weight), numbers_in(state)) for weight, state in re.findall(r"part (\d+) \(" + STATE + r"\)", one[1])]
    return start, parts


def selected(state):
    return [place for place, value in enumerate(state) if value == 5]


def numbers(first, weight):
    """The numbers that lead to a part: the first ones, or those between."""
    return str(first) if weight == 1 else f"{first},{first + 1}" if weight == 2 else f"{first}..{first + weight - 1}"


def shown(state):
    return f"({','.join(map(str, state))})/5"


def rows(parts, state):
    """The lines of a state and of what is below it, without the state's own."""
    bound, first, found, ends = sum(weight for weight, _ in parts[state]), 0, [], []
    for weight, part in parts[state]:
        if part in parts:
            left = f"{bound if first == 0 else '':>6}  {numbers(first, weight):>5} → {shown(part)}"
            below = rows(parts, part)
            found += [left + below[0], *[" " * len(left) + line for line in below[1:]]]
        else:
            ends.append(f"{numbers(first, weight)} → {','.join(IDS[place] for place in selected(part))}")
        first += weight
    return found or [f"{bound:>6}  " + "  ".join(ends)]


def table(statement):
    """The lines of all steps."""
    start, parts = steps(statement)
    step = f"{'bound':>6}  {'v':>5} → {'next':<11}"
    own = [(shown(start) if number == 0 else "").ljust(16) + line for number, line in enumerate(rows(parts, start))]
    return [FRAME, "", "values (a,b,c,d) "[:16] + step * 2 + f"{'bound':>6}  v → selected", *own]


def ways(parts, state):
    """How many ways down there are, and on how many of them each unit is selected."""
    if state not in parts:
        return 1, [int(place in selected(state)) for place in range(len(state))]
    total, counts = 0, [0] * len(state)
    for weight, part in parts[state]:
        number, those = ways(parts, part)
        total += weight * number
        counts = [old + weight * new for old, new in zip(counts, those)]
    return total, counts


def told_ways(statement):
    """The sentence on all ways. Each has the same probability here, as the bounds are the same on all of them."""
    start, parts = steps(statement)
    total, counts = ways(parts, start)
    bounds, state = [], start
    while state in parts:
        bounds.append(sum(weight for weight, _ in parts[state]))
        state = parts[state][0][1]
    each = f"{'·'.join(map(str, bounds))} = {total} ways, each with the probability 1/{total}"
    return (f"{each}; {', '.join(IDS)} are selected on {', '.join(map(str, counts))} of them: "
            f"P(c) = {counts[2]}/{total} = {Fraction(counts[2], total)} = π(c).")
