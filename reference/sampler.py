"""The commands of `sampler` once more, in plain Python, to be read beside docs/formats.md.

    python3 reference/sampler.py draw --design design.toml --frame frame.csv --tape tape.txt --log log.txt --sample sample.csv

It takes the words of `sampler`, and gives its exit codes, its output and its files. It was written from docs/formats.md and from the published
sources alone, without a look at the program, and goes its own ways:

- all numbers are whole numbers and fractions of any size, so that no limit of a machine's word can hide a fault;
- a step makes the whole list of its parts, each a weight and the state that follows, and a number of the tape goes to the first part at which the
  cumulated weights pass it;
- circuits and elimination tables are found from an inverse matrix in fractions, requested probabilities by the rule of the falling sizes itself, and
  given ones are kept as they are.

It is slow: each step costs a time in proportion to the number of units. It is meant for frames of some hundred rows.

Designs are read by `tomllib`, which knows TOML 1.0; the few forms that only TOML 1.1 has are refused here. How deep arrays, inline tables and keys may
be nested, 80 for the program, isn't counted.

Sources: Tillé, Sampling Algorithms (2006); Deville and Tillé, Unequal probability sampling without replacement through a splitting method (1998);
Madow, On the theory of systematic sampling (1949); Grafström, Lundström and Schelin, Spatially balanced sampling through the pivotal method (2012);
Deville and Tillé, Efficient balanced sampling: the cube method (2004); Bernstein, ChaCha, a variant of Salsa20 (2008).
"""
import hashlib
import os
import sys
import tomllib
from collections import namedtuple
from fractions import Fraction
from math import gcd, lcm

MOST_ROWS = 200_000
LEAST_OF_A_DEMONSTRATION, MOST_OF_A_DEMONSTRATION = 30, 100_000
MOST_OF_A_SIZE = 2_147_483_647
MOST_JOINT_ROWS = 2_000
MOST_OF_A_MULTIPLE = 2_147_483_647
MOST_OF_A_FILE = 2_147_483_648
MOST_OF_A_VECTOR = 2**44
MOST_OF_A_DENOMINATOR = 2**80
MOST_OF_AN_ESTIMATE = 2**126
MOST_BALANCING_ROWS = 16
OFFERS_PER_UNIT = 64
CANDIDATES = 256

USAGE = "error 2 usage: sampler COMMAND [OPTIONS], COMMAND is quick, draw, replay, migrate, probs, check, joint or demo"


class Refusal(Exception):
    """An exit code and the line that goes with it. docs/formats.md, "Codes and fault lines"."""

    def __init__(self, code, line):
        super().__init__(line)
        self.code = code
        self.line = line


class Failure(Exception):
    """A file that couldn't be read or written, or a result that couldn't be put."""


# ---------------------------------------------------------------------------------------------------------------------------------------------
# Numbers


def is_digits(text):
    """One or more decimal digits, and nothing else."""
    return text != "" and all(character in "0123456789" for character in text)


def number_up_to(digits, most):
    """The value of decimal digits, or None where it is larger than `most`; leading zeros don't count."""
    digits = digits.lstrip("0") or "0"
    if len(digits) > len(str(most)) or int(digits) > most:
        return None
    return int(digits)


def written(fraction):
    """A fraction as numerator, slash and denominator in lowest terms."""
    return f"{fraction.numerator}/{fraction.denominator}"


# ---------------------------------------------------------------------------------------------------------------------------------------------
# Words. docs/formats.md, "Words"

OPTIONS = ("design", "frame", "tape", "seed", "log", "sample", "stratum", "to")

FILES = {
    "draw": (("design", "frame", "tape", "log", "sample"), ("design", "frame", "seed", "log", "sample")),
    "replay": (("design", "frame", "log", "sample"), ("design", "frame", "log", "sample", "stratum")),
    "migrate": (("design", "frame", "log", "to"),),
    "probs": (("design", "frame"),),
    "check": (("design", "frame"),),
    "joint": (("design", "frame"),),
}


def split_words(words):
    """The words after the program's name as those that stand alone and the options, or None.

    Two dashes alone say that no option follows. One dash alone is a word like any other."""
    alone, options = [], {}
    only_alone = False
    following = iter(words)
    for word in following:
        if only_alone or word == "-" or not word.startswith("-"):
            alone.append(word)
        elif word == "--":
            only_alone = True
        else:
            name, equals, value = word.partition("=")
            if not name.startswith("--") or name[2:] not in OPTIONS or name[2:] in options:
                return None
            if not equals:
                value = next(following, "--")
                if value.startswith("-") and value != "-":
                    return None
            options[name[2:]] = value
    return alone, options


def is_text(word):
    """Whether the bytes of a word are UTF-8."""
    try:
        word.encode("utf-8")
    except UnicodeEncodeError:
        return False
    return True


def read_words(words):
    """The command and what belongs to it, or the refusal of words that are no command."""
    usage = Refusal(2, USAGE)
    if not words or not all(is_text(word) for word in words):
        raise usage
    parts = split_words(words[1:])
    if parts is None or not 1 <= len(parts[0]) <= 5:
        raise usage
    (command, *alone), options = parts
    if command == "quick":
        if len(alone) != 4 or options or not is_digits(alone[1]):
            raise usage
        names = [alone[0], alone[2], alone[3]]
        given = dict(zip(("frame", "tape", "out"), names))
        given["n"] = number_up_to(alone[1], MOST_ROWS)
        if not given["n"]:
            raise usage
    elif command == "demo":
        if len(alone) != 2 or options or not all(is_digits(word) for word in alone):
            raise usage
        names = []
        given = {"n": number_up_to(alone[0], MOST_OF_A_DEMONSTRATION), "seed": number_up_to(alone[1], 2**64 - 1)}
        if given["n"] is None or given["n"] < LEAST_OF_A_DEMONSTRATION or given["seed"] is None:
            raise usage
    elif command in FILES:
        if alone or not any(set(options) == set(needed) for needed in FILES[command]):
            raise usage
        names = [value for option, value in options.items() if option not in ("seed", "stratum")]
        given = dict(options)
        if "seed" in options:
            if len(options["seed"]) != 64 or any(digit not in "0123456789abcdefABCDEF" for digit in options["seed"]):
                raise usage
            given["seed"] = bytes.fromhex(options["seed"])
        if "stratum" in options:
            given["stratum"] = number_up_to(options["stratum"], MOST_ROWS) if is_digits(options["stratum"]) else None
            if not given["stratum"]:
                raise usage
    else:
        raise usage
    if len(set(names)) < len(names):
        raise usage
    return command, given


# ---------------------------------------------------------------------------------------------------------------------------------------------
# The design. docs/formats.md, "Design"

METHODS = {
    1: ("pivotal", "systematic", "minimum_support", "brewer", "local_pivotal", "cube"),
    2: ("pivotal", "systematic", "minimum_support", "brewer", "local_pivotal", "cube", "elimination", "local_cube", "stratified_cube"),
}
SECOND_METHODS = {
    1: ("pivotal", "systematic", "minimum_support", "brewer"),
    2: ("pivotal", "systematic", "minimum_support", "brewer", "elimination"),
}
WHOLE_METHODS = ("minimum_support", "brewer", "elimination")
BALANCING = ("cube", "local_cube", "stratified_cube")
SPREADING = ("local_pivotal", "local_cube")
IN_ONE_TREE = ("stratified_cube",)
KEYS = {
    1: ("version", "method", "id", "stratum", "size", "n", "sizes", "order", "balance", "near", "second"),
    2: ("version", "method", "id", "stratum", "size", "n", "sizes", "prob", "order", "balance", "near", "second"),
}
SECOND_KEYS = ("psu", "method", "n", "size")
HOW_MANY = ("n", "sizes", "prob")

Design = namedtuple("Design", "method order id stratum psu size second_size prob values near n sizes second_method second_n")

QUICK = Design("pivotal", "frame", "id", None, None, "size", None, None, (), 0, None, None, None, None)


def is_integer(value):
    """A TOML integer. True and false are none."""
    return isinstance(value, int) and not isinstance(value, bool)


def is_size(value):
    """A number of units to draw."""
    return is_integer(value) and 1 <= value <= MOST_ROWS


def has_wide_integer(value):
    """Whether an integer anywhere in a document needs more than 64 bits, which no document of the program may have."""
    if isinstance(value, dict):
        return any(has_wide_integer(inner) for inner in value.values())
    if isinstance(value, list):
        return any(has_wide_integer(inner) for inner in value)
    return is_integer(value) and not -(2**63) <= value < 2**63


def read_float(text):
    """A float of a document, which lies within the doubles or is written as infinite."""
    number = float(text)
    if abs(number) == float("inf") and "inf" not in text:
        raise ValueError(text)
    return number


def read_document(content):
    """The TOML document of these bytes; one byte order mark in front is dropped."""
    try:
        text = content.decode("utf-8").removeprefix("\ufeff")
        document = tomllib.loads(text, parse_float=read_float)
        wide = has_wide_integer(document)
    except (ValueError, RecursionError):
        raise Refusal(3, "error 3.1 design isn't TOML") from None
    if wide:
        raise Refusal(3, "error 3.1 design isn't TOML")
    return document


def in_byte_order(names):
    """Names in the order of their UTF-8 bytes."""
    return sorted(names, key=lambda name: name.encode("utf-8"))


def is_names(value, most):
    """An array of 1 to `most` column names."""
    return isinstance(value, list) and 1 <= len(value) <= most and all(isinstance(name, str) for name in value)


def is_sizes(value):
    """A table of stratum names and numbers of units."""
    return isinstance(value, dict) and all(is_size(number) for number in value.values())


def read_design(content):
    """The design that these bytes say, or its first fault."""
    document = read_document(content)
    version = document.get("version")
    if not is_integer(version) or version not in KEYS:
        raise Refusal(3, "error 3.2 version")
    second = document.get("second")
    inner = second if isinstance(second, dict) else {}

    unknown = in_byte_order(set(document) - set(KEYS[version])) + ["second." + key for key in in_byte_order(set(inner) - set(SECOND_KEYS))]
    if unknown:
        raise Refusal(3, f"error 3.3 unknown key {unknown[0]}")

    method = document.get("method")

    def needs(methods):
        return isinstance(method, str) and method in METHODS[version] and method in methods

    needed = [
        ("method", "method" in document),
        ("id", "id" in document),
        ("n", any(key in document for key in HOW_MANY)),
        ("balance", not needs(BALANCING) or "balance" in document),
        ("near", not needs(SPREADING) or "near" in document),
    ] + [("second." + key, not isinstance(second, dict) or key in second) for key in ("psu", "method", "n")]
    for key, there in needed:
        if not there:
            raise Refusal(3, f"error 3.4 missing key {key}")

    def text(value):
        return isinstance(value, str)

    good = [
        ("method", document, text(method) and method in METHODS[version]),
        ("id", document, text(document.get("id"))),
        ("stratum", document, text(document.get("stratum"))),
        ("size", document, text(document.get("size"))),
        ("n", document, is_size(document.get("n"))),
        ("sizes", document, is_sizes(document.get("sizes"))),
        ("prob", document, text(document.get("prob"))),
        ("order", document, document.get("order") in ("frame", "random")),
        ("balance", document, is_names(document.get("balance"), 15)),
        ("near", document, is_names(document.get("near"), 4)),
        ("second", document, isinstance(second, dict)),
        ("psu", inner, text(inner.get("psu"))),
        ("method", inner, text(inner.get("method")) and inner["method"] in SECOND_METHODS[version]),
        ("n", inner, is_size(inner.get("n"))),
        ("size", inner, text(inner.get("size"))),
    ]
    for key, table, fits in good:
        if key in table and not fits:
            raise Refusal(3, f"error 3.5 bad value of {'second.' if table is inner else ''}{key}")

    clashes = [
        ("n", "sizes", "n" in document and "sizes" in document),
        ("n", "prob", "n" in document and "prob" in document),
        ("sizes", "prob", "sizes" in document and "prob" in document),
        ("size", "prob", "size" in document and "prob" in document),
        ("prob", "second", "prob" in document and "second" in document),
        ("sizes", "stratum", "sizes" in document and "stratum" not in document),
        ("order", "method", "order" in document and method not in ("pivotal", "systematic")),
        ("balance", "method", "balance" in document and method not in BALANCING),
        ("near", "method", "near" in document and method not in SPREADING),
        ("second", "method", "second" in document and method in SPREADING + IN_ONE_TREE),
    ]
    for first, other, there in clashes:
        if there:
            raise Refusal(3, f"error 3.6 {first} clashes with {other}")

    return Design(
        method=method,
        order=document.get("order", "frame"),
        id=document["id"],
        stratum=document.get("stratum"),
        psu=inner.get("psu"),
        size=document.get("size"),
        second_size=inner.get("size"),
        prob=document.get("prob"),
        values=(*document.get("balance", ()), *document.get("near", ())),
        near=len(document.get("near", ())),
        n=document.get("n"),
        sizes=document.get("sizes"),
        second_method=inner.get("method"),
        second_n=inner.get("n"),
    )


# ---------------------------------------------------------------------------------------------------------------------------------------------
# CSV and the frame. docs/formats.md, "Frame" and "Outputs"

Row = namedtuple("Row", "id stratum psu size second_size prob values")


def records(content):
    """The records of CSV bytes, each a list of fields in bytes.

    A comma ends a field. A line feed, a carriage return or both ends a record, and where nothing stands in front of it, it is no record. A double
    quote at the start of a field opens it, and up to the closing quote all bytes are content, two quotes being one. What follows the closing quote
    belongs to the field as it stands. A quote elsewhere is content. The end of the bytes ends the last record, in an open quote too."""
    rows, row, field = [], [], bytearray()
    place = 0
    begun = False
    while place < len(content):
        byte = content[place : place + 1]
        if byte == b'"' and not field and not begun:
            begun = True
            place += 1
            while place < len(content):
                if content[place : place + 1] != b'"':
                    field += content[place : place + 1]
                    place += 1
                elif content[place : place + 2] == b'""':
                    field += b'"'
                    place += 2
                else:
                    place += 1
                    break
        elif byte == b",":
            row.append(bytes(field))
            field, begun = bytearray(), False
            place += 1
        elif byte in (b"\n", b"\r"):
            if row or field or begun:
                rows.append(row + [bytes(field)])
            row, field, begun = [], bytearray(), False
            place += 1
        else:
            field += byte
            begun = True
            place += 1
    if row or field or begun:
        rows.append(row + [bytes(field)])
    return rows


def decoded(record):
    """The fields of a record as texts, or None where one isn't UTF-8."""
    try:
        return [field.decode("utf-8") for field in record]
    except UnicodeDecodeError:
        return None


def read_number(text, row, column, signed):
    """A size, or a coordinate or balancing value, which may have a minus in front."""
    digits = text[1:] if signed and text.startswith("-") else text
    if not is_digits(digits):
        raise Refusal(4, f"error 4.5 no number in row {row} column {column}")
    value = number_up_to(digits, MOST_OF_A_SIZE)
    if value is None:
        raise Refusal(4, f"error 4.6 number too large in row {row} column {column}")
    return -value if digits != text else value


def read_fraction(text, row, column):
    """A probability, `A/B`, or `A` for A/1."""
    parts = text.split("/")
    if len(parts) > 2 or not all(map(is_digits, parts)):
        raise Refusal(4, f"error 4.11 no fraction in row {row} column {column}")
    numbers = [number_up_to(digits, MOST_OF_A_SIZE) for digits in parts]
    if None in numbers:
        raise Refusal(4, f"error 4.6 number too large in row {row} column {column}")
    numerator, denominator = numbers if len(numbers) == 2 else (*numbers, 1)
    if denominator == 0 or numerator > denominator:
        raise Refusal(4, f"error 4.12 no probability in row {row} column {column}")
    return Fraction(numerator, denominator)


def read_frame(content, design):
    """The rows of a frame, or its first fault."""
    while content.startswith(b"\xef\xbb\xbf"):
        content = content[3:]
    header, *rest = records(content) or [None]
    if header is None:
        raise Refusal(4, "error 4.1 no header")
    names = decoded(header)
    if names is None:
        raise Refusal(4, "error 4.9 row 0 isn't UTF-8")

    places = {}
    for column in (design.id, design.stratum, design.psu, design.size, design.second_size, design.prob, *design.values):
        if column is not None:
            if names.count(column) == 0:
                raise Refusal(4, f"error 4.2 missing column {column}")
            if names.count(column) > 1:
                raise Refusal(4, f"error 4.3 repeated column {column}")
            places[column] = names.index(column)

    rows, ids = [], set()
    for number, record in enumerate(rest, 1):
        if number > MOST_ROWS:
            raise Refusal(4, "error 4.8 too many rows")
        if len(record) != len(header):
            raise Refusal(4, f"error 4.4 length of row {number}")
        fields = decoded(record)
        if fields is None:
            raise Refusal(4, f"error 4.9 row {number} isn't UTF-8")

        def text(column):
            return "" if column is None else fields[places[column]]

        def size(column):
            return 1 if column is None else read_number(text(column), number, column, signed=False)

        if text(design.id) in ids:
            raise Refusal(4, f"error 4.7 repeated id in row {number}")
        ids.add(text(design.id))
        first_size, second_size = size(design.size), size(design.second_size)
        prob = None if design.prob is None else read_fraction(text(design.prob), number, design.prob)
        values = tuple(read_number(text(column), number, column, signed=True) for column in design.values)
        rows.append(Row(text(design.id), text(design.stratum), text(design.psu), first_size, second_size, prob, values))
    if not rows:
        raise Refusal(4, "error 4.10 no rows")
    return rows


def csv_row(*fields):
    """A row of CSV: a field is quoted where it holds a comma, a quote or a line end, or where it is empty and alone."""
    def field(text):
        quoted = any(character in text for character in ',"\n\r') or (text == "" and len(fields) == 1)
        return '"' + text.replace('"', '""') + '"' if quoted else text

    return (",".join(field(text) for text in fields) + "\n").encode("utf-8")


# ---------------------------------------------------------------------------------------------------------------------------------------------
# Requested probabilities. docs/formats.md, "Requested probabilities" and "Steps"; Tillé 2006, probabilities proportional to size

Request = namedtuple("Request", "fractions free shape r total denominator")


class TooMany(Exception):
    """More units are asked for than have a size above 0."""

    def __init__(self, positive):
        super().__init__()
        self.positive = positive


def certain_units(sizes, n):
    """The units that are certain where n are drawn, and the sum of the sizes of the others.

    c is the least number with c = n or (n - c)*z_(c+1) < R_c, over the sizes z in falling order and R_c the sum of those past the c largest."""
    falling = sorted(range(len(sizes)), key=lambda unit: -sizes[unit])
    c, rest = 0, sum(sizes)
    while c < n and (n - c) * sizes[falling[c]] >= rest:
        rest -= sizes[falling[c]]
        c += 1
    return set(falling[:c]), rest


def fraction_of(size, is_certain, draws, rest):
    """The requested fraction of a unit of this size, where so many are drawn of those that aren't certain."""
    if is_certain:
        return Fraction(1)
    return Fraction(size * draws, rest) if rest else Fraction(0)


def requested(sizes, n):
    """The requested fraction of each unit, and what the steps need of the free units."""
    positive = sum(size > 0 for size in sizes)
    if n > positive:
        raise TooMany(positive)
    certain, rest = certain_units(sizes, n)
    c = len(certain)
    fractions = [fraction_of(size, unit in certain, n - c, rest) for unit, size in enumerate(sizes)]
    free = [unit for unit, value in enumerate(fractions) if 0 < value < 1]
    divisor = gcd(*(sizes[unit] for unit in free))
    shape = [sizes[unit] // divisor for unit in free]
    r = n - c if free else 0
    total = sum(shape)
    return Request(fractions, free, shape, r, total, total // gcd(total, r) if free else 1)


class TooFine(Exception):
    """The least common multiple of denominators is too large."""


def common_multiple(fractions):
    """The least common multiple of the denominators. It is looked at as it grows, so that its numbers stay small."""
    multiple = 1
    for fraction in fractions:
        multiple = lcm(multiple, fraction.denominator)
        if multiple > MOST_OF_A_MULTIPLE:
            raise TooFine
    return multiple


def given_request(fractions):
    """The request of units with these probabilities. Where those of the free units have a whole sum, r is that sum, and else it is only a factor."""
    free = [unit for unit, value in enumerate(fractions) if 0 < value < 1]
    denominator = common_multiple(fractions[unit] for unit in free)
    numerators = [int(fractions[unit] * denominator) for unit in free]
    divisor = gcd(*numerators)
    shape = [numerator // divisor for numerator in numerators]
    whole, rest = divmod(sum(numerators), denominator)
    r, total = (divisor, denominator) if rest else (whole, sum(shape))
    return Request(fractions, free, shape, r, total, denominator)


# ---------------------------------------------------------------------------------------------------------------------------------------------
# The methods. A state is a tuple of a class below. `step` gives None where the state is done, else the kind of the step and its parts, and `selected`
# tells of a done state which of the free units, by their places, are drawn. A part is a weight and a function that gives the state that follows, so
# that only the part to which the draw goes is made.


def is_fractional(value):
    """A value strictly between 0 and 1."""
    return 0 < value < 1


def fractional_places(values, order):
    """The places of the fractional units in this order."""
    return [place for place in order if is_fractional(values[place])]


def drawn_places(values):
    """The places of the units of value 1."""
    return {place for place, value in enumerate(values) if value == 1}


def moved_places(old, new):
    """The places at which two lists of values differ."""
    return {place for place, (before, after) in enumerate(zip(old, new)) if before != after}


def changed(values, places, new):
    """Values with new ones at some places."""
    values = list(values)
    for place, value in zip(places, new):
        values[place] = value
    return tuple(values)


def pair_parts(values, denominator, i, j, follow):
    """The pair step of the units i and j. docs/formats.md, "Steps"; Deville and Tillé 1998, pivotal method."""
    a, b = values[i] * denominator, values[j] * denominator
    both = values[i] + values[j]
    if both <= 1:
        weights, ends = (a, b), ((both, Fraction(0)), (Fraction(0), both))
    else:
        weights, ends = (denominator - b, denominator - a), ((Fraction(1), both - 1), (both - 1, Fraction(1)))
    return [(weight, lambda end=end: follow(changed(values, (i, j), end))) for weight, end in zip(weights, ends)]


def lone_parts(values, denominator, i, follow):
    """The step of the one fractional unit that is left."""
    a = values[i] * denominator
    parts = ((a, Fraction(1)), (denominator - a, Fraction(0)))
    return [(weight, lambda end=end: follow(changed(values, (i,), (end,)))) for weight, end in parts]


def pivotal_step(values, denominator, order, follow):
    """One pivotal step: the first two fractional units of the order meet, or a single one is decided alone."""
    open_places = fractional_places(values, order)
    if not open_places:
        return None
    if len(open_places) == 1:
        return "lone", lone_parts(values, denominator, open_places[0], follow)
    return "pivot", pair_parts(values, denominator, *open_places[:2], follow)


class Ordering(namedtuple("Ordering", "order settled after")):
    """Steps that put the units in a random order; `after` makes the first state of the method from an order. docs/formats.md, "Steps"."""

    def step(self):
        i, count = self.settled, len(self.order)
        if i + 1 >= count:
            return self.after(self.order).step()

        def part(v):
            order = list(self.order)
            order[i], order[i + v] = order[i + v], order[i]
            return Ordering(tuple(order), i + 1, self.after)

        return "order", [(1, lambda v=v: part(v)) for v in range(count - i)]

    def selected(self):
        return self.after(self.order).selected()


class Pivotal(namedtuple("Pivotal", "values denominator order")):
    """Sequential pivotal selection. Deville and Tillé 1998."""

    def step(self):
        return pivotal_step(self.values, self.denominator, self.order, lambda values: self._replace(values=values))

    def selected(self):
        return drawn_places(self.values)


class Systematic(namedtuple("Systematic", "values denominator order")):
    """Systematic selection. Madow 1949.

    Draws that take the same units make one part. With C_k the sum of the first k values in the order, a draw d takes the k-th unit exactly where a
    whole j has C_(k-1) <= d/D + j < C_k. So the units that are taken change only where d/D passes the fractional part of some C_k."""

    def step(self):
        if not fractional_places(self.values, self.order):
            return None
        sums = [Fraction(0)]
        for place in self.order:
            sums.append(sums[-1] + self.values[place])
        starts = sorted({value - value // 1 for value in sums})

        def part(start):
            taken = {place for place, low, high in zip(self.order, sums, sums[1:]) if any(low <= start + j < high for j in (low // 1, low // 1 + 1))}
            return self._replace(values=tuple(Fraction(place in taken) for place in range(len(self.values))))

        ends = starts[1:] + [Fraction(1)]
        return "system", [((end - start) * self.denominator, lambda start=start: part(start)) for start, end in zip(starts, ends)]

    def selected(self):
        return drawn_places(self.values)


class MinimumSupport(namedtuple("MinimumSupport", "values denominator")):
    """Selection with as few possible samples as can be. Deville and Tillé 1998, minimum support design."""

    def step(self):
        open_places = fractional_places(self.values, range(len(self.values)))
        if not open_places:
            return None
        rising = sorted(open_places, key=lambda place: (self.values[place], place))
        r = sum(self.values[place] for place in open_places)
        assert r.denominator == 1
        larger = set(rising[len(rising) - int(r) :])
        numerators = [value * self.denominator for value in self.values]
        s, g = numerators[rising[len(rising) - int(r) - 1]], numerators[rising[len(rising) - int(r)]]
        weight = min(self.denominator - s, g)
        rest = self.denominator - weight

        def ended():
            return self._replace(values=changed(self.values, open_places, [Fraction(place in larger) for place in open_places]))

        def going_on():
            values = list(self.values)
            for place in open_places:
                values[place] = Fraction(numerators[place] - (weight if place in larger else 0), rest)
            return MinimumSupport(tuple(values), rest)

        return "support", [(weight, ended), (rest, going_on)]

    def selected(self):
        return drawn_places(self.values)


class Brewer(namedtuple("Brewer", "shape taken r refused limit")):
    """Units are offered one after the other. Tillé 2006, Brewer's method as a split; the offers are the program's own, docs/formats.md, "Steps"."""

    def open_places(self):
        return [place for place in range(len(self.shape)) if place not in self.taken]

    def step(self):
        if self.r == 0:
            return None
        open_places = self.open_places()
        total = sum(self.shape[place] for place in open_places)
        if self.refused == self.limit:
            values = tuple(Fraction(1) if place in self.taken else Fraction(self.shape[place] * self.r, total) for place in range(len(self.shape)))
            return "spent", [(1, lambda: Pivotal(values, total, tuple(range(len(values)))))]
        return "offer", [(self.shape[place], lambda place=place: Offered(self, place)) for place in open_places]

    def selected(self):
        return set(self.taken)


class Offered(namedtuple("Offered", "before place")):
    """A unit is offered: it is taken or refused."""

    def step(self):
        state = self.before
        open_places = state.open_places()
        total = sum(state.shape[place] for place in open_places)
        largest = max(state.shape[place] for place in open_places)
        z, r = state.shape[self.place], state.r
        bound, weight = (total - largest) * (total - r * z), (total - z) * (total - r * largest)
        parts = [(weight, lambda: state._replace(taken=state.taken | {self.place}, r=r - 1))]
        if weight < bound:
            parts.append((bound - weight, lambda: state._replace(refused=state.refused + 1)))
        return "take", parts


class Elimination(namedtuple("Elimination", "shape left wanted")):
    """One unit after the other is taken out. Tillé 1996, elimination procedure: with s units left, unit k goes with the probability
    1 - p_k(s - 1)/p_k(s), where p_k(s) is its requested fraction among s units. The bound over which these stand is in docs/formats.md, "Steps"."""

    def step(self):
        s = len(self.left)
        if s == self.wanted:
            return None
        (certain, rest), (later, later_rest) = certain_units(self.shape, s), certain_units(self.shape, s - 1)
        bound = later_rest * max(1, s - len(certain))
        parts = []
        for place in sorted(self.left - later):
            now = fraction_of(self.shape[place], place in certain, s - len(certain), rest)
            weight = bound * (1 - fraction_of(self.shape[place], False, s - 1 - len(later), later_rest) / now)
            assert weight.denominator == 1 and weight >= 1
            parts.append((weight, lambda place=place: self._replace(left=self.left - {place})))
        assert sum(weight for weight, _ in parts) == bound
        return "eliminate", parts

    def selected(self):
        return set(self.left)


class LocalPivotal(namedtuple("LocalPivotal", "values denominator points")):
    """A unit is chosen, and meets its nearest neighbour. Grafström, Lundström and Schelin 2012, local pivotal method 2.

    A tie of distances goes to the first unit in the frame. docs/formats.md, "Steps"."""

    def step(self):
        open_places = fractional_places(self.values, range(len(self.values)))
        if not open_places:
            return None
        if len(open_places) == 1:
            return "lone", lone_parts(self.values, self.denominator, open_places[0], lambda values: self._replace(values=values))
        return "choose", [(1, lambda place=place: Chosen(self, place)) for place in open_places]

    def selected(self):
        return drawn_places(self.values)


class Chosen(namedtuple("Chosen", "before place")):
    """A unit is chosen: it meets the nearest of the others."""

    def step(self):
        state, i = self.before, self.place
        others = [place for place in fractional_places(state.values, range(len(state.values))) if place != i]
        nearest = min(others, key=lambda place: (sum((x - y) ** 2 for x, y in zip(state.points[i], state.points[place])), place))
        return "pivot", pair_parts(state.values, state.denominator, i, nearest, lambda values: state._replace(values=values))


# The cube. docs/formats.md, "Steps", the part on the cube; Deville and Tillé 2004


def primitive(vector):
    """A list of fractions as whole numbers in the same proportion, without a common divisor; its signs stay."""
    numbers = [int(value * lcm(*(value.denominator for value in vector))) for value in vector]
    divisor = gcd(*numbers)
    return [number // divisor for number in numbers]


def inverse(matrix):
    """The inverse of a square matrix of fractions, by elimination."""
    size = len(matrix)
    rows = [list(map(Fraction, row)) + [Fraction(place == other) for other in range(size)] for place, row in enumerate(matrix)]
    for place in range(size):
        pivot = next(row for row in range(place, size) if rows[row][place] != 0)
        rows[place], rows[pivot] = rows[pivot], rows[place]
        rows[place] = [value / rows[place][place] for value in rows[place]]
        for other in range(size):
            if other != place and rows[other][place] != 0:
                factor = rows[other][place]
                rows[other] = [value - factor * kept for value, kept in zip(rows[other], rows[place])]
    return [row[size:] for row in rows]


def product(first, second):
    """The sum of the products of two lists."""
    return sum((x * y for x, y in zip(first, second)), Fraction(0))


def search(columns, rows):
    """Looks through columns, cut to the rows in force, for the first that depends on those before it.

    Gives ("circuit", w), ("wide", None) or ("none", None). `solver` is the inverse of the kept columns, cut to the rows that they use: it takes a
    column to the mix of kept ones that agrees with it in the used rows. A column depends on the kept ones where it agrees with its mix in all other
    rows too, and else the first row in which it doesn't is used for it.

    The elimination table is what docs/formats.md says that it is, up to the signs of its rows: the product of the solver's j-th row with the kept
    columns is 0 but for the j-th, and a row that isn't used takes the used ones in such amounts that its product with every kept column is 0."""
    kept, used, solver = [], [], []
    for column in columns:
        mix = [product(row, [column[place] for place in used]) for row in solver]
        left = {place: column[place] - product(mix, [other[place] for other in kept]) for place in range(rows) if place not in used}
        fresh = [place for place in sorted(left) if left[place] != 0]
        if not fresh:
            circuit = primitive([-value for value in mix] + [Fraction(1)])
            if max(map(abs, circuit)) > MOST_OF_A_VECTOR:
                return "wide", None
            return "circuit", circuit
        kept, used = kept + [column], used + [fresh[0]]
        solver = inverse([[other[place] for other in kept] for place in used])
        table = [primitive(row) for row in solver]
        for place in range(rows):
            if place not in used:
                across = [other[place] for other in kept]
                table.append(primitive([-product(across, [row[i] for row in solver]) for i in range(len(used))] + [Fraction(1)]))
        if any(abs(entry) > MOST_OF_A_VECTOR for row in table for entry in row):
            return "wide", None
    return "none", None


def reach(values, direction):
    """The greatest number by which the direction can be added to the values so that all stay from 0 to 1."""
    return min((1 - value) / step if step > 0 else value / -step for value, step in zip(values, direction) if step != 0)


class Cube(namedtuple("Cube", "values columns requested rows left")):
    """Balanced selection. Deville and Tillé 2004, flight phase, and landing by dropping variables.

    `columns` has the size and the balancing values of each unit, `requested` is the requested common denominator, `rows` the number of rows in force,
    and `left` the number of units that were fractional at the first `drop` or `wide`, or None."""

    def denominator(self):
        """The requested common denominator times the least number for which all values are whole."""
        return lcm(self.requested, *(value.denominator for value in self.values))

    def step(self):
        open_places = fractional_places(self.values, range(len(self.values)))
        return self.step_through(open_places) if open_places else None

    def step_through(self, open_places):
        """The step whose search goes through all fractional units in this order."""
        found, circuit = search([self.columns[place][: self.rows] for place in open_places], self.rows)
        left = len(open_places) if self.left is None else self.left
        if found == "none":
            return "drop", [(1, lambda: self._replace(rows=self.rows - 1, left=left))]
        parts = self.flight(open_places[: len(circuit)], circuit) if found == "circuit" else None
        if parts is None:
            return "wide", [(1, lambda: self.landed(left))]
        return "flight", parts

    def landed(self, left):
        """The state after `wide`: pivotal steps over the present denominator."""
        return Pivots(self.values, self.denominator(), left)

    def flight(self, places, circuit):
        """The two parts of a move along the direction, or None where a number passes its limit."""
        direction = [self.columns[place][0] * entry for place, entry in zip(places, circuit)]
        divisor = gcd(*direction)
        direction = [entry // divisor for entry in direction]
        if max(map(abs, direction)) > MOST_OF_A_VECTOR:
            return None
        return self.ways(places, direction)

    def ways(self, places, direction):
        """The two parts of a move along this direction, as far as it goes and back, or None where a denominator behind it passes its limit."""
        values = [self.values[place] for place in places]
        plus, minus = reach(values, direction), reach(values, [-entry for entry in direction])
        ends = []
        for way in (plus, -minus):
            moved = [value + way * entry for value, entry in zip(values, direction)]
            ends.append(self.after(changed(self.values, places, moved)))
        if any(end.denominator() > MOST_OF_A_DENOMINATOR for end in ends):
            return None
        first, second = primitive([minus, plus])
        return [(first, lambda: ends[0]), (second, lambda: ends[1])]

    def after(self, values):
        """The state after a move to these values."""
        return self._replace(values=values)

    def selected(self):
        return drawn_places(self.values)


class LocalCube(namedtuple("LocalCube", "values columns requested rows left points touched chosen")):
    """The cube among neighbours, a method of the product's own. docs/formats.md, "Steps", the part on the local cube.

    `touched` has the units whose value a move has changed, and `chosen` is the unit chosen since the last move, or None."""

    denominator, step_through, flight, ways = Cube.denominator, Cube.step_through, Cube.flight, Cube.ways
    landed, selected = Cube.landed, Cube.selected

    def step(self):
        open_places = fractional_places(self.values, range(len(self.values)))
        if not open_places:
            return None
        touched = [place for place in open_places if place in self.touched]
        head = touched[0] if touched else self.chosen
        if head is None:
            return "choose", [(1, lambda place=place: self._replace(chosen=place)) for place in open_places]
        front = touched or [head]
        others = [place for place in open_places if place not in front]
        return self.step_through(front + sorted(others, key=lambda place: (self.distance(head, place), place)))

    def distance(self, head, place):
        """The squared distance of two points."""
        return sum((x - y) ** 2 for x, y in zip(self.points[head], self.points[place]))

    def after(self, values):
        """The state after a move to these values, which lets the chosen unit go."""
        return self._replace(values=values, touched=self.touched | moved_places(self.values, values), chosen=None)


class StratifiedCube(namedtuple("StratifiedCube", "values columns fractions strata requested rows left touched")):
    """The cube over the units of all strata, with a row for the number of each stratum; the equations are those of Chauvet 2009, "Stratified balanced
    sampling". docs/formats.md, "Steps", the part on the stratified cube.

    `fractions` has what is requested of each unit, `strata` its stratum, `requested` the requested common denominator of each stratum, and `touched`
    the units whose value a move has changed."""

    step, step_through, ways, selected = Cube.step, Cube.step_through, Cube.ways, Cube.selected

    def denominator(self):
        """The least common multiple of what the touched fractional units stand over: their own denominators, and those requested of their strata."""
        open_places = [place for place in fractional_places(self.values, range(len(self.values))) if place in self.touched]
        return lcm(*(self.requested[self.strata[place]] for place in open_places), *(self.values[place].denominator for place in open_places))

    def flight(self, places, circuit):
        """The two parts of a move along the direction, or None where a number passes its limit."""
        entries = [self.fractions[place] * entry for place, entry in zip(places, circuit)]
        if lcm(*(entry.denominator for entry in entries)) > MOST_OF_A_DENOMINATOR:
            return None
        direction = primitive(entries)
        if max(map(abs, direction)) > MOST_OF_A_VECTOR:
            return None
        if lcm(self.denominator(), *(self.requested[self.strata[place]] for place in places)) > MOST_OF_A_DENOMINATOR:
            return None
        return self.ways(places, direction)

    def after(self, values):
        """The state after a move to these values."""
        return self._replace(values=values, touched=self.touched | moved_places(self.values, values))

    def landed(self, left):
        """The state after `wide`: pivotal steps, stratum by stratum."""
        return StratifiedPivots(self.values, self.strata, left)


class StratifiedPivots(namedtuple("StratifiedPivots", "values strata left")):
    """The steps that end a stratified cube after the step `wide`: two units of one stratum meet, as long as a stratum has two."""

    def step(self):
        open_places = fractional_places(self.values, range(len(self.values)))
        if not open_places:
            return None

        def follow(values):
            return self._replace(values=values)

        for stratum in sorted({self.strata[place] for place in open_places}):
            inside = [place for place in open_places if self.strata[place] == stratum]
            if len(inside) >= 2:
                return "pivot", pair_parts(self.values, lcm(*(self.values[place].denominator for place in inside)), *inside[:2], follow)
        return "lone", lone_parts(self.values, self.values[open_places[0]].denominator, open_places[0], follow)

    def selected(self):
        return drawn_places(self.values)


class Pivots(namedtuple("Pivots", "values denominator left")):
    """The pivotal steps in frame order that end a cube after the step `wide`."""

    def step(self):
        return pivotal_step(self.values, self.denominator, range(len(self.values)), lambda values: self._replace(values=values))

    def selected(self):
        return drawn_places(self.values)


def start(method, order, request, columns, near=0):
    """The first state of a method over the free units of a request, whose last `near` columns are coordinates."""
    values = tuple(request.fractions[unit] for unit in request.free)
    places = tuple(range(len(values)))
    own = [columns[unit] for unit in request.free]
    if method in ("pivotal", "systematic"):
        kind = Pivotal if method == "pivotal" else Systematic
        if order == "random":
            return Ordering(places, 0, lambda order: kind(values, request.denominator, order))
        return kind(values, request.denominator, places)
    if method == "minimum_support":
        return MinimumSupport(values, request.denominator)
    if method == "brewer":
        return Brewer(tuple(request.shape), frozenset(), request.r, 0, OFFERS_PER_UNIT * len(values))
    if method == "elimination":
        return Elimination(tuple(request.shape), frozenset(range(len(values))), request.r)
    if method == "local_pivotal":
        return LocalPivotal(values, request.denominator, tuple(own))
    if method == "stratified_cube":
        return stratified_start(values, request, own)
    balanced = [xs[: len(xs) - near] for xs in own]
    sized = tuple((z, *xs) for z, xs in zip(request.shape, balanced))
    rows = 1 + len(balanced[0]) if own else 1
    if method == "local_cube":
        return LocalCube(values, sized, request.denominator, rows, None, tuple(xs[len(xs) - near :] for xs in own), frozenset(), None)
    return Cube(values, sized, request.denominator, rows, None)


def stratified_start(values, layered, own):
    """The first state of a stratified cube over the free units of all strata and their balancing values."""
    count = len(layered.requested)
    alone = [tuple(z if stratum == other else 0 for other in range(count)) for z, stratum in zip(layered.shape, layered.strata)]
    rows = count + len(own[0]) if own else count
    columns = tuple(front + xs for front, xs in zip(alone, own))
    return StratifiedCube(values, columns, values, layered.strata, layered.requested, rows, None, frozenset())


def walk(state, draws):
    """Goes from a state to the done state to which the draws lead."""
    step = state.step()
    while step is not None:
        kind, parts = step
        draw = draws.below(kind, sum(int(weight) for weight, _ in parts))
        for weight, following in parts:
            if draw < weight:
                state = following()
                break
            draw -= weight
        step = state.step()
    return state


# ---------------------------------------------------------------------------------------------------------------------------------------------
# Strata and stages. docs/formats.md, "Strata" and "Second stages"

Unit = namedtuple("Unit", "rows size values second")
Stratum = namedtuple("Stratum", "number name units request")


def allocate(n, counts):
    """n in proportion to counts: whole parts first, and what is left to the largest remainders, ties to the earlier."""
    quotas = [Fraction(n * count, sum(counts)) for count in counts]
    shares = [quota // 1 for quota in quotas]
    by_remainder = sorted(range(len(counts)), key=lambda place: (shares[place] - quotas[place], place))
    for place in by_remainder[: n - sum(shares)]:
        shares[place] += 1
    return shares


def first_stage_units(rows, design):
    """The first stage units in order of first appearance, each as the name of its psu, that of its stratum and its rows, or the first misfit."""
    if design.psu is None:
        return [("", row.stratum, [place]) for place, row in enumerate(rows)]
    units = {}
    for place, row in enumerate(rows):
        stratum, members = units.setdefault(row.psu, (row.stratum, []))
        if stratum != row.stratum:
            raise Refusal(5, f"error 5.1 first stage unit in two strata: {row.psu}")
        members.append(place)
    return [(psu, stratum, members) for psu, (stratum, members) in units.items()]


def requests_of_sizes(sizes, design):
    """The request of each stratum by the sizes of its units, or the first misfit."""
    numbers = design.sizes
    if design.n is not None:
        numbers = dict(zip(sizes, allocate(design.n, [len(own) for own in sizes.values()])))
    for name in sizes:
        if not numbers.get(name):
            raise Refusal(5, f"error 5.3 no sample size: {name}")
    requests = {}
    for name, own in sizes.items():
        try:
            requests[name] = requested(own, numbers[name])
        except TooMany as many:
            raise Refusal(5, f"error 5.4 {numbers[name]} asked of {many.positive}: {name}") from None
    return requests


def requests_of_probabilities(fractions, method):
    """The request of each stratum by the probabilities of its units, or the first misfit."""
    requests = {}
    for name, own in fractions.items():
        try:
            requests[name] = given_request(own)
        except TooFine:
            raise Refusal(5, f"error 5.6 denominator too large: {name}") from None
    for name, own in fractions.items():
        whole = sum(own)
        if method in WHOLE_METHODS and whole.denominator != 1:
            raise Refusal(5, f"error 5.7 sum {written(whole)} isn't whole: {name}")
    return requests


def plan(rows, design):
    """The strata of a frame with their units and requests, or the first misfit of frame and design."""
    listed = first_stage_units(rows, design)
    totals = []
    for psu, _, members in listed:
        size = sum(rows[place].size for place in members)
        values = tuple(sum(rows[place].values[column] for place in members) for column in range(len(design.values)))
        if size > MOST_OF_A_SIZE or any(abs(value) > MOST_OF_A_SIZE for value in values):
            raise Refusal(5, f"error 5.2 first stage unit too large: {psu}")
        totals.append((size, values))

    names = list(dict.fromkeys(row.stratum for row in rows))
    members = {name: [place for place, unit in enumerate(listed) if unit[1] == name] for name in names}
    if design.prob is not None:
        requests = requests_of_probabilities({name: [rows[place].prob for place in members[name]] for name in names}, design.method)
    else:
        requests = requests_of_sizes({name: [totals[place][0] for place in members[name]] for name in names}, design)

    seconds = []
    for psu, _, inside in listed:
        try:
            seconds.append(requested([rows[place].second_size for place in inside], design.second_n) if design.psu is not None else None)
        except TooMany as many:
            raise Refusal(5, f"error 5.5 second stage {design.second_n} asked of {many.positive}: {psu}") from None

    if design.method in IN_ONE_TREE and len(names) + len(design.values) > MOST_BALANCING_ROWS:
        raise Refusal(5, f"error 5.8 {len(names)} strata and {len(design.values)} variables pass {MOST_BALANCING_ROWS} rows")

    units = [Unit(inside, *totals[place], seconds[place]) for place, (_, _, inside) in enumerate(listed)]
    return [Stratum(number, name, [units[place] for place in members[name]], requests[name]) for number, name in enumerate(names, 1)]


Layered = namedtuple("Layered", "fractions free shape strata requested")


def layered(requests, places=None):
    """Several requests as one, for a method that draws from all strata in one tree: `strata` has the stratum of each free unit by its place among the
    requests, and `requested` the denominator of each stratum.

    The free units come request by request. `places` has for each request the places of its units among all, or None where they stand in turn."""
    if places is None:
        first = [sum(len(request.fractions) for request in requests[:number]) for number in range(len(requests))]
        places = [range(start, start + len(request.fractions)) for start, request in zip(first, requests)]
    fractions = [None] * sum(map(len, places))
    for own, request in zip(places, requests):
        for place, fraction in zip(own, request.fractions):
            fractions[place] = fraction
    return Layered(
        fractions=fractions,
        free=[own[unit] for own, request in zip(places, requests) for unit in request.free],
        shape=[z for request in requests for z in request.shape],
        strata=tuple(number for number, request in enumerate(requests) for _ in request.free),
        requested=tuple(request.denominator for request in requests),
    )


def sections(strata, design):
    """The strata as they are drawn: one after the other, each with a section of the log, or all as one, with the units in frame order."""
    if design.method not in IN_ONE_TREE:
        return strata
    places = [[unit.rows[0] for unit in stratum.units] for stratum in strata]
    units = sorted((unit for stratum in strata for unit in stratum.units), key=lambda unit: unit.rows)
    return [Stratum(1, "", units, layered([stratum.request for stratum in strata], places))]


def asked(strata, count):
    """The requested fraction of each row of these strata: that of its first stage unit, times its own within the unit where there is a second stage."""
    fractions = [None] * count
    for stratum in strata:
        for unit, first in zip(stratum.units, stratum.request.fractions):
            for place, row in enumerate(unit.rows):
                fractions[row] = first * (unit.second.fractions[place] if unit.second else 1)
    return fractions


def pieces_of(low, high):
    """A piece of the line from one fraction to the next, of a length up to 1, laid on the circle of circumference 1: one piece of it or two."""
    low, high = low - low // 1, high - low // 1
    return [(low, high)] if high <= 1 else [(low, Fraction(1)), (Fraction(0), high - 1)]


def joint_fractions(strata, count):
    """Gives the joint probability of two rows, by systematic selection in frame order and in one stage.

    One point, uniform on the circle, takes the units whose pieces hold it, where they are laid round it one after the other. So two units of a stratum
    are both taken with the length that their pieces share. Strata have points of their own."""
    stands = [None] * count
    for stratum in strata:
        end = Fraction(0)
        for unit, fraction in zip(stratum.units, stratum.request.fractions):
            stands[unit.rows[0]] = stratum.number, fraction, pieces_of(end, end + fraction)
            end += fraction

    def joint(first, second):
        (stratum, fraction, pieces), (other_stratum, other_fraction, others) = stands[first], stands[second]
        if stratum != other_stratum:
            return fraction * other_fraction
        return sum((max(Fraction(0), min(high, end) - max(low, begin)) for low, high in pieces for begin, end in others), Fraction(0))

    return joint


Drawn = namedtuple("Drawn", "rows units left")


def drawn_units(request, method, order, columns, draws, near=0):
    """The units that a request draws, certain ones among them, and the last state."""
    state = walk(start(method, order, request, columns, near), draws)
    certain = {unit for unit, fraction in enumerate(request.fractions) if fraction == 1}
    return sorted(certain | {request.free[place] for place in state.selected()}), state


def select(strata, design, draws):
    """The drawn rows; for each stratum its drawn first stage units, and how many units were undecided when a landing began.

    Strata come in order of first appearance. In each, the first stage goes first, and then the second stages of the drawn units in their order. The
    draws are told where the steps of a stratum begin and where they end."""
    rows, units, left = [], [], []
    for stratum in strata:
        draws.open()
        first, state = drawn_units(stratum.request, design.method, design.order, [unit.values for unit in stratum.units], draws, design.near)
        units.append(first)
        left.append(getattr(state, "left", None) or 0)
        for unit in (stratum.units[place] for place in first):
            if unit.second is None:
                rows.extend(unit.rows)
            else:
                inside, _ = drawn_units(unit.second, design.second_method, "frame", [()] * len(unit.rows), draws)
                rows.extend(unit.rows[place] for place in inside)
        draws.close()
    return Drawn(sorted(rows), units, left)


# ---------------------------------------------------------------------------------------------------------------------------------------------
# Draws. A source of draws gives a number below a bound and keeps the steps. A bound of 1 takes nothing and gives 0.


class Step(namedtuple("Step", "kind bound value")):
    """A step that was taken."""

    def line(self):
        return f"{self.kind} {self.bound} {self.value}\n"


class Steps:
    """The steps that were taken, in their order, with the places at which the strata begin, and how many of the steps took a number."""

    def __init__(self):
        self.steps, self.begun, self.taken = [], [], 0

    def open(self):
        """The steps of the next stratum begin."""
        self.begun.append(len(self.steps))

    def close(self):
        """Those of a stratum have ended."""

    def end(self):
        """All have ended."""

    def keep(self, kind, bound, value):
        self.steps.append(Step(kind, bound, value))
        self.taken += bound > 1
        return value


class Tape(Steps):
    """The numbers of a tape. docs/formats.md, "Tape"."""

    def __init__(self, content):
        super().__init__()
        self.values = read_tape(content)

    def below(self, kind, bound):
        value = 0
        if bound > 1:
            if self.taken == len(self.values):
                raise Refusal(7, f"error 7 tape ends after {self.taken}")
            value = self.values[self.taken]
            if value >= bound:
                raise Refusal(8, f"error 8 tape value {self.taken + 1} is {value}, bound {bound}")
        return self.keep(kind, bound, value)

    def end(self):
        if self.taken < len(self.values):
            raise Refusal(9, f"error 9 tape has {len(self.values) - self.taken} more")


def read_tape(content):
    """The numbers of a tape file, or its first bad line."""
    lines = content.split(b"\n")
    if lines[-1] == b"":
        lines.pop()
    values = []
    for number, line in enumerate(lines, 1):
        digits = line.removesuffix(b"\r").decode("latin-1")
        value = number_up_to(digits, 2**128 - 1) if is_digits(digits) else None
        if value is None:
            raise Refusal(6, f"error 6 tape line {number} isn't a number")
        values.append(value)
    return values


def quarter_round(x, a, b, c, d):
    """One quarter round of ChaCha over a list of 16 words. Bernstein 2008."""
    for p, q, s, turn in ((a, b, d, 16), (c, d, b, 12), (a, b, d, 8), (c, d, b, 7)):
        x[p] = (x[p] + x[q]) % 2**32
        mixed = x[s] ^ x[p]
        x[s] = (mixed << turn | mixed >> 32 - turn) % 2**32


def chacha_block(key, counter):
    """The 16 words of one block of ChaCha with 20 rounds: a key of 32 bytes, a counter of 64 bits, stream 0."""
    first = [int.from_bytes(b"expand 32-byte k"[place : place + 4], "little") for place in range(0, 16, 4)]
    first += [int.from_bytes(key[place : place + 4], "little") for place in range(0, 32, 4)]
    first += [counter % 2**32, counter >> 32, 0, 0]
    x = list(first)
    for _ in range(10):
        for column in range(4):
            quarter_round(x, column, column + 4, column + 8, column + 12)
        for column in range(4):
            quarter_round(x, column, 4 + (column + 1) % 4, 8 + (column + 2) % 4, 12 + (column + 3) % 4)
    return [(word + begun) % 2**32 for word, begun in zip(x, first)]


def chacha_words(key):
    """The words of the ChaCha20 generator for a key, from the first block on, without end."""
    counter = 0
    while True:
        yield from chacha_block(key, counter)
        counter += 1


def sieve(words, bound):
    """A number below a bound of 2 or more from words of 32 bits, or None after 256 candidates that aren't below it.

    A candidate has as many bits as the bound less 1. It takes as many words as hold these, the first word lowest, and the bits above are cut off."""
    bits = (bound - 1).bit_length()
    for _ in range(CANDIDATES):
        candidate = sum(next(words) << 32 * place for place in range((bits + 31) // 32)) % 2**bits
        if candidate < bound:
            return candidate
    return None


class Seed(Steps):
    """Numbers from the words of a generator, without end."""

    def __init__(self, words):
        super().__init__()
        self.words = words

    def below(self, kind, bound):
        value = sieve(self.words, bound) if bound > 1 else 0
        if value is None:
            raise Refusal(10, f"error 10 rejected 256 times below {bound}")
        return self.keep(kind, bound, value)


class Log(Steps):
    """The numbers of a log of one of these versions. It is refused at the first line with which no such log of this design and this frame goes on."""

    def __init__(self, content, versions, design, frame):
        super().__init__()
        self.found, self.place = content.split(b"\n"), 0
        told = [version for version in versions if self.line() == f"sampler-log {version}".encode("ascii")]
        self.version = told[0] if told else versions[0]
        for line in log_head(self.version, design, frame).splitlines():
            self.expect(line)

    def line(self):
        """The next whole line; the bytes behind the last line feed are none."""
        return self.found[self.place] if self.place + 1 < len(self.found) else None

    def differs(self):
        raise Refusal(11, f"error 11 log differs at line {self.place + 1}")

    def expect(self, line):
        if self.line() != line.rstrip("\n").encode("ascii"):
            self.differs()
        self.place += 1

    def number_behind(self, front, bound):
        """The number below this bound with which the next line ends, where it begins so."""
        line = self.line()
        if line is None or not line.startswith(front.encode("ascii")):
            self.differs()
        digits = line[len(front) :].decode("latin-1")
        value = number_up_to(digits, bound - 1) if is_digits(digits) else None
        if value is None or str(value) != digits:
            self.differs()
        self.place += 1
        return value

    def open(self):
        super().open()
        if self.version == 2:
            self.expect(opening_line(len(self.begun), self.taken))

    def close(self):
        if self.version == 2:
            self.expect(closing_line(len(self.begun), len(self.steps) - self.begun[-1]))

    def below(self, kind, bound):
        return self.keep(kind, bound, self.number_behind(f"{kind} {bound} ", bound))

    def end(self):
        self.expect(last_line(len(self.steps)))
        if self.found[self.place :] != [b""]:
            self.differs()


class Section(Log):
    """The numbers of one section of a log of version 2. It stands from its opening line on, the first that begins with its number, and nothing else
    is read. Its place on the tape may be any."""

    def __init__(self, content, number, design, frame):
        super().__init__(content, (2,), design, frame)
        self.number = number

    def open(self):
        front = f"stratum {self.number} "
        while self.line() is not None and not self.line().startswith(front.encode("ascii")):
            self.place += 1
        self.number_behind(front, 2**64)

    def close(self):
        self.expect(closing_line(self.number, len(self.steps)))

    def end(self):
        pass


# ---------------------------------------------------------------------------------------------------------------------------------------------
# Outputs. docs/formats.md, "Outputs"


def log_head(version, design, frame):
    """The first three lines of a log, which say its version, and name the bytes of the design and of the frame by their SHA-256."""
    return f"sampler-log {version}\ndesign {hashlib.sha256(design).hexdigest()}\nframe {hashlib.sha256(frame).hexdigest()}\n"


def opening_line(number, taken):
    """The line before the steps of a stratum: its number, and how many numbers the steps before it took."""
    return f"stratum {number} {taken}\n"


def closing_line(number, count):
    """The line behind the steps of a stratum: its number, and how many steps it has."""
    return f"done {number} {count}\n"


def last_line(count):
    """The last line of a log: how many steps it has."""
    return f"end {count}\n"


def old_log_bytes(design, frame, steps):
    """A log of version 1: its head, the lines of the steps, and the last line."""
    return (log_head(1, design, frame) + "".join(step.line() for step in steps) + last_line(len(steps))).encode("ascii")


def log_bytes(design, frame, draws):
    """A log of version 2: its head, the lines of the steps, those of each stratum between two lines of its own, and the last line."""
    text, taken = log_head(2, design, frame), 0
    for number, (first, behind) in enumerate(zip(draws.begun, [*draws.begun[1:], len(draws.steps)]), 1):
        own = draws.steps[first:behind]
        text += opening_line(number, taken) + "".join(step.line() for step in own) + closing_line(number, len(own))
        taken += sum(step.bound > 1 for step in own)
    return (text + last_line(len(draws.steps))).encode("ascii")


def sample_bytes(rows, fractions, drawn):
    """The sample file: the drawn rows in frame order, each with the inverse of its probability."""
    return csv_row("id", "weight") + b"".join(csv_row(rows[place].id, written(1 / fractions[place])) for place in drawn)


class Wide(Exception):
    """A number of an estimate reaches 2^126."""


def held(*numbers):
    """Refuses numbers that the program's fractions don't hold."""
    if any(number >= MOST_OF_AN_ESTIMATE for number in numbers):
        raise Wide


def added(first, second):
    """The sum of two fractions that aren't negative, by the program's exact steps."""
    divisor = gcd(first.denominator, second.denominator)
    top = first.numerator * (second.denominator // divisor) + second.numerator * (first.denominator // divisor)
    last = gcd(top, divisor)
    held(top, first.denominator // divisor * (second.denominator // last))
    return first + second


def taken_off(first, second):
    """The first less the second, by the program's exact steps."""
    divisor = gcd(first.denominator, second.denominator)
    one, other = first.numerator * (second.denominator // divisor), second.numerator * (first.denominator // divisor)
    last = gcd(abs(one - other), divisor)
    held(one, other, first.denominator // divisor * (second.denominator // last))
    return first - second


def estimate(values, fractions):
    """The sum of value divided by fraction over drawn units, as it is written, or `wide`. docs/formats.md, "Outputs"."""
    above, below = Fraction(0), Fraction(0)
    try:
        for value, fraction in zip(values, fractions):
            term = abs(value) / fraction
            held(term.numerator, term.denominator)
            if value > 0:
                above = added(above, term)
            elif value < 0:
                below = added(below, term)
        return written(taken_off(above, below))
    except Wide:
        return "wide"


def report(strata, design, drawn, steps):
    """What `draw` and `replay` put of these strata: how many were drawn, in how many steps, and how well each stratum is balanced, where the method balances."""
    rows = sum(len(unit.rows) for stratum in strata for unit in stratum.units)
    text = f"selected {len(drawn.rows)} of {rows}\nsteps {len(steps)}\n"
    if design.method in BALANCING:
        for stratum, units, left in zip(strata, drawn.units, drawn.left):
            text += f"left {stratum.number} {left}\n"
            fractions = stratum.request.fractions
            for column in range(len(design.values) - design.near):
                values = [unit.values[column] for unit in stratum.units]
                estimated = estimate([values[unit] for unit in units], [fractions[unit] for unit in units])
                total = sum(value for value, fraction in zip(values, fractions) if fraction > 0)
                text += f"balance {stratum.number} {column + 1} {estimated} {total}\n"
    return text.encode("ascii")


# ---------------------------------------------------------------------------------------------------------------------------------------------
# The commands, in their order of work. docs/formats.md, "Codes and fault lines"


class Folder:
    """The files of the present folder and standard output."""

    def read(self, name):
        try:
            with open(name, "rb") as file:
                content = file.read(MOST_OF_A_FILE + 1)
        except OSError:
            raise Failure from None
        if len(content) > MOST_OF_A_FILE:
            raise Failure
        return content

    def write(self, name, content):
        try:
            with open(name, "wb") as file:
                file.write(content)
        except OSError:
            raise Failure from None

    def put(self, content):
        try:
            while content:
                content = content[os.write(1, content) :]
        except OSError:
            raise Failure from None


def quick(given, store):
    """Selects N units by sequential pivotal steps over the columns `id` and `size`. Gives the files to write and what to put."""
    rows = read_frame(store.read(given["frame"]), QUICK)
    design = QUICK._replace(n=given["n"])
    strata = plan(rows, design)
    draws = Tape(store.read(given["tape"]))
    drawn = select(strata, design, draws)
    draws.end()
    ids = csv_row("id") + b"".join(csv_row(rows[place].id) for place in drawn.rows)
    return [(given["out"], ids)], "".join(step.line() for step in draws.steps).encode("ascii")


def draw(given, store):
    """Draws the sample of a design by a tape or by a seed."""
    design_bytes = store.read(given["design"])
    design = read_design(design_bytes)
    frame_bytes = store.read(given["frame"])
    rows = read_frame(frame_bytes, design)
    strata = sections(plan(rows, design), design)
    draws = Seed(chacha_words(given["seed"])) if "seed" in given else Tape(store.read(given["tape"]))
    drawn = select(strata, design, draws)
    draws.end()
    log = log_bytes(design_bytes, frame_bytes, draws)
    sample = sample_bytes(rows, asked(strata, len(rows)), drawn.rows)
    return [(given["log"], log), (given["sample"], sample)], report(strata, design, drawn, draws.steps)


def replay(given, store):
    """Draws the sample that a log tells of, where the log is one of this design and this frame; or that of one stratum, by its section alone."""
    design_bytes = store.read(given["design"])
    design = read_design(design_bytes)
    frame_bytes = store.read(given["frame"])
    rows = read_frame(frame_bytes, design)
    strata = sections(plan(rows, design), design)
    if "stratum" in given:
        if given["stratum"] > len(strata):
            raise Refusal(16, f"error 16 stratum {given['stratum']} of {len(strata)}")
        strata = [strata[given["stratum"] - 1]]
        draws = Section(store.read(given["log"]), given["stratum"], design_bytes, frame_bytes)
    else:
        draws = Log(store.read(given["log"]), (1, 2), design_bytes, frame_bytes)
    drawn = select(strata, design, draws)
    draws.end()
    sample = sample_bytes(rows, asked(strata, len(rows)), drawn.rows)
    return [(given["sample"], sample)], report(strata, design, drawn, draws.steps)


def migrate(given, store):
    """Writes the log of version 2 for one of version 1."""
    design_bytes = store.read(given["design"])
    design = read_design(design_bytes)
    frame_bytes = store.read(given["frame"])
    strata = sections(plan(read_frame(frame_bytes, design), design), design)
    draws = Log(store.read(given["log"]), (1,), design_bytes, frame_bytes)
    select(strata, design, draws)
    draws.end()
    return [(given["to"], log_bytes(design_bytes, frame_bytes, draws))], f"migrated {len(draws.steps)} steps\n".encode("ascii")


def probs(given, store):
    """Puts the requested probability of each row."""
    design = read_design(store.read(given["design"]))
    rows = read_frame(store.read(given["frame"]), design)
    fractions = asked(plan(rows, design), len(rows))
    return [], csv_row("id", "probability") + b"".join(csv_row(row.id, written(fraction)) for row, fraction in zip(rows, fractions))


def check(given, store):
    """Puts that a design and a frame go together."""
    design = read_design(store.read(given["design"]))
    rows = read_frame(store.read(given["frame"]), design)
    return [], f"accepted {len(rows)} units in {len(plan(rows, design))} strata\n".encode("ascii")


def joint(given, store):
    """Puts the joint probability of each two rows."""
    design = read_design(store.read(given["design"]))
    if design.method != "systematic" or design.order != "frame" or design.psu is not None:
        raise Refusal(17, "error 17 joint probabilities need systematic selection in frame order")
    rows = read_frame(store.read(given["frame"]), design)
    if len(rows) > MOST_JOINT_ROWS:
        raise Refusal(18, f"error 18 {len(rows)} rows, at most {MOST_JOINT_ROWS}")
    joints = joint_fractions(plan(rows, design), len(rows))
    pairs = ((first, second) for first in range(len(rows)) for second in range(first + 1, len(rows)))
    return [], csv_row("first", "second", "probability") + b"".join(csv_row(rows[i].id, rows[j].id, written(joints(i, j))) for i, j in pairs)


def demo_frame(n, seed):
    """A frame of n farms in three regions, with numbers from the upper bits of a linear congruence modulo 2^64 that starts from the seed."""
    state = seed

    def following():
        nonlocal state
        state = (state * 6364136223846793005 + 1442695040888963407) % 2**64
        return state >> 33

    text = "id,region,area,herd,workers\n"
    for i in range(1, n + 1):
        area, herd, workers = 1 + following() % 10000, following() % 501, 1 + following() % 20
        text += f"u{i},r{i % 3},{area},{herd},{workers}\n"
    return text.encode("ascii")


def demo_design(n):
    """A balanced design for such a frame, which draws a fifth of the farms."""
    text = 'version = 1\nmethod = "cube"\nid = "id"\nstratum = "region"\nbalance = ["area", "herd", "workers"]\n'
    return f"{text}n = {n // 5}\n".encode("ascii")


class Inside:
    """Files of the demonstration, which no folder has."""

    def __init__(self, files):
        self.read = files.__getitem__


def demo(given):
    """Makes a frame and a design, draws by the key that is the seed's eight bytes four times over, replays its own log and puts a summary."""
    files = {"design": demo_design(given["n"]), "frame": demo_frame(given["n"], given["seed"])}
    words = {"design": "design", "frame": "frame", "log": "log", "sample": "sample"}
    key = given["seed"].to_bytes(8, "little") * 4
    (log, sample), put = draw({**words, "seed": key}, Inside(files))
    files["log"] = log[1]
    again = replay(words, Inside(files))
    assert again == ([sample], put)
    lines = [line.split() for line in put.decode("ascii").splitlines()]
    left = " ".join(line[2] for line in lines if line[0] == "left")
    return [], f"units {lines[0][3]}\nselected {lines[0][1]}\nsteps {lines[1][1]}\nleft {left}\nreplay ok\n".encode("ascii")


def perform(words, store):
    """The files that a call writes, in order, and what it puts."""
    command, given = read_words(words)
    if command == "demo":
        return demo(given)
    commands = {"quick": quick, "draw": draw, "replay": replay, "migrate": migrate, "probs": probs, "check": check, "joint": joint}
    return commands[command](given, store)


def sampler(words, store):
    """Serves the words of a call, the program's name first, over a store. Gives the exit code."""
    try:
        files, put = perform(words, store)
    except Refusal as refusal:
        try:
            store.put((refusal.line + "\n").encode("utf-8"))
        except Failure:
            pass
        return refusal.code
    except Failure:
        return 12
    except MemoryError:
        return 14
    try:
        for name, content in files:
            store.write(name, content)
        store.put(put)
    except Failure:
        return 13
    return 0


def main():
    """The words of the command line, over the present folder."""
    return sampler(["sampler", *sys.argv[1:]], Folder())


if __name__ == "__main__":
    sys.exit(main())
