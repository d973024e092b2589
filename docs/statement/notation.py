"""A definition in the notation of the pages: without what is for the prover alone, a single clause in one line with its type, and blocks of
at most 100 columns."""
import copy
import re

import records
import specs

COLUMNS = 100
# The proofs in records that are made.
MADE = "|".join(sorted({name for names in records.CARRIED.values() for name in names}))
# What has a clause for each method, by the word that begins one.
BY_METHOD = [("smp_methods.specs.Designs", name) for name in ("design_by", "variant_of", "left_at")]


def opened(text):
    """How many brackets are open at the end of a text."""
    return sum((letter in "({[") - (letter in ")}]") for letter in text)


def joined(lines):
    return " ".join(line.strip() for line in lines)


def is_comment(line):
    return line.strip().startswith("--")


# ---- what is left out

def clauses(definition):
    """The lines of each clause of a definition by cases, or of each field or form of a record or `data`."""
    found, deep = [], None
    for line in definition.lines[len(definition.head()):]:
        indent = len(line) - len(line.lstrip())
        deep = indent if deep is None else deep
        goes_on = indent > deep or line.strip() == "}" or found and opened("".join(found[-1])) > 0 or found and all(map(is_comment, found[-1]))
        if found and goes_on:
            found[-1].append(line)
        else:
            found.append([line])
    return found


def is_shown(definition, clause, variant):
    """Whether a clause or a field stays: no proof that a value carries, and of what has a clause for each method that of the variant."""
    first = next((line for line in clause if not is_comment(line)), "")
    field = specs.FIELD.match(first)
    if field and definition.kind == "record" and field[1] in records.CARRIED.get(definition.name, ()):
        return False
    of_all = variant is None or (definition.module, definition.name) not in BY_METHOD
    return of_all or re.search(r"[ .(]" + variant + r"\b", first) is not None


def without_proofs(text):
    """The text without the proofs of records that are made there, and without what they alone use."""
    text = re.sub(r"\n\s*(?:" + MADE + r") = [^;]*;(?=\n)", "", text)
    for name in re.findall(r"\n\s*let (\w+) = [^\n]* in(?=\n)", text):
        if len(re.findall(r"\b" + name + r"\b", text)) == 1:
            text = re.sub(r"\n\s*let " + name + r" = [^\n]* in(?=\n)", "", text)
    inner = r"(?:\([^()]*\)|[^;{}()]|\([^()]*\([^()]*\)[^()]*\))*"
    return re.sub(r"; (?:" + MADE + r") = " + inner + r"(?=\s\})", "", text)


def cut(definition, variant=None):
    """The definition without the proofs that values carry, and without what is there for the prover alone; where it has a clause for each
    method, with the one of this variant alone."""
    own = copy.copy(definition)
    kept = [line for clause in clauses(definition) if is_shown(definition, clause, variant) for line in clause]
    if definition.kind == "said" and definition.name.endswith("_is"):
        kept = []
    text = "\n".join(line for line in definition.head() + kept if not line.strip().startswith("unfolding "))
    own.lines = (without_proofs(text) if definition.kind in ("abbrev", "said") else text).split("\n")
    return own


def named(modules, definition):
    return specs.named(modules, definition, definition.comment + definition.lines)


# ---- a line

def simple(line, module, bound, keep=()):
    """A line without words for the prover, type parameters and prefixes of files."""
    line = re.sub(r"\b(?:abbrev|unfoldable|pub) (?=\S)", "", line)
    line = re.sub(r"\{[A-Z]\w*(?: [A-Z]\w*)* : Type 0\} ?(?:→ )?", "", line)
    line = re.sub(r"(?<=[\w'] )\{[A-Z]\w*\} (?=.*=)", "", line)
    line = line.replace("Unit {0}", "True").replace(" : Type 0 where", " where").replace(" : Type 1 where", " where")
    line = re.sub(r"\((\w+(?: \w+)*) : Type 0\)", r"\1", line)
    line = re.sub(r"Type 0\b", "Statement", line)
    for alias in module.aliases:
        line = re.sub(r"(?<![\w.])" + re.escape(alias) + r"\.(" + ("[A-Z]" if alias in bound else "[A-Za-z_]") + r"\w*)",
                      lambda found: found[0] if found[1] in keep else found[1], line)
    line = re.sub(r"(?<=\S)  +", " ", line)
    return re.sub(r"\s+\}", " }", line) if line.strip() != "}" else line


def fold_at(line, columns):
    """Where a line that is too long is broken: behind the `in` of a `let`, at its last space outside of brackets, or else at its last space."""
    indent = len(line) - len(line.lstrip())
    let = line.find(" in ", indent, columns) if line.lstrip().startswith("let ") else -1
    if let > 0:
        return let + 3
    spaces = [i for i, letter in enumerate(line[:columns]) if letter == " " and i > indent + 4]
    at = max((i for i in spaces if opened(line[:i]) == opened(line[:indent])), default=0)
    return at if at >= columns // 2 else line.rfind(" ", indent + 1, columns)


def folded(lines, columns=COLUMNS):
    """The lines, broken where one is too long; what follows stands deeper, but for comments and what a `let` stands before."""
    done = []
    for line in lines:
        deeper = 4
        while len(line) > columns:
            indent, at = len(line) - len(line.lstrip()), fold_at(line, columns)
            if at <= indent:
                break
            done.append(line[:at])
            if line[:at].endswith(" in") and line.lstrip().startswith("let "):
                line = " " * indent + line[at + 1:]
            elif is_comment(line):
                line = " " * indent + "-- " + line[at + 1:]
            else:
                line = " " * (indent + deeper) + line[at + 1:]
                deeper = 0
        done.append(line)
    return done


def tight(text):
    """A record that is made, in one line."""
    return re.sub(r";\s*\}", " }", re.sub(r"\{\s+", "{ ", re.sub(r"\s+", " ", text)))


# ---- a definition of one clause

def arrows(told):
    """The parts of a type between its outer arrows."""
    parts, depth, part = [], 0, ""
    for letter in told:
        depth += (letter in "({[") - (letter in ")}]")
        if letter == "→" and depth == 0:
            parts.append(part.strip())
            part = ""
        else:
            part += letter
    return parts + [part.strip()]


def unwrapped(part):
    """A type without the brackets around all of it."""
    whole = part.startswith("(") and part.endswith(")") and all(opened(part[:k]) > 0 for k in range(1, len(part)))
    return part[1:-1] if whole else part


def parameters(names, types):
    """`(a b : A) (c : C)` of names and types."""
    groups = []
    for name, told in zip(names, types):
        if groups and groups[-1][1] == told:
            groups[-1][0].append(name)
        else:
            groups.append(([name], told))
    return [f"({' '.join(those)} : {unwrapped(told)})" for those, told in groups]


def single(definition, lines):
    """The name, its parameters, the parts of its type and what it is, of a definition of a single clause whose patterns are names."""
    head = len(definition.head())
    found = re.match(r"(\S+) : (.+)$", joined(lines[:head]))
    if not found or not lines[head:] or len(clauses(definition)) != 1:
        return None
    clause = re.match(re.escape(found[1]) + r"((?: [A-Za-z_]\w*)*) = (.*)$", joined(lines[head:]))
    if not clause:
        return None
    names, parts = clause[1].split(), arrows(found[2])
    if len(names) >= len(parts) or any(part.startswith("(") and " : " in part for part in parts[:len(names)]):
        return None
    return found[1], names, parts, clause[2]


def one_line(definition, lines):
    """A definition of a single clause as `f (a : A) : B = what it is`, in one line or with what it is below."""
    found = single(definition, lines)
    if found is None:
        return None
    name, names, parts, told = found
    left = " ".join([name, *parameters(names, parts)]) + " : " + " → ".join(parts[len(names):]) + " ="
    left = left.replace(" : Statement =", " : Type =") if not names and parts == ["Statement"] else left
    whole = left + " " + tight(told)
    if len(whole) + definition.indent <= COLUMNS:
        return [whole]
    return [left, *below(lines[len(definition.head()):])] if len(left) <= COLUMNS else None


def below(body):
    """What a definition is, under its name and its type."""
    first = body[0].split(" = ", 1)
    rest = [first[1]] if len(first) > 1 and first[1].strip() else []
    short = tight(joined(rest + body[1:]))
    if len(short) + 4 <= COLUMNS:
        return ["    " + short]
    if rest and body[1:] and opened(rest[0]) > 0:
        return ["    " + line for line in rest + body[1:]]
    return ["    " + line.strip() for line in rest] + body[1:]


# ---- records, and what stands around a definition

def rejoined(lines):
    """The lines with each comment over several of them made one."""
    done = []
    for line in lines:
        if is_comment(line) and done and is_comment(done[-1]):
            done[-1] += " " + line.strip()[2:].strip()
        else:
            done.append(line)
    return done


def record(modules, definition, lines, with_comments):
    """The lines of a record; of a value with few short fields one."""
    body = [line for line in rejoined(lines) if with_comments or not is_comment(line)]
    heads = next((i for i, line in enumerate(body) if line.endswith("where")), 0) + 1
    fields = []
    for line in body[heads:]:
        if fields and line.startswith("    "):
            fields[-1] += " " + line.strip()
        else:
            fields.append(line.strip())
    body = [joined(body[:heads]), *body[heads:]]
    short = body[0].replace(" where", "") + " = { " + "; ".join(fields) + " }"
    is_short = len(short) <= COLUMNS and body[0].endswith("where") and not any(map(is_comment, body))
    return [short] if is_short and definition.kind == "record" and records.is_value(modules, definition) else body


def twice(modules, definition):
    """The names that a definition has from two files."""
    names = [definition.name, *[name for _, name in named(modules, definition)]]
    return {name for name in names if names.count(name) > 1}


def given(modules, definition):
    """The parameters of the modules around a definition, which it has without being written."""
    found = []
    for above in definition.around:
        text = joined(line for line in above if not is_comment(line))
        text = simple(re.sub(r"^module \S+|where$", "", text), modules[definition.module], set())
        start = 0
        for i, letter in enumerate(text):
            if letter == "(" and opened(text[:i]) == 0:
                start = i
            elif letter == ")" and opened(text[:i + 1]) == 0 and " : " in text[start:i]:
                found.append(text[start:i + 1])
    return " ".join(found)


def renamed_in(lines, name, other):
    """The lines with another name for one, but where it is a parameter's or a field's."""
    word, done = r"(?<![\w.])" + re.escape(name) + r"(?![\w.-]", []
    for line in lines:
        end = ")" if line.startswith(name + " ") else r"|\s=\s(?!.*\bin$))"
        done.append(line if is_comment(line) else re.sub(word + end, other, line))
    return done


def plain(modules, definition, with_comments=True, renamed=None):
    """The lines of a definition in the pages' notation, without its own comment. `renamed` tells another name for some that it names, or is."""
    bound, keep = specs.binders(modules, definition), twice(modules, definition)
    lines = [simple(line, modules[definition.module], bound, keep) for line in definition.lines]
    for at in [(definition.module, definition.name), *named(modules, definition)] if renamed else ():
        if at in renamed and at[1] not in bound and at[1] not in keep:
            lines = renamed_in(lines, at[1], renamed[at])
    if definition.indent:
        lines = [line[definition.indent:] if line.startswith(" " * definition.indent) else line for line in lines]
    if definition.kind in ("record", "data"):
        return folded(record(modules, definition, lines, with_comments))
    plainer = copy.copy(definition)
    plainer.lines, plainer.indent = lines, 0
    head = len(definition.head())
    return folded(one_line(plainer, lines) or [joined(lines[:head]), *lines[head:]])
