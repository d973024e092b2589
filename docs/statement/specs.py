"""The definitions in the folders `specs` of the crates: where each stands, its comment, and which others it names.

It reads as much of the notation as that takes, and no more: the lines of a file, the names that a file takes from others, and the words of a
definition. A name that a definition binds itself (a parameter, a field, a `let`) is never taken for another's.
"""
import os
import re

HEAD = re.compile(r"(?:(?:pub|abbrev|unfoldable|record|data)\s+)*(?P<name>[^\s:(){}]+)")
FIXITY = re.compile(r"infix[lr]?\s")
IMPORT = re.compile(r"(?P<again>pub )?(?:ghost )?use Rattle\.(?P<module>[^\s{;]+?)(?:\.\{(?P<names>[^}]*)\}|(?: as (?P<alias>\S+?))?);?$")
WORD = re.compile(r"[^\s(){}\[\];,]+")
# A line of a comment with the formula of a definition in ordinary notation, or with its value in the draw that is worked by hand.
MARK = re.compile(r"\s*-- (?P<mark>=|e\.g\.) (?P<told>.*)")
STARTS = ("abbrev ", "unfoldable ", "record ", "data ", "pub record ", "pub data ", "pub abbrev ", "pub ")


class Definition:
    """A definition: the module and the name, the line of its first word, its comment and its lines, and the heads of the modules around it."""

    def __init__(self, module, name, kind, line, comment, around):
        self.module, self.name, self.kind, self.line = module, name, kind, line
        self.comment, self.around, self.lines = comment, around, []
        self.indent, self.is_proof = 0, False

    @property
    def crate(self):
        return self.module.split(".")[0]

    @property
    def path(self):
        return path_of(self.module)

    def words(self):
        """The words of its comment, or of that of the module around it, without its marks, in one line."""
        lines = self.comment or [line for above in self.around[-1:] for line in above if line.strip().startswith("--")]
        told = [line.strip().lstrip("-").strip() for line in lines if not MARK.match(line)]
        return " ".join(filter(None, told))

    def marked(self, mark):
        """What its comment has behind a mark, `=` or `e.g.`, in one line."""
        found = [MARK.match(line) for line in self.comment]
        return "; ".join(one["told"] for one in found if one and one["mark"] == mark)

    def head(self):
        """The lines of its type; of a record or a `data` those up to its fields or forms."""
        if self.kind in ("record", "data"):
            end = next((i for i, line in enumerate(self.lines) if line.endswith("where")), 0) + 1
        else:
            end = next((i for i, line in enumerate(self.lines) if i and len(line) - len(line.lstrip()) <= self.indent), len(self.lines))
        return self.lines[:end]

    def shown(self):
        """Its comment and its lines, without what is for the prover alone; of a law that says what a name is, without its proof."""
        lines = self.head() if self.kind == "said" and self.name.endswith("_is") else self.lines
        return [line for line in self.comment + lines if not line.strip().startswith("unfolding ")]


class Module:
    """A file: its definitions by name, in their order, and where the other names in it come from."""

    def __init__(self, name):
        self.name, self.definitions, self.imports, self.aliases, self.makers, self.about = name, {}, {}, {}, {}, ""


def path_of(module):
    """The file of a module, from the folder of the crates on."""
    return module.replace(".", "/") + ".antt"


# ---- reading

def take_import(module, line):
    """Whether the line takes names from another file; they are kept."""
    found = IMPORT.match(line)
    if not found:
        return line.startswith(("use ", "ghost use ", "pub use "))
    if found["names"] is None:
        module.aliases[found["alias"] or found["module"].split(".")[-1]] = found["module"]
        return True
    for name in filter(None, (name.strip() for name in found["names"].split(","))):
        told, _, here = name.partition(" as ")
        module.imports[here or told] = (found["module"], told)
    return True


def joined(lines):
    """The lines with those of an import that goes over several made one, and the others left empty."""
    taken = list(lines)
    for i, line in enumerate(taken):
        if line.startswith(("use ", "ghost use ", "pub use ")) and "{" in line:
            j = i
            while "}" not in taken[i] and j + 1 < len(taken):
                j += 1
                taken[i], taken[j] = taken[i] + " " + taken[j].strip(), ""
    return taken


def kind_of(head):
    words = head.split()[:2]
    return next((kind for kind in ("record", "data") if kind in words), "abbrev" if words[0] in ("abbrev", "unfoldable") else "said")


def starts(text):
    """The name of the definition that starts with this line, or nothing. A clause of one that stands there starts none."""
    if FIXITY.match(text):
        return None
    name = HEAD.match(text)["name"] if HEAD.match(text) else None
    if text.startswith(STARTS):
        return name
    return name if name and re.match(re.escape(name) + r"\s*:(?:\s|$)", text) else None


def says_something(definition):
    """Whether the type of a name is a statement, so that what stands behind the name is its proof: an equation, an order, or what is said of
    something."""
    told = " ".join(line.strip() for line in definition.head()).split(" : ", 1)[-1].split("→")[-1].strip()
    parts = told.split()
    return any(part in ("≡", "≢", "≤", "<", "≤ℤ", "<ℤ", "∣", "×", "⊎") for part in parts) or (
        len(parts) > 1 and parts[0][:1].isupper() and parts[0] != "List")


class Reader:
    """Reads the lines of a file into its module, one after the other. A comment belongs to what follows it without an empty line between; that of
    the file to its first definition, if it has none."""

    def __init__(self, module, of_file):
        self.module, self.of_file = module, of_file
        self.current, self.comment, self.around, self.header = None, [], [], None

    def take(self, number, line):
        text, indent = line.strip(), len(line) - len(line.lstrip())
        if self.header is not None:
            self.header.append(line)
            self.header = None if text.endswith("where") else self.header
        elif not text or take_import(self.module, line) or text.startswith("-- ----"):
            self.current, self.comment = None, []
        elif self.current is not None and indent > self.current.indent:
            self.current.lines.append(line)
        elif text.startswith("--"):
            self.comment.append(line)
        elif text.startswith("module "):
            self.open(line, text, indent)
        elif starts(text):
            self.start(number, line, text, indent)
        elif self.current is not None and not FIXITY.match(text):
            self.current.lines += self.comment + [line]
            self.comment = []
        else:
            self.comment = []

    def open(self, line, text, indent):
        """A module with parameters for what stands deeper."""
        self.around = [(at, above) for at, above in self.around if at < indent]
        above = self.comment + [line]
        self.around.append((indent, above))
        self.header, self.current, self.comment = (None if text.endswith("where") else above), None, []

    def start(self, number, line, text, indent):
        """A definition, with its comment."""
        self.around = [(at, above) for at, above in self.around if at < indent]
        is_first = not self.comment and not self.module.definitions and not self.around
        comment = self.of_file if is_first else self.comment
        self.current = Definition(self.module.name, starts(text), kind_of(text), number, comment, [tuple(above) for _, above in self.around])
        self.current.indent, self.current.lines, self.comment = indent, [line], []
        self.module.definitions[self.current.name] = self.current


def makers_of(definition):
    """The names of a `data`'s forms."""
    found = [re.match(r"\s+(\S+)\s*:", line) for line in definition.lines[1:] if not line.strip().startswith("--")]
    return [maker[1] for maker in found if maker]


def read_module(path, name):
    """A file's module."""
    module = Module(name)
    with open(path, encoding="utf-8") as file:
        lines = joined(file.read().split("\n"))
    of_file = lines[:next((number for number, line in enumerate(lines) if not line.startswith("--")), len(lines))]
    module.about = " ".join(line.lstrip("-").strip() for line in of_file)
    reader = Reader(module, of_file)
    for number, line in enumerate(lines, 1):
        reader.take(number, line)
    for definition in module.definitions.values():
        definition.is_proof = definition.kind == "said" and says_something(definition) and not definition.name.endswith("_is")
        if definition.kind == "data":
            module.makers.update((maker, definition.name) for maker in makers_of(definition))
    return module


def read_all(crates):
    """The modules of all crates by name; those of laws aren't among them."""
    modules = {}
    for crate in sorted(os.listdir(crates)):
        for folder, folders, files in os.walk(os.path.join(crates, crate, "specs")):
            folders[:] = sorted(name for name in folders if name != "Laws")
            for name in sorted(files):
                if name.endswith(".antt") and name != "Lib.antt":
                    path = os.path.join(folder, name)
                    told = os.path.relpath(path, crates)[:-len(".antt")].replace(os.sep, ".")
                    modules[told] = read_module(path, told)
    return modules


# ---- which names a definition has from others

def without_comments(lines):
    return [re.sub(r"(^|\s)--\s.*", "", line) for line in lines]


FIELD = re.compile(r"\s+pub (\S+) :")


def is_maker(modules, module, name):
    """Whether a word in a pattern is a form of some `data`, and no name for what stands there."""
    if name in module.makers or name[:1].isupper():
        return True
    if name not in module.imports:
        return False
    where, told = module.imports[name]
    return not where.startswith("smp_") or ".declared." in where or told in getattr(modules.get(where), "makers", {})


def binders(modules, definition):
    """The names that a definition binds itself, but for the fields of a record, which bind in the fields behind them alone."""
    module, lines = modules[definition.module], without_comments(definition.lines)
    text = "\n".join(lines)
    bound = set()
    for names in re.findall(r"λ\s*([^.]*)\.", text):
        bound.update(WORD.findall(names))
    bound.update(re.findall(r"\blet\s+(\S+)\s*=", text))
    for names in re.findall(r"[({]([^(){}:;=]*?)\s*:\s", text):
        bound.update(WORD.findall(names))
    patterns = re.findall(r"[\[|]\s*([^\[\]|↦]*)↦", text)
    for line in lines:
        clause = re.match(r"\s*" + re.escape(definition.name) + r"((?:\s+[^=]*?)?)\s=(?:\s|$)", line)
        patterns += [clause[1]] if clause else []
    for pattern in patterns:
        bound.update(name for name in WORD.findall(pattern) if "." not in name and not is_maker(modules, module, name))
    return bound


def words(lines):
    """The words of some lines, without comments and without the labels of the records that are made there."""
    text = re.sub(r"([{;]\s*)[A-Za-z_]\w*\s*=(?=\s)", r"\1", "\n".join(without_comments(lines)))
    return WORD.findall(text) + re.findall(r"[^\w\s(){}\[\];,.]+", text)


def pieces(modules, definition, lines):
    """The lines of a definition, those of each field of a record by themselves, with the names that are bound there."""
    bound = binders(modules, definition)
    if definition.kind != "record":
        return [(bound, [line for line in definition.lines if line in lines])]
    found, name = [(bound, [])], None
    for line in definition.lines:
        field = FIELD.match(line)
        if field:
            bound, name = bound | {name}, field[1]
            found.append((bound, []))
        if line in lines:
            found[-1][1].append(line[field.end():] if field else line)
    return found


def named(modules, definition, lines=None):
    """What a definition names, or some of its lines: pairs of a module and a name, in the order in which it names them."""
    module, found = modules[definition.module], []
    for bound, piece in pieces(modules, definition, definition.shown() if lines is None else lines):
        told = words(piece)
        signs = set(told) | ({">>="} if "←" in told else set())
        for name in sorted(name for name in [*module.imports, *module.definitions] if "◌" in name):
            if all(sign in signs for sign in name.split("◌") if sign):
                found.append(target(modules, definition.module, name))
        for word in told:
            first, _, rest = word.partition(".")
            if first in bound:
                continue
            if first in module.definitions or first in module.makers or first in module.imports:
                found.append(target(modules, definition.module, first))
            elif first in module.aliases and rest:
                found.append(target(modules, module.aliases[first], rest.split(".")[0]))
    if definition.kind == "said" and definition.name + "_is" in module.definitions:
        found.append((definition.module, definition.name + "_is"))
    own = (definition.module, definition.name)
    return [at for i, at in enumerate(found) if at != own and at not in found[:i]]


def target(modules, module, name):
    """Where a name of a module is defined: there, or where the module has it from."""
    seen = set()
    while module in modules and (module, name) not in seen:
        seen.add((module, name))
        here = modules[module]
        if name in here.definitions:
            return module, name
        if name in here.makers:
            return module, here.makers[name]
        if name not in here.imports:
            return module, name
        module, name = here.imports[name]
    return module, name
