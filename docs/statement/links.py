"""Names as links in HTML: each to its definition, with its comment as a tooltip."""
import html
import re

import notation
import records
import specs
import statement as whole
import types_of_code
import pages


def esc(text):
    return html.escape(text, quote=True)


def key_of(at):
    """The name of a definition among all."""
    kind = whole.kind_of(at)
    if kind == "kit":
        return "kit-" + at[1]
    return types_of_code.key_of(at[0]) if kind == "code" else at[0].replace(".specs.", ".") + "." + at[1]


def ident(text):
    """A name as it may stand behind #: other letters by their numbers."""
    return "".join(letter if re.match(r"[A-Za-z0-9_.\-]", letter) else f"~{ord(letter):x}" for letter in text)


class Links:
    """The links of a statement's names. `sources` has the files that pages link to, with the names of their pages."""

    def __init__(self, statement, first):
        self.statement, self.modules, self.first = statement, statement.modules, first
        self.kit, types = pages.words_of(statement)
        self.types = {f"type-{path.split('/')[1]}-{name}": types_of_code.told_type(statement.top, path, name) for path, name in types}
        self.sources, self.users = {}, {}
        for at in statement.all:
            for other in statement.named(at):
                self.users.setdefault(key_of(other), []).append(at)

    # ---- to a definition

    def page_of(self, at):
        return self.statement.home.get(at, "words") if whole.kind_of(at) == "own" else "words"

    def to(self, at, here):
        page = self.page_of(at)
        return ("" if page == here else page + ".html") + "#" + ident(key_of(at))

    def has(self, at):
        """Whether there is something to link to."""
        kind = whole.kind_of(at)
        return at in self.statement.home if kind == "own" else at[1] in self.kit if kind == "kit" else key_of(at) in self.types

    def tip(self, at):
        """What is told of a name where the mouse rests on it."""
        kind = whole.kind_of(at)
        if kind == "kit":
            return f"{at[1]} (kit, {at[0].split('.')[0]}): {pages.told_of_kit(self.statement, at[1])}"
        if kind == "code":
            return "type of the code: " + re.sub(r"\]\([^)]*\)|[\[`]", "", self.types.get(key_of(at), "").lstrip("- "))[:400]
        definition = self.statement.whole(at)
        told, formula, value = definition.words().rstrip("."), definition.marked("="), definition.marked("e.g.")
        return " ".join(filter(None, [told and told + ".", formula and f"= {formula}.", value and f"E.g. {value}."])) or at[1]

    def anchor(self, at, text, here):
        kind = "" if whole.kind_of(at) == "own" else " class=k"
        return f'<a{kind} href="{self.to(at, here)}" title="{esc(self.tip(at))}">{esc(text)}</a>'

    def source(self, path, line):
        """The link to a line of a file, which is put into the folder."""
        self.sources[path] = path.replace("/", ".") + ".html"
        return f"src/{self.sources[path]}#L{line}"

    # ---- what the words of a definition stand for

    def targets(self, definition):
        """The definition for which each word of a definition's text stands."""
        module, found = self.modules[definition.module], {}
        bound = specs.binders(self.modules, definition)
        known = {**module.definitions, **module.makers, **module.imports}
        for word in specs.WORD.findall("\n".join(specs.without_comments(definition.lines))):
            first, _, rest = word.partition(".")
            if first in module.aliases and rest and (first not in bound or rest[:1].isupper()):
                name = rest.split(".")[0]
                found[first + "." + name] = specs.target(self.modules, module.aliases[first], name)
                found.setdefault(name, found[first + "." + name])
            elif first not in bound and first in known:
                found[first] = specs.target(self.modules, definition.module, first)
        for word in specs.WORD.findall(notation.given(self.modules, definition)):
            if word.partition(".")[0] in known:
                found.setdefault(word.partition(".")[0], specs.target(self.modules, definition.module, word.partition(".")[0]))
        return {**self.signs(module), **found}

    def signs(self, module):
        """The definitions for which signs stand, `+` for `◌+◌`."""
        found = {}
        for name in [*module.imports, *module.definitions]:
            for sign in filter(None, name.split("◌") if "◌" in name else ()):
                found.setdefault(sign, specs.target(self.modules, module.name, name))
        return {**found, "←": found[">>="]} if ">>=" in found else found

    def typed(self, definition, targets):
        """The record that the type of each parameter or field is, by its name."""
        head = " ".join(line.strip() for line in definition.head())
        told = [(names.split(), of) for names, of in
                re.findall(r"[({]([\w' ]+) : ([^(){}]+(?:\([^()]*\))?)", notation.given(self.modules, definition) + " " + head)]
        if definition.kind == "abbrev":
            told += self.of_clauses(definition, head)
        if definition.kind == "record":
            told += [([name], of) for name, of in records.fields_of(definition).items()]
        found = {}
        for names, of in told:
            word = specs.WORD.search(of)
            at = targets.get(word[0]) if word else None
            found.update({name: at for name in names if at and name not in targets})
        return found

    def of_clauses(self, definition, head):
        """The names of each clause's patterns with their types, where all patterns are names."""
        parts, found = [part for part in notation.arrows(head.split(" : ", 1)[-1]) if not part.startswith("{")], []
        for clause in notation.clauses(definition):
            match = re.match(re.escape(definition.name) + r"\s+(.*?)\s*=(?:\s|$)", notation.joined(clause))
            if match and "(" not in match[1] and "[" not in match[1]:
                found += [([name], of) for name, of in zip(match[1].split(), parts)]
        return found

    def field(self, at, name):
        """The type of a record's field, and the record that this is, if it is one."""
        definition = self.statement.whole(at) if whole.kind_of(at) == "own" else None
        told = records.fields_of(definition).get(name) if definition and definition.kind == "record" else None
        word = specs.WORD.search(told) if told else None
        return (told, self.targets(definition).get(word[0])) if word else None

    # ---- a definition's text

    def word(self, word, targets, typed, here, own):
        """A word with its link; a path of fields with a link for each."""
        first, dot, rest = word.partition(".")
        two = ".".join(word.split(".")[:2])
        if dot and word.count(".") == 1 and two in targets and self.has(targets[two]):
            return self.anchor(targets[two], word, here)
        at = targets.get(first)
        if at and at == own:
            return f"<b>{esc(word)}</b>"
        if at and self.has(at) and first not in typed:
            return self.anchor(at, first, here) + esc(dot + rest)
        return self.fields(first, rest, typed[first], here) if dot and first in typed else esc(word)

    def fields(self, first, rest, of, here):
        done = esc(first)
        for name in rest.split("."):
            known = self.field(of, name) if of in self.statement.home else None
            done += "." + (self.field_anchor(of, name, known[0], name, here) if known else esc(name))
            of = known[1] if known else None
        return done

    def field_anchor(self, of, name, told, text, here):
        return f'<a class=f href="{self.to(of, here)}" title="{esc(of[1])}.{esc(name)} : {esc(told)}">{esc(text)}</a>'

    def line(self, line, targets, typed, here, own):
        """A line of a definition's text with its links."""
        if line.strip().startswith("--"):
            return f'<span class="c">{esc(line)}</span>'
        text, end = "", 0
        for found in specs.WORD.finditer(line):
            text += esc(line[end:found.start()]) + self.word(found[0], targets, typed, here, own)
            end = found.end()
        return text + esc(line[end:])

    def code(self, at, here, variant=None, own=None):
        """The text of a definition, with its links; of one that is `own` the name is bold."""
        definition = self.statement.cut(at, variant)
        targets = self.targets(definition)
        typed, given = self.typed(definition, targets), notation.given(self.modules, definition)
        lines = [self.line(line, targets, typed, here, own) for line in notation.plain(self.modules, definition)]
        if given:
            lines.insert(0, '<span class="c">given</span> ' + self.line(given, targets, typed, here, None))
        return "<pre>" + "\n".join(lines) + "</pre>"

    # ---- a text's names

    def named(self, words, here):
        """The link of a piece of code in a text: where it is the name of one definition, or of a field of the record that is proved."""
        those = [at for at, home in self.statement.home.items() if at[1] == words and (home == here or here == "draw" and at in self.first.ends)]
        if len(those) == 1:
            return self.anchor(those[0], words, here)
        of, last, told = self.statement.find("IsExactDraw") if here == "draw" else None, None, ""
        for name in words.split(".") if of else ():
            known = self.field(of, name) if of else None
            of, last, told = (known[1], of, known[0]) if known else (None, None, "")
        return self.field_anchor(last, words.split(".")[-1], told, words, here) if last else None

