"""What is wrong with the pages: links that lead nowhere, words that have no law, words that the notation changes, pages that are too long."""
import os
import re

import draw_text
import layout
import notation
import specs
import worked

# The most lines of draw.md and of all pages, and the most columns of a block.
MOST_OF_DRAW, MOST_OF_ALL, MOST_COLUMNS = 460, 7000, 100
# The pages outside of the folder that link into it.
DOCS = ("assumptions", "guide", "map", "proved", "formats", "estimate", "library", "DECISIONS")
AROUND = ["README.md", "CONTRIBUTING.md", *[f"docs/{name}.md" for name in DOCS]]


# ---- size

def sizes(made):
    """Each page that is too long, and each whose blocks are too wide."""
    lines = {page: len(text) for page, text in made.items()}
    found = [f"draw.md has {lines['draw']} lines, more than {MOST_OF_DRAW}"] if lines["draw"] > MOST_OF_DRAW else []
    found += [f"all pages have {sum(lines.values())} lines, more than {MOST_OF_ALL}"] if sum(lines.values()) > MOST_OF_ALL else []
    return found + [f"{page}.md has a block of {layout.widest(text)} columns" for page, text in made.items() if layout.widest(text) > MOST_COLUMNS]


# ---- links

def anchor_of(heading):
    """The anchor of a heading, as it is made of its words."""
    return re.sub(r"[^\w\- ]", "", layout.as_read(heading).lower()).strip().replace(" ", "-")


def anchors(lines):
    """The anchors of a page's headings, outside of its blocks."""
    found, inside = set(), False
    for line in lines:
        inside = inside != line.startswith("```")
        if line.startswith("#") and not inside:
            found.add(anchor_of(line.lstrip("#")))
    return found


class Links:
    """The links of the pages: `made` has those of the folder, which may not be written yet."""

    def __init__(self, top, made):
        self.top = top
        self.made = {f"docs/statement/{page}.md": lines for page, lines in made.items()}
        self.known = {}

    def lines_of(self, path):
        """The lines of a file, or nothing where it isn't there; none of a folder."""
        if path in self.made:
            return self.made[path]
        if path not in self.known:
            full = os.path.join(self.top, path)
            if os.path.isfile(full):
                with open(full, encoding="utf-8") as file:
                    self.known[path] = file.read().split("\n")
            else:
                self.known[path] = [] if os.path.isdir(full) else None
        return self.known[path]

    def is_dead(self, page, target):
        path, _, mark = target.partition("#")
        path = os.path.normpath(os.path.join(os.path.dirname(page), path)) if path else page
        lines = self.lines_of(path)
        if lines is None:
            return True
        if re.fullmatch(r"L\d+", mark):
            return int(mark[1:]) > len(lines)
        return bool(mark) and mark not in anchors(lines)

    def dead(self):
        """Each link that leads to no file, to no line or to no heading."""
        found = []
        for page in [*self.made, *AROUND]:
            text = re.sub(r"```.*?```", "", "\n".join(self.lines_of(page) or []), flags=re.S)
            for target in re.findall(r"\]\(([^)\s]*)\)", text):
                if "://" not in target and self.is_dead(page, target):
                    found.append(f"{page}: the link {target} leads nowhere")
        return found


# ---- the README's sentence

def sentence_of(readme):
    """The sentence of the README in bold."""
    found = re.search(r"^\*\*(For every accepted.*?)\*\*", readme, flags=re.S | re.M)
    return " ".join(found[1].split()) if found else None


def phrases(top):
    """Each phrase of the README's sentence that the table of draw.md hasn't, and each of the table that the sentence hasn't."""
    with open(os.path.join(top, "README.md"), encoding="utf-8") as file:
        rest = sentence_of(file.read())
    if rest is None:
        return ["README.md has no sentence in bold that begins with `For every accepted`"]
    found = []
    for phrase in [phrase for _, those, _, _ in draw_text.TABLE for phrase in those]:
        if phrase not in rest:
            found.append(f"README.md doesn't say, as draw_text.py does: {phrase}")
        rest = rest.replace(phrase, "", 1)
    return found + ([f"no line of draw.md's table is that of README's words: {rest.strip()}"] if rest.strip() else [])


# ---- the notation

def words_of(lines):
    return re.findall(r"[^\s(){}\[\];,]+|[()\[\],]", " ".join(specs.without_comments(lines)))


def is_kept(statement, at):
    """Whether a definition that is shown has the words that it has in its file, in their order; one that is shown in one line has its type's
    words before what it is."""
    definition = statement.cut(at)
    module, bound, keep = statement.modules[at[0]], specs.binders(statement.modules, definition), notation.twice(statement.modules, definition)
    source = [notation.simple(line, module, bound, keep) for line in definition.lines]
    shown = statement.plain(at)
    drop = ("where", "=") if definition.kind in ("record", "data") else ()
    old, new = [[word for word in words_of(lines) if word not in drop] for lines in (source, shown)]
    single = notation.single(definition, source)
    if old == new or single is None:
        return old == new
    name, names, parts, told = single
    body = words_of([told])
    head, signs = new[:-len(body)], {"(", ")", ":", "=", "→", ","}
    return new[-len(body):] == body and set(head) - signs - {"Type"} == {name, *names, *words_of([" ".join(parts)])} - signs - {"Statement"} | (
        {"Statement"} & set(head))


def changed(statement):
    """Each definition of which the notation loses or changes a word."""
    return [f"the notation changes {at[1]} of {at[0]}" for at in statement.all if not is_kept(statement, at)]


def bare(statement):
    """Each definition without words of its own."""
    those = [statement.whole(at) for at in statement.all if not statement.whole(at).words()]
    return [f"{definition.path}:{definition.line}: {definition.name} has no comment" for definition in those]


# ---- all

def wrong(statement, first, made):
    """All that is wrong."""
    found = sizes(made) + Links(statement.top, made).dead() + phrases(statement.top)
    found += worked.wrong_values(statement) + worked.wrong_files(statement) + changed(statement) + bare(statement)
    return found + [f"draw_text.py names the field {field}, which no record has" for field in first.unknown_fields()] + statement.lost
