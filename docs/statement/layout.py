"""How words, links and blocks are laid out in Markdown."""
import re

LINE = 150


def link_of(definition, top="../../crates/"):
    """Where a definition stands, as a link."""
    return f"[{definition.module.split('.')[-1]}:{definition.line}]({top}{definition.path}#L{definition.line})"


def told(definition, name=None):
    """A definition's name, its place, its words, its formula, and its value in the worked draw."""
    words, formula, value = definition.words().strip().rstrip("."), definition.marked("="), definition.marked("e.g.")
    text = f"**`{name or definition.name}`** {link_of(definition)}"
    text += (f" {words}" if words else "") + (f": *{formula}*" if formula else "") + "."
    return text + (f" E.g. {value}." if value else "")


def as_read(text):
    """A text as it is read: without the signs of Markdown and the targets of links."""
    return re.sub(r"\]\([^)]*\)|[\[*`]", "", text)


def bullets(texts):
    """An item for each text, and one for those that are short enough to share a line."""
    rows = []
    for text in texts:
        if rows and len(as_read(rows[-1])) + len(as_read(text)) < LINE - 4 and rows[-1].endswith("."):
            rows[-1] += " " + text
        else:
            rows.append(text)
    return [line for row in rows for line in item(row)]


def item(text):
    return wrapped("- " + text, indent="  ")


def wrapped(text, width=LINE, indent=""):
    """Lines of a text, whose links are counted as they are read."""
    lines, line, size = [], "", 0
    for word in re.findall(r"\[[^\]]*\]\([^)]*\)\S*|[^\s`]*(?:`[^`]*`[^\s`]*)+|\S+", text):
        own = len(re.sub(r"\]\([^)]*\)", "", word))
        if line and size + 1 + own > width:
            lines.append(line)
            line, size = "", 0
        line, size = (line + " " + word, size + 1 + own) if line else (word, own)
    lines = lines + [line] if line else lines
    return lines[:1] + [indent + line for line in lines[1:]]


def paragraphs(text):
    """Lines of a text in Markdown, of which each paragraph is wrapped, and tables, blocks and headings stay."""
    lines, words, inside = [], [], False
    for part in [*text.strip("\n").split("\n"), ""]:
        inside = inside != (part == "```")
        if part and not inside and not part.startswith(("```", "|", "#")):
            words.append(part)
            continue
        lines += wrapped(" ".join(words)) + [part]
        words = []
    return lines[:-1]


def widest(lines):
    """The width of the widest line in a block."""
    found, inside = 0, False
    for line in lines:
        inside = not inside if line.startswith("```") else inside
        found = max(found, len(line)) if inside else found
    return found
