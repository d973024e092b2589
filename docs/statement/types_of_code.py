"""Types of the code that definitions name: where they stand, what they are, and their fields or forms, from their files."""
import os
import re

# Those whose names stand at the beginning of a doc comment.
PERSONS = ("Brewer",)


def type_of(module):
    """The file and the name of a type of the code, from the module that has it for the definitions."""
    crate, _, rest = module.partition(".specs.declared.")
    parts = [part for part in rest.split(".") if part != "TheVariants"]
    return f"crates/{crate}/src/{'/'.join(parts[:-1])}.rt", parts[-1]


def key_of(module):
    """The name of a type of the code among all."""
    path, name = type_of(module)
    return f"type-{path.split('/')[1]}-{name}"


def is_comment(line):
    return line.strip().startswith(("//", "#["))


def members_of(text):
    """The members between the braces of a type of the code."""
    members, depth, current = [], 0, ""
    for line in text.split("\n"):
        if is_comment(line):
            current += line + "\n"
            continue
        for letter in line + "\n":
            depth += (letter in "({[<") - (letter in ")}]>")
            if letter == "," and depth == 0:
                members.append(current)
                current = ""
            else:
                current += letter
    return [member for member in members + [current] if any(line.strip() and not line.strip().startswith("//") for line in member.split("\n"))]


def doc_above(lines):
    """The doc comment at the end of these lines, above attributes, in one line."""
    at = len(lines)
    while at and lines[at - 1].strip().startswith(("#[", "///")):
        at -= 1
    words = [line.strip()[3:].strip() for line in lines[at:] if line.strip().startswith("///")]
    return re.sub(r"\[(`[^`]*`)\](\([^)]*\))?", r"\1", " ".join(filter(None, words)))


def told_member(text):
    """A field or a form of a type, with its doc comment."""
    lines = text.split("\n")
    body = " ".join(line.strip() for line in lines if not is_comment(line))
    doc = doc_above([line for line in lines if line.strip().startswith("///")]).rstrip(".")
    body = re.sub(r"^(pub(\([a-z]+\))?|ghost) ", "", " ".join(body.split())).replace(", }", " }")
    body = re.sub(r"\b(?:[a-z_0-9]+::)+", "", body)
    return f"`{body}`" + (f" ({doc if doc.startswith(PERSONS) else doc[0].lower() + doc[1:]})" if doc else "")


def inside(text, start, opening):
    """What stands between the bracket before `start` and the one that closes it."""
    closing, depth, end = {"{": "}", "(": ")"}[opening], 1, start
    while depth and end < len(text):
        depth += (text[end] == opening) - (text[end] == closing)
        end += 1
    return text[start:end - 1]


def told_type(top, path, name):
    """A type of the code in one line: where it stands, what it is, and its fields or its forms."""
    bare = f"- `{name}` ({path})"
    try:
        with open(os.path.join(top, path), encoding="utf-8") as file:
            text = file.read()
    except OSError:
        return bare
    found = re.search(r"\b(struct|enum)\s+" + name + r"\b[^{;(]*(\{|;|\()", text)
    if not found:
        return bare
    line = text[:found.start()].count("\n") + 1
    doc = doc_above(text.split("\n")[:line - 1])
    told = f"- `{name}` ([{path[len('crates/'):]}:{line}](../../{path}#L{line}))" + (f": {doc}" if doc else "")
    if found[2] == ";":
        return told
    members = [told_member(member) for member in members_of(inside(text, found.end(), found[2]))]
    return told.rstrip() + (" One of " if found[1] == "enum" else " Of ") + ", ".join(members) + "."
