#!/usr/bin/env python3
"""Looks whether the links of all pages below a folder lead to something that is there.

    .ci/links.py FOLDER

A page is a file in Markdown. A link `](path#heading)` has to name a file or a folder beside the page, and the heading has to
stand in it; links to the outside aren't followed.
"""

import pathlib
import re
import sys


def anchors_of(text):
    """The names by which the headings of a page are linked to: small letters, a dash for a blank, and no other signs."""
    headings = re.findall(r"^#+ +(.*?)\s*$", text, re.MULTILINE)
    names = [re.sub(r"[^\w\- ]", "", heading.lower()).replace(" ", "-") for heading in headings]
    return set(names) | set(re.findall(r"<a (?:id|name)=\"([^\"]+)\"", text))


def prose_of(text):
    """The text without its blocks and words of code."""
    text = re.sub(r"^```.*?^```", "", text, flags=re.MULTILINE | re.DOTALL)
    return re.sub(r"`[^`\n]*`", "", re.sub(r"^    .*$", "", text, flags=re.MULTILINE))


def dead_links(page):
    for target in re.findall(r"\]\(([^)\s]+)\)", prose_of(page.read_text(encoding="utf-8"))):
        if re.match(r"\w+:", target):
            continue
        path, _, anchor = target.partition("#")
        file = page.parent / path if path else page
        if not file.exists():
            yield target
        elif anchor and file.suffix == ".md" and anchor not in anchors_of(file.read_text(encoding="utf-8")):
            yield target


def main(folder):
    top = pathlib.Path(folder)
    pages = [page for page in sorted(top.rglob("*.md")) if "out" not in page.relative_to(top).parts]
    dead = [f"{page.relative_to(top)}: dead link {target}" for page in pages for target in dead_links(page)]
    for line in dead:
        print(line, file=sys.stderr)
    return 1 if dead or not pages else 0


if __name__ == "__main__":
    sys.exit(main(sys.argv[1]))
