#!/usr/bin/env python3
"""Writes the pages of the main statement from the definitions in the folders `specs` of the crates.

    docs/statement/write.py                  writes them in Markdown, beside this file
    docs/statement/write.py --html FOLDER    writes them as a folder of plain HTML, in which each name is a link
    docs/statement/write.py --check          ends with 1, and tells it, where a page isn't as it would be written, a link is dead, or
                                             words and laws have parted: what check.py has

draw.md is the page to sign. A method's page has what is its own, and the other pages what methods share; each definition is on one page.
`statement.py` says which is on which, `draw_text.py` has the words of draw.md, and `kit.py` those for the kit's names. To add a method, add its
row to METHODS in statement.py. A definition that was moved or renamed is found again, unless a file here names it; that is told.
"""
import os
import sys
import tempfile

sys.dont_write_bytecode = True
sys.path.insert(0, os.path.dirname(os.path.abspath(__file__)))
import check  # noqa: E402
import draw  # noqa: E402
import pages  # noqa: E402
import statement  # noqa: E402
import web  # noqa: E402


def text_of(lines):
    return "\n".join(lines).rstrip("\n") + "\n"


def path_of(page):
    return os.path.join(statement.HERE, page + ".md")


def stale(made):
    """Each page that isn't as it would be written, and each that none would be."""
    found = []
    for page, lines in made.items():
        try:
            with open(path_of(page), encoding="utf-8") as file:
                same = file.read() == text_of(lines)
        except OSError:
            same = False
        found += [] if same else [f"{page}.md isn't as docs/statement/write.py would write it"]
    return found + [f"{name} is no page" for name in old_pages(made)]


def old_pages(made):
    return [name for name in sorted(os.listdir(statement.HERE)) if name.endswith(".md") and name[:-len(".md")] not in made]


def write(made):
    """Writes the pages, and takes away those that are none any more."""
    for page, lines in made.items():
        with open(path_of(page), "w", encoding="utf-8") as file:
            file.write(text_of(lines))
    for name in old_pages(made):
        os.remove(os.path.join(statement.HERE, name))


def checked(reached, first, made):
    """All that is wrong, with the HTML, which is made for it in a folder of its own."""
    found = stale(made) + check.wrong(reached, first, made)
    with tempfile.TemporaryDirectory() as folder:
        dead, _ = web.made(reached, first, folder)
    return found + [f"in HTML: {one}" for one in dead]


def main(words):
    reached = statement.Statement()
    first = draw.Draw(reached)
    reached.settle(first.shown)
    if words[:1] == ["--html"] and len(words) == 2:
        wrong, count = web.made(reached, first, words[1])
        print(f"{count} links, {len(wrong)} dead")
    elif words == ["--check"]:
        wrong = checked(reached, first, pages.all_pages(reached, first))
    elif not words:
        write(pages.all_pages(reached, first))
        wrong = []
    else:
        wrong = [__doc__]
    for one in wrong:
        print(one, file=sys.stderr)
    return 1 if wrong or reached.lost else 0


if __name__ == "__main__":
    sys.exit(main(sys.argv[1:]))
