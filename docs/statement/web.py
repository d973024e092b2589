"""The statement as one folder of HTML that needs no network and no script: each name is a link to its definition, with its comment as a tooltip;
below each definition stands what uses it; its place is a link to the numbered lines of its file, which are in the folder too."""
import html
import os
import re
import shutil

import draw_text
import layout
import pages
import statement as whole
from links import Links, esc, ident, key_of

# The page of assumptions, from a page in Markdown.
ASSUMPTIONS = "../assumptions.md"
ITEM = re.compile(r"- |\d+\. ")
# So many users of a definition are listed openly.
USERS = 12
INDEX = ("Each name is a link to its definition, with its comment as a tooltip; below a definition stands what uses it, and beside its name the "
         "file and the line where the prover reads it. Each definition is on one page.")
TO_READ = "To sign: [the first page](draw.md) alone. To accept the steps of one method besides: its page, with the list at its end."


def row(*cells, name=""):
    """A row of a table."""
    start = f'<tr id="{name}">' if name else "<tr>"
    return start + "".join(f"<td>{cell}</td>" for cell in cells) + "</tr>"


def table(rows):
    return "<table>" + "".join(rows) + "</table>"


class Web:
    """The pages of the folder."""

    def __init__(self, statement, first, folder):
        self.statement, self.first, self.folder = statement, first, folder
        self.links = Links(statement, first)
        with open(os.path.join(whole.HERE, "style.css"), encoding="utf-8") as file:
            self.style = file.read()

    # ---- Markdown

    def inline(self, text, here=None):
        """A line of Markdown."""
        kept = []

        def keep(made):
            kept.append(made)
            return f"\0{len(kept) - 1}\0"

        def link(found):
            return keep(f'<a href="{esc(self.target(found[2]))}">') + re.sub(r"\.md$", "", found[1]) + keep("</a>")

        def code(found):
            linked = self.links.named(found[1], here) if here and f"[`{found[1]}`" not in text else None
            return keep(f"<code>{linked or esc(found[1])}</code>")

        done = re.sub(r"`([^`]*)`", code, re.sub(r"\[([^\]]*)\]\(([^)]*)\)", link, text))
        done = esc(re.sub(r"\b([a-z_]+)\.md\b", r"\1", done))
        done = re.sub(r"\*\*(.+?)\*\*", r"<b>\1</b>", done)
        done = re.sub(r"(?<![\w*])\*([^*]+?)\*(?!\w)", r"<i>\1</i>", done)
        for _ in range(2):
            done = re.sub("\0(\\d+)\0", lambda found: kept[int(found[1])], done)
        return done

    def target(self, target):
        """Where a link of a Markdown page leads in the folder."""
        path, _, line = target.partition("#L")
        if path == ASSUMPTIONS or not path.startswith("../"):
            return re.sub(r"\.md$", ".html", os.path.basename(path))
        return self.links.source(os.path.normpath(os.path.join("docs/statement", path)), line or 1)

    def cell(self, text, here):
        """A cell of a table; numbers of sections are links."""
        if here and re.fullmatch(r"\d+(, \d+)*", text):
            return ", ".join(f'<a href="#s{number}">{number}</a>' for number in text.split(", "))
        return self.inline(text, here)

    def table(self, rows, here):
        cells = [[cell.strip() for cell in line.strip("|").split("|")] for line in rows if not re.match(r"^\|[-|]+$", line)]
        return table(row(*[self.cell(cell, here if number and place else None) for place, cell in enumerate(those)]) for number, those in enumerate(cells))

    def items(self, rows, here):
        found, kind = [], "ul" if rows[0].startswith("- ") else "ol"
        for line in rows:
            own = ITEM.match(line)
            if own:
                found.append(line[own.end():])
            else:
                found[-1] += " " + line.strip()
        return f"<{kind}>" + "".join(f"<li>{self.inline(one, here)}</li>" for one in found) + f"</{kind}>"

    def block(self, rows, here):
        """A paragraph, a table or a list."""
        if rows[0].startswith("|"):
            return self.table(rows, here)
        return self.items(rows, here) if ITEM.match(rows[0]) else f"<p>{self.inline(' '.join(rows), here)}</p>"

    def markdown(self, lines, here=None):
        """Paragraphs, tables, lists, headings and blocks."""
        done, rows, inside = [], [], False
        for line in [*lines, ""]:
            if line == "```" or inside:
                if line == "```" and inside:
                    done.append("<pre>" + esc("\n".join(rows)) + "</pre>")
                    rows = []
                elif inside:
                    rows.append(line)
                inside = inside != (line == "```")
            elif line and not line.startswith("#"):
                rows.append(line)
            else:
                done += [self.block(rows, here)] if rows else []
                rows = []
                heading = re.match(r"(#+) (.*)", line)
                done += [f"<h{len(heading[1])}>{self.inline(heading[2])}</h{len(heading[1])}>"] if heading else []
        return "\n".join(done)

    # ---- definitions

    def used_by(self, name, here):
        users = [at for at in dict.fromkeys(self.links.users.get(name, [])) if at in self.statement.home]
        told = " ".join(self.links.anchor(at, at[1], here) for at in users)
        if len(users) > USERS:
            told = f"<details><summary>{len(users)} definitions</summary> {told}</details>"
        return f'<div class="by">used by {told}</div>' if users else ""

    def definition(self, at, here):
        own = self.statement.whole(at)
        place = f"{own.module.replace('.specs.', '/').replace('.', '/')}.antt:{own.line}"
        words, formula, value = own.words().rstrip("."), own.marked("="), own.marked("e.g.")
        source = self.links.source("crates/" + own.path, own.line)
        told = [f'<section id="{ident(key_of(at))}"><h3>{esc(at[1])}</h3><a class="at" href="{source}">{esc(place)}</a>']
        told += [f"<p>{self.inline(words, here)}.</p>"] if words else []
        told += [f'<p class="is">{esc(formula)}</p>'] if formula else []
        told += [f'<p class="eg">{self.inline(value)}</p>'] if value else []
        return "\n".join([*told, self.links.code(at, here, own=at), self.used_by(key_of(at), here), "</section>"])

    def toc(self, ats, here):
        return '<div class="toc">' + "".join(self.links.anchor(at, at[1], here) for at in ats) + "</div>"

    def by_file(self, ats, here):
        body = []
        for group in self.statement.by_file(ats):
            path = self.statement.whole(group[0]).path
            source = f'<a class="at" href="{self.links.source("crates/" + path, 1)}">{esc(path.replace("/specs/", "/"))}</a>'
            body.append(f"<h2>{esc(pages.heading(self.statement, group[0][0]))} {source}</h2>")
            body += [self.definition(at, here) for at in group]
        return body

    # ---- pages

    def write(self, name, title, body):
        names = [("index", "contents"), ("draw", "to sign"), ("assumptions", "assumptions"), *[(page, page.replace("_", " ")) for page in whole.WORDS]]
        names += [*[(page, page) for page, _, _, _ in whole.SHARED], ("words", "words"), ("names", "all names")]
        top = "../" if "/" in name else ""
        nav = " ".join(f"<b>{told}</b>" if page == name else f'<a href="{top}{page}.html">{told}</a>' for page, told in names)
        text = ('<!doctype html>\n<html lang="en"><head><meta charset="utf-8"><meta name="viewport" content="width=device-width, initial-scale=1">'
                f"<title>{esc(title)}</title><style>{self.style}</style></head><body><nav>{nav}</nav>\n" + "\n".join(body) + "\n</body></html>\n")
        path = os.path.join(self.folder, name + ".html")
        os.makedirs(os.path.dirname(path), exist_ok=True)
        with open(path, "w", encoding="utf-8") as file:
            file.write(text)

    def draw_page(self):
        first = self.first
        body = [self.markdown([f"# {draw_text.TITLE}", "", *first.filled(draw_text.CLAIM).split("\n")], "draw")]
        for number, (title, about, _), ats in first.numbered():
            body += [f'<h2 id="s{number}">{number}. {esc(title)}</h2><p>{self.inline(about, "draw")}</p>', self.toc(ats, "draw")]
            body += [self.definition(at, "draw") for at in ats]
        rows = [row(self.links.anchor(at, at[1], "draw"), self.inline(first.closed[at]), self.links.page_of(at)) for at in first.ends]
        body += [f"<h2>{first.last()}. What else is named, and where it stands</h2><p>{self.inline(first.filled(draw_text.ELSEWHERE))}</p>", table(rows),
                 f'<h2>{first.last() + 1}. Words of the kit</h2><p>Each is told by its tooltip, and on <a href="words.html">words</a>.</p>']
        self.write("draw", draw_text.TITLE, body)

    def method_page(self, name):
        ats, words, variant = self.statement.on(name), whole.WORDS[name], whole.VARIANTS[name]
        body = [f"<h1>The steps of {esc(words)}</h1><p>{self.inline(pages.ABOUT.format(words=words))}</p>", self.toc(ats, name)]
        body += [*self.by_file(ats, name), f"<h2>Among the methods</h2><p>{self.inline(pages.AMONG)}</p>"]
        body += [self.links.code(at, name, variant) for at in self.statement.joins(name)]
        body.append("<h2>What to read besides, to accept the steps</h2><p>In the order in which they are needed.</p>")
        for page, those in self.statement.reading(name).items():
            body.append(f'<h3><a href="{page}.html">{page}</a>: {len(those)}</h3>' + self.toc(those, name))
        self.write(name, f"The steps of {words}", body)

    def shared_page(self, name, title, about):
        ats = self.statement.on(name)
        self.write(name, title, [f"<h1>{esc(title)}</h1><p>{self.inline(about)}</p>", self.toc(ats, name), *self.by_file(ats, name)])

    def words_page(self):
        links, rows = self.links, []
        for name, at in sorted(links.kit.items()):
            count = len(set(links.users.get(key_of(at), [])))
            told = self.inline(pages.told_of_kit(self.statement, name))
            rows.append(row(f"<code>{esc(name)}</code>", told, esc(at[0].split(".")[0]), f"used by {count}", name=ident(key_of(at))))
        body = ["<h1>Words of the kit, and types of the code</h1><h2>How to read</h2>", self.items(["- " + one for one in pages.HOW], None),
                f"<h2>Words of the kit</h2>{table(rows)}<h2>Types of the code</h2><p>{self.inline(pages.MODELS)}</p>"]
        for name in sorted(links.types, key=lambda one: one.split("-")[-1]):
            body.append(f'<section id="{ident(name)}"><p>{self.inline(links.types[name][2:])}</p>{self.used_by(name, "words")}</section>')
        self.write("words", "Words of the kit, and types of the code", body)

    def assumptions_page(self):
        """The page of assumptions, whose links are told from its own folder."""
        with open(os.path.join(whole.HERE, ASSUMPTIONS), encoding="utf-8") as file:
            text = file.read()
        text = re.sub(r"\]\(statement/", "](", re.sub(r"\]\((?!statement/|#)", "](../", text))
        self.write("assumptions", "What is proved, and what it assumes", [self.markdown(text.split("\n"))])

    def names_page(self):
        ats = sorted(self.statement.home, key=lambda at: (at[1].lower(), at[0]))
        rows = [row(self.links.anchor(at, at[1], "names"), self.links.page_of(at), esc(self.statement.whole(at).words()[:140])) for at in ats]
        self.write("names", "All names", [f"<h1>All names</h1><p>{len(ats)} definitions.</p>", table(rows)])

    def index_page(self):
        named = [("draw", f"**{draw_text.TITLE}**"), ("assumptions", "What it assumes, in plain words")]
        named += [(page, f"The steps of {words}") for page, words in whole.WORDS.items()]
        named += [(page, f"{title}: {about}") for page, title, about, _ in whole.SHARED]
        named += [("words", "Words of the kit, and types of the code"), ("names", "All names")]
        rows = [row("page", "definitions")]
        rows += [row(f'<a href="{page}.html">{self.inline(told)}</a>', len(self.statement.on(page)) or "") for page, told in named]
        title = "<h1>What is proved of <code>sampler</code></h1>"
        self.write("index", "What is proved of sampler", [title, f"<p>{INDEX}</p>", table(rows), f"<p>{self.inline(TO_READ)}</p>"])

    def source_pages(self):
        for path, name in list(self.links.sources.items()):
            with open(os.path.join(self.statement.top, path), encoding="utf-8") as file:
                lines = file.read().split("\n")
            told = "".join(f'<span id="L{number}"><i>{number}</i>{esc(line)}</span>' for number, line in enumerate(lines, 1))
            self.write("src/" + name[:-len(".html")], path, [f"<h1>{esc(path)}</h1><pre class=lines>{told}</pre>"])

    def all(self):
        shutil.rmtree(self.folder, ignore_errors=True)
        self.draw_page()
        for name in whole.WORDS:
            self.method_page(name)
        for name, title, about, _ in whole.SHARED:
            self.shared_page(name, title, about)
        for page in (self.words_page, self.assumptions_page, self.names_page, self.index_page, self.source_pages):
            page()


def dead(folder):
    """Each link of the folder that leads nowhere or out of it, and each id that is there twice; and how many links there are."""
    ids, links, found = {}, [], []
    for top, _, files in os.walk(folder):
        for name in files:
            path = os.path.relpath(os.path.join(top, name), folder)
            with open(os.path.join(top, name), encoding="utf-8") as file:
                text = file.read()
            known = re.findall(r'\bid="([^"]*)"', text)
            ids[path] = set(known)
            found += [f"{path}: the id {one} twice" for one in ids[path] if known.count(one) > 1] if len(known) > len(ids[path]) else []
            links += [(path, html.unescape(target)) for target in re.findall(r'\bhref="([^"]*)"', text)]
    for path, target in links:
        file, _, mark = target.partition("#")
        to = os.path.normpath(os.path.join(os.path.dirname(path), file)) if file else path
        if "://" in target or to not in ids or mark and mark not in ids[to]:
            found.append(f"{path}: {target}")
    return found, len(links)


def made(statement, first, folder):
    """Writes the folder, and tells its dead links and how many links there are."""
    Web(statement, first, folder).all()
    return dead(folder)
