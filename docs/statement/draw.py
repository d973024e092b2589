"""draw.md, the page to sign: what is proved of a draw by any of the methods. Its closure stops at the names in `CLOSED`, each of which has a
row at its end."""
import draw_text as text
import layout
import records
import statement as whole
import worked

# A block has at most so many definitions, in at most so many lines.
BLOCK, DEFINITIONS = 52, 14


class Draw:
    """The definitions of each section, and those at which the page stops."""

    def __init__(self, statement):
        self.statement = statement
        found = {name: statement.find(name, file) for name, (_, file) in text.CLOSED.items()}
        self.closed = {at: text.CLOSED[name][0] for name, at in found.items() if at}
        self.close_others()
        self.sections, self.ends, shown = [], [], []
        for _, _, starts in [text.SECTIONS[-1], *text.SECTIONS[:-1]]:
            ats = statement.reached([statement.find(*start) for start in starts], self.closed, shown)
            self.ends += [at for at in ats if at in self.closed]
            shown += ats
            self.sections.append([at for at in ats if at not in self.closed])
        self.sections = self.sections[1:] + self.sections[:1]
        self.shown = [at for ats in self.sections for at in ats]
        self.tell_ends()

    def close_others(self):
        """Closes what is of other files than those that may be on the page, with its own words."""
        files = {name.replace("/", ".specs.") for name in text.FILES.split()}
        for at in self.statement.all:
            if at[0] not in files:
                self.closed.setdefault(at, self.statement.whole(at).words().split(". ")[0].rstrip("."))

    def tell_ends(self):
        """Tells each name at which the page stops without words for it, and each with words to which nothing comes."""
        for at in self.ends:
            if at[1] not in text.CLOSED:
                self.statement.lose(f"draw.md stops at {at[1]} of {at[0]}, for which CLOSED of draw_text.py has no words")
        for name in text.CLOSED:
            if name not in {at[1] for at in self.ends}:
                self.statement.lose(f"CLOSED of draw_text.py has words for {name}, to which nothing on draw.md comes")

    def numbered(self):
        """The sections with their numbers."""
        return zip(range(3, 99), text.SECTIONS, self.sections)

    def last(self):
        """The number of the section behind those of definitions."""
        return 3 + len(text.SECTIONS)

    def besides(self):
        """What those at which the page stops reach that are on asked.md, and isn't on the page."""
        starts = [at for at in self.ends if self.statement.home.get(at) == "asked" and at[1] != "survey_plan"]
        return [at for at in self.statement.reached(starts, but=self.shown) if at not in self.shown]

    def filled(self, lines):
        """The words of the page, with what stands for its placeholders."""
        statement = self.statement
        at = statement.find("Headline")
        laws = [layout.link_of(law).replace("[", f"[`{law.name}`, ", 1) for law in worked.laws(statement)]
        told = {
            "@headline@": layout.link_of(statement.whole(at)).replace("[", "[`Headline`, ", 1) if at else "`Headline`",
            "@table@": "\n".join(self.table()),
            "@methods@": ", ".join(f"[{words}]({page}.md)" for page, words in whole.WORDS.items()),
            "@laws@": ", ".join(laws[:-1]) + " and " + laws[-1],
            "@steps@": "\n".join(worked.table(statement)),
            "@ways@": worked.told_ways(statement),
            "@besides@": str(len(self.besides())),
        }
        for name, words in told.items():
            lines = lines.replace(name, words)
        return lines

    def table(self):
        """What is proved, a line each, with README's words for it and the fields."""
        lines = ["| | it is proved that | in README's words | by the field | section |", "|---|---|---|---|---|"]
        for number, (told, phrases, fields, section) in enumerate(text.TABLE, 1):
            lines.append(f"| {number} | {told} | {' .. '.join(phrases)} | {self.typed(fields)} | {section} |")
        return lines

    def typed(self, fields):
        """The fields, with the types of `tree_of` and `start_of` as they are in the sources."""
        for name in ("tree_of", "start_of"):
            at = self.statement.find(name, text.CLOSED[name][1])
            fields = fields.replace(f"@{name}@", self.statement.plain(at)[0].split(" = ")[0] if at else name)
        return fields

    def unknown_fields(self):
        """Each field in the table that the records don't have."""
        found = []
        for _, _, fields, _ in text.TABLE:
            for path in fields.replace("`", "").split(", ") if "@" not in fields else ():
                record, names = ("Headline", path[9:]) if path.startswith("Headline.") else ("IsExactDraw", path)
                at = self.statement.find(record)
                for name in names.split("."):
                    told = records.fields_of(self.statement.whole(at)).get(name) if at else None
                    at = records.named_by(self.statement.modules, at[0], told.split()[0]) if told else None
                    at = at if at and self.statement.whole(at) else None
                if told is None:
                    found.append(path)
        return found

    # ---- Markdown

    def page(self):
        """The lines of draw.md."""
        lines = [f"# {text.TITLE}", "", *layout.paragraphs(self.filled(text.CLAIM)), ""]
        renamed = self.statement.doubles(self.shown)
        for number, (title, about, _), ats in self.numbered():
            lines += [f"## {number}. {title}", "", *layout.wrapped(about), ""]
            for group in self.groups(ats):
                lines += layout.bullets([layout.told(self.statement.whole(at), renamed.get(at)) for at in group])
                lines += ["", "```", *[line for at in group for line in self.text_of(at, renamed)], "```", ""]
        about = layout.wrapped(self.filled(text.ELSEWHERE))
        lines += [f"## {self.last()}. What else is named, and where it stands", "", *about, "", *self.elsewhere(), ""]
        words = "; ".join(f"{word}: {told}" for word, told in text.WORDS) + "."
        return lines + [f"## {self.last() + 1}. Words of the kit", "", *layout.wrapped(words)]

    def text_of(self, at, renamed=None):
        return self.statement.plain(at, with_comments=at[1] not in text.BARE, renamed=renamed)

    def groups(self, ats):
        """The definitions of each block, as they are needed."""
        found, size = [], 0
        for at in ats:
            own = len(self.text_of(at))
            fits = found and size + own <= BLOCK and (found[-1][-1][0] == at[0] or len(found[-1]) < DEFINITIONS)
            if fits:
                found[-1].append(at)
                size += own
            else:
                found.append([at])
                size = own
        return found

    def elsewhere(self):
        """The names at which the page stops, by the page where they stand."""
        lines, pages = [], {}
        for at in self.ends:
            pages.setdefault(self.statement.home.get(at, "words"), []).append(at)
        for page, ats in pages.items():
            told = "; ".join(f"**`{at[1]}`** {layout.link_of(self.statement.whole(at))} {self.closed[at]}" for at in ats)
            lines += layout.item(f"[{page}.md]({page}.md): {told}.")
        return lines
