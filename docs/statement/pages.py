"""All pages in Markdown but draw.md: those of the methods, with what is their own, those of what they share, and the words."""
import layout
import notation
import statement as whole
import types_of_code
from kit import KIT

# A block has at most so many lines.
BLOCK = 56
ABOUT = ("This page has what is {words}'s own: its steps, the state that it starts from, and where it stands among the methods. That a draw has "
         "the probabilities that are asked is on [draw.md](draw.md), and doesn't depend on this page.")
REST = " What its definitions name from other pages is in a line each at the end."
NOTATION = " The notation is told on [words.md](words.md)."
AMONG = "Of what has a clause for each method, the one of this method; the whole is on [plan.md](plan.md)."
MODELS = ("A definition sees a number as ℕ or ℤ, a list or a text as the list of what is in it, and a type with private fields as what its `impl "
          "Model` says.")
HOW = [
    "Each definition is told in words, with its place in the sources, *its formula* and a value; the block below has its text.",
    "`f (x : A) : B = e` is a function of x; `f : A → B` and lines below it one by cases. `f x y` is f of x and y, `λ x. e` the function that "
    "gives e for x, `elim [ .. ↦ .. ]` one by cases.",
    "`record R .. where` with lines `name : ..` is a statement that holds where each line does, or, where the lines are `name : ℕ` and the like, a "
    "value with these fields; `s.f` is the field f of s, `record { f = e }` makes one, and `record r { f = e }` is r with another f. `data D` is a "
    "value of one of the forms below it, or a statement with a way for each.",
    "`Statement` is what holds or doesn't; `(n : ℕ) → A` is \"A for each n\", `A → B` \"from A follows B\", or a function from A to B; `×` is "
    "\"and\", `⊎` \"or\", `(n : ℕ) × A` \"there is an n for which A\", `¬` \"not\", `True` holds always and `⊥` never. `≡` is equal, `≢` isn't, "
    "`∣` divides; `refl` is the proof of x ≡ x.",
    "`◌` in a name is the place of what it is used on: `◌+◌` is `+`. In a `do` each line `x ← e` goes on with what e gives, or ends as e does "
    "(`>>=`). `x.0` and `x.1` are the two of a pair.",
    "`given (x : A)` above a definition is a parameter that those below it have without its being written. Left out are words for the prover, type "
    "parameters, and proofs that values carry.",
    "A name with a capital word and a dot before it, `Trees.weighted`, is that of the file Trees; a small word and a dot before a capital, "
    "`states.Pivotal`, tells apart two names of one definition.",
]


# ---- definitions with their words and their blocks

def heading(statement, module):
    """What a file is about, in its own first words."""
    crate, _, rest = module.partition(".specs.")
    return statement.modules[module].about.split(". ")[0].rstrip(".") or f"{crate}/{rest.replace('.', '/')}"


def put(statement, ats, renamed, variant=None):
    """The definitions, a file after the other."""
    lines, groups = [], statement.by_file(ats)
    for group in groups:
        if len(groups) > 1:
            lines += [f"## {heading(statement, group[0][0])}", ""]
        for part, block in blocks(statement, group, renamed, variant):
            lines += layout.bullets([layout.told(statement.whole(at), renamed.get(at)) for at in part])
            lines += ["", "```", *block, "```", ""]
    return lines


def blocks(statement, group, renamed, variant):
    """The definitions of a file in blocks, with the parameters that they have without being written."""
    found, around = [], ""
    for at in group:
        own, here = statement.plain(at, variant, renamed=renamed), notation.given(statement.modules, statement.whole(at))
        if not found or len(found[-1][1]) + len(own) > BLOCK:
            found.append(([], []))
            around = ""
        if here != around:
            own = [*notation.folded([f"given {here or 'nothing more'}"]), *own]
        around = here
        found[-1][0].append(at)
        found[-1][1].extend(own)
    return found


def names_in(ats):
    return ", ".join(f"`{at[1]}`" for at in ats)


def others(statement, ats, page, variant=None):
    """What the definitions name from other pages, by page, each with its words; and types of the code."""
    pages, code = {}, set()
    for other in [other for at in ats for other in statement.named(at, variant)]:
        home = statement.home.get(other)
        if whole.kind_of(other) == "code":
            code.add(types_of_code.type_of(other[0])[1])
        elif home not in (None, page) and other not in ats:
            pages.setdefault(home, set()).add(other)
    lines = ["## Named here, and on other pages", ""] if pages else []
    for home in sorted(pages, key=lambda name: (name != "draw", name)):
        told = "; ".join(in_short(statement, at, home) for at in sorted(pages[home], key=lambda at: (at[1], at[0])))
        lines += layout.item(f"[{home}.md]({home}.md): {told}.")
    if code:
        lines += layout.item(f"Types of the code, on [words.md](words.md): {', '.join(f'`{name}`' for name in sorted(code))}.")
    return lines + [""] if lines else lines


def in_short(statement, at, home):
    """A name with its formula or its first words; of draw.md the name alone."""
    definition = statement.whole(at)
    words = definition.marked("=") or definition.words().split(". ")[0].rstrip(".")
    return f"`{at[1]}`" + (f" ({words})" if words and home != "draw" else "")


# ---- the pages

def method_page(statement, page):
    """The lines of a method's page."""
    ats, joins, variant, words = statement.on(page), statement.joins(page), whole.VARIANTS[page], whole.WORDS[page]
    renamed = statement.doubles(ats)
    lines = [f"# The steps of {words}", "", *layout.wrapped(f"{ABOUT.format(words=words)}{REST} {len(ats)} definitions.{NOTATION}"), ""]
    lines += put(statement, ats, renamed, variant)
    among = [line for at in joins for line in statement.plain(at, variant)]
    lines += ["## Among the methods", "", *layout.wrapped(AMONG), "", "```", *among, "```", ""]
    lines += ["## What to read besides, to accept the steps", ""]
    for shared, those in statement.reading(page).items():
        lines += layout.item(f"[{shared}.md]({shared}.md), {len(those)} of its definitions: {names_in(those)}.")
    return lines + ["", *others(statement, [*ats, *joins], page, variant)]


def shared_page(statement, page, title, about):
    """The lines of a page that methods share."""
    ats = statement.on(page)
    head = [f"# {title}", "", *layout.wrapped(f"{about} {len(ats)} definitions.{NOTATION}"), ""]
    return head + put(statement, ats, statement.doubles(ats)) + others(statement, ats, page)


def words_page(statement):
    """The lines of the page of words: how to read, words of the kit, types of the code."""
    kit, types = words_of(statement)
    lines = ["# Words", "", "How to read the definitions; the words of the kit that they use; and the types of the code.", "", "## How to read", ""]
    lines += [line for one in HOW for line in layout.item(one)]
    lines += ["", "## Words of the kit", ""]
    lines += layout.bullets([f"`{name}`: {told_of_kit(statement, name)}, {kit[name][0].split('.')[0]}." for name in sorted(kit)])
    lines += ["", "## Types of the code", "", *layout.wrapped(MODELS), ""]
    for told_type in sorted(types, key=lambda of: of[1]):
        lines += layout.wrapped(types_of_code.told_type(statement.top, *told_type), indent="  ")
    return lines


def words_of(statement):
    """Each word of the kit that a definition names, and each type of the code."""
    kit, types = {}, {}
    for other in [other for at in statement.all for other in statement.named(at)]:
        if whole.kind_of(other) == "kit":
            kit.setdefault(other[1], other)
        elif whole.kind_of(other) == "code":
            types[types_of_code.type_of(other[0])] = True
    return kit, types


def told_of_kit(statement, name):
    """A word of the kit in words; one without is told of."""
    if name not in KIT:
        statement.lose(f"kit.py has no words for {name}")
    return KIT.get(name, "")


def all_pages(statement, first):
    """The lines of each page by its name."""
    made = {"draw": first.page()}
    for page, _, _, _ in whole.METHODS:
        made[page] = method_page(statement, page)
    for page, title, about, _ in whole.SHARED:
        made[page] = shared_page(statement, page, title, about)
    made["words"] = words_page(statement)
    return made
