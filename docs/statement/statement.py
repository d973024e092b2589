"""What the statement reaches: each definition, and the one page on which it stands."""
import os
import sys

import notation
import specs

HERE = os.path.dirname(os.path.abspath(__file__))
TOP = os.path.dirname(os.path.dirname(HERE))
# The methods: the page, its name in words, the name of its variant, and the crates and files that are its own.
METHODS = [
    ("pivotal", "sequential pivotal selection", "Pivotal",
     ["smp_pivotal.specs.Pivotal", "smp_pivotal.specs.PivotalMethod", "smp_pivotal.specs.Laws.PivotalSplits", "smp_pivotal.specs.Four"]),
    ("systematic", "systematic selection", "Systematic",
     ["smp_pivotal.specs.Systematic", "smp_pivotal.specs.SystematicMethod", "smp_pivotal.specs.Laws"]),
    ("minimum_support", "minimum support", "MinimumSupport", ["smp_minsup"]),
    ("brewer", "Brewer's method", "Brewer", ["smp_brewer"]),
    ("elimination", "the elimination procedure", "Elimination", ["smp_elim"]),
    ("local_pivotal", "local pivotal selection", "LocalPivotal", ["smp_localpiv.specs.Local", "smp_localpiv.specs.Method"]),
    ("cube", "the cube method", "Cube",
     ["smp_flight.specs.Cube", "smp_flight.specs.CubeMethod", "smp_flight.specs.Laws.CubeSplits", "smp_flight.specs.Kept.CubeStates"]),
    ("local_cube", "the local cube", "LocalCube", ["smp_localcube"]),
    ("stratified_cube", "the stratified cube", "StratifiedCube", ["smp_stratcube"]),
]
# What isn't on draw.md and is of no method alone: the page, its title, what it is about, and its crates, files and names. The first that fits
# counts, and the last one has the rest.
SHARED = [
    ("joint", "Joint probabilities", "What `joint` lists.", ["smp_joint", "IsExactJoint", "joints_text", "most_joint_rows"]),
    ("balance", "What balance is", "What the cube, the local cube and the stratified cube keep.",
     ["smp_moves.specs.Balances", "smp_moves.specs.Owed", "smp_twostage.specs.Strata", "smp_twostage.specs.Totals", "smp_twostage.specs.Cubes",
      "KeepsBalance", "IsCubeDraw", "IsTogetherDraw", "Goes", "TellsColumn", "TellsSection", "TellsBalance", "smp_split.specs.StagePaths"]),
    ("flight", "A step of the flight", "The direction of a flight step, and how far it is followed; by the cube, the local cube and the stratified "
                                       "cube.",
     ["smp_kernel", "smp_moves", "smp_flight"]),
    ("near", "Nearest units", "Squared distances, and who is nearest; by the two local methods.", ["smp_near", "smp_localpiv.specs.Coordinates"]),
    ("values", "Values of units, and their order", "Values over one denominator, the steps on them, and the order in which units are taken.",
     ["smp_values", "smp_prob.specs.Shares", "smp_split.specs.Orders", "smp_split.specs.Parts", "smp_split.specs.Lenses"]),
    ("seed", "Numbers by a seed", "How a seed's words make numbers below a bound.",
     ["smp_tape.specs.Streams", "smp_tape.specs.Sieves", "smp_tape.specs.Fair", "smp_tape.specs.Keys", "smp_tape.specs.SieveSources",
      "smp_split.specs.Runs", "smp_tape.specs.Sources", "IsDrawnBySeed"]),
    ("bytes", "What the bytes say", "The design (TOML), the frame (CSV) and the tape, and what is refused.",
     ["smp_design", "smp_frame", "smp_frac.specs.Cuts", "smp_frac.specs.Decimals", "smp_strata.specs.Misfits", "smp_strata.specs.Bounds",
      "smp_tape", "IsReadPlan", "IsReadFrame", "IsAccepted",
      "smp_plan.specs.Inputs", "smp_plan.specs.Stops", "smp_words"]),
    ("asked", "What is asked", "Strata, first stage units, how many of each are drawn, and what is asked of each.", ["smp_strata", "smp_prob", "smp_plan"]),
    ("written", "What is written", "The log, the report, and the texts they are made of.",
     ["smp_weights", "smp_log.specs.Heads", "smp_log.specs.Logs", "smp_log.specs.SectionLogs", "smp_app.specs.Texts", "IsReported",
      "smp_twostage.specs.DrawnLines", "smp_twostage.specs.Reports",
      "smp_twostage.specs.Lines", "smp_log.specs.Lines", "smp_split.specs.Kinds"]),
    ("plan", "The tree of a plan", "How the trees of the stages make that of a plan.",
     ["smp_methods", "smp_split", "smp_twostage", "smp_app.specs.Drawn"]),
    ("arithmetic", "Numbers", "Fractions, divisors, limits.", ["smp_frac", "smp_places"]),
    ("replay", "What else a call does", "The words of a call, a replay, a quick draw, a migration, a demonstration, a log that is refused.", []),
]
WORDS = {page: words for page, words, _, _ in METHODS}
VARIANTS = {page: variant for page, _, variant, _ in METHODS}
# What the statement is, with its premises.
STARTS = ("Ends", "Headline")


def is_of(at, own):
    """Whether a definition is one of these crates, files and names."""
    return any(at[1] == name or at[0] == name or at[0].startswith(name + ".") for name in own)


def kind_of(at):
    """Whether a name is a type of the code, of the kit, or a definition of the crates."""
    if not at[0].startswith("smp_"):
        return "kit"
    return "code" if ".declared." in at[0] else "own"


class Statement:
    """The definitions that the statement reaches, cut as they are shown, and on which page each stands. `lost` has what the pages ask for by a
    name that no definition has any more."""

    def __init__(self, top=TOP):
        self.top = top
        self.modules = specs.read_all(os.path.join(top, "crates"))
        self.cuts, self.known, self.home, self.lost = {}, {}, {}, []
        self.all = self.reached([self.find(name) for name in STARTS])

    # ---- definitions

    def find(self, name, file=""):
        """The definition of this name, in the file that ends so; of several that of `smp_app`, or else the last. None where there is none."""
        found = [(told, name) for told, module in self.modules.items() if name in module.definitions and ("." + told).endswith("." + file if file else "")]
        if not found:
            self.lose(f"no definition has the name {name}" + (f" in {file}" if file else ""))
            return None
        return next((at for at in found if at[0].startswith("smp_app.")), found[-1])

    def lose(self, told):
        if told not in self.lost:
            self.lost.append(told)
            print("docs/statement: " + told, file=sys.stderr)

    def whole(self, at):
        module = self.modules.get(at[0])
        return module.definitions.get(at[1]) if module else None

    def cut(self, at, variant=None):
        if (at, variant) not in self.cuts:
            self.cuts[at, variant] = notation.cut(self.whole(at), variant)
        return self.cuts[at, variant]

    def named(self, at, variant=None):
        if (at, variant) not in self.known:
            self.known[at, variant] = notation.named(self.modules, self.cut(at, variant))
        return self.known[at, variant]

    def plain(self, at, variant=None, with_comments=True, renamed=None):
        return notation.plain(self.modules, self.cut(at, variant), with_comments, renamed)

    def is_shown(self, at):
        definition = self.whole(at)
        return definition is not None and not definition.is_proof

    # ---- what they reach

    def reached(self, starts, closed=(), but=(), variant=None):
        """What these reach, what one names before it; nothing below those that are closed, and none of those that are left out."""
        order, seen = [], set(but)

        def visit(at):
            if at is None or at in seen or not self.is_shown(at):
                return
            seen.add(at)
            if at not in closed:
                for other in self.named(at, variant):
                    visit(other)
            order.append(at)

        for start in starts:
            visit(start)
        return order

    def by_file(self, ats):
        """A file after the other as they are needed, and in each the definitions as they stand there."""
        groups, order = {}, []
        for at in ats:
            groups.setdefault(at[0], []).append(at)

        def visit(module, around):
            if module in order or module in around:
                return
            for at in groups[module]:
                for other in self.named(at):
                    if other[0] in groups:
                        visit(other[0], around | {module})
            order.append(module)

        for module in groups:
            visit(module, frozenset())
        return [sorted(groups[module], key=lambda at: self.whole(at).line) for module in order]

    def doubles(self, ats):
        """Another name for each that stands for more than one definition or type among these and what they name: with its file before it."""
        found = {}
        for at in ats:
            for other in [at, *self.named(at)]:
                if kind_of(other) != "kit" and not other[0].endswith(".TheVariants"):
                    found.setdefault(other[1], set()).add(other)
        return {at: f"{at[0].split('.')[-1]}.{name}" for name, those in found.items() if len(those) > 1 for at in those}

    # ---- pages

    def settle(self, draw):
        """Puts each definition on its page: those of draw.md there."""
        self.draw = list(draw)
        for at in self.all:
            method = next((page for page, _, _, own in METHODS if is_of(at, own)), None)
            shared = next(page for page, _, _, own in SHARED if not own or is_of(at, own))
            self.home[at] = "draw" if at in self.draw else method or shared

    def on(self, page):
        """The definitions of a page."""
        return [at for at in self.all if self.home[at] == page]

    def joins(self, page):
        """What has a clause for each method, with one of this method's."""
        of = [at for at in notation.BY_METHOD if self.whole(at)]
        return [at for at in of if any(VARIANTS[page] in line for line in self.cut(at, VARIANTS[page]).lines[1:])]

    def reading(self, page):
        """What to read of the pages that others share, to accept the steps of a method: by page, in the order in which it is needed."""
        starts = [*self.joins(page)[:2], *self.on(page)]
        pages = {}
        for at in self.reached(starts, but=self.draw, variant=VARIANTS[page]):
            if self.home.get(at) not in (page, None) and at not in notation.BY_METHOD:
                pages.setdefault(self.home[at], []).append(at)
        return pages
