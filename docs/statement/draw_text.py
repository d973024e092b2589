"""The words of draw.md: its claim, its sections, the names at which it stops, and the words of the kit that stand there."""

TITLE = "What is proved of a draw: the page to sign"
# The lines of the claim: what is proved, the pieces of README's sentence that say it, the fields, and where the page has it.
TABLE = [
    ("the bytes of D and F say this plan, of the rows 0, 1, .., N - 1", ["For every accepted frame and design,"], "`read`, `Headline.accepted`", "[bytes.md](bytes.md)"),
    ("one tree and one start are made **of the plan alone**, so before and without any number", [], "the types `@tree_of@`, `@start_of@`", "3"),
    ("the numbers of T, all and no more, lead from the start to one leaf; or those that the words of K give",
     ["with a full tape, or with a seed by whose words no draw is rejected,",
      "to which the tape's values, or the draws from the seed's words, lead in the design's draw tree,"], "`is_drawn`, `by_plan.full`", "4"),
    ("**P(k) = π(k) for each row k**",
     ["in which every row's probability of selection, over draws that are uniform below each asked bound and independent of the numbers before, is "
      "exactly the requested fraction;"], "`by_plan.probabilities.probability`", "3, 6"),
    ("S has each row that is selected at that leaf, with 1/π(k), and no other; L has each number; no other file has changed",
     ["the sample and the log that `draw` writes are those of the leaf"], "`written`", "7"),
    ("the mean of the weighted total Σ xₖ/πₖ of any x is the total over the rows that can be selected", [],
     "`by_plan.probabilities.unbiased`", "8"),
    ("as many first stage units are drawn of each stratum, and rows of each psu, as are asked", [],
     "`by_plan.firsts`, `by_plan.around`, `by_plan.seconds`", "8"),
    ("each split is lawful", [], "`by_plan.lawful`", "5"),
    ("the cube methods keep the balancing totals",
     ["in each stratum that is drawn by the cube method or the local cube, and in all strata together by the stratified cube, each flight step "
      "keeps every balancing total in force exactly,", "and landing starts only where no direction is left or the next step doesn't fit."],
     "`by_plan.balance`", "[balance.md](balance.md)"),
]
CLAIM = """
**To sign**, for all nine methods: *each row is selected with exactly the probability that is asked for it, and the sample file has the selected
rows and no other.*

## 1. The claim, and its premises

Let `sampler draw --design D --frame F --tape T --log L --sample S` (or `--seed K` for `--tape T`) be called, with **names no two of which are the
same**, let the store **tell its files** and the call **end with Done**. That is `Ends answer words before Done (Draw a) fs`, where `a` is what the
words say, `fs` what the files were before, and `before` and `now` what is told of files and output before and after the call. Then `IsExactDraw a
fs now.files` holds (field `draw` of @headline@, clause `headline` of [`sampler`](../../crates/smp_app/src/call.rt), which the prover has checked):

@table@

**Premises on chance**: that each number of T is uniform below its bound, *whatever the numbers before it were* (uniform and independent). With a
seed: that the words of ChaCha20 under a key that nobody knew are so; that they then make fair draws is proved
([`fair`](../../crates/smp_tape/src/sieve.rt), [seed.md](seed.md)).

**To trust besides:** Rattle's prover; the words of the kit in section 11; that real files do what the store in memory does; that ℕ stands for the
code's u32 and u64. [assumptions.md](../assumptions.md) has all of it in plain words.

**Not said here:** when a call ends with Done (clause `answer` of `sampler`); that a tree is that of the method by its name. Which it is makes no
difference to lines 1 to 8: `tree_of` and `start_of` are of the plan, the path and P go by the same tree, and what is written is `selected` of it.
So they may stay names. That the steps are those of a method is on its page: @methods@; how strata and stages make one tree is on
[plan.md](plan.md); which n, sizes and units π means in a design with strata or psus, on [asked.md](asked.md) (section 10).

**How to read.** Each definition is told in words, with its place in the sources, *its formula*, and its value in the draw of section 2; the block
below has its text. `f (x : A) : B = e` is a function of x; `f : A → B` and lines below it one by cases. `record R .. where` with lines `name : ..`
is a statement that holds where each line does, or, where the lines are `name : ℕ` and the like, a value with these fields; `(n : ℕ) → A` is "A for
each n", `A → B` "from A follows B", `λ x. e` the function that gives e for x. Left out are words for the prover, type parameters (`State` is
whatever states a tree has), and a fraction's proof that its denominator isn't 0.

## 2. One draw in numbers

It is [examples/four](../../examples/four/design.toml), and the prover has computed it, from the bytes of frame and tape to those of the sample:
these steps, and each value below behind "E.g.", are fields of @laws@, which the clauses of [`four_steps_law`](../../crates/smp_pivotal/src/laws.rt)
and [`four_draw_law`](../../crates/smp_app/src/laws.rt)
state. `examples/tree.py` goes through all of its ways with the built program, or through those of your own design.

```
@steps@
```

@ways@ The tape `0 3 4` goes to (3,0,3,4)/5, (1,0,5,4)/5, (0,0,5,5)/5, which selects c and d; S is `id,weight⏎c,5/3⏎d,5/4⏎`.
"""
# A section: its title, what it is about, and what it begins with, each with the end of its file's name where the name has several. What stands
# there is what these reach and isn't yet shown; the last section's are taken out first.
FRACTIONS = "smp_frac.specs.Fractions"
SECTIONS = [
    ("The tree, and P",
     "A tree is a function of a state: there is no chance in it. A number v below the bound leads from a state s to s·v, by `picked`. P goes over "
     "all numbers below each bound, and each counts the same, whatever the numbers before it were: so P(s, k) is the probability that k is "
     "selected where the numbers are uniform and independent.",
     [("picked", "smp_split.specs.Trees"), ("inclusion_probability", "")]),
    ("The path, and the tape", "A path is a list of steps; the tape has its numbers, all of them and no more.",
     [("IsFullPath", ""), ("IsDrawnByTape", ""), ("IsDrawnByChance", "")]),
    ("The law",
     "Why P is the value at the start: each split keeps the mean of each value, and at a leaf the value is 1 or 0. Of the b(s) numbers just wᵢ "
     "lead to sᵢ (`draws_are_weights` in [splitting.rt](../../crates/smp_split/src/splitting.rt)). The ranks fall, so each way down ends within as "
     "many steps as P takes.",
     [("Lawful", ""), ("IsReached", "")]),
    ("What is asked, π: of a unit, and of a row",
     "n is how many are drawn, `sizes` has the sizes of all units of a stratum (or of a psu), and z is the size of one. The published rule goes in "
     "rounds: who is certain leaves, and the rest is shared again. This test reads the size alone. That the certain ones are the first in falling "
     "order of size, up to the least place at which the next has a share below 1, is proved (`FirstAreCertain`, "
     "[proportional.rt](../../crates/smp_prob/src/proportional.rt)); that the rounds end there too isn't said in a record. With one stage a row is "
     "itself a first stage unit; with two it is in a psu, and π is the product of both.",
     [("requested_fraction", ""), ("row_probability", "Plans")]),
    ("The sample file", "Its bytes: each selected row and no other, in frame order, with 1/π.", [("sample_row", ""), ("draw_sample", "Texts")]),
    ("No bias, how many, and the records",
     "Lines 4 and 6 of the first table are `HasProbabilities`; `IsDrawnBy` and `IsExactDraw` stand without the comments of their fields.",
     [("HasProbabilities", ""), ("IsDrawnBy", ""), ("IsExactDraw", ""), ("Ends", "")]),
    ("Fractions", "Of any size, and never rounded.",
     [(name, FRACTIONS) for name in ("Same", "over", "plus", "times", "divided", "integer", "inverse", "sum_below")]),
]
# The records that stand without the comments of their fields.
BARE = {"IsDrawnBy", "IsExactDraw", "Ends", "HasProbabilities"}
ELSEWHERE = ("Those on asked.md are a part of π: they say which units, sizes and n are meant. Who signs line 4 for a design of several strata, of "
             "two stages or with a column of probabilities reads these too: @besides@ definitions. The others say which bytes are meant, or are "
             "ordinary notation. Types of the code are on [words.md](words.md).")
# The files whose definitions may stand on the page. It stops at each name of another file.
FILES = """
    smp_app/Drawn smp_app/Draws smp_app/Headline smp_app/Texts smp_frac/Exact smp_frac/Bounds smp_frac/Fractions
    smp_log/Genuine smp_plan/Plans smp_prob/Requested smp_split/Counts smp_split/Means smp_split/Paths smp_split/Trees smp_strata/Asked
    smp_twostage/Starts smp_weights/Rows smp_weights/Sample
"""
# The names at which the page stops: each with what it is, and with the end of its file's name where the name has several.
CLOSED = {
    "tree_of": ("the draw tree of a plan, of the plan alone; its units are the rows", "smp_app.specs.Drawn"),
    "start_of": ("the state before the first number, of the plan alone", "smp_app.specs.Drawn"),
    "survey_plan": ("the strata of a plan, with their first stage units", "smp_plan.specs.Plans"),
    "first_selected": ("whether unit k of stratum h is selected in the first stage, in these states", ""),
    "second_selected": ("whether a row within it is selected in the second stage", ""),
    "IsDrawnBySeed": ("the words of the seed give the values of the path; that they are uniform draws is `fair`", ""),
    "draw_log": ("the log's bytes: its head, each step of the path, its end", "smp_app.specs.Texts"),
    "IsReadPlan": ("the bytes of the design and of the frame say this plan", ""),
    "KeepsBalance": ("what the cube methods keep; of others nothing", ""),
    "command_of": ("the command that the words ask for; it is none where two of the five names are the same", ""),
    "tape_of": ("the numbers in a tape's bytes, a line each", ""),
    "sample_size": ("n_h, how many first stage units are drawn from a stratum: the design's own number, or the allocation of n by largest "
                    "remainders", ""),
    "first_sizes": ("the sizes of the first stage units of a stratum", ""),
    "stratum_number": ("h, the number of a row's stratum", ""),
    "size_of": ("the sum of the sizes of some rows", "smp_strata.specs.Rows"),
    "in_psu": ("the rows of a psu", ""),
    "psu_at": ("the psu of a row", ""),
    "second_sizes": ("the sizes of some rows in the second stage", ""),
    "second_size_at": ("the same of one row", ""),
    "prob_at": ("the frame's own probability of a row", ""),
    "first_row": ("the first of some rows", ""),
    "fraction": ("a fraction of the code as one here", "smp_frac.specs.Exact"),
    "AreAsked": ("n is what is asked of stratum h: n_h, or the sum of its given probabilities where that is whole", ""),
    "expected_size": ("the sum of the given probabilities", ""),
    "first_probs": ("the given probabilities of a stratum's first stage units", ""),
    "sample_row_of": ("`sample_row` of the two of a pair", ""),
    "balances": ("whether a method is one of the three cube methods", ""),
    "greatest_common_divisor": ("the greatest common divisor", ""),
    "is_positive": ("z > 0", "smp_twostage.specs.Starts"),
    "wide_limit": ("2^126", ""),
    "EachPart": ("P of each part of a list", ""),
    "sign_text": ("`-` where a number is below zero", ""),
    "LessThan": ("a < b", ""),
    "over_integer": ("d/z, of 0 it is d", FRACTIONS),
    "with_files": ("the files with these bytes under these names, and all others as they were", ""),
    "Outside": ("what is told of the outside: the files, and what was put", ""),
    "Files": ("of each name its bytes, if there is such a file", ""),
    "Progress": ("how far a selection in stages is: a state of each stage, and the stage that is under way", ""),
}
# The words of the kit that stand on the page.
WORDS = [
    ("`≡` `≤` `<` `×` `⊤`", "equal, at most, less, and, always"),
    ("`Option A`: `Some x`, `None`", "there is one, x, or there is none"),
    ("`[]`, `x ∷ xs`, `xs ++ ys`, `length`", "the empty list, x before xs, one list behind another, how many"),
    ("`map f xs`, `filter t xs`, `flat_map f xs`", "f of each; those that pass t, in order; the lists f x one behind the other"),
    ("`count_by t xs`, `sum_by f xs`", "how many pass t; the sum of f over xs"),
    ("`range_with_len a n`", "the n numbers a, a + 1, .."),
    ("`slice_get xs i`, `slice_index_or xs i d`", "what stands at place i, counted from 0, if anything does; the same, with d past the end"),
    ("`nat_lt a b`, `nat_le a b`, `nat_eq a b`", "whether a < b, a ≤ b, a = b"),
    ("`c && d`, `cond c a b`, `if c then a else b`", "both; a where c holds, else b"),
    ("`zero`, `suc n`, `a - b`, `a / b`, `max`, `2 ^ n`", "0; n + 1; the difference, 0 where b is larger; the whole part, 0 where b is 0"),
    ("`ℤ`: `pos n`, `negsuc n`; `neg_ℤ`, `+ℤ`, `*ℤ`, `unsigned_abs`", "n or -(n + 1); -z, +, ·, |z|"),
    ("`x.0`, `x.1`, `x.2`, `s.f`", "the parts of a pair or triple; the field f of s"),
    ("`codes \"a\"`, `decimal n`", "the bytes of a text; those of n in decimal"),
    ("`row_text`, `with_flexible`, `default_writer`", "a row of CSV as the crate `csv` writes it, with one line feed at its end"),
    ("`IfSome o P`, `Ok`", "P of the value, if there is one; a result that is no refusal"),
    ("`option_map f o`", "f of the value, if there is one"),
]
