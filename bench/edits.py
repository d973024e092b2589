#!/usr/bin/env python3
"""Tries edits many at once: the prover has to refuse each, as it refuses those of crates/smp_tape/must-fail/ one by one in the gate.

    bench/edits.py                     the edits of edits/, of all crates
    bench/edits.py smp_near smp_log    those of these crates
    bench/edits.py --gate smp_tape     with those of crates/smp_tape/must-fail/
    bench/edits.py --run               those of edits/CRATE/gate alone, over the libraries that `rt ci` has just left: a part of `.ci/run`
    bench/edits.py --look              only whether each can be applied: each `old:` text stands once in its file
    bench/edits.py --one smp_near      one check at a time, where as many as processors and memory allow run side by side

A copy of a crate takes one edit for each of its functions, and one check of these functions says of each whether goals stand open, and which. Since a
function is proved over the contracts of those that it calls, and not over their bodies, an edit of one leaves the goals of the others as they are. An edit
that stands in no function, or leaves no goal of its own function open, is tried by itself: then any function may refuse it. The crates below, and the
crate as it stands, are taken as `./build` keeps them, and proved as it does where they aren't kept. What is proved of a copy stays for the crate's next one.

The last line counts. The status is 1 where an edit is not refused, can't be applied or doesn't compile: the line of such an edit begins with BAD or NOT.
"""
import collections
import concurrent.futures
import glob
import importlib.machinery
import importlib.util
import os
import re
import shutil
import subprocess
import sys
import tempfile
import threading

sys.dont_write_bytecode = True
TOP = os.path.dirname(os.path.dirname(os.path.realpath(__file__)))
PARTS = ("src", "specs", "proofs")
MEMORY = 4 * 2**30  # of one check
FUNCTION = re.compile(r"( *)(?:pub(?:\([a-z]+\))? )?(?:const )?(?:unsafe )?fn (\w+)")
IMPL = re.compile(r"(?:unsafe )?impl(?:<.*?>)? (?:([\w:]+)(?:<.*>)? for )?&?([\w:]+)")
CALLS_ALONE = re.compile(r"(no proof: it calls .* which (is|are) not proved|depends on a hole in .*)$")
PRINTING = threading.Lock()


class Edit:
    """An edit, with the files that it changes, in order: path, old text, new text."""

    def __init__(self, path, crate):
        self.path, self.crate, self.pairs = os.path.relpath(path, TOP), crate, []
        self.name = f"{crate.name}/{os.path.basename(path)[:-5]}"
        file = old = None
        with open(path, encoding="utf-8") as lines:
            for line in lines.read().split("\n"):
                if line.startswith("file: "):
                    file = line[6:].strip()
                elif line.startswith("old: "):
                    old = line[5:]
                elif line.startswith("new:") and file and old:
                    self.pairs.append((file, old, line[4:].removeprefix(" ")))
                    old = None
        self.function = self.place(texts_of(crate.folder))

    def place(self, texts):
        """The function that all its texts stand in, if there is one."""
        found = {function_at(texts[file], texts[file].find(old), file, self.crate.name) for file, old, _ in self.pairs if file in texts}
        return found.pop() if len(found) == 1 else None

    def apply(self, texts):
        """The texts with the edit, or None where one of its old texts doesn't stand in its file once."""
        made = dict(texts)
        for file, old, new in self.pairs:
            if made.get(file, "").count(old) != 1:
                return None
            made[file] = made[file].replace(old, new)
        return made if made != texts else None


def texts_of(folder):
    found = {}
    for part in PARTS:
        for at, _, names in os.walk(os.path.join(folder, part)):
            for name in names:
                with open(os.path.join(at, name), encoding="utf-8") as file:
                    found[os.path.relpath(os.path.join(at, name), folder)] = file.read()
    return found


def function_at(text, place, file, crate):
    """The name by which a check calls the function around a place of a file that is laid out by `rt fmt`, or None."""
    lines, number = text.split("\n"), text.count("\n", 0, place)
    begin = next((it for it in range(number, -1, -1) if FUNCTION.match(lines[it])), None)
    if place < 0 or begin is None or not file.startswith("src/"):
        return None
    indent, name = FUNCTION.match(lines[begin]).groups()
    # It ends at the first brace, or the first end of a declaration, that stands as far in as it begins.
    end = next((it for it in range(begin, len(lines)) if lines[it].startswith(f"{indent}}}") or (it == begin and lines[it].endswith("}"))), begin)
    if number > end or any(line.startswith("macro_rules!") and not "}" in lines[at:begin] for at, line in enumerate(lines[:begin])):
        return None
    words = [crate, *(it for it in os.path.splitext(file)[0].split("/")[1:] if it not in ("lib", "main", "mod"))]
    if indent:
        header = next((it for it in range(begin, -1, -1) if IMPL.match(lines[it])), None)
        if header is None:
            return None
        trait, owner = IMPL.match(lines[header]).groups()
        words.append(owner.rpartition("::")[2] + (trait or "").rpartition("::")[2])
    return "::".join([*words, name])


def batches(edits, texts):
    """Puts the edits into as few copies as can be: in each at most one for a function."""
    left = [it for it in edits if it.function]
    while left:
        now, taken, later, made = [], set(), [], texts
        for edit in left:
            with_it = None if edit.function in taken else edit.apply(made)
            if with_it is None:
                later.append(edit)
            else:
                now, made = [*now, edit], with_it
                taken.add(edit.function)
        yield now, made
        left = later


class Trier:
    """Checks copies of one crate. What one check proved is kept for the next."""

    def __init__(self, kit, crate, room):
        self.kit, self.crate, self.room = kit, crate, room
        self.kept, self.number = os.path.join(room, "kept"), 0

    def check(self, texts, functions=()):
        """What a check says of each function, or of these and those that they call, by its name, and all that it says; the first is None where the copy
        isn't read."""
        self.number += 1
        copy = os.path.join(self.room, str(self.number))
        for path, text in texts.items():
            os.makedirs(os.path.dirname(os.path.join(copy, path)), exist_ok=True)
            with open(os.path.join(copy, path), "w", encoding="utf-8") as file:
                file.write(text)
        only = [word for it in functions for word in ("--only", it.partition("::")[2])]
        words = self.crate.words(["--jobs", "1", "--allow-holes", *only], keeps=False)
        ran = subprocess.run([self.kit.RATTLE, "check", *words, "--incremental", self.kept], cwd=copy, stdin=subprocess.DEVNULL,
                             stdout=subprocess.PIPE, stderr=subprocess.STDOUT, text=True, errors="replace")
        shutil.rmtree(copy)
        is_read = re.search(r"^(only=\d+ )?holes=\d+|^rattle: no verdict", ran.stdout, re.M)
        return dict(re.findall(r"^fn (\S+): (.*)$", ran.stdout, re.M)) if is_read else None, ran.stdout

    def try_one(self, edit, texts):
        found, said = self.check(edit.apply(texts))
        if found is None:
            return tell(edit, False, "BAD EDIT: it does not compile, or the check ended: " + " | ".join(said.strip().split("\n")[:4]))
        refused = {name: open_goals(it) for name, it in found.items() if is_open(it)}
        if not refused:
            return tell(edit, False, "NOT REFUSED: each function is still proved")
        # Of the functions that refuse it, its own is the first to name.
        name = edit.function if edit.function in refused else min(refused)
        return tell(edit, True, f"refused at {name.partition('::')[2]}: {refused[name]}")

    def try_all(self, edits, texts):
        results, alone = [], [it for it in edits if not it.function]
        for batch, made in batches(edits, texts):
            found, _ = self.check(made, [it.function for it in batch])
            if found is None and len(batch) > 1:
                # One of them doesn't compile, and hides the others.
                alone += batch
                continue
            for edit in batch:
                verdict = (found or {}).get(edit.function, "no holes")
                if is_open(verdict):
                    results.append(tell(edit, True, f"refused at {edit.function.partition('::')[2]}: {open_goals(verdict)}"))
                else:
                    alone.append(edit)
        return results + [self.try_one(it, texts) for it in alone]


def is_open(verdict):
    """Whether goals of the function itself stand open, and not only of those that it calls."""
    return verdict not in ("no holes", "assumed") and not CALLS_ALONE.match(verdict)


def open_goals(verdict):
    """The names of the goals, which have the clause's in them."""
    said = verdict.partition("; it calls")[0]
    named = re.findall(r"`([^`]+)`", said.partition("did not prove")[2] or said.partition("it stands on")[2])
    return ", ".join(it.rpartition(".")[2] for it in named) or verdict[:150]


def tell(edit, is_refused, text):
    with PRINTING:
        print(f"{edit.name}: {text}", flush=True)
    return is_refused


def build_script():
    """The script `build`, which has no ending."""
    loader = importlib.machinery.SourceFileLoader("build", os.path.join(TOP, "build"))
    made = importlib.util.module_from_spec(importlib.util.spec_from_loader("build", loader))
    loader.exec_module(made)
    return made


def edits_of(crate, flags):
    """Those of edits/, with those of the gate among them; with the word for it those of must-fail/ too."""
    kept = os.path.join(TOP, "edits", crate.name)
    folders = [os.path.join(kept, "gate"), *([] if "--run" in flags else [kept])]
    if {"--gate", "--look"}.intersection(flags):
        folders.append(os.path.join(crate.folder, "must-fail"))
    return [Edit(path, crate) for folder in folders for path in sorted(glob.glob(os.path.join(glob.escape(folder), "*.edit")))]


def try_crate(kit, crate, edits):
    with tempfile.TemporaryDirectory(prefix="edits-") as room:
        texts = texts_of(crate.folder)
        good = [it for it in edits if it.apply(texts) is not None]
        results = [tell(it, False, "BAD EDIT: an old text doesn't stand in its file once, or nothing changes") for it in edits if it not in good]
        return results + Trier(kit, crate, room).try_all(good, texts)


def take_libraries(crates):
    """Has the crates' libraries taken as `rt ci` leaves them. They have no stamp, so it has to have run over these very files."""
    for it in crates:
        it.rlib = os.path.join(it.folder, "out", "rlib", f"{it.name}.rlib")
    lost = [it.name for it in crates if not os.path.isdir(it.rlib)]
    if lost:
        sys.exit(f"edits.py: rt ci has left no library of {' '.join(lost)}")


def keep_libraries(kit, build, crates, processors):
    """Has those proved that `./build` doesn't keep."""
    held = kit.lock(crates)
    if not all(it.is_built() for it in crates):
        build.prove(crates, processors, build.free_memory())
    for it in held:
        os.close(it)


def main():
    flags, names = [it for it in sys.argv[1:] if it.startswith("-")], [it for it in sys.argv[1:] if not it.startswith("-")]
    if not {"--gate", "--look", "--one", "--run"}.issuperset(flags):
        sys.exit(__doc__)
    build = build_script()
    kit = build.module_of_kit()
    os.chdir(TOP)
    crates = kit.crates_below(TOP)
    of = {it: edits_of(it, flags) for it in crates if not names or it.name in names}
    folders = {it for it in os.listdir("edits") if os.path.isdir(os.path.join("edits", it))}
    lost = sorted((folders | set(names)) - {it.name for it in crates})
    if lost:
        sys.exit(f"edits.py: no such crate: {' '.join(lost)}")
    if "--look" in flags:
        bad = [it for crate in of for it in of[crate] if it.apply(texts_of(crate.folder)) is None]
        for it in bad:
            print(f"{it.path}: an old text doesn't stand in its file once, or nothing changes")
        sys.exit(bool(bad))
    chosen = [it for it in of if of[it]]
    kit.guarded()
    # A program is no library that can be kept. The gate proves it.
    needed = [it for it in crates if not it.is_program and any(it is crate or it in crate.below() for crate in chosen)]
    if "--run" in flags:
        take_libraries(needed)
    else:
        keep_libraries(kit, build, needed, 1 if "--one" in flags else kit.cores())
    at_once = 1 if "--one" in flags else max(1, min(kit.cores(), build.free_memory() // MEMORY))
    with concurrent.futures.ThreadPoolExecutor(at_once) as pool:
        results = [it for found in pool.map(lambda crate: try_crate(kit, crate, of[crate]), chosen) for it in found]
    counts = collections.Counter(results)
    print(f"{len(results)} edits tried: {counts[True]} refused, {counts[False]} not")
    sys.exit(counts[False] > 0)


if __name__ == "__main__":
    main()
