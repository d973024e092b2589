#!/usr/bin/env python3
"""Runs the commands of a page of docs/ as they stand there, and compares what the page shows.

    .ci/page.py PROGRAM PAGE..

Each page is run in a new folder that has ./sampler and the folders of the repository. A block of the page, which is indented by
four blanks or more, is one of

- commands: its first line begins with one of COMMANDS;
- formulas of a spreadsheet: its first line begins with `=`; they aren't run;
- Python: its first line begins with `import` or `from`;
- R: it begins with `library(`, `source(`, or has an arrow ` <- `; it is run where Rscript is there;
- else a text, which has to stand, as whole lines, in what the commands of its section (up to the next `##`) put, in a file that
  they wrote, or in a file of an example that the section names. A line `..` stands for any lines that are left out; a byte order
  mark and line ends are left out too.

The client for Python is found as `sampler`, that for R is installed for the run where a block has `library(sampler)`, and both call
the program that is given. Commands end with code 0, but where the next block is the one line `error CODE ..`, which they have to put, with that code.
"""

import os
import pathlib
import re
import shutil
import subprocess
import sys
import tempfile

HERE = pathlib.Path(__file__).resolve().parent.parent
COMMANDS = ("./sampler", "python3", "Rscript", "printf", "head", "tail", "sed", "cmp", "sha256sum")
FOLDERS = ("examples", "reference", "clients", "docs")
LIBRARY = "r_library"
LINKED = ("sampler", LIBRARY, *FOLDERS)


class Block:
    """Lines that stand together, without their indent, with the number of the first one."""

    def __init__(self, number, lines):
        indent = min(len(line) - len(line.lstrip()) for line in lines)
        self.number = number
        self.lines = [line[indent:] for line in lines]
        self.end = number + len(lines)

    def kind(self):
        first = self.lines[0]
        if first.split()[0] in COMMANDS:
            return "sh"
        if first.startswith("="):
            return "formula"
        if first.startswith(("import ", "from ")):
            return "python"
        if first.startswith(("library(", "source(")) or any(" <- " in line for line in self.lines):
            return "r"
        return "text"

    def program(self):
        return "\n".join(self.lines) + "\n"

    def code(self):
        """The code of an error line that stands alone, else none."""
        found = re.match(r"error (\d+)", self.lines[0]) if len(self.lines) == 1 else None
        return int(found[1]) if found else None


def add(blocks, block):
    """Adds a block, which goes on with a program in Python that one empty line has parted from it."""
    if blocks and blocks[-1].kind() == "python" and blocks[-1].end + 1 == block.number:
        blocks[-1].lines += [""] + block.lines
        blocks[-1].end = block.end
    else:
        blocks.append(block)


def sections_of(page):
    """The sections of a page, each with its title, all of its text and its blocks."""
    sections = [["", "", []]]
    lines = page.read_text(encoding="utf-8").split("\n")
    at = 0
    while at < len(lines):
        if lines[at].startswith("## "):
            sections.append([lines[at][3:], "", []])
        if lines[at].startswith("    "):
            end = at
            while lines[end].startswith("    "):
                end += 1
            add(sections[-1][2], Block(at + 1, lines[at:end]))
            sections[-1][1] += "\n".join(lines[at:end]) + "\n"
            at = end
        else:
            sections[-1][1] += lines[at] + "\n"
            at += 1
    return sections


def stands_in(wanted, text):
    """Whether the wanted lines stand one after another in the text, `..` for any lines."""
    lines = text.lstrip("\ufeff").replace("\r\n", "\n").split("\n")
    parts = [[]]
    for line in wanted:
        if line == "..":
            parts.append([])
        else:
            parts[-1].append(line)

    def place(part, start):
        last = len(lines) - len(part)
        return next((at for at in range(start, last + 1) if lines[at : at + len(part)] == part), None)

    start = 0
    for part in parts:
        at = place(part, start)
        if at is None:
            return False
        start = at + len(part)
    return True


def texts_of(folder):
    """The files in a folder and in its folders, by name, without those that are linked there."""
    files = [file for file in sorted(folder.rglob("*")) if file.is_file() and file.relative_to(folder).parts[0] not in LINKED]
    return {str(file.relative_to(folder)): file.read_bytes().decode("utf-8", "replace") for file in files}


class Run:
    """A page under way: its folder, what its section has shown so far, and what was found wrong."""

    def __init__(self, page, folder, program):
        self.page = page
        self.folder = folder
        self.shown = {}
        self.faults = []
        self.env = {
            **os.environ,
            "SAMPLER": program,
            "PYTHONPATH": str(HERE / "clients" / "python"),
            "PYTHONDONTWRITEBYTECODE": "1",
            "R_LIBS": str(folder / LIBRARY),
        }
        os.symlink(program, folder / "sampler")
        for name in FOLDERS:
            os.symlink(HERE / name, folder / name)

    def fault(self, block, words):
        self.faults.append(f"{self.page}:{block.number}: {words}")

    def begin(self, text):
        """A new section knows the examples that it names, and nothing of the one before."""
        names = sorted(set(re.findall(r"examples/(\w+)", text)))
        examples = [HERE / "examples" / name for name in names if (HERE / "examples" / name).is_dir()]
        self.shown = {f"{example.name}/{name}": put for example in examples for name, put in texts_of(example).items()}
        self.written = texts_of(self.folder)

    def run(self, block, follows):
        """Runs a block; what follows it may be the line of the refusal that it has to end with."""
        words = {"sh": ["sh", "-ec"], "python": [sys.executable, "-c"], "r": ["Rscript", "-e"]}[block.kind()] + [block.program()]
        if "library(sampler)" in block.lines:
            self.install()
        done = subprocess.run(words, cwd=self.folder, env=self.env, capture_output=True, text=True, stdin=subprocess.DEVNULL)
        wanted = (follows.code() if follows else None) or 0
        if done.returncode != wanted:
            self.fault(block, f"ended with code {done.returncode}, not {wanted}: {done.stderr.strip() or done.stdout.strip()}")
        if wanted and done.stdout != follows.program():
            self.fault(follows, f"was put otherwise: {done.stdout.strip()}")
        files = {name: put for name, put in texts_of(self.folder).items() if self.written.get(name) != put}
        self.written.update(files)
        self.shown.update(files)
        self.shown[f"line {block.number}"] = done.stdout

    def install(self):
        """The R package of the clients, in a library of this run alone."""
        library = self.folder / LIBRARY
        if not library.exists():
            library.mkdir()
            shutil.copytree(HERE / "clients" / "r", library / "source")
            words = ["R", "CMD", "INSTALL", "--no-docs", "--no-test-load", f"--library={library}", str(library / "source")]
            subprocess.run(words, check=True, capture_output=True)

    def look(self, block):
        if not any(stands_in(block.lines, text) for text in self.shown.values()):
            self.fault(block, "is no longer so: " + " / ".join(block.lines[:3]))


def is_left_out(kind):
    return kind == "formula" or kind == "r" and shutil.which("Rscript") is None


def run_page(page, program):
    """What is wrong with a page, and how many blocks were run, compared and left out."""
    counts = {"run": 0, "compared": 0, "left out": 0}
    with tempfile.TemporaryDirectory() as folder:
        run = Run(page, pathlib.Path(folder), program)
        for _, text, blocks in sections_of(HERE / page):
            run.begin(text)
            for block, follows in zip(blocks, blocks[1:] + [None]):
                if block.kind() == "text":
                    run.look(block)
                    counts["compared"] += 1
                elif is_left_out(block.kind()):
                    counts["left out"] += 1
                else:
                    run.run(block, follows)
                    counts["run"] += 1
    return run.faults, counts


def main(program, pages):
    failed = False
    for page in pages:
        faults, counts = run_page(page, os.path.abspath(program))
        for fault in faults:
            print(fault, file=sys.stderr)
        print(f"{page}: blocks " + ", ".join(f"{count} {what}" for what, count in counts.items()))
        failed = failed or bool(faults)
    return 1 if failed else 0


if __name__ == "__main__":
    if len(sys.argv) < 3:
        sys.exit(__doc__)
    sys.exit(main(sys.argv[1], sys.argv[2:]))
