"""Runs the cases of crates/cases/data by the reference, and says where what a case wants isn't what the reference gives.

    python3 reference/run_cases.py [GROUP/NAME ..]

The format of a case is in crates/cases/data/README.md. The cases of the group `judge` each have a wrong part, so the reference has to give something
else. The files of the group `not_read` are no cases, and are left out. Exits with 1 where something isn't as it has to be.
"""
import os
import re
import sys

sys.dont_write_bytecode = True
import sampler

DATA = os.path.join(os.path.dirname(os.path.abspath(__file__)), "..", "crates", "cases", "data")
ESCAPE = re.compile(rb"\\(?:x([0-9a-f]{2})|(.))", re.IGNORECASE)
LETTERS = {b"n": b"\n", b"r": b"\r", b"\\": b"\\"}


def meant(text):
    """The bytes that a piece of a case means."""
    return ESCAPE.sub(lambda found: bytes.fromhex(found[1].decode("ascii")) if found[1] else LETTERS[found[2]], text)


class Case:
    """What a call is given, and what has to come of it."""

    def __init__(self, content):
        self.words, self.files, self.code, self.put = [], {}, None, None
        self.wanted, self.unwanted, self.calls, self.puts = {}, set(), set(), set()
        part = None
        for line in content.split(b"\n"):
            if line.startswith(b"|"):
                part.append(meant(line[1:]))
                continue
            part = []
            if line.startswith(b"words"):
                self.words = [meant(word).decode("utf-8") for word in line.split(b" ")[1:]]
            elif line.startswith(b"file "):
                self.files[meant(line[5:]).decode("utf-8")] = part
            elif line.startswith(b"failing call "):
                self.calls.add(int(line[13:]))
            elif line.startswith(b"failing put "):
                self.puts.add(int(line[12:]))
            elif line.startswith(b"wanted code "):
                self.code = int(line[12:])
            elif line.startswith(b"wanted file "):
                self.wanted[meant(line[12:]).decode("utf-8")] = part
            elif line.startswith(b"wanted no file "):
                self.unwanted.add(meant(line[15:]).decode("utf-8"))
            elif line == b"wanted put":
                self.put = part
            else:
                assert line == b"" or line.startswith(b"# "), line
        self.files = {name: b"".join(pieces) for name, pieces in self.files.items()}
        self.wanted = {name: b"".join(pieces) for name, pieces in self.wanted.items()}
        self.put = b"".join(self.put)

    def stands(self):
        """The files as they have to stand after the call."""
        files = {name: content for name, content in self.files.items() if name not in self.unwanted}
        return {**files, **self.wanted}


class Memory:
    """Files and an output in memory; some calls and puts fail."""

    def __init__(self, files, calls=(), puts=()):
        self.files, self.written = dict(files), b""
        self.calls, self.puts = calls, puts
        self.called = self.put_number = 0

    def call(self):
        self.called += 1
        if self.called in self.calls:
            raise sampler.Failure

    def read(self, name):
        self.call()
        if name not in self.files:
            raise sampler.Failure
        return self.files[name]

    def write(self, name, content):
        self.call()
        self.files[name] = content

    def put(self, content):
        self.put_number += 1
        if self.put_number in self.puts:
            raise sampler.Failure
        self.written += content


def differences(case):
    """What the reference gives that the case doesn't want."""
    store = Memory(case.files, case.calls, case.puts)
    code = sampler.sampler(case.words, store)
    found = []
    if code != case.code:
        found.append(f"code {code} in place of {case.code}")
    if store.written != case.put:
        found.append(f"put {store.written!r} in place of {case.put!r}")
    wanted = case.stands()
    for name in sorted(set(wanted) | set(store.files)):
        if store.files.get(name) != wanted.get(name):
            found.append(f"file {name}: {store.files.get(name)!r} in place of {wanted.get(name)!r}")
    return found


def main():
    """Runs all cases, or those that are named."""
    named = sys.argv[1:]
    same = wrong = left_out = 0
    for group in sorted(os.listdir(DATA)):
        folder = os.path.join(DATA, group)
        for file in sorted(os.listdir(folder)) if os.path.isdir(folder) else []:
            name = f"{group}/{file.removesuffix('.txt')}"
            if named and name not in named:
                continue
            if group == "not_read":
                left_out += 1
                continue
            with open(os.path.join(folder, file), "rb") as opened:
                found = differences(Case(opened.read()))
            if (not found) == (group == "judge"):
                wrong += 1
                print(f"{name}: " + ("; ".join(found) or "is as wanted, and shouldn't be"))
            else:
                same += 1
    print(f"{same} as they have to be, {wrong} not, {left_out} left out")
    return 1 if wrong else 0


if __name__ == "__main__":
    sys.exit(main())
