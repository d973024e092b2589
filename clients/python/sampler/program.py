"""The program that draws: where it is, and which version it has.

The program has no way to tell its version. It is told apart by its SHA-256: `known.txt`, which is made with a package of a version, names the program of
that version. Else a file BUILD or VERSION beside the program tells it, as an archive has them, or one in share/doc/sampler, where Debian's package has it. Where
neither does, the version isn't known, and nothing is said of it."""
import functools
import hashlib
import os
import re
import shutil
import warnings
from typing import NamedTuple

HERE = os.path.dirname(os.path.abspath(__file__))


class Program(NamedTuple):
    """The program that a call is made to.

    path: its path. sha256: the SHA-256 of its bytes. version: its version, or None where it isn't known. known_by: what tells the version, "SHA-256" or the
    path of a file beside the program; None where it isn't known."""

    path: str
    sha256: str
    version: str | None
    known_by: str | None


class VersionWarning(UserWarning):
    """The program has another version than this package."""


def own_version() -> str:
    """The version of this package: that of its file VERSION, which is made with it, or, in the sources, of the one at the top; else "unknown"."""
    for path in os.path.join(HERE, "VERSION"), os.path.join(HERE, "..", "..", "..", "VERSION"):
        if os.path.isfile(path):
            with open(path, encoding="utf-8") as file:
                return file.read().strip()
    return "unknown"


def program_path() -> str:
    """The path of the program: that of the environment's SAMPLER, or else the one that this package brings, or else `sampler` on the path."""
    given = os.environ.get("SAMPLER")
    brought = os.path.join(HERE, "bin", "sampler")
    if not given and os.access(brought, os.X_OK):
        return brought
    found = shutil.which(given or "sampler")
    if found is None:
        raise FileNotFoundError(f"no program {given or 'sampler'}: set SAMPLER to its path, put it on the path, or install a wheel that brings it")
    return os.path.abspath(found)


def sha256_of(path: str | os.PathLike) -> str:
    """The SHA-256 of the bytes of a file."""
    with open(path, "rb") as file:
        return hashlib.file_digest(file, "sha256").hexdigest()


def known_programs() -> dict[str, str]:
    """The versions of the programs that this package knows, by their SHA-256."""
    path = os.path.join(HERE, "known.txt")
    if not os.path.exists(path):
        return {}
    with open(path, encoding="utf-8") as file:
        return dict(line.split()[:2] for line in file if line.strip())


def _version_beside(path: str) -> tuple[str, str] | tuple[None, None]:
    """The version that a file beside a program tells, and the path of this file."""
    folder = os.path.dirname(os.path.realpath(path))
    pages = os.path.join(os.path.dirname(folder), "share", "doc", "sampler")
    told = r"(\d+\.\d+\.\d+)\n"
    for beside, pattern in ((folder, "BUILD"), "version " + told), ((folder, "VERSION"), told), ((pages, "VERSION"), told):
        beside = os.path.join(*beside)
        if os.path.isfile(beside):
            with open(beside, encoding="utf-8", errors="replace") as file:
                found = re.match(pattern, file.read(1000))
            if found:
                return found[1], beside
    return None, None


@functools.lru_cache(maxsize=8)
def _program_at(path: str, _changed: int, _size: int) -> Program:
    """The program at a path, which is looked at again once it has changed. Where its version is known and another than the package's, this is told."""
    digest = sha256_of(path)
    version = known_programs().get(digest)
    known_by = "SHA-256" if version else None
    if version is None:
        version, known_by = _version_beside(path)
    if version is not None and own_version() not in (version, "unknown"):
        warnings.warn(f"the program {path} has version {version}, and this package {own_version()}", VersionWarning, stacklevel=2)
    return Program(path, digest, version, known_by)


def program() -> Program:
    """The program that the calls are made to: its path, its SHA-256, and its version where that is known."""
    path = program_path()
    state = os.stat(path)
    return _program_at(path, state.st_mtime_ns, state.st_size)


def client_sha256() -> str:
    """What `sha256sum *.py | sha256sum` gives in the folder of this package."""
    names = sorted(name for name in os.listdir(HERE) if name.endswith(".py"))
    return hashlib.sha256("".join(f"{sha256_of(os.path.join(HERE, name))}  {name}\n" for name in names).encode()).hexdigest()


def versions(design: str | None, frame: str | None) -> str:
    """The text of versions.txt: the SHA-256 and the version of the program and of this package, and the SHA-256 and the names of the files that were given."""
    called = program()
    lines = [(called.sha256, f"program {called.version or 'unknown'}"), (client_sha256(), f"python {own_version()}")]
    lines += [(sha256_of(path), f"{what} {os.path.basename(path)}") for what, path in (("design", design), ("frame", frame)) if path is not None]
    return "".join(f"{digest}  {_in_one_line(text)}\n" for digest, text in lines)


def _in_one_line(text: str) -> str:
    return text.replace("\\", "\\\\").replace("\n", "\\n").replace("\r", "\\r")
