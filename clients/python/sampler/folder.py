"""The folder for the files of a call, and the program that is called in it."""
import contextlib
import os
import shutil
import subprocess
import tempfile
from collections.abc import Callable, Iterator
from typing import Any

from .errors import Refusal
from .program import program

INPUTS = ("--design", "design.toml", "--frame", "frame.csv")


@contextlib.contextmanager
def new_folder(record: str | os.PathLike | None = None) -> Iterator[str]:
    """A new folder, which is removed afterwards; where it has a name, only if something is raised."""
    if record is None:
        with tempfile.TemporaryDirectory(prefix="sampler-") as folder:
            yield folder
        return
    folder = os.path.abspath(record)
    os.makedirs(folder)  # This raises where the folder is there: no record is written over.
    try:
        yield folder
    except BaseException:
        shutil.rmtree(folder)
        raise


def run(folder: str, *words: str) -> bytes:
    """Calls the program in this folder, and gives the bytes that it put, or raises a Refusal."""
    ended = subprocess.run([program().path, *words], cwd=folder, stdin=subprocess.DEVNULL, stdout=subprocess.PIPE)
    if ended.returncode != 0:
        raise Refusal(ended.returncode, ended.stdout.decode("utf-8", "replace").removesuffix("\n"))
    return ended.stdout


def write(folder: str, name: str, text: str) -> None:
    with open(os.path.join(folder, name), "w", encoding="utf-8", newline="") as file:
        file.write(text)


def bytes_of(folder: str, name: str) -> bytes:
    with open(os.path.join(folder, name), "rb") as file:
        return file.read()


def is_path(given: Any) -> bool:
    return isinstance(given, (str, os.PathLike))


def put_file(folder: str, name: str, given: Any, text_of: Callable[[Any], str]) -> None:
    """Puts a file into the folder: a copy of the one that is given by its path, or else the text of what is given."""
    if is_path(given):
        shutil.copyfile(given, os.path.join(folder, name))
    else:
        write(folder, name, text_of(given))
