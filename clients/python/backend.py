"""Makes wheels of this package, by Python alone: pip calls it (PEP 517), so that an installation needs no network, and so does the script `package`.

    python3 backend.py FOLDER [PROGRAM]    writes a wheel into this folder; of a program, one that brings it

The same sources, and the same program, make the same bytes.
"""
import base64
import hashlib
import os
import re
import shutil
import sys
import tarfile
import tempfile
import tomllib
import zipfile

HERE = os.path.dirname(os.path.abspath(__file__))
NAME = "sampler"
LONG_AGO = (1980, 1, 1, 0, 0, 0)


def version_of_sources():
    """The version in the file VERSION: of the package, where it is unpacked from an archive of its own, or at the top of the repository."""
    own, top = os.path.join(HERE, NAME, "VERSION"), os.path.join(HERE, "..", "..", "VERSION")
    with open(own if os.path.exists(own) else top, encoding="utf-8") as file:
        return file.read().strip()


def content(*path):
    with open(os.path.join(*path), "rb") as file:
        return file.read()


def metadata(version):
    """The text of METADATA, by pyproject.toml."""
    project = tomllib.loads(content(HERE, "pyproject.toml").decode())["project"]
    lines = ["Metadata-Version: 2.1", f"Name: {project['name']}", f"Version: {version}", f"Summary: {project['description']}",
             f"Requires-Python: {project['requires-python']}", *(f"Classifier: {text}" for text in project["classifiers"])]
    for extra, needs in project["optional-dependencies"].items():
        lines += [f"Provides-Extra: {extra}", *(f"Requires-Dist: {need}; extra == '{extra}'" for need in needs)]
    return "\n".join([*lines, "Description-Content-Type: text/markdown", "", content(HERE, project["readme"]).decode()])


def sources():
    """The names and bytes of the package's files, but for those that a release adds."""
    names = sorted(name for name in os.listdir(os.path.join(HERE, NAME)) if name.endswith(".py") or name in ("py.typed", "known.txt"))
    return {f"{NAME}/{name}": content(HERE, NAME, name) for name in names}


def platform_of(program):
    """The tag of the machines that a program runs on: Linux with the version of the C library that it asks for, or a later one."""
    asked = [tuple(map(int, found)) for found in re.findall(rb"GLIBC_(\d+)\.(\d+)\b", content(program))]
    if not asked:
        raise SystemExit(f"backend: {program} asks for no version of the GNU C library")
    return "manylinux_{}_{}_".format(*max(asked)) + os.uname().machine


def wheel(folder, program=None):
    """Writes a wheel into a folder, with the program where one is given, and gives its name."""
    version = version_of_sources()
    tag = "py3-none-" + (platform_of(program) if program else "any")
    files = {**sources(), f"{NAME}/VERSION": f"{version}\n".encode()}
    if program:
        files[f"{NAME}/bin/sampler"] = content(program)
        files[f"{NAME}/known.txt"] = f"{hashlib.sha256(content(program)).hexdigest()} {version}\n".encode()
    info = f"{NAME}-{version}.dist-info"
    files[f"{info}/METADATA"] = metadata(version).encode()
    files[f"{info}/WHEEL"] = f"Wheel-Version: 1.0\nGenerator: sampler-backend\nRoot-Is-Purelib: {str(not program).lower()}\nTag: {tag}\n".encode()
    digest = lambda data: base64.urlsafe_b64encode(hashlib.sha256(data).digest()).rstrip(b"=").decode()
    files[f"{info}/RECORD"] = ("".join(f"{name},sha256={digest(data)},{len(data)}\n" for name, data in files.items()) + f"{info}/RECORD,,\n").encode()
    name = f"{NAME}-{version}-{tag}.whl"
    with zipfile.ZipFile(os.path.join(folder, name), "w", zipfile.ZIP_DEFLATED) as archive:
        for path, data in files.items():
            member = zipfile.ZipInfo(path, LONG_AGO)
            member.external_attr = (0o100755 if path.endswith("/bin/sampler") else 0o100644) << 16
            archive.writestr(member, data, zipfile.ZIP_DEFLATED)
    return name


# What pip asks for.


def build_wheel(wheel_directory, config_settings=None, metadata_directory=None):
    return wheel(wheel_directory)


def build_sdist(sdist_directory, config_settings=None):
    """An archive of the sources, with a file VERSION in the package."""
    version = version_of_sources()
    name = f"{NAME}-{version}"
    with tempfile.TemporaryDirectory() as work:
        inside = os.path.join(work, name)
        shutil.copytree(HERE, inside, ignore=shutil.ignore_patterns("__pycache__", "bin", "*.whl", "*.tar.gz"))
        for path, text in ((f"{NAME}/VERSION", f"{version}\n"), ("PKG-INFO", metadata(version))):
            with open(os.path.join(inside, path), "w", encoding="utf-8") as file:
                file.write(text)
        with tarfile.open(os.path.join(sdist_directory, f"{name}.tar.gz"), "w:gz", format=tarfile.PAX_FORMAT) as archive:
            archive.add(inside, name)
    return f"{name}.tar.gz"


if __name__ == "__main__":
    if len(sys.argv) not in (2, 3):
        sys.exit(__doc__)
    print(wheel(*sys.argv[1:]))
