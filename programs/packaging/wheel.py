#!/usr/bin/env python3
"""Makes a wheel of the Python package, with the built C libraries in it:

    programs/packaging/wheel.py [FOLDER]      (`make wheel`; FOLDER, else build/package)

It needs Python 3.9 and no network, and builds nothing. The variable LIBRARY names the folder of the built libraries, else build/library. If nothing is
there, what `make try` built is taken, and the version ends with `.dev0+unproved`: a proved wheel of that version is newer. Without librncv_xml.so the wheel is
made without it, and a line says so. Each date in the wheel is that of date.sh, so the same files make the same wheel, as long as zlib is the same.

The wheel is for the kind of machine that this Python runs on, such as linux_x86_64. It is no manylinux wheel, since the library for XML takes libxml2 from
the system, and manylinux does not have that. What the libraries take from the system is printed, and is in the metadata as Requires-External.
"""

from __future__ import annotations

import base64
import hashlib
import os
import pathlib
import re
import shutil
import subprocess
import sys
import sysconfig
import tempfile
import time
import zipfile

HERE = pathlib.Path(__file__).resolve().parent
TOP = HERE.parents[1]
PROJECT = TOP / "programs/python"
MODULES = ("__init__.py", "_events.py", "_expected.py", "_reasons.py", "_schema_files.py", "_xml.py", "py.typed")


class Lacking(Exception):
    """Something that the wheel needs is not there."""


def library_folder(version: str) -> pathlib.Path:
    """The folder of the built libraries."""
    named = pathlib.Path(os.environ.get("LIBRARY") or "build/library")
    folders = [TOP / named]
    if named == pathlib.Path("build/library"):
        folders.append(TOP / "build/unproved/library")
    for folder in folders:
        if (folder / f"lib/librncv.so.{version}").is_file():
            return folder
    raise Lacking(f"no librncv.so.{version} in {folders[0]}/lib. Run `make` first")


def stripped(path: pathlib.Path) -> bytes:
    """A library without what only those need who build with it, as far as `strip` is installed."""
    if not shutil.which("strip"):
        return path.read_bytes()
    with tempfile.TemporaryDirectory() as room:
        written = pathlib.Path(room) / path.name
        subprocess.run(["strip", "--strip-unneeded", "--remove-section=.comment", "--remove-section=.note", "-o", str(written), str(path)], check=True)
        return written.read_bytes()


def libraries(folder: pathlib.Path, version: str) -> dict[str, bytes]:
    """The libraries, by the names that the package looks for beside itself."""
    found = {}
    for name in ("librncv.so", "librncv_xml.so"):
        path = folder / f"lib/{name}.{version}"
        if path.is_file():
            found[f"rncv/{name}"] = stripped(path)
        else:
            print(f"wheel.py: without {name}, which is not in {path.parent}", file=sys.stderr)
    return found


def taken_from_system(written: list[bytes]) -> list[str]:
    """What the libraries take from the system: the newest version of the glibc of which they name a function, and other libraries."""
    joined = b"\n".join(written)
    needs = set(re.findall(rb"\0(lib(?!c\.|rncv)[a-z0-9_]+\.so\.[0-9]+)\0", joined))
    versions = [(int(major), int(minor)) for major, minor in re.findall(rb"\0GLIBC_([0-9]+)\.([0-9]+)", joined)]
    glibc = ["glibc (>={}.{})".format(*max(versions))] if versions else []
    return glibc + sorted(name.decode("ascii") for name in needs)


def metadata(release: str, needs: list[str], proved: bool) -> str:
    """The file METADATA."""
    project = (PROJECT / "pyproject.toml").read_text(encoding="utf-8")
    fields = dict(re.findall(r'^(description|requires-python) = "(.*)"$', project, re.MULTILINE))
    lines = [
        "Metadata-Version: 2.1",
        "Name: rncv",
        f"Version: {release}",
        f"Summary: {fields['description']}{'' if proved else ', built without proofs'}",
        "Platform: linux",
        "Classifier: Typing :: Typed",
        f"Requires-Python: {fields['requires-python']}",
    ]
    lines += [f"Requires-External: {need}" for need in needs]
    if (TOP / "LICENSE").is_file():
        lines.append("License-File: LICENSE")
    return "\n".join(lines) + "\n"


def record(files: dict[str, bytes], name: str) -> bytes:
    """The file RECORD: for each file its name, its SHA-256 and its length, and for itself the name alone."""
    lines = []
    for path, written in files.items():
        digest = base64.urlsafe_b64encode(hashlib.sha256(written).digest()).rstrip(b"=").decode("ascii")
        lines.append(f"{path},sha256={digest},{len(written)}\n")
    return "".join([*lines, f"{name},,\n"]).encode("utf-8")


def write_wheel(path: pathlib.Path, files: dict[str, bytes], date: int) -> None:
    """Writes the archive, in the order of the files. Its dates begin with 1980."""
    moment = max(time.gmtime(date)[:6], (1980, 1, 1, 0, 0, 0))
    with zipfile.ZipFile(path, "w", zipfile.ZIP_DEFLATED, compresslevel=9) as archive:
        for name, written in files.items():
            entry = zipfile.ZipInfo(name, moment)
            entry.create_system, entry.external_attr, entry.compress_type = 3, 0o100644 << 16, zipfile.ZIP_DEFLATED
            archive.writestr(entry, written, compresslevel=9)


def main(folder: pathlib.Path) -> None:
    version = (TOP / "VERSION").read_text(encoding="ascii").strip()
    carried = libraries(library_folder(version), version)
    proved = b" (not proved)\0" not in carried["rncv/librncv.so"]
    release = version if proved else f"{version}.dev0+unproved"
    platform = re.sub(r"[-.]", "_", sysconfig.get_platform())
    date = int(subprocess.run([HERE / "date.sh"], check=True, stdout=subprocess.PIPE).stdout)
    needs = taken_from_system(list(carried.values()))

    files = {f"rncv/{name}": (PROJECT / "rncv" / name).read_bytes() for name in MODULES} | carried
    info = f"rncv-{release}.dist-info"
    if (TOP / "LICENSE").is_file():
        files[f"{info}/LICENSE"] = (TOP / "LICENSE").read_bytes()
    files[f"{info}/METADATA"] = metadata(release, needs, proved).encode("utf-8")
    files[f"{info}/WHEEL"] = f"Wheel-Version: 1.0\nGenerator: rncv-packaging\nRoot-Is-Purelib: false\nTag: py3-none-{platform}\n".encode("ascii")
    files[f"{info}/RECORD"] = record(files, f"{info}/RECORD")

    folder.mkdir(parents=True, exist_ok=True)
    path = folder / f"rncv-{release}-py3-none-{platform}.whl"
    write_wheel(path, files, date)
    if not proved:
        print("wheel.py: the libraries were built without proofs (make try)", file=sys.stderr)
    print(f"wheel.py: the libraries need {', '.join(needs)}", file=sys.stderr)
    print(path)


if __name__ == "__main__":
    try:
        main(pathlib.Path(sys.argv[1]).absolute() if len(sys.argv) > 1 else TOP / "build/package")
    except Lacking as error:
        print(f"wheel.py: {error}", file=sys.stderr)
        sys.exit(1)
