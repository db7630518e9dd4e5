#!/usr/bin/env python3
"""Runs the instructions of the Dockerfile without a builder of images, in an empty root that debootstrap makes, and judges documents there.

    programs/packaging/image_steps.py [FOLDER]      (FOLDER, else build/package, is the context: it has the Debian package)

This needs root, debootstrap, the network, and 500 MB below TMPDIR. It takes minutes. If it is not root, or if there is no debootstrap, a line says so, and
the status is 0. If a step fails, or the folder lacks the package, a line says so, and the status is 2. Each step has its own root, but the network, the
processes and the users of the machine.
"""

import json
import os
import pathlib
import re
import shlex
import shutil
import subprocess
import sys
import tempfile

HERE = pathlib.Path(__file__).resolve().parent
TOP = HERE.parents[1]
LETTER = TOP / "examples/letter"
# The names of Debian's releases, for debootstrap.
RELEASES = {"11": "bullseye", "12": "bookworm", "13": "trixie"}
ENVIRONMENT = {"PATH": "/usr/local/sbin:/usr/local/bin:/usr/sbin:/usr/bin:/sbin:/bin", "HOME": "/root"}


class Image:
    """The root of an image, as far as the instructions have made it."""

    def __init__(self, root: pathlib.Path, context: pathlib.Path) -> None:
        self.root, self.context = root, context
        self.arguments: dict[str, str] = {}
        self.folder, self.entry = "/", [""]

    def follow(self, instruction: str, rest: str) -> None:
        """Does what one instruction says. ValueError: this script does not know it."""
        if instruction == "ARG":
            name, _, value = rest.partition("=")
            self.arguments[name] = value
        elif instruction == "FROM":
            self._base(re.sub(r"\$(\w+)", lambda found: self.arguments[found[1]], rest))
        elif instruction == "COPY":
            self._copy(*shlex.split(rest))
        elif instruction == "RUN":
            self.run(["/bin/sh", "-c", rest], check=True)
        elif instruction == "WORKDIR":
            self.folder = rest
            (self.root / rest.lstrip("/")).mkdir(parents=True, exist_ok=True)
        elif instruction == "ENTRYPOINT":
            self.entry = json.loads(rest)
        else:
            raise ValueError(f"an instruction that is not known: {instruction}")

    def run(self, words: list[str], check: bool = False, text: str = "") -> "subprocess.CompletedProcess[str]":
        """Runs a command in the root. With `check`, what it prints is shown, and a failure is a CalledProcessError."""
        inside = ["chroot", str(self.root), "/bin/sh", "-c", 'cd "$0" && exec "$@"', self.folder, *words]
        return subprocess.run(inside, env=ENVIRONMENT, check=check, input=text, encoding="utf-8", capture_output=not check)

    def _base(self, name: str) -> None:
        release = re.fullmatch(r"debian:(\d+)(-slim)?", name)
        if not release:
            raise ValueError(f"a base that is not known: {name}")
        subprocess.run(["debootstrap", "--variant=minbase", RELEASES[release[1]], str(self.root)], check=True, stdin=subprocess.DEVNULL)

    def _copy(self, pattern: str, folder: str) -> None:
        found = sorted(self.context.glob(pattern))
        if not found:
            raise ValueError(f"no {pattern} in {self.context}")
        for path in found:
            shutil.copy(path, self.root / folder.lstrip("/"))


def instructions(text: str) -> list[list[str]]:
    """The instructions of a Dockerfile, each with its words. A line that ends with a backslash goes on in the next one."""
    lines = [line for line in text.splitlines() if line.strip() and not line.lstrip().startswith("#")]
    return [line.split(None, 1) for line in "\n".join(lines).replace("\\\n", " ").splitlines()]


def judged(image: Image) -> list[str]:
    """What is wrong with the answers in the image."""
    for name in ("s.rnc", "letter.xml", "untitled.xml"):
        shutil.copy(LETTER / name, image.root / image.folder.lstrip("/"))
    document = (LETTER / "document.pyx").read_text(encoding="utf-8")
    script = "import rncv; print(rncv.compile('s.rnc').validate_xml('letter.xml'))"
    wrong = []
    for words, text, wanted in (
        ([*image.entry, "s.rnc", "letter.xml"], "", (0, None)),
        ([*image.entry, "s.rnc", "untitled.xml"], "", (1, None)),
        (["rncv", "valid", "s.rnc"], document, (0, "valid\n")),
        (["python3", "-c", script], "", (0, "valid\n")),
    ):
        done = image.run(words, text=text)
        if done.returncode != wanted[0] or wanted[1] not in (None, done.stdout):
            wrong.append(f"{shlex.join(words)}: status {done.returncode}: {done.stdout}{done.stderr}")
        else:
            print(f"image_steps.py: as wanted, status {done.returncode}: {shlex.join(words)}", flush=True)
    return wrong


def main(context: pathlib.Path) -> int:
    if os.geteuid() != 0 or not shutil.which("debootstrap"):
        print("image_steps.py: skipped: " + ("there is no debootstrap" if os.geteuid() == 0 else "this is not root"))
        return 0
    if not any(context.glob("rncv_*.deb")):
        print(f"image_steps.py: no rncv_*.deb in {context}: make deb makes it", file=sys.stderr)
        return 2
    room = tempfile.mkdtemp()
    # also for what is no superuser in the root, such as apt
    os.chmod(room, 0o755)
    try:
        image = Image(pathlib.Path(room) / "root", context.resolve())
        for instruction, rest in instructions((HERE / "Dockerfile").read_text(encoding="utf-8")):
            print(f"image_steps.py: {instruction} {rest}", flush=True)
            image.follow(instruction, rest)
        wrong = judged(image)
    except (subprocess.CalledProcessError, OSError, ValueError) as error:
        print(f"image_steps.py: {error}", file=sys.stderr)
        return 2
    finally:
        # nothing of the machine that is mounted there
        subprocess.run(["rm", "-rf", "--one-file-system", room], check=False)
    for line in wrong:
        print(f"image_steps.py: {line}", file=sys.stderr)
    return 1 if wrong else 0


if __name__ == "__main__":
    sys.exit(main(pathlib.Path(sys.argv[1]) if len(sys.argv) > 1 else TOP / "build/package"))
