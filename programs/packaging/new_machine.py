#!/usr/bin/env python3
"""Tries README's first command where nothing is installed but the toolchain: `make try`, then `make install`, and judges an example.

    programs/packaging/new_machine.py

It copies the last commit into an empty root that debootstrap makes, which has make, Python 3 and the toolchain, and prints how long each command takes. `make
try` installs what is missing. This needs root, debootstrap, the network, and 2 GB below TMPDIR. It takes five minutes or more. If it is not root, or if there is
no debootstrap, a line says so, and the status is 0. If a step fails, a line says which, and the status is 2.
"""

import os
import pathlib
import shutil
import subprocess
import sys
import tempfile
import time

TOP = pathlib.Path(__file__).resolve().parents[2]
RELEASE = "bookworm"
ENVIRONMENT = {"PATH": "/usr/local/sbin:/usr/local/bin:/usr/sbin:/usr/bin:/sbin:/bin", "HOME": "/root", "DEBIAN_FRONTEND": "noninteractive"}


def toolchain() -> pathlib.Path:
    """The folder of the toolchain. ValueError: there is none."""
    rt = shutil.which("rt")
    if rt is None:
        raise ValueError("no rt: install the toolchain that README.md names")
    return pathlib.Path(rt).resolve().parents[1]


class Root:
    """An empty Debian root with the toolchain and a checkout. Leaving it unmounts what is mounted, and removes it."""

    def __init__(self, kit: pathlib.Path) -> None:
        self.room = pathlib.Path(tempfile.mkdtemp())
        self.path = self.room / "root"
        self.kit = kit
        self.mounted: list[pathlib.Path] = []

    def __enter__(self) -> "Root":
        # also for what is no superuser in the root, such as apt
        os.chmod(self.room, 0o755)
        return self

    def __exit__(self, *_: object) -> None:
        for place in reversed(self.mounted):
            subprocess.run(["umount", str(place)], check=True)
        subprocess.run(["rm", "-rf", "--one-file-system", str(self.room)], check=False)

    def mount(self, inside: str, *words: str) -> None:
        place = self.path / inside.lstrip("/")
        place.mkdir(parents=True, exist_ok=True)
        subprocess.run(["mount", *words, str(place)], check=True)
        self.mounted.append(place)

    def make(self) -> None:
        """Makes the root, with a link to `rt`, and a clone of the checkout in /rncv."""
        subprocess.run(["debootstrap", "--variant=minbase", "--include=make,python3,ca-certificates", RELEASE, str(self.path)], check=True,
                       stdin=subprocess.DEVNULL, stdout=subprocess.DEVNULL)
        self.mount("/proc", "-t", "proc", "proc")
        self.mount(str(self.kit), "--bind", "-o", "ro", str(self.kit))
        (self.path / "usr/local/bin/rt").symlink_to(self.kit / "bin/rt")
        subprocess.run(["git", "clone", "-q", "--depth", "1", TOP.as_uri(), str(self.path / "rncv")], check=True)

    def run(self, command: str) -> float:
        """Runs a command of the shell in the checkout, and returns its seconds."""
        print(f"new_machine.py: {command}", flush=True)
        begins = time.monotonic()
        subprocess.run(["chroot", str(self.path), "/bin/sh", "-ec", f"cd /rncv && {command}"], env=ENVIRONMENT, check=True)
        return time.monotonic() - begins


def main() -> int:
    if os.geteuid() != 0 or not shutil.which("debootstrap"):
        print("new_machine.py: skipped: " + ("there is no debootstrap" if os.geteuid() == 0 else "this is not root"))
        return 0
    try:
        with Root(toolchain()) as root:
            root.make()
            for command in ("make try", "make install PREFIX=/usr/local",
                            "ldconfig && rncv-xml --version && rncv-xml --all examples/letter/s.rnc examples/letter/letter.xml",
                            "rncv-lsp --version && PYTHONPATH=/usr/local/share/rncv/python python3 -c 'import rncv; print(rncv.version())'"):
                print(f"new_machine.py: {root.run(command):.0f} seconds", flush=True)
    except (subprocess.CalledProcessError, OSError, ValueError) as error:
        print(f"new_machine.py: {error}", file=sys.stderr)
        return 2
    return 0


if __name__ == "__main__":
    sys.exit(main())
