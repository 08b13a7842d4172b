"""The archive that ./dist makes, unpacked, for checks of what is installed."""

from __future__ import annotations

import pathlib
import subprocess

TOP = pathlib.Path(__file__).resolve().parent.parent


def leave() -> list[str]:
    """The word by which ./dist and ./install take an unproved program, where this checkout has one."""
    said = subprocess.run([TOP / "bin" / "pct", "--version"], capture_output=True, text=True, check=False)
    return ["--unproved"] if said.stdout.endswith("unproved\n") else []


def unpacked(room: pathlib.Path) -> pathlib.Path | None:
    """The files of the archive below a prefix of their own; none where there is no archive."""
    made = subprocess.run([TOP / "dist", *leave(), room], capture_output=True, text=True, check=False)
    archives = list(room.glob("pct-*.tar.gz"))
    if made.returncode or len(archives) != 1:
        print(made.stdout + made.stderr)
        return None
    prefix = room / "prefix"
    prefix.mkdir()
    subprocess.run(["tar", "-C", prefix, "--strip-components", "1", "-xzf", archives[0]], check=True)
    return prefix
