"""Places and names: of an address in the code its file and line, of one in data its global."""

from __future__ import annotations

import bisect
import re
import subprocess
from collections.abc import Iterable, Sequence
from dataclasses import dataclass

from pcttry.runner import Module

# Files whose lines say nothing of the program: of the compiler, the library and the runtime.
NOT_THE_USERS = re.compile(r"^(/usr/(include|lib|src)/|/build/|\?\?)|/native/c/stand_\w+\.c|"
                           r"/(sysdeps|nptl|csu|libstdc\+\+-v3)/")


@dataclass(frozen=True)
class Place:
    """A line of a source, and the function around it."""

    function: str
    file: str
    line: int

    def short(self) -> str:
        return f"{self.file.rsplit('/', 1)[-1]}:{self.line}"


def is_users(place: Place) -> bool:
    return not NOT_THE_USERS.search(place.file)


def run(words: Sequence[str], text: str = "") -> str:
    try:
        return subprocess.run(words, input=text, capture_output=True, text=True, check=False, errors="replace").stdout
    except OSError:
        return ""


def place_of(function: str, where: str) -> Place:
    file, _, line = where.partition(" ")[0].rpartition(":")
    return Place(function, file, int(line) if line.isdigit() else 0)


def places_of(lines: Sequence[str]) -> list[list[Place]]:
    """Of addr2line's answer, for each address its places, the innermost first."""
    found: list[list[Place]] = []
    i = 0
    while i < len(lines):
        if lines[i].startswith("0x"):
            found.append([])
            i += 1
            continue
        found[-1].append(place_of(lines[i], lines[i + 1] if i + 1 < len(lines) else "??:0"))
        i += 2
    return found


class Symbols:
    """The debug information and the names of a program's files."""

    def __init__(self, modules: Iterable[Module], program: str) -> None:
        self.modules = [Module(it.base, it.end, it.path or program) for it in modules]
        self.places: dict[int, list[Place]] = {}
        self.globals: dict[str, tuple[list[int], list[tuple[int, str]]]] = {}

    def module_of(self, address: int) -> Module | None:
        return next((it for it in self.modules if it.base <= address < it.end and "/" in it.path), None)

    def look_up(self, addresses: Iterable[int]) -> None:
        """Asks for many at once, a return address being one past its call."""
        wanted: dict[Module, list[int]] = {}
        for address in set(addresses) - self.places.keys():
            module = self.module_of(address)
            self.places[address] = []
            if module:
                wanted.setdefault(module, []).append(address)
        for module, group in wanted.items():
            offsets = "".join(f"{address - 1 - module.base:#x}\n" for address in group)
            lines = run(["addr2line", "-a", "-f", "-i", "-C", "-e", module.path], offsets).splitlines()
            self.places.update(zip(group, places_of(lines), strict=False))

    def users(self, frames: Sequence[int]) -> list[Place]:
        """The places of the program's own code among the frames, the innermost first."""
        self.look_up(frames)
        return [place for frame in frames for place in self.places[frame] if is_users(place)]

    def place(self, frames: Sequence[int]) -> Place | None:
        """Where a call or an access stands in the program's own code; else where it stands at all."""
        users = self.users(frames)
        if users:
            return users[0]
        known = [place for frame in frames for place in self.places[frame] if place.line]
        return known[0] if known else None

    def table(self, path: str) -> tuple[list[int], list[tuple[int, str]]]:
        if path not in self.globals:
            rows = []
            for line in run(["nm", "-C", "-S", "--defined-only", path]).splitlines():
                words = line.split(" ", 3)
                if len(words) == 4 and words[2] in "bBdDrRuVvtTwW":
                    rows.append((int(words[0], 16), int(words[1], 16), words[3]))
            rows.sort()
            self.globals[path] = ([row[0] for row in rows], [(row[1], row[2]) for row in rows])
        return self.globals[path]

    def name(self, address: int) -> str | None:
        """The global or the function at an address, with how far in it that is."""
        module = self.module_of(address)
        if not module:
            return None
        starts, rows = self.table(module.path)
        i = bisect.bisect_right(starts, address - module.base) - 1
        if i < 0 or address - module.base >= starts[i] + max(1, rows[i][0]):
            return None
        within = address - module.base - starts[i]
        return rows[i][1] + (f"+{within}" if within else "")
