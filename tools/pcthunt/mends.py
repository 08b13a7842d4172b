"""What mends a line of a script."""

from __future__ import annotations

from dataclasses import dataclass

from pcthunt.forms import Scope


@dataclass(frozen=True)
class Mend:
    """What was wanted, and the lines that stand in the place of the faulty one; other lines are changed by `edits`: a
    line's number, from 1, and what stands there then."""

    word: str
    wanted: str
    lines: tuple[str, ...] | None = None
    edits: tuple[tuple[int, tuple[str, ...]], ...] = ()


def mended_text(text: str, line: int, mend: Mend) -> str | None:
    """The text with the mend, or None where none is proposed."""
    if mend.lines is None and not mend.edits:
        return None
    lines = text.split("\n")
    if lines and lines[-1] == "":
        lines.pop()
    changed: dict[int, tuple[str, ...]] = dict(mend.edits)
    if mend.lines is not None:
        changed[line] = mend.lines
    out: list[str] = []
    for number in range(1, max([len(lines), *changed]) + 1):
        out += changed.get(number, (lines[number - 1],) if number <= len(lines) else ())
    return "\n".join(out) + "\n"


def header_edit(scope: Scope, version: int) -> tuple[tuple[int, tuple[str, ...]], ...]:
    """The edit that puts a header of this version, 1 to 3, in the place of the script's."""
    return ((scope.header, (f"script {version}",)),)


def write(form: str) -> str:
    """The proposal to write a form."""
    return f"write `{form}`"
