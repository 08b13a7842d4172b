"""A run in the form that is wanted, for tools/lanes."""

from __future__ import annotations

from collections.abc import Iterable, Iterator

from pcthunt.output import shown_lines
from pcthunt.picture import lines_of, picture_of, text_lines
from pctmodel.script import Script
from pctmodel.trace import Trace

LINES_AT_ONCE = 2000


def drawn(form: str, names: tuple[str, str], data: bytes, script: Script, trace: Trace, first: int,
          last: int | None) -> Iterator[str]:
    """The run as --html, --text or --svg, piece by piece."""
    if form == "--html":
        from pcthunt.page import page_of
        from pcthunt.traced import document_of_trace
        yield page_of(document_of_trace(names, data.decode(), script, trace))
        return
    picture = picture_of(script, trace, lines_of(data), first, last)
    if form == "--text":
        yield from map(shown_lines, pieces_of(text_lines(picture)))
        return
    from pcthunt.lanes_svg import svg_lines
    yield from pieces_of(svg_lines(picture))


def pieces_of(lines: Iterable[str]) -> Iterator[str]:
    """The lines, each ended, some thousand at once."""
    piece: list[str] = []
    for line in lines:
        piece.append(line)
        if len(piece) == LINES_AT_ONCE:
            yield "\n".join([*piece, ""])
            piece = []
    yield "\n".join([*piece, ""]) if piece else ""
