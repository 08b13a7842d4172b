"""The SVG of a run, for tools/lanes: time goes down, and each thread has a lane."""

from __future__ import annotations

from collections.abc import Iterator
from xml.sax.saxutils import escape

from pcthunt.picture import Picture, Step

ROW, TOP, CHARACTER, GAP = 26, 48, 7.3, 28
STYLE = """text { font: 12px monospace; fill: #222 }
.name { font-weight: bold } .number, .line { fill: #666 }
.lane { stroke: #bbb; stroke-width: 1 }
.step { fill: #fff; stroke: #446 } .failing { fill: #fdd; stroke: #c00 }
.blocked { fill: #ddd } .stuck { fill: #fbb } .asks { font-style: italic; fill: #666 }
.lowered { fill: #e80 }
.arrow { stroke: #080; fill: none; marker-end: url(#head) } .wakes { stroke-dasharray: 4 3 }"""


class Places:
    """Where the lanes and the rows are."""

    def __init__(self, picture: Picture) -> None:
        labels = {name: [name, picture.stuck.get(name, "")] for name in picture.threads}
        for step in picture.steps:
            labels[step.thread].append(step.label + "  ")
            for name, ask in step.blocked.items():
                labels[name].append(ask)
        widths = {name: CHARACTER * max(map(len, texts)) + 14 for name, texts in labels.items()}
        self.left: dict[str, float] = {}
        at = 52.0
        self.width = widths
        for name in picture.threads:
            self.left[name] = at
            at += widths[name] + GAP
        self.lines = at
        longest = max((len(told(picture, step)) for step in picture.steps), default=0)
        self.right = at + CHARACTER * longest + 20
        self.bottom = TOP + ROW * (len(picture.steps) + 1)

    def centre(self, name: str) -> float:
        return self.left[name] + self.width[name] / 2

    @staticmethod
    def top(number: int) -> int:
        """Of the row of a step, from 1."""
        return TOP + ROW * (number - 1)


def told(picture: Picture, step: Step) -> str:
    return f"{step.line}: {picture.text[step.line - 1]}"


def text_at(left: float, top: float, kind: str, text: str) -> str:
    return f'<text class="{kind}" x="{left:.1f}" y="{top + 17:.1f}">{escape(text)}</text>'


def box(places: Places, name: str, top: float, height: float, kind: str) -> str:
    left, width = places.left[name], places.width[name]
    return (f'<rect class="{kind}" x="{left:.1f}" y="{top:.1f}" width="{width:.1f}" '
            f'height="{height:.1f}" rx="3"/>')


def lane(picture: Picture, places: Places, name: str) -> Iterator[str]:
    """The line of a thread, from the first row to the one at which it has ended."""
    rows = sum(name not in step.ended for step in picture.steps) + (name in picture.stuck)
    centre = places.centre(name)
    yield text_at(places.left[name], TOP - 26, "name", name)
    yield (f'<line class="lane" x1="{centre:.1f}" y1="{TOP}" x2="{centre:.1f}" '
           f'y2="{TOP + ROW * rows}"/>')


def blocked_rows(picture: Picture, places: Places, name: str) -> Iterator[str]:
    """Grey in each row before whose step the thread is blocked, with what it asks where that
    begins."""
    before = None
    for number, step in enumerate(picture.steps, 1):
        ask = step.blocked.get(name)
        if ask:
            yield box(places, name, places.top(number), ROW, "blocked")
            if ask != before:
                yield text_at(places.left[name] + 6, places.top(number), "asks", ask)
        before = ask
    if name in picture.stuck:
        top = places.top(len(picture.steps) + 1)
        yield box(places, name, top, ROW - 4, "stuck")
        yield text_at(places.left[name] + 6, top, "asks", picture.stuck[name])


def step_box(picture: Picture, places: Places, number: int, step: Step) -> Iterator[str]:
    top = places.top(number)
    yield text_at(8, top, "number", f"{step.number:>5}")
    yield box(places, step.thread, top + 2, ROW - 4, "step failing" if step.is_failing else "step")
    yield text_at(places.left[step.thread] + 6, top, "ask", step.label)
    if step.lowered:
        right, middle = places.left[step.thread] + places.width[step.thread], top + ROW / 2
        yield (f'<path class="lowered" d="M{right - 14:.1f} {middle - 4:.1f}h10l-5 8z">'
               f"<title>{escape(step.thread)} is lowered to {step.lowered}</title></path>")
    yield text_at(places.lines, top, "line", told(picture, step))


def arrow(places: Places, number: int, step: Step, name: str, kind: str) -> str:
    """From a step to the lane of the thread that it wakes or releases, at the end of the row."""
    is_right = places.left[name] > places.left[step.thread]
    begin = places.left[step.thread] + (places.width[step.thread] if is_right else 0)
    top = places.top(number) + ROW / 2
    return (f'<path class="arrow {kind}" d="M{begin:.1f} {top:.1f}L{places.centre(name):.1f} '
            f'{top + ROW / 2 - 2:.1f}"/>')


def arrows(places: Places, number: int, step: Step) -> Iterator[str]:
    for name in step.released:
        yield arrow(places, number, step, name, "releases")
    for name in step.woken:
        yield arrow(places, number, step, name, "wakes")


def svg_lines(picture: Picture) -> Iterator[str]:
    """The lines of an SVG, in pixels of its own size, one row for each step of the picture."""
    places = Places(picture)
    yield (f'<svg xmlns="http://www.w3.org/2000/svg" width="{places.right:.0f}" '
           f'height="{places.bottom + 34:.0f}" role="img">')
    yield f"<title>verdict {escape(picture.verdict)}</title>"
    yield f"<style>{STYLE}</style>"
    yield ('<defs><marker id="head" markerWidth="8" markerHeight="8" refX="7" refY="4" '
           'orient="auto"><path d="M0 0L8 4L0 8z" fill="#080"/></marker></defs>')
    yield '<rect width="100%" height="100%" fill="#fff"/>'
    for name in picture.threads:
        yield from lane(picture, places, name)
        yield from blocked_rows(picture, places, name)
    for number, step in enumerate(picture.steps, 1):
        yield from step_box(picture, places, number, step)
    for number, step in enumerate(picture.steps, 1):
        yield from arrows(places, number, step)
    yield text_at(8, places.bottom + 4, "verdict", f"verdict {picture.verdict}")
    yield "</svg>"
