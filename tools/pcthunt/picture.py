"""A run as lanes: what each step changed, where each thread is blocked, and the picture as text."""

from __future__ import annotations

from collections.abc import Iterator
from dataclasses import dataclass

from pcthunt.output import cut_line, shown
from pctmodel.run import Event, World, replay
from pctmodel.script import Script
from pctmodel.trace import Trace

MOST_COLUMNS = 99


@dataclass
class Step:
    """A step of a run, with what it changed for the other threads. Numbers count from 1, lines of the script too."""

    number: int
    thread: str
    line: int
    label: str  # what was asked, and the answer
    lowered: int  # the value to which a change point lowers the thread after it, or 0
    blocked: dict[str, str]  # by thread that couldn't go on before the step: what it asked
    ended: set[str]  # the threads that had ended before it
    woken: list[str]  # the threads that it woke, which still can't go on
    released: list[str]  # the threads that couldn't go on before it, and can after it
    is_failing: bool = False


@dataclass
class Picture:
    """A run as it is drawn: its threads in the order of their declaration, its steps and its verdict."""

    threads: list[str]
    steps: list[Step]
    verdict: str
    stuck: dict[str, str]  # by thread that waits at the end: what it asks
    text: list[str]  # the lines of the script, without what stands before and after them
    left_out: tuple[int, int] = (0, 0)  # how many steps before and after those that are shown


class Departs(Exception):
    """The trace isn't a run of the script: the first step that differs."""


def words_of(world: World, name: str) -> str:
    """What the thread asks, and of the second half of a wait whether its signal came."""
    ask = world.bodies[name].ask or ("",)
    words = " ".join(map(str, ask))
    if ask[0] == "regain":
        return f"{words} ({'signalled' if name in world.store.woken[ask[1]] else 'not signalled'})"
    return words


def blocked_in(world: World) -> dict[str, str]:
    """By thread that has something to ask and can't go on, what it asks."""
    ready = world.ready()
    return {name: words_of(world, name) for name, body in world.bodies.items() if body.ask and name not in ready}


def ended_in(world: World) -> set[str]:
    return {name for name, body in world.bodies.items() if body.ask is None}


def waiting_in(world: World) -> set[str]:
    return {thread for waiting in world.store.waiting.values() for thread in waiting}


@dataclass
class Standing:
    """Between two steps who can't go on and what they ask, who has ended, and who waits for a signal."""

    blocked: dict[str, str]
    ended: set[str]
    waiting: set[str]

    @classmethod
    def of(cls, world: World) -> Standing:
        return cls(blocked_in(world), ended_in(world), waiting_in(world))


def next_step(world: World, event: Event, number: int, lowered: int, before: Standing) -> tuple[Step, Standing]:
    """Makes the step in the world, and gives what it changed, and how all stand then."""
    world.step(event.thread)
    after = Standing.of(world)
    released = [name for name in before.blocked if name not in after.blocked and name != event.thread]
    signalled = before.waiting - after.waiting
    woken = [name for name in after.blocked if name in signalled]
    label = f"{' '.join(map(str, event.ask))} = {event.answer}"
    step = Step(number, event.thread, event.line, label, lowered, before.blocked, before.ended, woken, released)
    return step, after


def picture_of(script: Script, trace: Trace, text: list[str], first: int = 1, last: int | None = None) -> Picture:
    """The picture of the steps from the first to the last one that is wanted."""
    departure = replay(script, trace)
    if departure:
        raise Departs(departure[0])
    return drawn(script, trace, text, first, len(trace.events) if last is None else min(last, len(trace.events)))


def drawn(script: Script, trace: Trace, text: list[str], first: int, last: int) -> Picture:
    """The picture of a trace that is a run of the script."""
    world, steps = World(script), []
    standing: Standing | None = None
    lowered = {point: value for value, point in enumerate(trace.points, 1)}  # of equal points the last one counts
    for number, event in enumerate(trace.events, 1):
        if first <= number <= last:
            step, standing = next_step(world, event, number, lowered.get(number, 0), standing or Standing.of(world))
            steps.append(step)
        else:
            world.step(event.thread)
    kind, *rest = trace.verdict.split()
    is_whole = last == len(trace.events)
    if steps and is_whole and kind in ("failed", "misuse", "fault"):
        steps[-1].is_failing = True
    at_end = blocked_in(world)
    stuck = {name: at_end[name] for name in rest[0::2]} if kind == "stuck" and is_whole else {}
    left_out = (min(first - 1, len(trace.events)), len(trace.events) - last)
    return Picture(list(script.threads), steps, trace.verdict, stuck, text, left_out)


def lines_of(data: bytes) -> list[str]:
    """The lines of a script, with what acts on a terminal shown by its code."""
    return [cut_line(shown(line.strip())) for line in data.decode().split("\n")]


def cell_of(step: Step) -> str:
    """A step in its lane: `!` before the failing one, `v` and the value where its thread is lowered after it, `~>`
    before whom it wakes, and `->` before whom it releases."""
    parts = ["!" + step.label if step.is_failing else step.label]
    if step.lowered:
        parts.append(f"v{step.lowered}")
    for sign, names in (("~>", step.woken), ("->", step.released)):
        if names:
            parts.append(f"{sign} {','.join(names)}")
    return " ".join(parts)


def rows_of(picture: Picture) -> Iterator[list[str]]:
    """For each step what stands in each lane: `:` where the thread is blocked, with what it asks at first, `|` where it
    can go on, and nothing where it has ended."""
    before: dict[str, str] = {}
    for step in picture.steps:
        row = []
        for name in picture.threads:
            if name == step.thread:
                row.append(cell_of(step))
            elif name in step.blocked:
                is_told = before.get(name) == step.blocked[name]
                row.append(":" if is_told else f": {step.blocked[name]}")
            else:
                row.append("" if name in step.ended else "|")
        before = {name: ask for name, ask in step.blocked.items() if name != step.thread}
        yield row


def wide_lines(picture: Picture, columns: int) -> Iterator[str]:
    """A column for each thread, with what it does."""
    rows = list(rows_of(picture))
    last = [f"! {picture.stuck[name]}" if name in picture.stuck else "" for name in picture.threads]
    widths = [max(map(len, lane)) for lane in zip(picture.threads, last, *rows)]

    def put(cells: list[str]) -> str:
        return "  ".join(cell.ljust(width) for cell, width in zip(cells, widths))

    margin = margin_of(picture)
    yield f"{'step':>{margin}}  {put(picture.threads)}  line"
    for step, row in zip(picture.steps, rows):
        begin = f"{step.number:>{margin}}  {put(row)}  {step.line}: "
        yield begin + cut_comment(picture.text[step.line - 1], columns - len(begin))
    if picture.stuck:
        yield f"{'':>{margin}}  {put(last)}".rstrip()


def margin_of(picture: Picture) -> int:
    return max(4, len(str(picture.steps[-1].number if picture.steps else 0)))


def cut(text: str, width: int) -> str:
    return text if len(text) <= width else text[:max(0, width - 2)] + ".."


def cut_comment(text: str, width: int) -> str:
    """The line of a script, without its comment where that doesn't fit."""
    return text if len(text) <= width else text.split("#")[0].rstrip()


def name_lines(threads: list[str], margin: int, columns: int) -> Iterator[str]:
    """The threads with their numbers."""
    line = ""
    for place, name in enumerate(threads, 1):
        told = f"  {place} {name}"
        if line and margin + len(line) + len(told) > columns:
            yield f"{'':>{margin}}{line}"
            line = ""
        line += told
    yield f"{'':>{margin}}{line}"


def narrow_lines(picture: Picture, columns: int) -> Iterator[str]:
    """A sign for each thread, and behind them what the step does: `*` takes the step, `:` is blocked, `|` can go on."""
    margin, many = margin_of(picture), len(picture.threads)
    between = " " if many <= 16 else ""
    numbers = [str(place % 10) for place in range(1, many + 1)]
    yield from name_lines(picture.threads, margin, columns)
    yield f"{'step':>{margin}}  {between.join(numbers)}"
    told = {step.number: f"{step.thread}: {cell_of(step)}" for step in picture.steps}
    stuck = [f"{name}: ! {ask}" for name, ask in picture.stuck.items()]
    room = columns - margin - 4 - len(between.join(numbers))
    longest = min(max(map(len, [*told.values(), *stuck]), default=0), room * 2 // 3)
    for step in picture.steps:
        signs = ["*" if name == step.thread else ":" if name in step.blocked else " " if name in step.ended else "|"
                 for name in picture.threads]
        line = cut(cut_comment(f"{step.line}: {picture.text[step.line - 1]}", room - longest - 2), room - longest - 2)
        does = cut(told[step.number], longest).ljust(longest)
        yield f"{step.number:>{margin}}  {between.join(signs)}  {does}  {line}".rstrip()
    for name, ask in picture.stuck.items():
        signs = ["!" if name == other else " " for other in picture.threads]
        yield f"{'':>{margin}}  {between.join(signs)}  {cut(f'{name}: ! {ask}', room)}"


def text_lines(picture: Picture, columns: int = MOST_COLUMNS) -> Iterator[str]:
    """The picture for a terminal: wide lanes where they take at most this many columns, else narrow ones."""
    lines = list(wide_lines(picture, columns))
    if max(map(len, lines)) > columns:
        lines = list(narrow_lines(picture, columns))
    before, after = picture.left_out
    if before:
        lines.insert(1, f"..    {before} steps before are left out")
    yield from lines
    if after:
        yield f"..    {after} steps after are left out"
    yield f"verdict {picture.verdict}"
