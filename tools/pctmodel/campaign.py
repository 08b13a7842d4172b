"""Campaigns for the model: a row for each seed, the groups of the rows that fail, both reports, and the large
script."""

from __future__ import annotations

import json
from collections.abc import Iterator
from typing import NamedTuple

from pctmodel.chacha import draws
from pctmodel.run import run
from pctmodel.script import Script


class Row(NamedTuple):
    seed: int
    steps: int
    verdict: str


class Group(NamedTuple):
    count: int  # type: ignore[assignment]  # tuples have a method of that name
    steps: int
    first: int
    verdict: str


class Frame(NamedTuple):
    """What all runs of a campaign share: threads, from how many steps points are drawn, depth and limit."""

    threads: int
    steps: int
    depth: int
    limit: int


def drawn(script: Script, seed: int, depth: int, steps: int) -> tuple[list[str], list[int]]:
    """The order and the points of a seed."""
    names = list(script.threads)
    _, places, points = draws(seed, len(names), steps, depth - 1)
    return [names[place] for place in places], points


def steps_in_declared_order(script: Script, limit: int) -> int:
    """From how many steps points are drawn where nothing else is said."""
    return max(1, len(run(script, list(script.threads), [], limit)[0]))


def rows_of(script: Script, first: int, count: int, depth: int, steps: int, limit: int) -> list[Row]:
    """A row for each of `count` seeds from the first on. Equal orders with equal points make one run."""
    rows: list[Row] = []
    runs: dict[tuple[tuple[str, ...], tuple[int, ...]], tuple[int, str]] = {}
    for place in range(count):
        seed = (first + place) % 2**64
        order, points = drawn(script, seed, depth, steps)
        drawn_as = (tuple(order), tuple(points))
        if drawn_as not in runs:
            events, verdict = run(script, order, points, limit)
            runs[drawn_as] = (len(events), verdict)
        rows.append(Row(seed, *runs[drawn_as]))
    return rows


def groups_of(rows: list[Row]) -> list[Group]:
    """The verdicts but passed: those of most rows first, then those of the fewest steps, then the earliest seeds by
    number."""
    groups = []
    for verdict in dict.fromkeys(row.verdict for row in rows if row.verdict != "passed"):
        of_it = [row for row in rows if row.verdict == verdict]
        groups.append(Group(len(of_it), min(row.steps for row in of_it), of_it[0].seed, verdict))
    return sorted(groups, key=lambda group: (-group.count, group.steps, group.first))


def text_lines(frame: Frame, rows: list[Row], groups: list[Group]) -> Iterator[str]:
    """The lines of the report as text."""
    yield "campaign 1"
    for name, value in frame._asdict().items():
        yield f"{name} {value}"
    for row in rows:
        yield f"{row.seed} {row.steps} {row.verdict}"
    yield f"groups {len(groups)}"
    for group in groups:
        yield f"{group.count} {group.steps} {group.first} {group.verdict}"


def json_line(frame: Frame, rows: list[Row], groups: list[Group]) -> str:
    """The report as one line of JSON."""
    report = {**frame._asdict(), "rows": rows, "groups": [group._asdict() for group in groups]}
    return json.dumps(report, sort_keys=True, separators=(",", ":"))


def big_script(pieces: int) -> str:
    """The text of the large script: eight threads that count in turn over eight variables, and one that adds up."""
    lines = ["script 1", *(f"var v{q} = 0" for q in range(8)), *(f"mutex m{q}" for q in range(8))]
    for thread in range(8):
        lines.append(f"thread T{thread}")
        for piece in range(pieces):
            q = (thread + piece) % 8
            first, last = ("yield", "yield") if piece % 4 == 0 else (f"lock m{q}", f"unlock m{q}")
            lines += [first, f"read r0 v{q}", f"write v{q} (r0 + 1)", last]
        lines.append("end")
    lines += ["thread Z", *(f"join T{thread}" for thread in range(8))]
    for q in range(8):
        lines += [f"read r0 v{q}", "set r1 (r1 + r0)"]
    return "\n".join([*lines, f"assert (r1 == {8 * pieces})", "end", ""])
