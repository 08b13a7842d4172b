"""Sweeps for the model, by brute force: the run of every order with every list of points, each made once."""

from __future__ import annotations

import itertools
import json
import math
from collections.abc import Iterator
from typing import Any, NamedTuple

from pctmodel.campaign import Frame
from pctmodel.run import run
from pctmodel.script import Script

MOST_CHOICES = 100_000_000


class Choice(NamedTuple):
    order: list[str]
    points: list[int]


class Ending(NamedTuple):
    choice: Choice
    steps: int
    verdict: str


class SweptGroup(NamedTuple):
    count: int  # type: ignore[assignment]  # tuples have a method of that name
    steps: int
    first: int
    verdict: str


def orders_of(threads: list[str]) -> list[list[str]]:
    """All orders of threads: the last one varies slowest, from the last thread to the first."""
    if not threads:
        return [[]]
    orders: list[list[str]] = []
    for last in range(len(threads) - 1, -1, -1):
        orders += [[*order, threads[last]] for order in orders_of(threads[:last] + threads[last + 1 :])]
    return orders


def has_too_many(script: Script, depth: int, steps: int) -> bool:
    """Whether there are more than 100,000,000 choices of that depth, 1 to 8, with points from 1 to `steps`."""
    points: int = steps ** (depth - 1)
    return math.factorial(len(script.threads)) * points > MOST_CHOICES


def endings_of(script: Script, depth: int, steps: int, limit: int) -> list[Ending]:
    """How each choice ends, in their order: the points vary fastest, and of them the last."""
    endings = []
    for order in orders_of(list(script.threads)):
        for points in itertools.product(range(1, steps + 1), repeat=depth - 1):
            events, verdict = run(script, order, list(points), limit)
            endings.append(Ending(Choice(order, list(points)), len(events), verdict))
    return endings


def groups_of_endings(endings: list[Ending]) -> list[SweptGroup]:
    """The verdicts but passed: those of most choices first, then of the fewest steps, then of the earliest choice."""
    groups = []
    for verdict in dict.fromkeys(ending.verdict for ending in endings if ending.verdict != "passed"):
        places = [place for place, ending in enumerate(endings) if ending.verdict == verdict]
        shortest = min(endings[place].steps for place in places)
        groups.append(SweptGroup(len(places), shortest, places[0], verdict))
    return sorted(groups, key=lambda group: (-group.count, group.steps, group.first))


def sweep_text(frame: Frame, endings: list[Ending]) -> Iterator[str]:
    """The lines of the report on a sweep as text."""
    groups = groups_of_endings(endings)
    yield "sweep 1"
    for name, value in frame._asdict().items():
        yield f"{name} {value}"
    yield f"choices {len(endings)}"
    yield f"groups {len(groups)}"
    for group in groups:
        choice = endings[group.first].choice
        words = [group.count, group.steps, "order", *choice.order, "points", *choice.points, "verdict", group.verdict]
        yield " ".join(map(str, words))
    yield f"passed {len(endings) - sum(group.count for group in groups)}"


def sweep_json(frame: Frame, endings: list[Ending]) -> str:
    """The report on a sweep as one line of JSON."""
    groups = groups_of_endings(endings)
    told: list[dict[str, Any]] = []
    for group in groups:
        choice = endings[group.first].choice
        told.append({"count": group.count, "order": choice.order, "points": choice.points, "steps": group.steps})
        told[-1]["verdict"] = group.verdict
    passed = len(endings) - sum(group.count for group in groups)
    report = {**frame._asdict(), "choices": len(endings), "groups": told, "passed": passed}
    return json.dumps(report, sort_keys=True, separators=(",", ":"))
