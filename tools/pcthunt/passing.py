"""The run beside a failing one that passes: the same order, with one point left out or put to another step."""

from __future__ import annotations

from collections.abc import Iterator
from typing import NamedTuple

from pcthunt.document import run_of
from pcthunt.states import Json
from pctmodel.run import World, run
from pctmodel.script import Script
from pctmodel.trace import Trace

MOST_MODEL_STEPS = 1_000_000


class Change(NamedTuple):
    """What is done to the points: the point of that place, from 0, is left out or put to another step."""

    place: int
    to: int | None

    def made(self, points: list[int]) -> list[int]:
        return points[:self.place] + ([] if self.to is None else [self.to]) + points[self.place + 1:]

    def says(self, points: list[int]) -> str:
        old = points[self.place]
        if self.to is None:
            return f"without the change point after step {old}"
        return f"with the change point after step {self.to} in place of {old}"


def changes(points: list[int], steps: int) -> Iterator[Change]:
    """Each point left out, and then each put to each other step."""
    yield from (Change(place, None) for place in range(len(points)))
    for place, point in enumerate(points):
        yield from (Change(place, step) for step in range(1, steps + 1) if step != point)


class Failing:
    """The failing run, with the threads that can go before each of its steps."""

    def __init__(self, script: Script, trace: Trace) -> None:
        self.trace = trace
        self.threads = [event.thread for event in trace.events]
        self.ready: list[list[str]] = []
        world = World(script)
        for thread in self.threads:
            self.ready.append(world.ready())
            world.step(thread)

    def ranks(self, points: list[int], steps: int) -> dict[str, int]:
        """The priorities after this many steps of the run, under these points."""
        order = self.trace.order
        ranks = {name: len(points) + len(order) - place for place, name in enumerate(order)}
        for point, value in sorted((point, value) for value, point in enumerate(points, 1)):
            if point <= steps:
                ranks[self.threads[point - 1]] = value
        return ranks

    def beginning(self, change: Change) -> int:
        """How many steps the run of the changed points has in common with this one, from the first on."""
        points, old = change.made(self.trace.points), self.trace.points[change.place]
        common = min(old, change.to or old, len(self.threads))
        ranks = self.ranks(points, common)
        while common < len(self.threads) and max(self.ready[common], key=ranks.__getitem__) == self.threads[common]:
            common += 1
            if common in points:
                ranks = self.ranks(points, common)
        return common


def passing_run(script: Script, trace: Trace, file: str) -> Json | None:
    """Of those that pass, that with the longest common beginning, of equal ones the first. They are made in this order;
    one that has all steps of the failing run in common isn't, as it is that run."""
    failing, made = Failing(script, trace), 0
    found = [(failing.beginning(change), change) for change in changes(trace.points, len(trace.events))]
    for common, change in sorted(found, key=lambda it: -it[0]):
        if common == len(trace.events):
            continue
        points = change.made(trace.points)
        events, verdict = run(script, trace.order, points, trace.limit)
        made += len(events)
        if verdict == "passed":
            other = Trace(trace.version, trace.order, points, trace.limit, events, verdict)
            return {"run": run_of(script, other, file), "change": {"point": change.place, "to": change.to},
                    "says": change.says(trace.points), "differs": common + 1}
        if made > MOST_MODEL_STEPS:
            return None
    return None
