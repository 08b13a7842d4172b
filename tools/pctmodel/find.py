"""From a failing run to a short directive, for the model: the moments of its change points, of which those are left out
that its verdict doesn't need."""

from __future__ import annotations

from pctmodel.directive import Moment, directed_run
from pctmodel.run import Event
from pctmodel.script import Script


def moments_of(events: list[Event], points: list[int]) -> list[Moment]:
    """For each point within the run, the thread of that step and the number of its own step; of equal points the
    last."""
    moments = []
    for index, point in enumerate(points):
        if point <= len(events) and point not in points[index + 1 :]:
            thread = events[point - 1].thread
            moments.append((thread, sum(event.thread == thread for event in events[:point])))
    return moments


def reduced(script: Script, order: list[str], moments: list[Moment], verdict: str, limit: int) -> list[Moment]:
    """The moments without the first one that can be left out, and so on."""
    for place in range(len(moments)):
        others = moments[:place] + moments[place + 1 :]
        if directed_run(script, order, others, limit)[1] == verdict:
            return reduced(script, order, others, verdict, limit)
    return moments
