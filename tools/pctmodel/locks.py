"""Lock orders for the model: one order of the mutexes in which a run nested them, or a cycle of nestings."""

from __future__ import annotations

from typing import NamedTuple, Union

from pctmodel.run import Event
from pctmodel.script import Script


class Nesting(NamedTuple):
    """A thread takes a mutex at a step, while it holds another one."""

    step: int
    thread: str
    held: str
    taken: str


Report = Union[list[str], list[Nesting]]


def mutex_taken(event: Event) -> str | None:
    """The mutex that the step takes, or None."""
    word = event.ask[0]
    if word == "lock" or (word == "trylock" and event.answer == 1):
        return str(event.ask[1])
    return str(event.ask[2]) if word == "regain" else None


def mutex_given(event: Event) -> str | None:
    """The mutex that the step gives back, or None."""
    place = {"unlock": 1, "release": 2}.get(event.ask[0])
    return None if place is None else str(event.ask[place])


def holds(events: list[Event], thread: str, mutex: str, place: int) -> bool:
    """Whether the thread holds the mutex before the step at the place: it took it, and gave it back by no later
    step."""
    own = [event for event in events[:place] if event.thread == thread]
    takes = [at for at, event in enumerate(own) if mutex_taken(event) == mutex]
    return any(all(mutex_given(event) != mutex for event in own[at + 1 :]) for at in takes)


def nestings_of(script: Script, events: list[Event]) -> list[Nesting]:
    """Each step that takes a mutex while its thread holds another one, by its number from 1."""
    found: list[Nesting] = []
    for place, event in enumerate(events):
        taken = mutex_taken(event)
        if taken is not None:
            found += [Nesting(place + 1, event.thread, held, taken)
                      for held in script.objects["mutex"] if holds(events, event.thread, held, place)]
    return found


def lock_order(script: Script, nestings: list[Nesting]) -> Report:
    """The order as a list of names, or the cycle as a list of nestings."""
    remaining, order = list(script.objects["mutex"]), []
    while remaining:
        taken = {nest.taken for nest in nestings if nest.held in remaining}
        free = [mutex for mutex in remaining if mutex not in taken]
        if not free:
            return cycle_of(remaining, nestings)
        order.append(free[0])
        remaining.remove(free[0])
    return order


def cycle_of(remaining: list[str], nestings: list[Nesting]) -> list[Nesting]:
    """The cycle that a walk meets, from each mutex to the lowest that remains and was held where it was taken."""
    walk = [remaining[0]]
    while walk[-1] not in walk[:-1]:
        walk.append(next(mutex for mutex in remaining
                         if any(nest.held == mutex and nest.taken == walk[-1] for nest in nestings)))
    part = walk[walk.index(walk[-1]) + 1 :][::-1]  # read backwards, each is held where the next one is taken
    lowest = part.index(min(part, key=remaining.index))
    part = part[lowest:] + part[:lowest]
    return [next(nest for nest in nestings if (nest.held, nest.taken) == pair)
            for pair in zip(part, part[1:] + part[:1])]


def is_good(script: Script, nestings: list[Nesting], report: Report) -> bool:
    """Whether the report is right, by what a good order and a good cycle are alone."""
    cycle = [item for item in report if isinstance(item, Nesting)]
    if cycle:
        follows = all(nest.taken == after.held for nest, after in zip(cycle, cycle[1:] + cycle[:1]))
        return follows and len(cycle) == len(report) and all(nest in nestings for nest in cycle)
    order = [item for item in report if isinstance(item, str)]
    lists_each_once = sorted(order) == sorted(script.objects["mutex"])
    return lists_each_once and all(order.index(nest.held) < order.index(nest.taken) for nest in nestings)
