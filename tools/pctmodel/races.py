"""Data races for the model: which steps of a run nothing orders, by chains of edges between steps."""

from __future__ import annotations

from typing import NamedTuple

from pctmodel.run import Event
from pctmodel.script import Script


class Race(NamedTuple):
    """Two steps on a variable, by their numbers."""

    var: str
    first: int
    second: int


# By the word of an earlier step, the words of the later steps that it comes before where both are of the same object.
# The steps in TRIES are among them only where they were answered 1, those in WAKES only where they were answered above
# 0.
GIVES: dict[str, tuple[str, ...]] = {
    "unlock": ("lock", "trylock", "regain"), "release": ("lock", "trylock", "regain"),
    "signal": ("regain",), "broadcast": ("regain",),
    "up": ("down", "trydown"), "arrive": ("leave",),
    "rwunlock": ("rdlock", "wrlock", "tryrdlock", "trywrlock"),
    "add": ("add", "cas"), "cas": ("add", "cas"),
}
TRIES = ("trylock", "trydown", "tryrdlock", "trywrlock")
WAKES = ("signal", "broadcast")
PLAIN = ("read", "write")


def object_given(earlier: Event, later: Event) -> bool:
    """Of a wait's two halves, which name a condition and a mutex, that which the other step is about."""
    word, *names = earlier.ask
    at_condition = later.ask[0] == "regain" and word in WAKES
    mine = names[1] if word == "release" else names[0]
    theirs = later.ask[2] if later.ask[0] == "regain" and not at_condition else later.ask[1]
    return bool(mine == theirs)


def is_edge(earlier: Event, later: Event) -> bool:
    """Whether the first of two steps of a run comes before the second by itself."""
    word, later_word = earlier.ask[0], later.ask[0]
    if earlier.thread == later.thread:
        return True
    if word == "start" and earlier.ask[1] == later.thread:
        return True
    if later_word == "join" and later.ask[1] == earlier.thread:
        return True
    if later_word not in GIVES.get(word, ()) or not object_given(earlier, later):
        return False
    return (later_word not in TRIES or later.answer == 1) and (word not in WAKES or earlier.answer > 0)


def steps_before(events: list[Event]) -> list[int]:
    """For each step the set of those before it by a chain of edges: bit i for the step at place i."""
    before: list[int] = []
    for place, later in enumerate(events):
        chains = 0
        for other, earlier in enumerate(events[:place]):
            if is_edge(earlier, later):
                chains |= before[other] | 1 << other
        before.append(chains)
    return before


def changes(event: Event) -> bool:
    return event.ask[0] in ("write", "add") or (event.ask[0] == "cas" and event.answer == 1)


def conflict(one: Event, other: Event) -> bool:
    """Whether two steps on one variable race where nothing orders them."""
    is_plain = one.ask[0] in PLAIN or other.ask[0] in PLAIN
    return one.thread != other.thread and is_plain and (changes(one) or changes(other))


def races_of(script: Script, events: list[Event]) -> list[Race]:
    """For each variable on which steps race: the first step that races with an earlier one, and the last of those."""
    before = steps_before(events)
    races: list[Race] = []
    for var in script.objects["var"]:
        accesses = [place for place, event in enumerate(events)
                    if event.ask[0] in (*PLAIN, "add", "cas") and event.ask[1] == var]
        for second in accesses:
            racing = [first for first in accesses if first < second
                      and conflict(events[first], events[second]) and not before[second] >> first & 1]
            if racing:
                races.append(Race(var, racing[-1] + 1, second + 1))
                break
    return races
