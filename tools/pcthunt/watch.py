"""A run made again by the plain model, with where each register's value came from."""

from __future__ import annotations

from dataclasses import dataclass, field
from typing import Any

from pctmodel.run import Body, Event, World
from pctmodel.script import Script, Thread

CHANGES = ("write", "add", "cas")


@dataclass(frozen=True)
class Origin:
    """Where a register got its value: the line, and the steps whose answers it came from."""

    line: int
    steps: frozenset[int]


@dataclass(frozen=True)
class Test:
    """A test of an `if` or `while`: its line, the registers that it used, and the steps whose answers these are."""

    line: int
    registers: dict[str, int]
    steps: frozenset[int]


def registers_in(expression: Any) -> set[str]:
    if isinstance(expression, str):
        return {expression}
    if isinstance(expression, tuple | list):
        return {name for part in expression[1:] for name in registers_in(part)}
    return set()


class WatchedBody(Body):
    """A thread that knows the origins of its registers."""

    def __init__(self, thread: Thread, is_held: bool) -> None:
        self.origins: dict[str, Origin] = {}
        self.number = 0  # of the step that is taken
        self.tests: list[Test] = []  # of `if` and `while`, in order
        super().__init__(thread, is_held)

    def sources(self, values: list[Any]) -> frozenset[int]:
        """The steps from whose answers the expressions' values come."""
        names = {name for value in values for name in registers_in(value)}
        return frozenset(step for name in names if name in self.origins for step in self.origins[name].steps)

    def move(self, head: Any) -> None:
        sources = self.sources(head.values)
        names = {name for value in head.values for name in registers_in(value)}
        used = {name: self.registers[name] for name in sorted(names, key=lambda name: int(name[1:]))}
        super().move(head)
        if head.word == "set":
            self.origins[head.register] = Origin(head.line, sources)
        else:
            self.tests.append(Test(head.line, used, sources))

    def answer(self, value: int) -> None:
        head = self.rest[0] if self.rest else None
        word = self.ask[0] if self.ask else ""
        if head is not None and head.register and word not in ("arrive", "begin", "fault"):
            self.origins[head.register] = Origin(head.line, frozenset({self.number}))
        super().answer(value)


@dataclass
class Watched:
    """What a run's steps used, by their numbers."""

    events: list[Event]
    inputs: dict[int, frozenset[int]] = field(default_factory=dict)  # the steps whose answers a step's values use
    registers: dict[int, dict[str, tuple[int, Origin | None]]] = field(default_factory=dict)  # that a step's values use
    written: dict[int, int | None] = field(default_factory=dict)  # for a read, the step that wrote what it read
    changes: dict[str, list[int]] = field(default_factory=dict)  # by variable the steps that changed it
    reads: dict[str, dict[str, int]] = field(default_factory=dict)  # by thread and variable the last read
    tests: dict[str, list[Test]] = field(default_factory=dict)  # by thread those before the run's last step
    world: World | None = None

    def change_after(self, step: int, before: int) -> int | None:
        """The last step before that one by which another thread changed what the step had read."""
        event = self.events[step - 1]
        if event.ask[0] not in ("read", *CHANGES):
            return None
        others = [it for it in self.changes.get(event.ask[1], [])
                  if step < it < before and self.events[it - 1].thread != event.thread]
        return others[-1] if others else None


def has_changed(event: Event) -> bool:
    return event.ask[0] in ("write", "add") or (event.ask[0] == "cas" and event.answer == 1)


def watched_events(events: list[Event]) -> Watched:
    """The events, watched: without the threads' code nothing is known of registers."""
    found = Watched(events)
    for number, event in enumerate(events, 1):
        note_event(found, number, event)
    return found


def watched(script: Script, events: list[Event]) -> Watched:
    """The run of the events, watched."""
    world = World(script)
    bodies = {name: WatchedBody(thread, name in script.held) for name, thread in script.threads.items()}
    world.bodies = dict(bodies)
    found = Watched(events, world=world)
    for number, event in enumerate(events, 1):
        body = bodies[event.thread]
        found.tests = {name: it.tests for name, it in bodies.items()}
        if number == len(events):  # behind it are those of statements that the run doesn't come to
            found.tests[event.thread] = list(body.tests)
        note_use(found, number, body)
        body.number = number
        note_event(found, number, event)
        world.step(event.thread)
    return found


def note_event(found: Watched, number: int, event: Event) -> None:
    """Keeps what the step read, and who had written that, and what it changed."""
    word = event.ask[0]
    if word not in ("read", *CHANGES):
        return
    of_it = found.changes.setdefault(event.ask[1], [])
    if word != "write":
        found.written[number] = of_it[-1] if of_it else None
        found.reads.setdefault(event.thread, {})[event.ask[1]] = number
    if has_changed(event):
        of_it.append(number)


def note_use(found: Watched, number: int, body: WatchedBody) -> None:
    """Keeps what the values of the body's next step use."""
    head = body.rest[0] if body.rest and not body.begins else None
    values = head.values if head is not None else []
    found.inputs[number] = body.sources(values)
    names = sorted({name for value in values for name in registers_in(value)}, key=lambda name: int(name[1:]))
    found.registers[number] = {name: (body.registers[name], body.origins.get(name)) for name in names}
