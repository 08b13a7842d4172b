"""The search for a directive that certifies, by count and not by time."""

from __future__ import annotations

import itertools
import os
from collections.abc import Iterator
from dataclasses import dataclass

from pcthunt.output import keep
from pcthunt.program import Program
from pctmodel.directive import Directive, MOST_EVENTS, MOST_THREADS, directed_run, directive_lines, orders_of
from pctmodel.run import Event
from pctmodel.script import Script

MOST_MODEL_STEPS = 400_000  # of the plain model, by which most directives are refuted: some ten seconds

Moment = tuple[str, int]


@dataclass(frozen=True)
class Certified:
    directive: Directive
    threads: int
    steps: int
    bound: int
    tried: int

    def told(self) -> str:
        depth = len(self.directive.events) + 1
        return f"at least 1 of {self.bound:,} draws at {self.threads} threads, {self.steps} steps, depth {depth}"


@dataclass(frozen=True)
class Sought:
    """The end of a search: what certifies, how many were tried, and else why none does."""

    certified: Certified | None
    tried: int
    why_not: str = ""


def moments_in(events: list[Event]) -> list[Moment]:
    """The steps after which another thread goes, by their threads and their own numbers."""
    own: dict[str, int] = {}
    found: list[Moment] = []
    for event, after in zip(events, [*events[1:], None]):
        own[event.thread] = own.get(event.thread, 0) + 1
        if after is not None and after.thread != event.thread:
            found.append((event.thread, own[event.thread]))
    return found


def candidates(script: Script, found: Directive, events: list[Event]) -> Iterator[tuple[str, list[Moment]]]:
    """No moment, then those of find, then each single one, then pairs of these, and then all of them at once, where
    they are few; each for each lowest thread, that of find first."""
    lowest = [found.low, *(name for name in script.threads if name != found.low)]
    single = moments_in(events)
    given = [(thread, number) for thread, number in found.events]
    phases: list[Iterator[list[Moment]]] = [
        iter([[]]), iter([given]), ([moment] for moment in single),
        ([one, other] for one, other in itertools.permutations(single, 2)),
        iter([single] if len(single) <= MOST_EVENTS else []),
    ]
    tried: set[tuple[Moment, ...]] = set()
    for moments in itertools.chain(*phases):
        if tuple(moments) not in tried:
            tried.add(tuple(moments))
            yield from ((low, moments) for low in lowest)


class Certifier:
    """The search for a directive of a failure that certifies, by the model first and then by the program."""

    def __init__(self, program: Program, path: str, script: Script, room: str, limit: int) -> None:
        self.program, self.path, self.script, self.limit = program, path, script, limit
        self.file = os.path.join(room, "tried.directive")
        self.model_steps = 0

    def seek(self, found: Directive, events: list[Event], most: int) -> Sought:
        """The first candidate that certifies, of at most `most`, with how many were tried; else why there is none: more
        threads than a certificate has, or runs that are too long. Refused where a call of the program fails."""
        threads = len(self.script.threads)
        if threads > MOST_THREADS:
            return Sought(None, 0, f"the script has {threads} threads, and a certificate at most {MOST_THREADS}")
        tried = 0
        for low, moments in candidates(self.script, found, events):
            if tried >= most:
                break
            if self.model_steps > MOST_MODEL_STEPS:
                return Sought(None, tried, f"the search ended after {tried:,} directives, since their runs are long")
            tried += 1
            directive = Directive(low, list(moments), found.verdict)
            if self.is_refuted(directive):
                continue
            certified = self.certify(directive, max(1, len(events)), tried)
            if certified:
                return Sought(certified, tried)
        return Sought(None, tried, f"none of {tried:,} directives certifies")

    def is_refuted(self, directive: Directive) -> bool:
        """Whether the run of some order, by the plain model, has another verdict."""
        others = [name for name in self.script.threads if name != directive.low]
        for order in orders_of(others):
            events, verdict = directed_run(self.script, [*order, directive.low], directive.events, self.limit)
            self.model_steps += len(events)
            if verdict != directive.verdict:
                return True
        return False

    def certify(self, directive: Directive, steps: int, tried: int) -> Certified | None:
        """The program's certificate, within this many steps, or as many more as it asks for; None where it refutes."""
        keep(self.file, "".join(f"{line}\n" for line in directive_lines(directive)))
        while True:
            words = ["certify", self.path, self.file, "--steps", str(steps), "--limit", str(self.limit)]
            last = (self.program.whole(*words).out.splitlines() or [""])[-1].split()
            if last[:1] == ["toolong"] and int(last[-1]) > steps:
                steps = int(last[-1])
                continue
            if last[:1] != ["certified"]:
                return None
            return Certified(directive, len(self.script.threads), steps, int(last[-1]), tried)
