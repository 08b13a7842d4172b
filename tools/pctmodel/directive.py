"""Directives for the model: their files, the run of a directive, the change points that expose it, and its
certificate."""

from __future__ import annotations

from collections.abc import Iterator
from dataclasses import dataclass, field

from pctmodel.run import Event, ranked_run
from pctmodel.script import Faulty, Script, is_name
from pctmodel.trace import LineReader, number_of

MOST_BYTES, MOST_EVENTS, MOST_THREADS = 65536, 7, 7

Moment = tuple[str, int]  # a thread and the number of its own step


@dataclass
class Directive:
    """A directive: its lowest thread, its moments as pairs of a thread and its own step from 1, and its verdict."""

    low: str = ""
    events: list[Moment] = field(default_factory=list)
    verdict: str = ""


def directive_lines(directive: Directive) -> Iterator[str]:
    """The lines of its file."""
    yield "directive 1"
    yield f"low {directive.low}"
    for thread, number in directive.events:
        yield f"after {thread} {number}"
    yield f"verdict {directive.verdict}"


class DirectiveReader(LineReader[Directive]):
    def __init__(self, data: bytes, script: Script) -> None:
        super().__init__(data, script, 2, Directive())

    def take_head(self, number: int, words: list[str], has_end: bool) -> str | None:
        if number == 1:
            return None if has_end and words == ["directive", "1"] else "BadHeader"
        if not has_end or len(words) != 2 or words[0] != "low" or not is_name(words[1]):
            return "BadHeader"
        self.made.low = words[1]
        return self.fault_of_names([("thread", words[1])])

    def take_later(self, _: int, words: list[str], has_end: bool) -> str | None:
        is_event, threads = self.is_event(words), self.threads_of(words, 2)
        if is_event and len(self.made.events) == MOST_EVENTS:
            return "TooLong"
        if not has_end or (not is_event and threads is None):
            return "BadLine"
        return self.take_event(words[1], int(words[2])) if is_event else self.take_verdict(words, threads or [])

    def take_event(self, thread: str, number: int) -> str | None:
        self.made.events.append((thread, number))
        return self.fault_of_names([("thread", thread)])

    @staticmethod
    def is_event(words: list[str]) -> bool:
        is_form = len(words) == 3 and words[0] == "after" and is_name(words[1])
        return is_form and number_of(words[2], 1, 100000) is not None


def read_directive(data: bytes, script: Script) -> Directive:
    """The directive of a file. Raises Faulty, with the line and the kind of its first fault, where it is none."""
    if len(data) > MOST_BYTES:
        raise Faulty(1, "TooLong")
    return DirectiveReader(data, script).read()


def directed_run(script: Script, order: list[str], moments: list[Moment], limit: int) -> tuple[list[Event], str]:
    """The events and the verdict of the run in which the value i is given to the thread of the i-th moment right after
    it took its step of that number."""

    def is_given(index: int, events: list[Event], thread: str) -> bool:
        lowered, number = moments[index - 1]
        return lowered == thread and number == sum(event.thread == thread for event in events)

    return ranked_run(script, order, len(moments), limit, is_given)


def points_of(events: list[Event], moments: list[Moment], steps: int) -> list[int]:
    """For each moment the step at which it came, or the number of steps where it didn't."""
    came: dict[Moment, int] = {}
    own: dict[str, int] = {}
    for step, event in enumerate(events, 1):
        own[event.thread] = own.get(event.thread, 0) + 1
        came[event.thread, own[event.thread]] = step
    return [came.get(moment, steps) for moment in moments]


def orders_of(threads: list[str]) -> list[list[str]]:
    """All orders: for each thread from the last to the first, the orders of the others with the thread behind them."""
    if not threads:
        return [[]]
    return [[*order, last] for last in reversed(threads)
            for order in orders_of([thread for thread in threads if thread != last])]


def certify(script: Script, directive: Directive, steps: int, limit: int) -> tuple[list[str], bool]:
    """The lines that say what became of it, and whether it is certified."""
    names = list(script.threads)
    if len(names) > MOST_THREADS:
        return [f"toomany {len(names)}"], False
    rows = []
    for others in orders_of([name for name in names if name != directive.low]):
        order = [*others, directive.low]
        events, verdict = directed_run(script, order, directive.events, limit)
        if len(events) > steps:
            return [f"toolong order {' '.join(order)} steps {len(events)}"], False
        if verdict != directive.verdict:
            return [f"refuted order {' '.join(order)} verdict {verdict}"], False
        rows.append(" ".join(map(str, ["order", *order, "points", *points_of(events, directive.events, steps)])))
    return [*rows, f"certified 1 in {len(names) * steps ** len(directive.events)}"], True
