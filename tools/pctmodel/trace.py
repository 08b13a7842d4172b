"""Trace files for the model: their text, and how they are read with their faults."""

from __future__ import annotations

import re
from collections.abc import Iterator
from dataclasses import dataclass, field
from typing import Any, Generic, Protocol, TypeVar

from pctmodel.run import Ask, Event
from pctmodel.script import GREATEST, LEAST, Faulty, Script, is_name

# What follows the first word of an ask: names of objects of that kind, and values.
ASKS = {
    "read": "var", "write": "var VALUE", "add": "var VALUE", "cas": "var VALUE VALUE",
    "lock": "mutex", "trylock": "mutex", "unlock": "mutex", "release": "cond mutex", "regain": "cond mutex",
    "signal": "cond", "broadcast": "cond", "down": "sem", "trydown": "sem", "up": "sem",
    "arrive": "barrier", "leave": "barrier", "join": "thread", "start": "thread", "begin": "", "yield": "",
    "check": "0|1", "fault": "overflow|zerodivisor|spin",
}
ASKS_OF_2 = dict.fromkeys(["rdlock", "wrlock", "tryrdlock", "trywrlock", "rwunlock"], "rwlock")
MISUSES_OF_1: list[str | None] = ["notowner", "semfull", "alreadystarted"]
MISUSES = {1: MISUSES_OF_1, 2: [*MISUSES_OF_1, "toomanyreads"]}
FAULTS: list[str | None] = ["overflow", "zerodivisor", "spin"]

Names = list[tuple[str, str]]  # with the kinds that their places need


@dataclass
class Trace:
    """A trace: the head, the steps and the verdict of a run."""

    version: int = 0
    order: list[str] = field(default_factory=list)
    points: list[int] = field(default_factory=list)
    limit: int = 0
    events: list[Event] = field(default_factory=list)
    verdict: str = ""


def step_line(number: int, event: Event) -> str:
    """A step's line, with its number from 1."""
    ask = " ".join(map(str, event.ask))
    return f"{number} {event.thread} {event.line} {ask} = {event.answer}"


def trace_lines(trace: Trace) -> Iterator[str]:
    """The lines of a trace's file."""
    yield f"trace {trace.version}"
    yield "order " + " ".join(trace.order)
    yield " ".join(["points", *map(str, trace.points)])
    yield f"limit {trace.limit}"
    for number, event in enumerate(trace.events, 1):
        yield step_line(number, event)
    yield f"verdict {trace.verdict}"


def number_of(text: str, least: int, greatest: int) -> int | None:
    """The number of a canonical decimal in the range, else None."""
    is_canonical = re.fullmatch("0|-?[1-9][0-9]{0,19}", text)
    return int(text) if is_canonical and least <= int(text) <= greatest else None


def ask_of(words: list[str], version: int) -> tuple[Ask, Names] | None:
    """The ask of the words and the names that it uses with their kinds, or None where they are no ask."""
    forms = {**ASKS, **ASKS_OF_2} if version == 2 else ASKS
    if not words or words[0] not in forms:
        return None
    items = forms[words[0]].split()
    ask: list[Any] = [words[0]]
    names: Names = []
    if len(items) != len(words) - 1:
        return None
    for item, word in zip(items, words[1:]):
        value = number_of(word, LEAST, GREATEST)
        if item == "VALUE" and value is not None:
            ask.append(value)
        elif "|" in item and word in item.split("|"):
            ask.append(word if value is None else value)
        elif item.islower() and "|" not in item and is_name(word):
            ask.append(word)
            names.append((item, word))
        else:
            return None
    return tuple(ask), names


def step_of(words: list[str], version: int) -> tuple[int, Event, Names] | None:
    """The number, the event and the names of a step line's words, or None where they are none by form."""
    if len(words) < 6 or words[-2] != "=":
        return None
    number, line = number_of(words[0], 0, GREATEST), number_of(words[2], 1, 4096)
    asked, answer = ask_of(words[3:-2], version), number_of(words[-1], LEAST, GREATEST)
    if number is None or line is None or asked is None or answer is None or not is_name(words[1]):
        return None
    return number, Event(words[1], line, asked[0], answer), [("thread", words[1]), *asked[1]]


def threads_of_verdict(words: list[str], version: int, script: Script) -> list[str] | None:
    """The threads that the words of a verdict name, or None where they are no verdict by form."""
    kind, *rest = words
    if kind in ("passed", "cut"):
        return [] if not rest else None
    threads, lines = rest[0::2], rest[1::2]
    last: str | None = None
    if kind in ("misuse", "fault") and len(rest) == 3:
        threads, last = rest[:1], rest[2]
    lasts: dict[str, list[str | None]] = {"failed": [None], "stuck": [None]}
    lasts |= {"misuse": MISUSES[version], "fault": FAULTS}
    if last not in lasts.get(kind, []) or len(lines) != len(threads) or not threads:
        return None
    if kind == "failed" and len(threads) != 1:
        return None
    if not all(map(is_name, threads)) or None in [number_of(line, 1, 4096) for line in lines]:
        return None
    declared = list(script.threads)
    places = [declared.index(thread) for thread in threads if thread in declared]
    return threads if all(low < high for low, high in zip(places, places[1:])) else None


class Made(Protocol):
    verdict: str  # empty until it is read


Made_ = TypeVar("Made_", bound=Made)


class LineReader(Generic[Made_]):
    """Takes a file line by line, its head first, into what it makes. Each `take` answers the fault of its line, or
    None."""

    def __init__(self, data: bytes, script: Script, lines_of_head: int, made: Made_) -> None:
        *whole, self.last = data.split(b"\n")  # the last piece has no LF
        self.lines = [*whole, self.last] if self.last else whole
        self.whole, self.lines_of_head = len(whole), lines_of_head
        self.script, self.made = script, made

    def take_head(self, number: int, words: list[str], has_end: bool) -> str | None:
        raise NotImplementedError

    def take_later(self, number: int, words: list[str], has_end: bool) -> str | None:
        raise NotImplementedError

    def read(self) -> Made_:
        for number in range(1, max(self.lines_of_head, len(self.lines)) + 1):
            if self.made.verdict:
                raise Faulty(number, "MoreAfterVerdict")
            text = self.lines[number - 1].decode("latin-1") if number <= len(self.lines) else ""
            take = self.take_head if number <= self.lines_of_head else self.take_later
            fault = take(number, text.split(" "), number <= self.whole)
            if fault:
                raise Faulty(number, fault)
        if not self.made.verdict:
            raise Faulty(len(self.lines) + 1, "NoVerdict")
        return self.made

    def threads_of(self, words: list[str], version: int) -> list[str] | None:
        """The threads that a verdict's line names, or None where the words are no such line by form."""
        is_verdict = words[0] == "verdict" and len(words) > 1
        return threads_of_verdict(words[1:], version, self.script) if is_verdict else None

    def take_verdict(self, words: list[str], threads: list[str]) -> str | None:
        self.made.verdict = " ".join(words[1:])
        return self.fault_of_names([("thread", thread) for thread in threads])

    def fault_of_names(self, names: Names) -> str | None:
        """The names with the kinds that their places need."""
        return None if all(self.script.declares(kind, name) for kind, name in names) else "UnknownName"


class TraceReader(LineReader[Trace]):
    def __init__(self, data: bytes, script: Script) -> None:
        super().__init__(data, script, 4, Trace())

    def take_head(self, number: int, words: list[str], has_end: bool) -> str | None:
        trace, values = self.made, words[1:]
        if not has_end or words[0] != ["trace", "order", "points", "limit"][number - 1]:
            return "BadHeader"
        if number == 1 and values in (["1"], ["2"]):
            trace.version = int(values[0])
        elif number == 2:
            is_well = len(set(values)) == len(values) == len(self.script.threads) and all(map(is_name, values))
            if not is_well:
                return "BadHeader"
            trace.order = values
            return self.fault_of_names([("thread", value) for value in values])
        elif number == 3:
            points = [number_of(value, 1, 100000) for value in values]
            trace.points = [point for point in points if point is not None]
            return "BadHeader" if None in points or len(values) > 7 else None
        elif number == 4 and len(values) == 1:
            trace.limit = number_of(values[0], 1, 100000) or 0
            return None if trace.limit else "BadHeader"
        else:
            return "BadHeader"
        return None

    def take_later(self, _: int, words: list[str], has_end: bool) -> str | None:
        step, threads = step_of(words, self.made.version), self.threads_of(words, self.made.version)
        if step and step[0] > self.made.limit:
            return "TooLong"
        if not has_end or (step is None and threads is None):
            return "BadLine"
        return self.take_step(*step) if step else self.take_verdict(words, threads or [])

    def take_step(self, number: int, event: Event, names: Names) -> str | None:
        self.made.events.append(event)
        return self.fault_of_names(names) or (None if number == len(self.made.events) else "OutOfOrder")


def read_trace(data: bytes, script: Script) -> Trace:
    """The trace of a file. Raises Faulty, with the line and the kind of its first fault, where it is none."""
    if len(data) > 16777216:
        raise Faulty(1, "TooLong")
    return TraceReader(data, script).read()
