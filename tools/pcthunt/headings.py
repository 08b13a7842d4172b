"""Failures that are one bug come under one heading."""

from __future__ import annotations

import re
from dataclasses import dataclass, field

from pcthunt.document import complete_run, deal_of, run_of, Texts
from pcthunt.interruptions import INTERRUPTIONS
from pcthunt.program import Program
from pcthunt.rounds import Choice, Round
from pcthunt.shorter import Source
from pcthunt.states import Json
from pctmodel.script import Script, cut_tokens
from pctmodel.trace import Trace, read_trace

MOST_VERDICTS = 50  # of which a run is made


@dataclass(frozen=True)
class Schedule:
    """The words that make a run again."""

    options: tuple[str, ...]
    seed: Json | None
    form: int = 0  # of the plain scripts that one, from 0

    def words(self, script: str) -> list[str]:
        return [script, *self.options]


@dataclass
class Failure:
    """A verdict with how often it came in each round, and its shortest run."""

    verdict: str
    counts: dict[int, int]
    steps: int
    schedule: Schedule
    trace: Trace | None = None
    run: Json = field(default_factory=dict)
    keys: list[tuple[str, ...]] = field(default_factory=list)

    def count(self) -> int:
        return sum(self.counts.values())


@dataclass
class Heading:
    """Failures that are one bug: by which places of steps they are, and each verdict among them."""

    key: tuple[str, ...]
    failures: list[Failure]

    def best(self) -> Failure:
        """The failure of the shortest run."""
        return min(self.failures, key=lambda it: (it.steps, -it.count(), it.verdict))

    def kind(self) -> str:
        return self.key[0]

    def counts(self) -> dict[int, int]:
        """By round the number of its runs."""
        found: dict[int, int] = {}
        for failure in self.failures:
            for number, count in failure.counts.items():
                found[number] = found.get(number, 0) + count
        return dict(sorted(found.items()))


class Places:
    """The places of a script's steps: the class of twins of a thread, by its first one, and which of its statements."""

    def __init__(self, script: Script, text: str) -> None:
        lines = text.split("\n")
        self.numbers: dict[str, dict[int, int]] = {}
        self.twin: dict[str, str] = {}
        by_tokens: dict[str, str] = {}
        for name, thread in script.threads.items():
            tokens = {line: cut_tokens(lines[line - 1]) or [] for line in range(thread.line + 1, thread.end_line + 1)}
            of_it = [line for line, words in tokens.items() if words]
            self.numbers[name] = {line: number for number, line in enumerate(of_it, 1)}
            self.twin[name] = by_tokens.setdefault("\n".join(" ".join(tokens[line]) for line in of_it), name)

    def of(self, thread: str, line: int) -> str:
        return f"{self.twin[thread]} {self.numbers[thread].get(line, 0)}"


def keys_of(verdict: str, run: Json, places: Places) -> list[tuple[str, ...]]:
    """By what two failures are one bug: their kind, and the place, or the places of those that wait for one another. A
    run that is stuck in several cycles has a key for each."""
    kind, *rest = verdict.split()
    if kind == "stuck":
        cycles = cycles_in(run["core"])
        names = {it["thread"] for it in run["core"]}
        if not all(it["for"] in names for it in run["core"]):
            return [(kind, *sorted({waiting(it["thread"], run, places) for it in run["core"]}))]
        return sorted((kind, *sorted(places.of(it["thread"], it["line"]) for it in cycle)) for cycle in cycles)
    if kind == "cut":
        return [(kind,)]
    return [(kind, places.of(rest[0], int(rest[1])), *rest[2:])]


def waiting(thread: str, run: Json, places: Places) -> str:
    """What a thread of that shape waits for: the kind of its statement and its object; objects that a number alone
    tells apart are one."""
    ask = next(it["ask"] for it in run["asking"] if it["thread"] == thread)
    return f"{places.twin[thread]} {re.sub(r'_[0-9]+', '_', ask)}"


def cycles_in(core: list[Json]) -> list[list[Json]]:
    """The cycles of waits in a core, each by itself; a core that is no cycle is one part."""
    names = {it["thread"] for it in core}
    if not all(it["for"] in names for it in core):
        return [core]
    waits = {it["thread"]: it["for"] for it in core}
    parts: dict[str, list[Json]] = {}
    for it in core:
        seen, name = [], it["thread"]
        while name not in seen:
            seen.append(name)
            name = waits[name]
        parts.setdefault(min(seen[seen.index(name):]), []).append(it)
    return list(parts.values())


def schedule_of(seed: int, round_: Round) -> Schedule:
    words = ["--seed", str(seed), "--depth", str(round_.depth)]
    words += ["--steps", str(round_.steps)] if round_.depth > 1 else []
    words += ["--limit", str(round_.limit)] if round_.limit != 10000 else []
    return Schedule(tuple(words), {"seed": str(seed), "depth": round_.depth, "steps": round_.steps}, round_.form)


def schedule_of_choice(choice: Choice, round_: Round) -> Schedule:
    words = ["--order", ",".join(choice.order)]
    words += ["--points", ",".join(map(str, choice.points))] if choice.points else []
    words += ["--limit", str(round_.limit)] if round_.limit != 10000 else []
    return Schedule(tuple(words), None, round_.form)


def failures_of(rounds: list[Round], source: Source) -> list[Failure]:
    """The verdicts that don't pass, those of most runs first."""
    found: dict[str, Failure] = {}
    for round_ in rounds:
        for plain_verdict, count, steps, schedule in met_in(round_):
            verdict = source.verdict(plain_verdict)
            failure = found.setdefault(verdict, Failure(verdict, {}, steps, schedule))
            failure.counts[round_.number] = failure.counts.get(round_.number, 0) + count
            if steps < failure.steps:
                failure.steps, failure.schedule = steps, schedule
    return sorted(found.values(), key=lambda it: (-it.count(), it.steps, it.verdict))


def met_in(round_: Round) -> list[tuple[str, int, int, Schedule]]:
    """Of each verdict in the round its count, its shortest run's steps, and what makes that again."""
    if round_.sweep is not None:
        return [(it.verdict, it.count, it.steps, schedule_of_choice(it, round_)) for it in round_.sweep]
    met: dict[str, tuple[int, int, int]] = {}
    for row in round_.rows:
        if row.verdict != "passed":
            count, steps, seed = met.get(row.verdict, (0, row.steps + 1, row.seed))
            met[row.verdict] = (count + 1, *((row.steps, row.seed) if row.steps < steps else (steps, seed)))
    return [(verdict, count, steps, schedule_of(seed, round_)) for verdict, (count, steps, seed) in met.items()]


class Headings:
    """Makes a run of each verdict, and puts those of equal keys together."""

    def __init__(self, program: Program, source: Source) -> None:
        self.program, self.source, self.title = program, source, source.title
        self.is_interrupted = False
        script, text = source.forms[0].script, source.data.decode()
        self.places = Places(script, text)
        self.deal = deal_of(script, self.title)
        self.texts = Texts([{"file": self.title, "text": text}])

    def of(self, failures: list[Failure]) -> list[Heading]:
        """Failures of several keys come last, under the first of these that isn't there yet, or else the first."""
        by_key: dict[tuple[str, ...], Heading] = {}
        for failure in sorted(self.made(failures), key=lambda it: len(it.keys)):
            key = next((it for it in failure.keys if it not in by_key), failure.keys[0])
            by_key.setdefault(key, Heading(key, [])).failures.append(failure)
        order = lambda it: (it.kind() == "cut", -sum(it.counts().values()), it.best().steps, it.key)
        return sorted(by_key.values(), key=order)

    def made(self, failures: list[Failure]) -> list[Failure]:
        """The failures of which a run is made; where that is interrupted, those that have one."""
        made: list[Failure] = []
        for failure in failures[:MOST_VERDICTS]:
            try:
                with INTERRUPTIONS.open():
                    made.append(self.make_run(failure))
            except KeyboardInterrupt:
                self.is_interrupted = True
                break
        return made

    def make_run(self, failure: Failure) -> Failure:
        form = self.source.forms[failure.schedule.form]
        answer = self.program.whole("run", *failure.schedule.words(form.path))
        failure.trace = self.source.trace(read_trace(answer.out.encode(), form.plain))
        failure.run = run_of(form.script, failure.trace, self.title, failure.schedule.seed)
        complete_run(failure.run, self.deal, self.texts)
        failure.keys = keys_of(failure.verdict, failure.run, self.places)
        return failure
