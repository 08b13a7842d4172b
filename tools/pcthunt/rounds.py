"""The rounds of a hunt: campaigns of rising depth, each in parts that run at once, or sweeps of all choices."""

from __future__ import annotations

import itertools
import math
import os
import time
from collections.abc import Iterator
from concurrent.futures import FIRST_COMPLETED, Future, ThreadPoolExecutor, wait
from dataclasses import dataclass, field
from typing import NamedTuple

from pcthunt.interruptions import INTERRUPTIONS
from pcthunt.output import ERROR, Refused
from pcthunt.program import Program, status_of
from pcthunt.progress import Progress
from pcthunt.reports import SEEDS, NoReport, Report, Row, merged, reports_of
from pcthunt.settings import AT_DEPTH_1, Settings, processors
from pcthunt.shorter import Source

BATCH, MOST_OF_A_PART = 64, 4096  # seeds: a campaign starts its threads once for so many
SECONDS_OF_A_PART = 0.4
MOST_SWEPT = 100_000_000  # choices that the program sweeps


class Choice(NamedTuple):
    """Of a sweep a verdict's count, its shortest run's steps, and the order and points of its first run."""

    count: int  # type: ignore[assignment]  # tuples have a method of that name
    steps: int
    order: list[str]
    points: list[int]
    verdict: str


@dataclass
class Round:
    """A round of a hunt: its depth from 1 to 8, its seeds or the choices of its sweep, and what was run so far."""

    number: int
    depth: int
    first: int
    wanted: int  # seeds, or choices of a sweep
    limit: int
    steps: int = 0  # k, from which the points are drawn
    rows: list[Row] = field(default_factory=list)
    sweep: list[Choice] | None = None
    form: int = 0  # of the plain scripts that one, from 0
    choices: int = 0  # of its depth, in a hunt with a time
    passed: int = 0  # seeds that passed and of which no row was kept
    is_drawn: bool = False
    longest: int = 0  # steps of a run that wasn't cut, as far as they are known

    def failures(self) -> int:
        if self.sweep is not None:
            return sum(it.count for it in self.sweep)
        return sum(row.verdict != "passed" for row in self.rows)

    def done(self) -> int:
        return self.wanted if self.sweep is not None else len(self.rows) + self.passed

    def is_whole(self) -> bool:
        return self.is_drawn or self.done() == self.wanted

    def next_seed(self) -> int:
        """The first seed that wasn't run."""
        if self.is_drawn:
            return (self.first + self.done()) % SEEDS
        seeds = {row.seed for row in self.rows}
        return next(seed for place in itertools.count() if (seed := (self.first + place) % SEEDS) not in seeds)


class Crew:
    """Threads that call the program, each pinned to a processor of its own, which its calls inherit."""

    def __init__(self, jobs: int) -> None:
        self.jobs = jobs
        self.places = itertools.cycle(processors())
        self.pool = ThreadPoolExecutor(jobs, initializer=self.pin)

    def pin(self) -> None:
        if hasattr(os, "sched_setaffinity"):
            try:
                os.sched_setaffinity(0, {next(self.places)})
            except OSError:
                pass  # it runs where the system puts it

    def close(self) -> None:
        self.pool.shutdown(wait=True, cancel_futures=True)


class Parts:
    """The parts of a round on this machine, of as many seeds as take about a third of a second. The first part has one
    seed, since one may take minutes."""

    def __init__(self, program: Program, script: str, crew: Crew) -> None:
        self.program, self.script, self.crew = program, script, crew
        self.size = 1
        self.serving: list[str] = []  # the words by which one thread makes all runs
        self.pending: dict[Future[tuple[Report, float] | None], int] = {}

    def words(self, round_: Round, first: int, count: int) -> list[str]:
        words = ["campaign", self.script, "--from", str(first), "--count", str(count), "--depth", str(round_.depth),
                 "--limit", str(round_.limit)]
        words += ["--steps", str(round_.steps)] if round_.steps else []
        return [*words, *self.serving]

    def make(self, round_: Round, first: int, count: int) -> tuple[Report, float] | None:
        begun = time.monotonic()
        words = self.words(round_, first, count)
        answer = self.program.call(*words)
        if self.program.is_stopped:
            return None
        if answer.status not in (0, 1):
            raise Refused(status_of(answer), answer.said or f"pct ended with {answer.status} at the seeds from {first} "
                                                            "on")
        try:
            report = merged(list(reports_of("pct", answer.out)))
        except NoReport as why:
            raise Refused(ERROR, f"what pct wrote is no report: {why}") from None
        return report, time.monotonic() - begun

    def reports(self, round_: Round) -> Iterator[Report | None]:
        """The reports as they come, and None where a while passes without one."""
        begun = 0
        try:
            while begun < round_.wanted or self.pending:
                while begun < round_.wanted and len(self.pending) < self.crew.jobs:
                    left = round_.wanted - begun
                    count = min(self.size, left, max(BATCH, math.ceil(left / self.crew.jobs)))
                    first = (round_.first + begun) % SEEDS
                    self.pending[self.crew.pool.submit(self.make, round_, first, count)] = count
                    begun += count
                done, _ = wait(self.pending, timeout=0.1, return_when=FIRST_COMPLETED)
                if not done:
                    yield None
                for future in done:
                    count = self.pending.pop(future)
                    made = future.result()
                    if made:
                        self.fit(count, made[1])
                        yield made[0]
        finally:
            self.stop()

    def fit(self, count: int, seconds: float) -> None:
        """Sets the size of the next parts by how long one took."""
        seeds = int(count * SECONDS_OF_A_PART / max(seconds, 0.001))
        if seconds < 2 * SECONDS_OF_A_PART:  # its start alone may have taken so long
            seeds = max(seeds, 2 * count)
        seeds = min(MOST_OF_A_PART, seeds)
        self.size = seeds // BATCH * BATCH or max(1, seeds)

    def stop(self) -> None:
        if self.pending:
            self.program.stop()
            wait(self.pending)
            self.pending.clear()
            self.program.go_on()


class Search:
    """The rounds of a hunt, in order."""

    def __init__(self, settings: Settings, program: Program, source: Source, parts: Parts, progress: Progress) -> None:
        self.settings, self.program, self.source = settings, program, source
        self.threads = len(source.forms[0].script.threads)
        self.parts, self.progress = parts, progress
        self.rounds: list[Round] = []
        self.why_ended: str | None = None  # interrupted, or out of time

    def run(self) -> list[Round]:
        """The rounds of each plain script of the source."""
        for number, form in enumerate(self.source.forms):
            self.parts.script = form.path
            self.run_form(number)
            if INTERRUPTIONS.is_noted() and number + 1 < len(self.source.forms):
                self.why_ended = "interrupted"
            if self.is_enough():
                break
        return self.rounds

    def is_enough(self) -> bool:
        has_failed = any(it.failures() for it in self.rounds)
        return self.why_ended is not None or (self.settings.is_first_enough and has_failed)

    def run_form(self, number: int) -> None:
        has_sweep = self.program.has_sweep()
        own: list[Round] = []
        for depth in range(1, self.settings.depth + 1):
            wanted = AT_DEPTH_1 if depth == 1 else self.settings.seeds
            steps = max([1, *(it.longest for it in own)]) if depth > 1 else 0
            round_ = Round(len(self.rounds), depth, self.settings.first, wanted, self.settings.limit, steps,
                           form=number)
            self.rounds.append(round_)
            own.append(round_)
            choices = math.factorial(self.threads) * max(round_.steps, 1) ** (depth - 1)
            if has_sweep and choices <= min(wanted, MOST_SWEPT):
                self.sweep(round_)
            else:
                self.campaign(round_)
            self.progress.clear()
            if INTERRUPTIONS.is_noted() and depth < self.settings.depth:
                self.why_ended = "interrupted"
            if self.is_enough():
                break

    def campaign(self, round_: Round) -> None:
        self.progress.begin_round()
        reports: list[Report] = []
        done = failures = 0
        try:
            for report in self.parts.reports(round_):
                if report:
                    reports.append(report)
                    done += len(report.rows)
                    failures += sum(group.count for group in report.groups)
                self.progress.show(round_.number, round_.depth, done, round_.wanted, failures)
                if done < round_.wanted and self.is_to_end():
                    break
        finally:
            self.take(round_, reports)

    def is_to_end(self) -> bool:
        """Whether a signal came, or the time is over."""
        left = self.progress.seconds_left()
        if INTERRUPTIONS.is_noted():
            self.why_ended = "interrupted"
        elif left is not None and left <= 0:
            self.why_ended = f"{self.settings.seconds:g} seconds were over"
        return self.why_ended is not None

    def take(self, round_: Round, reports: list[Report]) -> None:
        """The rows of the reports: of all where the round is whole, and else of those that were made."""
        if not reports:
            return
        if sum(len(report.rows) for report in reports) == round_.wanted:
            round_.rows = merged(reports).rows
        else:
            place = lambda row: (row.seed - round_.first) % SEEDS
            round_.rows = sorted((row for report in reports for row in report.rows), key=place)
        round_.steps = round_.steps or reports[0].head[1]
        round_.longest = longest_of(round_.rows)

    def sweep(self, round_: Round) -> None:
        """All choices of an order and points, by the program's sweep."""
        words = ["sweep", self.parts.script, "--depth", str(round_.depth), "--limit", str(round_.limit)]
        words += ["--steps", str(round_.steps)] if round_.steps else []
        words += self.parts.serving
        self.progress.begin_round()
        swept = self.parts.crew.pool.submit(self.program.whole, *words)
        try:
            while not wait([swept], timeout=0.1).done:
                self.progress.tell(f"round {round_.number}, depth {round_.depth}: all choices are run")
                if self.is_to_end():
                    return
        finally:
            if not swept.done():
                self.program.stop()
                wait([swept])
                self.program.go_on()
        head, round_.sweep = read_sweep(swept.result().out)
        round_.steps, round_.wanted = head["steps"], head["choices"]
        # A sweep doesn't tell how long its runs are: some seeds of the same depth do.
        probe = Round(round_.number, round_.depth, round_.first, AT_DEPTH_1, round_.limit, round_.steps)
        try:
            made = self.parts.make(probe, probe.first, probe.wanted)
        except KeyboardInterrupt:
            made = None
        round_.longest = longest_of(made[0].rows) if made else 0


def longest_of(rows: list[Row]) -> int:
    return max((row.steps for row in rows if row.verdict != "cut"), default=0)


def read_sweep(text: str) -> tuple[dict[str, int], list[Choice]]:
    """The numbers of a sweep's head, and its groups."""
    head: dict[str, int] = {}
    choices: list[Choice] = []
    for line in text.splitlines():
        words = line.split()
        if len(words) == 2 and words[1].isdecimal():
            head[words[0]] = int(words[1])
        elif "verdict" in words and "order" in words and "points" in words:
            order, points, verdict = words.index("order"), words.index("points"), words.index("verdict")
            choices.append(Choice(int(words[0]), int(words[1]), words[order + 1:points],
                                  [int(it) for it in words[points + 1:verdict]], " ".join(words[verdict + 1:])))
    if "choices" not in head or "steps" not in head:
        raise Refused(ERROR, f"what pct wrote is no sweep: {text[:80]!a}")
    return head, choices
