"""The search: the declared order, how many threads and steps there are, and then the seeds."""

from __future__ import annotations

from collections import deque
from collections.abc import Iterator
from dataclasses import dataclass, field

from pcttry.ignored import ignored_of
from pcttry.runner import End, Refused, Run, Runner, run_of
from pcttry.symbols import Symbols

FAILING = 20      # runs, after which a search ends
FURTHER = 300     # seeds that are still tried after the first failure
LEARNING = 20     # runs that find out which plain accesses are steps


@dataclass
class Settings:
    """What the user said of the runs."""

    seeds: int = 1000
    depth: int | None = None
    start: int = 1
    jobs: int = 1
    any_status: bool = False
    plain: int = 1
    reuse: bool = False
    timeouts: bool = False
    chaos: bool = False
    limit: int = 50000
    patience: int = 10
    threads: int = 0
    steps: int = 0
    patterns: list[str] = field(default_factory=list)  # places whose races are no failure

    def depths(self) -> tuple[int, int]:
        return (self.depth, self.depth) if self.depth else (1, 3)


@dataclass
class Found:
    """What a search came to. `tried` are the runs of seeds; `n` threads and `k` steps are what orders are drawn of."""

    n: int
    k: int
    tried: int = 0
    first: int = 0  # up to the first failing one, from 1; 0 where none fails
    steps: int = 0
    failing: list[Run] = field(default_factory=list)
    declared: Run | None = None  # where that fails


class Search:
    """Several runners that are set alike."""

    def __init__(self, runners: list[Runner], settings: Settings) -> None:
        self.runners, self.settings = runners, settings
        self.n = max(1, settings.threads)  # a run that needs more begins all anew
        self.is_over = False

    def set(self, name: str, value: int) -> None:
        for runner in self.runners:
            runner.set(name, value)

    def begin(self) -> None:
        settings = self.settings
        for name, value in (("plain", settings.plain), ("reuse", settings.reuse), ("early", settings.timeouts),
                            ("chaos", settings.chaos), ("limit", settings.limit), ("patience", settings.patience)):
            self.set(name, int(value))

    def has_failed(self, run: Run) -> bool:
        if self.settings.any_status and run.end == End.GOES and run.status & 127 == 0:
            return False
        return run.end != End.GOES or run.status != 0

    def declared(self) -> Run:
        """The run in the order of creation, with as many seats as it needs."""
        while True:
            self.set("seats", self.n)
            run = self.runners[0].run(0, 0)
            if run.end != End.MORE_SEATS:
                return run
            self.n = run.seats

    def learn(self) -> None:
        """Each runner finds out by the same runs at which places plain accesses are steps."""
        for runner in self.runners:
            runner.set("frozen", 0)
            for seed in range(LEARNING):
                runner.run(1_000_000 + seed, 1 + seed % 3)
            runner.set("frozen", 1)

    def prepare(self) -> tuple[Run, int]:
        """The declared run and k."""
        run = self.declared()
        self.set("steps", max(1, run.steps))
        if self.settings.plain >= 2:
            self.learn()
            run = self.declared()
        k = self.settings.steps or max(1, run.steps)
        self.set("steps", k)
        return run, k

    def chunks(self) -> Iterator[tuple[int, int]]:
        start, end = self.settings.start, self.settings.start + self.settings.seeds
        size = 8
        while start < end and not self.is_over:
            yield start, min(size, end - start)
            start += size
            size = min(64, size * 2)

    def answers(self) -> Iterator[tuple[list[Run], int, int]]:
        """The failing runs of each chunk, its runs and its steps, in the order of their seeds."""
        low, high = self.settings.depths()
        waiting: deque[Runner] = deque()
        chunks, idle = self.chunks(), deque(self.runners)
        more = True
        while more or waiting:
            while more and idle:
                chunk = next(chunks, None)
                more = chunk is not None
                if chunk:
                    idle[0].send(f"search {chunk[0]} {chunk[1]} {low} {high}")
                    waiting.append(idle.popleft())
            if not waiting:
                return
            runner = waiting.popleft()
            *rows, done = runner.answer()
            idle.append(runner)
            _, runs, steps = done.split()
            yield [run_of(row) for row in rows], int(runs), int(steps)

    def seeds(self, found: Found) -> Found:
        """Looks on after the first failure for a shorter one, over so many seeds: so what is found doesn't depend on
        jobs or time."""
        answers, last, self.is_over = self.answers(), 1 << 62, False
        for failing, tried, steps in answers:
            if self.is_over:
                continue  # the chunks that were begun
            more = [run.seats for run in failing if run.end == End.MORE_SEATS]
            if more:
                self.n, self.is_over = max(more), True
                continue
            self.note_first(found, failing)
            found.failing += [run for run in failing if self.has_failed(run)]
            found.tried, found.steps = found.tried + tried, found.steps + steps
            last = min(last, found.tried + FURTHER) if found.failing else last
            self.is_over = found.tried >= last or len(found.failing) >= FAILING
        return found

    def note_first(self, found: Found, failing: list[Run]) -> None:
        low, high = self.settings.depths()
        numbers = [(run.seed - self.settings.start) * (high - low + 1) + run.depth - low + 1 for run in failing
                   if self.has_failed(run)]
        found.first = found.first or min(numbers, default=0)

    def run(self) -> Found:
        self.begin()
        while True:
            run, k = self.prepare()
            if run.end in (End.REFUSED, End.LAYER_FAULT):
                raise Refused(self.runners[0].tell().told)
            found = self.seeds(Found(self.n, k, declared=run if self.has_failed(run) else None))
            if found.n == self.n and not self.ignore_more(found):
                return found

    def ignore_more(self, found: Found) -> bool:
        """Whether some of the races that were found are to be ignored: then all begins anew without them."""
        if not self.settings.patterns:
            return False
        runner, more = self.runners[0], set[int]()
        symbols = Symbols(runner.modules(), runner.command[0])
        for run in [*found.failing, *([found.declared] if found.declared else [])]:
            if run.end == End.RACE:
                runner.run(run.seed, run.depth)
                more |= set(ignored_of(runner.tell().accesses, self.settings.patterns, symbols))
        for address in more:
            for each in self.runners:
                each.send(f"ignore {address:x}")
        return bool(more)
