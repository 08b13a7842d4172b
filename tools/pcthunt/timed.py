"""A hunt with a time: all choices of a depth where these take less than what is left of it, and else seeds, in turns
that grow."""

from __future__ import annotations

import math
import time

from pcthunt.reports import SEEDS
from pcthunt.rounds import MOST_SWEPT, Round, Search
from pcthunt.settings import AT_DEPTH_1

AFTER_A_FAILURE = 2.0  # seconds in which others are looked for
FIRST_RATE = 500_000.0  # steps a second of all runs of a sweep, as long as none was measured
LEAST_MEASURED = 4000  # choices: a smaller sweep takes as long as its start
SHARE = 0.8  # of the time that is left, which a sweep may take by the rate that was measured
FIRST_TURN, MOST_OF_A_TURN = 2000, 500_000  # seeds


class TimedSearch(Search):
    """The rounds of a hunt that ends by its time, or two seconds after the first failure."""

    rate = FIRST_RATE
    has_failed = False

    def run(self) -> list[Round]:
        """Depth by depth the rounds of all plain scripts of the source, and then draws of those that weren't swept."""
        drawn: list[Round] = []
        try:
            for depth in range(1, self.settings.depth + 1):
                drawn += self.rounds_of_depth(depth)
                if self.is_over() or self.is_enough():
                    break
            self.draw_in_turns(drawn)
        except KeyboardInterrupt:
            self.why_ended = "interrupted"
        self.note_end(drawn)
        self.progress.clear()
        self.rounds = [it for it in self.rounds if it.done()] or self.rounds[:1]
        for number, round_ in enumerate(self.rounds):
            round_.number = number
        return self.rounds

    def rounds_of_depth(self, depth: int) -> list[Round]:
        """Sweeps the depth of each plain script, and answers the rounds that would take too long."""
        drawn: list[Round] = []
        for form in range(len(self.source.forms)):
            round_ = self.begin(depth, form)
            self.rounds.append(round_)
            if self.fits(round_):
                self.sweep_measured(round_)
            elif depth == 1:
                self.draw(round_, AT_DEPTH_1)
            else:
                drawn.append(round_)
            if self.is_over():
                break
        return drawn

    def begin(self, depth: int, form: int) -> Round:
        own = [it.longest for it in self.rounds if it.form == form]
        steps = max([1, *own]) if depth > 1 else 0
        choices = math.factorial(self.threads) * max(steps, 1) ** (depth - 1)
        return Round(len(self.rounds), depth, self.settings.first, choices, self.settings.limit, steps, form=form,
                     choices=choices)

    def left(self) -> float:
        left = self.progress.seconds_left()
        assert left is not None
        return left

    def is_over(self) -> bool:
        return self.why_ended is not None or self.left() <= 0

    def is_out_of_time(self) -> bool:
        return self.is_over()

    def fits(self, round_: Round) -> bool:
        most = self.rate * self.left() * SHARE / max(round_.steps, 1) / len(self.source.forms)
        return self.program.has_sweep() and round_.choices <= min(MOST_SWEPT, most)

    def sweep_measured(self, round_: Round) -> None:
        begun = time.monotonic()
        self.parts.script = self.source.forms[round_.form].path
        self.sweep(round_)
        seconds = time.monotonic() - begun
        if round_.sweep is not None and round_.wanted >= LEAST_MEASURED:
            self.rate = round_.wanted * round_.steps / seconds
        self.note_failure(round_)

    def draw_in_turns(self, rounds: list[Round]) -> None:
        many = FIRST_TURN
        while rounds and not self.is_over() and not self.is_enough():
            for round_ in rounds:
                if not self.is_over() and not self.is_enough():
                    self.draw(round_, many)
            many = min(2 * many, MOST_OF_A_TURN)

    def draw(self, round_: Round, many: int) -> None:
        """Runs so many more seeds of the round, or as many as the time allows; of those that pass only the number is
        kept."""
        first = (round_.first + round_.done()) % SEEDS
        turn = Round(round_.number, round_.depth, first, many, round_.limit, round_.steps)
        self.parts.script = self.source.forms[round_.form].path
        try:
            self.campaign(turn)
        finally:
            self.keep(round_, turn)

    def keep(self, round_: Round, turn: Round) -> None:
        round_.steps = round_.steps or turn.steps
        round_.longest = max(round_.longest, turn.longest)
        failing = [row for row in turn.rows if row.verdict != "passed"]
        round_.passed += len(turn.rows) - len(failing)
        round_.rows += failing
        round_.is_drawn = True
        self.note_failure(round_)

    def note_failure(self, round_: Round) -> None:
        """With the first failure the search has two seconds more."""
        end = self.progress.end
        if round_.failures() and not self.has_failed and end is not None:
            self.has_failed = True
            self.progress.end = min(end, time.monotonic() + AFTER_A_FAILURE)

    def note_end(self, drawn: list[Round]) -> None:
        """Where a time was given and is over before all was run, the search was ended by it."""
        is_failing = any(it.failures() for it in self.rounds)
        is_rest = bool(drawn) or not any(it.done() for it in self.rounds)
        if self.settings.is_time_given and not is_failing and is_rest and not self.why_ended and self.is_over():
            self.why_ended = f"{self.settings.seconds:g} seconds were over"
