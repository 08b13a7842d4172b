"""A hunt of one script, from its file to its result."""

from __future__ import annotations

import os

from pcthunt.certify import Certifier, Sought
from pcthunt.document import complete_run, directive_of, first_part, locks_of, sentence_of
from pcthunt.expected import is_atomic
from pcthunt.explain import equal_at_end, sentences_of
from pcthunt.headings import Failure, Heading, Headings, failures_of
from pcthunt.interruptions import INTERRUPTIONS
from pcthunt.output import typed
from pcthunt.passing import passing_run
from pcthunt.picture import drawn, lines_of
from pcthunt.program import Program
from pcthunt.progress import Progress
from pcthunt.report import MOST_ROWS, Case, Result
from pcthunt.rounds import Crew, Parts, Round, Search
from pcthunt.settings import Settings
from pcthunt.shorter import Form, Source
from pcthunt.states import Json
from pcthunt.timed import TimedSearch
from pctmodel.directive import Directive, read_directive
from pctmodel.script import Script


ROWS_OF_A_SPIN = 3  # of equal steps at the end of a run that are shown


def going_on(rounds: list[Round], settings: Settings) -> int:
    """The seed from which a search that was ended goes on."""
    drawn = [it.next_seed() for it in rounds if it.is_drawn and it.depth > 1]
    if settings.is_timed:
        return min(drawn, default=settings.first)
    return rounds[-1].first if rounds[-1].is_whole() else rounds[-1].next_seed()


class Hunt:
    """A script that was read and parsed, and the program that runs it."""

    def __init__(self, settings: Settings, program: Program, source: Source, room: str) -> None:
        self.settings, self.program, self.source, self.room = settings, program, source, room
        self.title, self.data, self.text = source.title, source.data, source.data.decode()
        self.script: Script = source.forms[0].script
        self.name = program.name()
        self.headings: Headings | None = None
        self.result: Result | None = None
        self.is_interrupted = False  # the explanation

    def run(self, crew: Crew, parts: Parts) -> Result:
        """The result of the hunt. Where the search is interrupted, what it found is explained; where that is
        interrupted, too, it is reported as far as it went."""
        progress = Progress(self.settings.is_quiet, self.settings.seconds)
        kind = TimedSearch if self.settings.is_timed else Search
        if self.settings.is_timed and self.program.has_caller():
            parts.serving = ["--serve", "caller"]
        search = kind(self.settings, self.program, self.source, parts, progress)
        rounds = search.run()
        if search.why_ended == "interrupted":
            INTERRUPTIONS.answer()
        result = Result(self.title, rounds, [], failures_of(rounds, self.source), search.why_ended, None,
                        source=self.source)
        if search.why_ended:
            first = going_on(rounds, self.settings)
            result.goes_on = self.settings.command(self.title, **{"from": first})
        self.headings = Headings(self.program, self.source)
        progress.tell(f"a run of each verdict is made, of {len(result.failures)}")
        found = self.headings.of(result.failures)
        self.is_interrupted = self.headings.is_interrupted
        for number, heading in enumerate(found, 1):
            progress.tell(f"failure {number} of {len(found)} is explained")
            result.cases.append(self.case(heading))
        progress.clear()
        if self.is_interrupted or INTERRUPTIONS.is_noted():
            result.again = self.settings.command(self.title)
        self.result = result
        return result

    def case(self, heading: Heading) -> Case:
        best = heading.best()
        assert best.trace is not None
        events = best.trace.events
        looks = equal_at_end(events) if heading.kind() == "cut" else 0
        first = max(1, len(events) - (ROWS_OF_A_SPIN if looks >= MOST_ROWS else MOST_ROWS) + 1)
        picture = drawn(self.form(best).script, best.trace, lines_of(self.data), first, len(events))
        case = Case(heading, sentence_of(best.run), [], picture, [], locks_of(self.script, events))
        case.again = self.again(best)
        for explain in (self.tell_races, self.tell_needs, self.tell_passing, self.tell_certificate):
            try:
                if not self.is_interrupted:
                    with INTERRUPTIONS.open():
                        explain(case)
            except KeyboardInterrupt:
                self.is_interrupted = True
        races = [it for it in case.races if not is_atomic(it["var"], self.text)]
        case.told = sentences_of(self.form(best).script, best.run, events, races, case.passing)
        return case

    def form(self, failure: Failure) -> Form:
        """The plain script in which it came."""
        return self.source.forms[failure.schedule.form]

    def tell_races(self, case: Case) -> None:
        case.races = self.races(case.heading.best())

    def tell_needs(self, case: Case) -> None:
        if case.heading.kind() != "cut":
            case.found = self.find(case.heading.best())

    def tell_passing(self, case: Case) -> None:
        best = case.heading.best()
        if case.heading.kind() != "cut" and best.trace:
            case.passing = passing_run(self.form(best).script, best.trace, self.title)

    def tell_certificate(self, case: Case) -> None:
        if case.found and self.settings.certify:
            case.sought = self.certify(case.found, case.heading.best())

    def races(self, failure: Failure) -> list[Json]:
        out = self.program.whole("races", *failure.schedule.words(self.form(failure).path)).out
        races = [line.split() for line in out.splitlines() if line.startswith("race ")]
        return [{"var": words[1], "first": int(words[2]), "second": int(words[3])} for words in races]

    def find(self, failure: Failure) -> Directive | None:
        answer = self.program.whole("find", *failure.schedule.words(self.form(failure).path))
        plain = self.form(failure).plain
        return read_directive(answer.out.encode(), plain) if answer.out.startswith("directive") else None

    def certify(self, found: Directive, failure: Failure) -> Sought:
        assert failure.trace is not None
        form = self.form(failure)
        certifier = Certifier(self.program, form.path, form.plain, self.room, self.settings.limit)
        return certifier.seek(found, failure.trace.events, self.settings.certify)

    def again(self, failure: Failure) -> list[tuple[str, str]]:
        """The commands that show a failure again."""
        words = typed(failure.schedule.words(self.source.name()))
        kind = failure.verdict.split()[0]
        return [*self.source.making(failure.schedule.form), ("its trace", f"{self.name} run {words}"),
                ("its data races", f"{self.name} races {words}"),
                ("what it needs", f"{self.name} find {words}"), (f"what '{kind}' means", f"{self.name} --explain "
                                                                                         f"{kind}")]

    # The document.

    def document(self, status: int) -> Json:
        assert self.result is not None and self.headings is not None
        runs = [case.heading.best().run for case in self.result.cases]
        document = first_part(self.title, self.text, runs, self.script)
        document |= {"command": self.settings.command(self.title), "status": status,
                     "rounds": [self.round(it) for it in self.result.rounds]}
        for member, case in zip(document["headings"], self.result.cases):
            member |= self.heading(case)
        return document

    @staticmethod
    def round(round_: Round) -> Json:
        told: Json = {"depth": round_.depth, "steps": round_.steps, "limit": round_.limit, "seeds": round_.done(),
                      "failures": round_.failures()}
        if round_.sweep is not None:
            return told | {"sweep": True}
        return told | {"from": str(round_.first)}

    def directive(self, directive: Directive, best: Failure) -> Json:
        told = directive_of(directive, best.run)
        return told | {"verdict": self.source.verdict(directive.verdict)}

    def heading(self, case: Case) -> Json:
        best = case.heading.best()
        told: Json = {
            "again": [{"says": says, "command": command} for says, command in case.again],
            "kind": case.heading.kind(), "key": list(case.heading.key), "sentence": case.sentence, "told": case.told,
            "shares": [{"round": number, "count": count} for number, count in case.heading.counts().items()],
            "verdicts": [{"verdict": it.verdict, "count": it.count(), "steps": it.steps}
                         for it in case.heading.failures],
            "races": case.races, "locks": case.locks,
        }
        if case.found:
            told["find"] = self.directive(case.found, best)
        if case.sought and case.sought.certified:
            certified = case.sought.certified
            told["directive"] = self.directive(certified.directive, best) | {
                "threads": certified.threads, "steps": certified.steps, "depth": len(certified.directive.events) + 1,
                "bound": str(certified.bound), "tried": certified.tried}
        if case.passing:
            assert self.headings is not None
            complete_run(case.passing["run"], self.headings.deal, self.headings.texts)
            told["passing"] = case.passing
        return told


