"""What a hunt says of a script, as text."""

from __future__ import annotations

from dataclasses import dataclass, field

from pcthunt.certify import Sought
from pcthunt.headings import Failure, Heading
from pcthunt.output import shown, typed
from pcthunt.picture import MOST_COLUMNS, Picture, text_lines
from pcthunt.rounds import Round
from pcthunt.shorter import Source
from pcthunt.states import Json, listed
from pctmodel.directive import Directive

MOST_ROWS = 120  # of the lanes that are printed
MOST_FORMS = 12  # ways to choose that are listed


@dataclass
class Case:
    """A heading with all that is said of it."""

    heading: Heading
    sentence: str
    told: list[str]
    picture: Picture
    races: list[Json]
    locks: Json
    found: Directive | None = None
    sought: Sought | None = None
    again: list[tuple[str, str]] = field(default_factory=list)  # what it shows, and the command
    passing: Json | None = None


@dataclass
class Result:
    """The result of a hunt."""

    title: str
    rounds: list[Round]
    cases: list[Case]
    failures: list[Failure]
    why_ended: str | None
    goes_on: str | None  # the command by which a search that was ended goes on
    source: Source | None = None
    again: str | None = None  # where the explanation was interrupted, the command that makes all of it

    def has_failed(self) -> bool:
        return bool(self.failures)

    def has_run(self) -> bool:
        """Whether a run came to its end."""
        return any(it.done() for it in self.rounds)

    def is_interrupted(self) -> bool:
        return self.why_ended == "interrupted" or self.again is not None


def folded(text: str, first: str, later: str) -> list[str]:
    """The text in lines of less than 100 columns."""
    lines, line = [], first
    for word in text.split(" "):
        if len(line) + len(word) + 1 > MOST_COLUMNS and line.strip() not in ("", "-"):
            lines.append(line)
            line = later
        line += word if line in (first, later) else f" {word}"
    return [*lines, line]


def round_line(round_: Round) -> str:
    failures = round_.failures()
    fail = "none fails" if failures == 0 else "1 fails" if failures == 1 else f"{failures:,} fail"
    if round_.sweep is not None:
        return f"all {round_.wanted:,} choices of depth {round_.depth}: {fail}"
    if round_.choices:
        part = 100 * round_.done() / round_.choices
        of = f" ({part:.0f} %)" if part >= 1 else ""
        drawn = f"{round_.done():,} of {round_.choices:,} choices of depth {round_.depth}{of}, drawn"
        return f"{drawn if part < 100 else f'{round_.done():,} draws at depth {round_.depth}'}: {fail}"
    done = f"{round_.done():,} seeds" if round_.is_whole() else f"{round_.done():,} of {round_.wanted:,} seeds"
    points = f", points in 1 to {round_.steps}" if round_.depth > 1 else ""
    return f"depth {round_.depth}: {done} from {round_.first} on{points}: {fail}"


def round_lines(result: Result) -> list[str]:
    """A line for each round; of several plain scripts one for each script."""
    forms = result.source.forms if result.source else []
    if len(forms) < 2:
        return [f"  {round_line(it)}" for it in result.rounds]
    lines = [f"  {len(forms)} ways to choose, each in runs of its own:"]
    for number, form in enumerate(forms[:MOST_FORMS]):
        own = [it for it in result.rounds if it.form == number]
        runs, failures = sum(it.done() for it in own), sum(it.failures() for it in own)
        said = f"{runs:,} runs at depths 1 to {own[-1].depth}: {failures:,} fail" if own else "not run"
        lines += folded(f"{form.chosen}: {said}", f"    {number + 1}. ", "       ")
    if len(forms) > MOST_FORMS:
        rest = [it for it in result.rounds if it.form >= MOST_FORMS]
        lines.append(f"    and {len(forms) - MOST_FORMS} more: {sum(it.done() for it in rest):,} runs: "
                     f"{sum(it.failures() for it in rest):,} fail")
    return lines


def would_be_found(result: Result) -> list[str]:
    """Where nothing failed, which bugs would have, by counts alone."""
    own = [it for it in result.rounds if it.choices and it.depth > 1 and it.form == 0]
    threads = len(result.source.forms[0].script.threads) if result.source else 0
    lines = []
    swept = [it for it in own if it.sweep is not None]
    for steps in sorted({it.steps for it in swept}):
        depths = [str(it.depth) for it in swept if it.steps == steps]
        lines += folded(f"a bug of depth {' or '.join(depths)} in runs of at most {steps:,} steps: found, as all "
                        "choices were run", "  ", "    ")
    for round_ in own:
        if round_.sweep is None:
            least = threads * round_.steps ** (round_.depth - 1)
            lines += folded(f"a bug of depth {round_.depth} in runs of at most {round_.steps:,} steps: by chance: by "
                            f"PCT's bound 1 in {least:,} draws or more show it, and {round_.done():,} were made", "  ",
                            "    ")
    return lines


def shares(heading: Heading, rounds: list[Round]) -> str:
    """In how many runs of each round it came."""
    by_number = {it.number: it for it in rounds}
    forms = {by_number[number].form for number in heading.counts()}
    if len({it.form for it in rounds}) > 1:
        which = ", ".join(str(it + 1) for it in sorted(forms)[:8]) + (", .." if len(forms) > 8 else "")
        runs = sum(it.done() for it in rounds if it.form in forms)
        return f"{sum(heading.counts().values()):,} of {runs:,} runs of the ways {which}"
    told = []
    for number, count in heading.counts().items():
        round_ = by_number[number]
        what = "choices" if round_.sweep is not None else "seeds"
        whole = "all " if round_.sweep is not None else ""
        told.append(f"{count:,} of {whole}{round_.done():,} {what} at depth {round_.depth}")
    return ", ".join(told)


def moment_words(directive: Directive, failure: Failure) -> list[str]:
    """The moments of a directive in words, with the lines of the run at which they come."""
    told = []
    for thread, number in directive.events:
        own = [it for it in failure.run["steps"] if it["thread"] == thread]
        at = f" (line {own[number - 1]['line']}: {own[number - 1]['text']})" if number <= len(own) else ""
        told.append(f"{thread} is lowered after its step {number}{at}")
    return told


def directive_words(directive: Directive, failure: Failure) -> str:
    *first, last = [f"{directive.low} has the lowest priority",
                    *(moment_words(directive, failure) or ["nobody is lowered"])]
    return f"{', '.join(first)} and {last}"


def case_lines(number: int, case: Case, result: Result) -> list[str]:
    best = case.heading.best()
    lines = folded(case.sentence, f"{number}. ", "   ")
    lines += folded(f"{shares(case.heading, result.rounds)}.", "   ", "   ")
    verdicts = [failure.verdict for failure in case.heading.failures]
    if len(verdicts) > 1:
        more = f"; and {len(verdicts) - 6} more" if len(verdicts) > 6 else ""
        lines += folded(f"Verdicts: {'; '.join(verdicts[:6])}{more}", "   ", "     ")
    many = len(best.run["steps"])
    which = "The shortest run" if many == best.steps else "The first run"  # of a sweep the first choice is told
    lines += ["", f"   {which}, {many} steps ({' '.join(best.schedule.options)}):", ""]
    lines += [f"   {line}".rstrip() for line in text_lines(case.picture, MOST_COLUMNS - 3)]
    lines.append("")
    for sentence in case.told:
        lines += folded(sentence, "   - ", "     ")
    lines += finding_lines(case, best)
    lines += ["", "   To see it again:"]
    for says, command in case.again:
        lines.append(f"     {command}    # {says}")
    return [*lines, *folded(f"To read: {reading(case)}", "   ", "     ")]


def reading(case: Case) -> str:
    """What to read: bugs of the same kind in the gallery."""
    run, kind = case.heading.best().run, case.heading.kind()
    core = run.get("core", [])
    if kind == "stuck" and core and all(it["for"] == it["thread"] for it in core):
        alike = ["upgraded_read_lock"]
    elif kind == "stuck" and core and {it["for"] for it in core} <= {it["thread"] for it in core}:
        alike = ["lock_order", "philosophers"]
    elif kind == "stuck" and any(it["waits"].startswith("a signal") for it in core):
        alike = ["lost_wakeup", "one_condition", "pool"]
    elif kind == "stuck":
        return "docs/messages.md on 'stuck'"
    elif kind == "failed":
        alike = ["wait_with_if", "released_twice", "two_phase"]
        alike = ["lost_update", "seqlock", "work_stealing"] if case.races else alike
    else:
        return f"docs/messages.md on '{kind}'"
    return f"docs/messages.md on '{kind}'; examples/README.md on {listed(alike)}"


def place_of(failure: Failure, number: int) -> str:
    step = failure.run["steps"][number - 1]
    return f"step {number}, line {step['line']}: {step['text']}"


def finding_lines(case: Case, best: Failure) -> list[str]:
    lines: list[str] = []
    if case.locks.get("cycle"):
        nests = [f"{it['thread']} takes {it['taken']} while it holds {it['held']} ({place_of(best, it['step'])})"
                 for it in case.locks["cycle"]]
        lines += folded("a cycle of mutexes: " + "; ".join(nests), "   - ", "     ")
    elif len(case.locks.get("order", [])) > 1 and case.heading.kind() != "stuck":
        lines += folded("the run takes its mutexes in the order " + ", ".join(case.locks["order"]), "   - ", "     ")
    if case.found:
        lines += folded(f"what the failure needs, by find: {directive_words(case.found, best)}", "   - ", "     ")
    if case.passing:
        lines += folded(f"{case.passing['says']}, it passes; the runs differ from step {case.passing['differs']} on",
                        "   - ", "     ")
    sought = case.sought
    if sought and sought.certified:
        certified = sought.certified
        how = directive_words(certified.directive, best)
        which = "first" if certified.tried == 1 else ordinal(certified.tried)
        lines += folded(f"certified: {certified.told()} fails so, by the {which} directive that was tried: {how}",
                        "   - ", "     ")
    elif sought:
        lines += folded(f"not certified: {sought.why_not}", "   - ", "     ")
    return lines


def ordinal(number: int) -> str:
    """1,001st, 1,012th, and so on."""
    end = "th" if number % 100 in (11, 12, 13) else {1: "st", 2: "nd", 3: "rd"}.get(number % 10, "th")
    return f"{number:,}{end}"


def text_of(result: Result) -> str:
    """The whole text."""
    many = len(result.cases)
    what = "nothing failed" if not result.failures else "1 failure" if many == 1 else f"{many} failures"
    if result.failures and not many:
        what = "1 verdict, which isn't explained" if len(result.failures) == 1 else \
            f"{len(result.failures)} verdicts, which aren't explained"
    elif result.failures and all(case.heading.kind() == "cut" for case in result.cases):
        what = "no failure, but runs that were cut"
    elif not result.has_run():
        what = "no run came to its end"
    lines = [f"{shown(result.title)}: {what}"]
    lines += round_lines(result)
    lines += [] if result.failures else would_be_found(result)
    if result.why_ended:
        lines.append(f"  The search was ended: {result.why_ended}. It goes on by")
        lines.append(f"    {result.goes_on}")
    if result.again:
        lines += ["  The explanation was interrupted, and has what was there. All of it comes "
                  "by", f"    {result.again}"]
    for number, case in enumerate(result.cases, 1):
        lines += ["", *case_lines(number, case, result)]
    rest = [failure for failure in result.failures if not failure.run]
    if rest:
        runs = sum(it.count() for it in rest)
        made_by = typed(["run", *rest[0].schedule.words(result.source.name() if result.source else result.title)])
        many_more = "1 more verdict" if len(rest) == 1 else f"{len(rest)} more verdicts"
        lines += ["", f"Of {many_more}, in {runs:,} runs, no run was made here. '{rest[0].verdict}' is the first, "
                      "which "
                  f"'pct {made_by}' makes."]
    return "\n".join(lines) + "\n"
