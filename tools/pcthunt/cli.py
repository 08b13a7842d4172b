"""The words of pct-hunt, and what they make."""

from __future__ import annotations

import argparse
import os
import shutil
import sys
import tempfile
import time
from collections.abc import Callable
from typing import NoReturn

from pcthunt.document import put as document_text
from pcthunt.expected import check_expectation, expectation, is_as_expected
from pcthunt.hunting import Hunt
from pcthunt.machine_forms import Outcome, annotation_lines, junit, line_of
from pcthunt.inputs import MOST_SCRIPT, check_names, check_output, read, without_fifos
from pcthunt.interruptions import INTERRUPTIONS
from pcthunt.output import (BAD_SCRIPT, DONE, FOUND, INTERRUPTED, READ_FAULT, USAGE, WRITE_FAULT, Refused, is_at_github,
                            keep, put, reason, say, shown, shown_lines)
from pcthunt.page import page_words, write_page
from pcthunt.program import Program
from pcthunt.why import why_words
from pcthunt.report import Result, text_of
from pcthunt.rounds import Crew, Parts
from pcthunt.shorter import Source
from pcthunt.settings import DEPTH, DEPTH_BY_SEEDS, SECONDS, SEEDS_OF_A_ROUND, Settings, processors

HELP = """Looks for the orders of steps in which a script goes wrong, and tells what happens in each, by pct alone.

A hunt has ten seconds, and two once something failed. It runs all choices of each depth that they suffice for, and
else seeds in turns that grow. With --seeds it has rounds: 200 seeds at depth 1, and then so many at each of the depths
2, 3 and 4; the same words then give the same text anywhere. Failures that are one bug come under one heading, each with
its shortest run, where its values came from, its data races, what it needs, and a directive that certifies it. SCRIPT
may be a folder: then each of its scripts has to come to what its line '# hunt: passes', '# hunt: fails' or
'# hunt: VERDICT' says, or NAME.expect beside it; to pass where there is none."""
STATUS = """The status is 0 where nothing failed (of a folder: where each script came to what it should), 1 where
something did, 2 for words that aren't taken, 3 for a script that is refused, 4 for a document or a trace and 5 for a
directive that is, 6 and 7 for files and output that can't be read or written, 8 where there is no memory or no thread
left, 9 where the tool or pct has an error of its own, and, where nothing failed, 130 where SIGINT and 143 where SIGTERM
came before its end, or 130 where its time was over before a run came to its end.

'pct-hunt --why run FILE ..' says why pct refuses these words or files, and what it wants in their place. 'pct-hunt
--page DOCUMENT.json [--html FILE]' writes the page of a document that it or a layer for real threads wrote. A file is
at most 64 MiB, '-' the standard input, and a FIFO or a device is read where '--fifo' stands before its name."""


def number(least: int, most: int) -> Callable[[str], int]:
    def value(word: str) -> int:
        if not (word.isascii() and word.isdecimal() and len(word) <= 20 and least <= int(word) <= most):
            raise argparse.ArgumentTypeError(f"'{word}' is none of {least} to {most}")
        return int(word)
    return value


def seconds(word: str) -> float:
    try:
        value = float(word)
    except ValueError:
        value = 0.0
    if not 0 < value < 1e9:
        raise argparse.ArgumentTypeError(f"'{word}' is no number of seconds")
    return value


class WordParser(argparse.ArgumentParser):
    """Says in one line which word isn't taken."""

    def error(self, message: str) -> NoReturn:
        raise Refused(USAGE, f"{shown(message)} ('pct-hunt --help' says which words there are)")


def parser() -> argparse.ArgumentParser:
    it = WordParser("pct-hunt", description=HELP, epilog=STATUS, add_help=False, allow_abbrev=False,
                    formatter_class=argparse.RawDescriptionHelpFormatter)
    it.add_argument("script", metavar="SCRIPT", help="a script, or a folder of scripts NAME.pct")
    search = it.add_argument_group("the search")
    search.add_argument("--depth", type=number(1, 8), metavar="DEPTH",
                        help="the greatest depth (5; with --seeds 4)")
    search.add_argument("--seeds", type=number(1, 10**9), metavar="N",
                        help="seeds of each round, in place of a time")
    search.add_argument("--from", type=number(0, 2**64 - 1), default=1, metavar="SEED", dest="first",
                        help="the first seed of each round (1)")
    search.add_argument("--limit", type=number(1, 100000), default=10000, metavar="STEPS",
                        help="how many steps a run may have (10000)")
    search.add_argument("--time", type=seconds, metavar="SECONDS", help="ends the search (10)")
    search.add_argument("--first", action="store_true", dest="is_first_enough",
                        help="ends it after the first round with a failure")
    search.add_argument("--certify", type=number(0, 10**6), default=2000, metavar="N",
                        help="how many directives are tried (2000); 0: none")
    where = it.add_argument_group("where it runs")
    where.add_argument("--jobs", type=number(1, 1024), default=0, metavar="N",
                       help="parts at once (one for each processor)")
    where.add_argument("--sshlogin", metavar="LIST", help="hands the parts to GNU parallel, for these machines")
    said = it.add_argument_group("what it says")
    said.add_argument("--json", action="store_true", dest="is_json", help="one JSON document (docs/document.md)")
    said.add_argument("--html", metavar="FILE", help="writes a page there, too, to step through each failure")
    said.add_argument("--junit", metavar="FILE", help="writes a JUnit report there, too")
    said.add_argument("--quiet", action="store_true", dest="is_quiet", help="no lines on how far it is")
    said.add_argument("--help", action="store_true", dest="is_help", help="writes this")
    return it


def settings_of(given: argparse.Namespace, words: list[str]) -> Settings:
    rest = searching(words, given.script)
    is_timed = given.seeds is None and given.sshlogin is None
    depth = given.depth or (DEPTH if is_timed else DEPTH_BY_SEEDS)
    seconds = given.time or (SECONDS if is_timed else None)
    return Settings(depth, given.seeds or SEEDS_OF_A_ROUND, given.first, given.limit, seconds, is_timed,
                    given.time is not None, given.is_first_enough, given.jobs or len(processors()), given.is_quiet,
                    given.certify, given.sshlogin, rest)


def searching(words: list[str], script: str) -> list[str]:
    """The words that say what is searched, without where it runs and what it says."""
    rest: list[str] = []
    left = list(words)
    left.remove(script)
    while left:
        word = left.pop(0)
        name = word.split("=")[0]
        has_value = "=" not in word and name not in ("--first", "--json", "--quiet")
        value = [left.pop(0)] if has_value and left else []
        if name not in ("--jobs", "--quiet", "--json", "--html", "--junit", "--sshlogin"):
            rest += [word, *value]
    return rest


class Session:
    """A program, its crew and a folder for a while."""

    def __init__(self, settings: Settings, room: str) -> None:
        self.settings, self.room = settings, room
        self.program = Program.here()
        self.crew = Crew(settings.jobs)
        self.hunts: list[Hunt] = []

    def hunt(self, path: str) -> Result:
        """The result of one script."""
        hunt = Hunt(self.settings, self.program, Source(path, read(path, MOST_SCRIPT), self.room), self.room)
        self.hunts.append(hunt)
        return hunt.run(self.crew, self.parts(hunt))

    def parts(self, hunt: Hunt) -> Parts:
        if self.settings.sshlogin is not None:
            from pcthunt.machines import MachineParts
            return MachineParts(self.program, hunt.source.forms[0].path, self.crew, self.settings.sshlogin)
        return Parts(self.program, hunt.source.forms[0].path, self.crew)

    def outcome(self, path: str, wanted: str | None = None) -> Outcome | None:
        """The outcome of a script that should come to what is wanted, or to what it says itself; None where a signal
        came before anything failed."""
        if INTERRUPTIONS.count:
            return None
        begun = time.monotonic()
        try:
            where = ""
            if wanted is None:
                wanted, where = expectation(path, read(path, MOST_SCRIPT).decode(errors="replace"))
            result = self.hunt(path)
            check_expectation(path, wanted, where, self.hunts[-1].script)
        except KeyboardInterrupt:
            return None
        except Refused as refused:
            if refused.status not in (USAGE, BAD_SCRIPT):
                raise
            lines = refused.why.split("\n")
            line = next((int(it[5:].split(":")[0]) for it in lines[0].split(": ") if it.startswith("line ")), 1)
            return Outcome(path, wanted or "", False, refused.why, line)
        if INTERRUPTIONS.count and not result.has_failed():
            return None
        is_well = is_as_expected(wanted, result)
        verdicts = sorted({case.heading.best().verdict for case in result.cases})
        came = "; ".join(verdicts) or "nothing failed"
        line = line_of(result.cases[0].heading.best().verdict) if result.cases else 1
        said = f"{came}" if is_well else f"{came}, and it should come to: {wanted}"
        return Outcome(path, wanted, is_well, said, line, result, time.monotonic() - begun)


def one_script(session: Session, given: argparse.Namespace) -> int:
    check_output("--html", given.html, [given.script])
    check_output("--junit", given.junit, [given.script])
    result = session.hunt(given.script)
    status = FOUND if result.has_failed() else INTERRUPTIONS.status or (DONE if result.has_run() else INTERRUPTED)
    hunt = session.hunts[-1]
    document = hunt.document(status) if given.is_json or given.html else {}
    text = document_text(document) if given.is_json else text_of(result)
    said = "; ".join(case.sentence for case in result.cases) or "nothing failed"
    line = line_of(result.cases[0].heading.best().verdict) if result.cases else 1
    outcome = Outcome(given.script, "passes", not result.has_failed(), said, line, result)
    write_forms(given, [outcome])
    if given.html:
        write_page(document, given.html)
    put(text if given.is_json else shown_lines(text) + annotated([outcome]))
    if INTERRUPTIONS.count and given.is_json:
        say(f"hunt: interrupted; it goes on by {result.goes_on or result.again}")
    return status


def folder(session: Session, given: argparse.Namespace) -> int:
    if given.is_json or given.html:
        raise Refused(USAGE, f"{'--json' if given.is_json else '--html'} takes one script, and not a folder")
    try:
        names = sorted(it for it in os.listdir(given.script) if it.endswith(".pct"))
    except OSError as error:
        raise Refused(READ_FAULT, f"{given.script} can't be read: {reason(error)}") from None
    if not names:
        raise Refused(USAGE, f"{given.script} has no script, no file NAME.pct")
    outcomes: list[Outcome] = []
    text = ""
    for name in names:
        outcome = session.outcome(os.path.join(given.script, name))
        if outcome is None:  # interrupted before anything failed
            break
        outcomes.append(outcome)
        text += outcome_lines(outcome)
    bad = sum(not it.is_well for it in outcomes)
    if len(outcomes) < len(names):
        text += f"interrupted; {len(names) - len(outcomes)} scripts were not looked at; the same words begin again\n"
    text += f"{len(outcomes) - bad} came to what they should, {bad} didn't\n"
    write_forms(given, outcomes)
    put(shown_lines(text) + annotated(outcomes))
    return FOUND if bad else DONE if len(outcomes) == len(names) else INTERRUPTIONS.status or INTERRUPTED


def outcome_lines(outcome: Outcome) -> str:
    told = f"{'ok  ' if outcome.is_well else 'NOT '} {shown(outcome.path)}: {outcome.said}\n"
    if not outcome.is_well and outcome.result:
        told += "".join(f"     {line}".rstrip() + "\n" for line in text_of(outcome.result).splitlines())
    return told


def annotated(outcomes: list[Outcome]) -> str:
    return annotation_lines(outcomes) if is_at_github() else ""


def write_forms(given: argparse.Namespace, outcomes: list[Outcome]) -> None:
    if given.junit:
        keep(given.junit, junit(outcomes))


def main() -> int:
    """The status of a call by the words behind the program's name, as the help has them."""
    words = without_fifos(sys.argv[1:])
    sys.setrecursionlimit(10000)
    if words[:1] == ["--page"]:
        with INTERRUPTIONS.open():
            return page_words(words[1:])
    if words[:1] == ["--why"]:
        check_names(words[2:4])
        with INTERRUPTIONS.open():
            return why_words(Program.here(), words[1:])
    if "--help" in words:
        put(parser().format_help())
        return DONE
    given = parser().parse_args(words)
    settings = settings_of(given, words)
    try:
        room = tempfile.mkdtemp(prefix="pct-hunt-")
    except OSError as error:
        raise Refused(WRITE_FAULT, f"there is no room for a folder of its own: {reason(error)}") from None
    session = None
    try:
        session = Session(settings, room)
        return folder(session, given) if os.path.isdir(given.script) else one_script(session, given)
    finally:
        if session:
            session.program.stop()
            session.crew.close()
        shutil.rmtree(room, ignore_errors=True)
