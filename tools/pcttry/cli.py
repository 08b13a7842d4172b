"""The command pct-try: its words, the search, the replay, and what is printed."""

from __future__ import annotations

import argparse
import os
import shutil
import sys
from collections.abc import Sequence

from pcthunt.output import keep, put
from pcttry import ignored, tracefile
from pcttry.report import Report, sentence
from pcttry.runner import End, Refused, Run, Runner
from pcttry.search import Found, Search, Settings
from pcttry.symbols import Symbols

PLAIN = {"off": 0, "races": 1, "steps": 2, "racy": 3}
HELP = """Tests a program that pct-cc or pct-c++ linked: its main is the test, in a process of its own for each run,
and its real threads run one at a time in an order that pct chooses. A run fails by an assertion, a signal, a status
that isn't 0, a deadlock, a livelock, a data race, or a use of memory after it was freed. The status is 0 where no run
failed, 1 where one did, and 2 where the program can't be tested."""


def arguments() -> argparse.ArgumentParser:
    parser = argparse.ArgumentParser(prog="pct-try", description=HELP)
    add = parser.add_argument
    add("--seeds", type=int, default=1000, metavar="N", help="how many seeds, each at the depths 1, 2 and 3 (1000)")
    add("--depth", type=int, choices=range(1, 9), metavar="D", help="at this depth alone, 1 to 8")
    add("--from", type=int, default=1, dest="start", metavar="SEED", help="the first seed (1)")
    add("--jobs", type=int, default=1, metavar="N", help="processes that make runs side by side (1)")
    add("--replay", metavar="FILE", help="makes the run of a trace again; the program's words may be left out")
    add("--lanes", action="store_true", help="the steps of the failing run, each below its thread")
    add("--trace", metavar="FILE", help="where the trace of a failing run is written (PROGRAM.pcttrace)")
    add("--status", choices=["any"], help="any: a status that isn't 0 fails no run")
    add("--plain", choices=list(PLAIN), default="races",
        help="of accesses of plain memory: races fail a run (races); each of memory that threads share is a step "
             "(steps), or each that races (racy); nothing (off)")
    add("--ignore", metavar="FILE", help="races at the places of these patterns are no failure")
    add("--preload", action="store_true",
        help="a program that wasn't compiled by pct-cc: its locks, waits and threads are steps, and no race is seen")
    add("--timeouts", choices=["late", "any"], default="late",
        help="late: a wait times out where nobody else can go; any: also earlier")
    add("--chaos", action="store_true",
        help="waits end by themselves, signals wake any waiter, weak exchanges fail: drawn from the seed")
    add("--reuse", action="store_true", help="freed memory is given again; uses of it aren't found then")
    add("--threads", type=int, default=0, metavar="N", help="at least so many threads are drawn an order of")
    add("--steps", type=int, default=0, metavar="K", help="change points are drawn from 1 to K")
    add("--limit", type=int, default=50000, metavar="STEPS", help="steps of a run, at most 100000 (50000)")
    add("--patience", type=int, default=10, metavar="SECONDS", help="without a step, until a run is ended (10)")
    add("program", nargs=argparse.REMAINDER, metavar="PROGRAM WORDS", help="the program and its words")
    return parser


def settings_of(words: argparse.Namespace) -> Settings:
    return Settings(seeds=words.seeds, depth=words.depth, start=words.start, jobs=max(1, words.jobs),
                    any_status=words.status == "any", reuse=words.reuse,
                    plain=0 if words.preload else PLAIN[words.plain],
                    patterns=ignored.read(words.ignore) if words.ignore else [],
                    timeouts=words.timeouts == "any", chaos=words.chaos, limit=words.limit, patience=words.patience,
                    threads=words.threads, steps=words.steps)


def command_of(words: Sequence[str]) -> list[str]:
    if not words:
        raise Refused("a program is missing: pct-try PROGRAM WORDS..")
    path = words[0] if "/" in words[0] else shutil.which(words[0])
    if not path or not os.access(path, os.X_OK) or os.path.isdir(path):
        raise Refused(f"{words[0]}: there is no such program")
    return [path, *words[1:]]


def library() -> str:
    """The runtime, in the checkout or below the prefix of these files."""
    here = os.path.dirname(os.path.dirname(os.path.realpath(__file__)))
    folders = [os.environ.get("PCT_LIB_DIR", ""), os.path.join(os.path.dirname(here), "lib"),
               os.path.join(here, "..", "..", "..", "lib")]
    found = [os.path.join(folder, "libpct_stand.so") for folder in folders if folder]
    there = [os.path.realpath(path) for path in found if os.path.exists(path)]
    if not there:
        raise Refused(f"{found[-2]} is missing")
    return there[0]


def say(line: str) -> None:
    put(f"{line}\n")


def again(runner: Runner, run: Run) -> Run:
    """The run once more, with what it prints seen."""
    runner.set("loud", 1)
    repeated = runner.run(run.seed, run.depth)
    runner.set("loud", 0)
    return repeated


def title(command: Sequence[str]) -> str:
    return os.path.basename(command[0])


def summary(command: Sequence[str], found: Found) -> str:
    tail = f"; n {found.n}, k {found.k}"
    if not found.failing:
        return f"{title(command)}: passed in {found.tried} runs{tail}"
    first = f"the first is run {found.first}; the shortest:"
    return f"{title(command)}: failed in {len(found.failing)} of {found.tried} runs{tail}; {first}"


def run_name(run: Run) -> str:
    where = f"seed {run.seed}, depth {run.depth}" if run.depth else "the declared order"
    return f"{where}, {run.steps} steps"


def refuse_unfit(search: Search, run: Run) -> None:
    """What the runtime refuses is no failure of the program."""
    if run.end in (End.REFUSED, End.LAYER_FAULT):
        search.runners[0].run(run.seed, run.depth)
        raise Refused(search.runners[0].tell().told)


def tell(command: Sequence[str], search: Search, found: Found, run: Run, words: argparse.Namespace) -> None:
    runner = search.runners[0]
    repeated = again(runner, run)
    told = runner.tell()
    modules = runner.modules()
    report = Report(repeated, told, Symbols(modules, command[0]))
    say(f"{run_name(repeated)}: " + "\n".join(report.lines(words.lanes)))
    if repeated != run:
        say("the run isn't the same when it is made again: the program reads something that changes from run to run")
    path = words.trace or f"{title(command)}.pcttrace"
    trace = tracefile.trace_of(command, repeated, found.n, found.k, search.settings, told, modules,
                               sentence(repeated, told))
    keep(path, tracefile.text_of(trace))
    say(f"the trace is in {path}; again: pct-try --replay {path}")


def search_for(command: list[str], words: argparse.Namespace) -> int:
    settings = settings_of(words)
    preload = library() if words.preload else None
    search = Search([Runner(command, preload) for _ in range(settings.jobs)], settings)
    try:
        found = search.run()
        for run in found.failing:
            refuse_unfit(search, run)
        failing = sorted(found.failing, key=lambda run: (run.steps, run.seed, run.depth))
        if not failing and found.declared:
            failing = [found.declared]
            say(f"{title(command)}: the declared order fails, and no run of a seed does; n {found.n}, k {found.k}")
        else:
            say(summary(command, found))
        if failing:
            tell(command, search, found, failing[0], words)
        return 1 if failing else 0
    finally:
        for runner in search.runners:
            runner.close()


def replay(path: str, words: argparse.Namespace) -> int:
    """By the list of threads: a program that was changed since may go on by it, or departs from it."""
    trace = tracefile.read(path)
    command = command_of(words.program or trace.command)
    runner = Runner(command, library() if words.preload else None)
    search = Search([runner], tracefile.settings_of(trace))
    try:
        search.begin()
        modules = runner.modules()
        for address in tracefile.absolute(trace.learned, modules):
            runner.send(f"learned {address:x}")
        for name, value in (("seats", trace.n), ("steps", trace.k), ("limit", 100000)):
            runner.set(name, value)
        for start in range(0, len(trace.threads), 1000):
            runner.send("list " + " ".join(map(str, trace.threads[start:start + 1000])))
        run = again(runner, Run(trace.seed, trace.depth, End.GOES, 0, 0, 0, ""))
        told = runner.tell()
        report = Report(run, told, Symbols(modules, command[0]))
        say("\n".join(report.lanes()))
        say("verdict " + "\n".join(report.lines(False)))
        if sentence(run, told) != trace.verdict:
            say(f"the trace's was: {trace.verdict}")
        return 1 if search.has_failed(run) else 0
    finally:
        runner.close()


def main() -> int:
    words = arguments().parse_args()
    try:
        if words.replay:
            return replay(words.replay, words)
        return search_for(command_of(words.program), words)
    except Refused as refused:
        print(f"pct-try: {refused}", file=sys.stderr)
        return 2
    except KeyboardInterrupt:
        return 130
