"""A script that is hunted in: itself, or the plain scripts that a shorter one stands for, whose lines are shown as
those of the shorter one."""

from __future__ import annotations

import os
import shlex
from dataclasses import dataclass, replace

from pctexpand.cli import expansion_of
from pctexpand.expansion import Expansion, Plain
from pcthunt.output import BAD_SCRIPT, Refused, keep, shown
from pcthunt.refusals import mend_of, script_refusal
from pctmodel.run import Event
from pctmodel.script import Faulty, Script, Statement, Thread, parse
from pctmodel.trace import Trace


def relined_block(block: list[Statement], lines: list[int]) -> list[Statement]:
    """The statements with the lines that theirs are of."""
    return [replace(it, line=lines[it.line - 1], block=relined_block(it.block, lines),
                    otherwise=None if it.otherwise is None else relined_block(it.otherwise, lines)) for it in block]


@dataclass(frozen=True)
class Form:
    """One of the plain scripts: its file, what was chosen in it, its script, and the same with the lines shown."""

    path: str
    chosen: str
    plain: Script
    script: Script


class Source:
    """The script of a file, and the plain scripts that are run for it."""

    def __init__(self, title: str, data: bytes, room: str) -> None:
        self.title, self.data = title, data
        self.expansion = expansion_of(title, data)
        self.is_short = not isinstance(self.expansion, Plain)
        self.forms = [self.form(number, room) for number in range(self.expansion.runs())]

    def form(self, number: int, room: str) -> Form:
        path = os.path.join(room, f"script_{number}.pct" if number else "script.pct")
        data = self.expansion.plain(number)
        try:
            plain = parse(data)
        except Faulty as fault:
            raise Refused(BAD_SCRIPT, self.refusal(data, fault)) from None
        keep(path, data)
        chosen = [f"{place.thread} chose {value} in line {place.source}"
                  for place, value in self.expansion.chosen(number)]
        return Form(path, ", ".join(chosen), plain, self.relined(plain))

    def refusal(self, data: bytes, fault: Faulty) -> str:
        if not self.is_short:
            return script_refusal(self.title, data, fault)
        mend = mend_of(data, fault)
        text = shown(data.decode().split("\n")[fault.line - 1].strip())
        at = f" at '{shown(mend.word)}'" if mend.word else ""
        return f"{shown(self.title)}: line {self.line(fault.line)}, for `{text}`: {fault.kind}{at}: {mend.wanted}"

    def line(self, number: int) -> int:
        return self.expansion.lines[number - 1]

    def relined(self, script: Script) -> Script:
        lines = self.expansion.lines
        threads = {name: Thread(self.line(it.line), relined_block(it.block, lines), self.line(it.end_line),
                                self.expansion.names.get(name, {})) for name, it in script.threads.items()}
        return replace(script, threads=threads)

    def verdict(self, verdict: str) -> str:
        """The verdict with the lines that its own are of."""
        kind, *rest = verdict.split()
        for place in range(1, len(rest), 2):
            rest[place] = str(self.line(int(rest[place])))
        return " ".join([kind, *rest])

    def trace(self, trace: Trace) -> Trace:
        events = [Event(it.thread, self.line(it.line), it.ask, it.answer) for it in trace.events]
        return replace(trace, events=events, verdict=self.verdict(trace.verdict))

    def name(self) -> str:
        """The file that the program's commands take."""
        return "plain.pct" if self.is_short else self.title

    def making(self, number: int) -> list[tuple[str, str]]:
        """The command that makes this file."""
        if not self.is_short:
            return []
        choice = ["--choice", str(number + 1)] if len(self.forms) > 1 else []
        return [("the plain script", f"{shlex.join(['pct-expand', *choice, self.title])} >{self.name()}")]
