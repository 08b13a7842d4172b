"""What a hunt found in the forms that other programs read: JUnit's XML, and the annotations of GitHub."""

from __future__ import annotations

import re
import xml.etree.ElementTree as ElementTree
from dataclasses import dataclass

from pcthunt.output import shown_line, shown_lines
from pcthunt.report import Result, text_of

# What XML 1.0 has no character for, escaped or not.
FORBIDDEN = re.compile("[^\t\n\r\u0020-\ud7ff\ue000-\ufffd\U00010000-\U0010ffff]")


@dataclass
class Outcome:
    """The result of one script, or why there is none."""

    path: str
    wanted: str  # passes, fails or a verdict
    is_well: bool
    said: str  # in one line
    line: int  # of the script, at which it is told
    result: Result | None = None  # none where it was refused
    seconds: float = 0.0


def xml_text(text: str) -> str:
    """The text's lines as they are shown."""
    return FORBIDDEN.sub("", shown_lines(text))


def junit(outcomes: list[Outcome]) -> str:
    """A test case for each script."""
    bad = [it for it in outcomes if not it.is_well]
    errors = [it for it in bad if it.result is None]
    suite = ElementTree.Element("testsuite", name="pct-hunt", tests=str(len(outcomes)), errors=str(len(errors)),
                                failures=str(len(bad) - len(errors)))
    for outcome in outcomes:
        case = ElementTree.SubElement(suite, "testcase", classname="pct", name=shown_line(outcome.path),
                                      time=f"{outcome.seconds:.3f}")
        if not outcome.is_well:
            kind = "error" if outcome.result is None else "failure"
            told = ElementTree.SubElement(case, kind, message=shown_line(outcome.said))
            told.text = xml_text(text_of(outcome.result) if outcome.result else outcome.said)
    ElementTree.indent(suite)
    return '<?xml version="1.0" encoding="utf-8"?>\n' + ElementTree.tostring(suite, encoding="unicode") + "\n"


def escaped(text: str, also: str = "") -> str:
    for it in f"%\r\n{also}":
        text = text.replace(it, f"%{ord(it):02X}")
    return text


def annotation_lines(outcomes: list[Outcome]) -> str:
    """A line for each heading of a script that isn't what it should be."""
    lines = []
    for outcome in outcomes:
        if outcome.is_well:
            continue
        told = [(outcome.line, outcome.said)]
        if outcome.result and outcome.result.cases:
            told = [(line_of(case.heading.best().verdict), case.sentence) for case in outcome.result.cases]
        file = escaped(shown_line(outcome.path), ":,")
        lines += [f"::error file={file},line={line},title=pct-hunt::{escaped(shown_line(said))}" for line, said in told]
    return "".join(f"{line}\n" for line in lines)


def line_of(verdict: str) -> int:
    """The line of the script that a verdict names first."""
    words = verdict.split()
    return int(words[2]) if len(words) > 2 and words[2].isdecimal() else 1
