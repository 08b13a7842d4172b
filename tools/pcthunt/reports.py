"""The reports of campaigns: how they are read, and how those of the parts of one campaign become the report of the
whole, byte for byte the one that `pct campaign` writes of all the seeds."""

from __future__ import annotations

import json
import re
from collections.abc import Iterable, Iterator, Sequence
from typing import NamedTuple

HEAD = ("threads", "steps", "depth", "limit")
SEEDS = 2**64
VERDICT = re.compile(r"[a-z]+( [A-Za-z0-9_]+)*")


def is_number(word: str) -> bool:
    """Whether it is a decimal of at most 64 bits, by its length."""
    return word.isascii() and word.isdecimal() and len(word) <= 20


class Row(NamedTuple):
    """The run of one seed, 0 to 2^64 - 1: how many steps it had, 0 to 100,000, and its verdict as a trace has it."""

    seed: int
    steps: int
    verdict: str


class Group(NamedTuple):
    """The runs of one verdict but passed: how many they are, the fewest steps, and the first seed."""

    count: int  # type: ignore[assignment]  # tuples have a method of that name
    steps: int
    first: int
    verdict: str


class Report(NamedTuple):
    """A report of a campaign: the numbers of its head, its rows and groups, and the name of its file."""

    head: tuple[int, ...]
    rows: list[Row]
    groups: list[Group]
    name: str


class NoReport(Exception):
    """What the parts lack."""


def groups_of(rows: Iterable[Row]) -> list[Group]:
    """The verdicts but passed: those of most rows first, then those of the fewest steps, then the lowest first
    seeds."""
    found: dict[str, tuple[int, int, int]] = {}
    for row in rows:
        if row.verdict != "passed":
            count, steps, first = found.get(row.verdict, (0, row.steps, row.seed))
            found[row.verdict] = count + 1, min(steps, row.steps), first
    groups = [Group(*numbers, verdict) for verdict, numbers in found.items()]
    return sorted(groups, key=lambda group: (-group.count, group.steps, group.first))


def numbered(name: str, line: str, count: int) -> tuple[list[int], str]:
    """So many numbers at the start of a line, and the verdict behind them."""
    words = line.split(" ", count)
    if len(words) <= count or not all(map(is_number, words[:count])) or not VERDICT.fullmatch(words[count]):
        raise NoReport(f"{name}: this is no line of a report: {line[:80]!a}")
    return [int(word) for word in words[:count]], words[count]


def value_of(name: str, line: str | None, word: str) -> int:
    value = line[len(word) + 1:] if line is not None and line.startswith(f"{word} ") else ""
    if not is_number(value):
        raise NoReport(f"{name}: a report has no line '{word}' in its place")
    return int(value)


def text_report(name: str, lines: Iterator[str]) -> Report:
    """The report whose first line was read."""
    head = tuple(value_of(name, next(lines, None), word) for word in HEAD)
    rows: list[Row] = []
    ends: dict[str, tuple[int, str]] = {}  # most rows are alike behind their seeds
    for line in lines:
        seed, _, end = line.partition(" ")
        if seed == "groups":
            many = value_of(name, line, "groups")
            break
        if end not in ends or not is_number(seed):
            (_, steps), verdict = numbered(name, line, 2)
            ends[end] = steps, verdict
        rows.append(Row(int(seed), *ends[end]))
    else:
        raise NoReport(f"{name}: a report ends before its line 'groups'")
    return Report(head, rows, [group_of(name, next(lines, "")) for _ in range(many)], name)


def group_of(name: str, line: str) -> Group:
    (count, steps, first), verdict = numbered(name, line, 3)
    return Group(count, steps, first, verdict)


def is_verdict(value: object) -> bool:
    return isinstance(value, str) and VERDICT.fullmatch(value) is not None


def json_report(name: str, line: str) -> Report:
    try:
        value = json.loads(line)
        head = tuple(value[word] for word in HEAD)
        groups = [Group(*(group[word] for word in Group._fields)) for group in value["groups"]]
        rows = [Row(*row) for row in value["rows"]]
    except (ValueError, KeyError, TypeError, RecursionError):
        raise NoReport(f"{name}: this line is no report: {line[:60]!a}") from None
    numbers = (*head, *(it for row in rows for it in row[:2]), *(it for group in groups for it in group[:3]))
    verdicts = (*(row.verdict for row in rows), *(group.verdict for group in groups))
    if not all(type(it) is int and 0 <= it < SEEDS for it in numbers) or not all(map(is_verdict, verdicts)):
        raise NoReport(f"{name}: this line is no report: {line[:60]!a}")
    return Report(head, rows, groups, name)


def reports_of(name: str, text: str) -> Iterator[Report]:
    """The reports in a text, each as text or as JSON. Raises NoReport, with a sentence, at the first line that is
    none."""
    lines = iter(text.removesuffix("\n").split("\n") if text else ())
    for line in lines:
        yield text_report(name, lines) if line == "campaign 1" else json_report(name, line)


def after(report: Report) -> int:
    """The seed that comes after those of the report."""
    return (report.rows[-1].seed + 1) % SEEDS


def check_parts(reports: Sequence[Report]) -> None:
    """Each part is whole by itself, and all are of one campaign."""
    for report in reports:
        seeds = [row.seed for row in report.rows]
        if not seeds or any((seed + 1) % SEEDS != other for seed, other in zip(seeds, seeds[1:])):
            raise NoReport(f"{report.name}: the seeds of a report don't follow one another")
        if groups_of(report.rows) != report.groups:
            raise NoReport(f"{report.name}: the groups of a report aren't those of its rows")
        if report.head != reports[0].head:
            raise NoReport(f"{report.name} and {reports[0].name} are of campaigns with other numbers in their heads")


def in_order(reports: Sequence[Report]) -> list[Report]:
    """The parts, each right after the one before it."""
    by_first = {report.rows[0].seed: report for report in reports}
    firsts = by_first.keys() - {after(report) for report in reports}
    if len(by_first) < len(reports) or len(firsts) > 1:
        begins = ", ".join(map(str, sorted(by_first)))
        raise NoReport(f"a part is missing or there twice: parts begin at {begins}")
    part: Report | None = by_first[min(firsts, default=reports[0].rows[0].seed)]
    ordered: list[Report] = []
    while part and len(ordered) < len(reports):
        ordered.append(part)
        part = by_first.get(after(part))
    if len(ordered) < len(reports):
        raise NoReport("the parts don't follow one another")
    return ordered


def merged(reports: Sequence[Report]) -> Report:
    """The report of the whole."""
    if not reports:
        raise NoReport("there is no report")
    check_parts(reports)
    rows = [row for report in in_order(reports) for row in report.rows]
    if len({row.seed for row in rows}) < len(rows):
        raise NoReport("a seed is there twice")
    return Report(reports[0].head, rows, groups_of(rows), "the whole")


def text_lines(report: Report) -> Iterator[str]:
    """The lines of a report as `pct campaign` writes it as text."""
    yield "campaign 1"
    yield from (f"{word} {value}" for word, value in zip(HEAD, report.head))
    yield from (" ".join(map(str, row)) for row in report.rows)
    yield f"groups {len(report.groups)}"
    yield from (" ".join(map(str, group)) for group in report.groups)


def json_lines(report: Report) -> Iterator[str]:
    """The one line of a report as `pct campaign` writes it as JSON."""
    groups = [group._asdict() for group in report.groups]
    value = {**dict(zip(HEAD, report.head)), "rows": report.rows, "groups": groups}
    yield json.dumps(value, sort_keys=True, separators=(",", ":"))
