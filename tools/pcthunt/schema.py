"""The form of a document as docs/document.md lists it: what each member is, and which belong to the first part. A
document of another form is refused with the path of the member."""

from __future__ import annotations

import json
import re
from collections.abc import Callable, Iterable
from dataclasses import dataclass
from typing import Any

from pctmodel.script import is_name
from pctmodel.trace import ask_of

GREATEST_STEP = 100000
NUMBER = re.compile("-?[0-9]{1,20}")
VERDICT = re.compile(r"passed|cut|(failed|stuck|misuse|fault)( [A-Za-z0-9_]+)+")
DEEPEST = 40  # members within members


class NoDocument(Exception):
    """What was read is no document of the form: the path of a member, and what is wanted there."""


Check = Callable[[Any, str], None]


def fail(path: str, wanted: str) -> None:
    raise NoDocument(f"{path or 'the document'}: {wanted} is wanted")


def plain(wanted: str, holds: Callable[[Any], bool]) -> Check:
    def check(value: Any, path: str) -> None:
        if not holds(value):
            fail(path, wanted)
    return check


def is_number(value: Any) -> bool:
    return isinstance(value, int) and not isinstance(value, bool) and abs(value) < 2**53


TEXT = plain("a string", lambda it: isinstance(it, str))
COUNT = plain("a number from 0 on", lambda it: is_number(it) and it >= 0)
INTEGER = plain("a number", is_number)
LINE = plain("a line's number, from 1", lambda it: is_number(it) and it >= 1)
FLAG = plain("true or false", lambda it: isinstance(it, bool))
NAME = plain("a name", lambda it: isinstance(it, str) and is_name(it, 1))
DECIMAL = plain("a string of decimals", lambda it: isinstance(it, str) and NUMBER.fullmatch(it) is not None)
ASK = plain("what a thread asks, as a trace has it",
            lambda it: isinstance(it, str) and (ask_of(it.split(" "), 2) is not None))
SAID = plain("a verdict, as a trace has it", lambda it: isinstance(it, str) and VERDICT.fullmatch(it) is not None)
ANY = plain("a value", lambda it: True)


def many(check: Check) -> Check:
    """A list of such values."""
    def each(value: Any, path: str) -> None:
        if not isinstance(value, list):
            fail(path, "a list")
        for place, it in enumerate(value):
            check(it, f"{path}[{place}]")
    return each


def by_name(check: Check) -> Check:
    """An object of such values, by names."""
    def each(value: Any, path: str) -> None:
        if not isinstance(value, dict):
            fail(path, "an object")
        for name, it in value.items():
            check(it, f"{path}.{name}")
    return each


def maybe(check: Check) -> Check:
    """Such a value, or null."""
    return lambda value, path: None if value is None else check(value, path)


@dataclass
class Form:
    """An object: the members that it has to have, and those that may be absent. Others are passed over."""

    needed: dict[str, Check]
    other: dict[str, Check]

    def __call__(self, value: Any, path: str) -> None:
        if not isinstance(value, dict):
            fail(path, "an object")
        for name, check in self.needed.items():
            if name not in value:
                fail(f"{path}.{name}".lstrip("."), "it is missing, and a value")
            check(value[name], f"{path}.{name}".lstrip("."))
        for name, check in self.other.items():
            if name in value:
                check(value[name], f"{path}.{name}".lstrip("."))


PLACE: dict[str, Check] = {"file": TEXT, "line": LINE}
THREAD_STATE = Form({"is": TEXT, "rank": INTEGER}, {"ask": TEXT, **PLACE, "for": TEXT, "holder": NAME})
STATE = Form({}, {
    "vars": by_name(DECIMAL), "sems": by_name(COUNT), "mutexes": by_name(maybe(NAME)),
    "rwlocks": by_name(Form({"writer": maybe(NAME), "readers": by_name(COUNT)}, {})),
    "conds": by_name(Form({"waiting": many(NAME), "woken": many(NAME)}, {})), "barriers": by_name(many(NAME)),
    "threads": by_name(THREAD_STATE)})
STEP = Form({"thread": NAME, **PLACE, "ask": ASK, "answer": DECIMAL},
            {"own": LINE, "lowered": COUNT, "why": TEXT, "over": many(NAME), "woken": many(NAME),
             "released": many(NAME), "changes": STATE, "near": FLAG})
SEED = Form({"seed": DECIMAL, "depth": COUNT, "steps": COUNT}, {})
CORE = Form({"thread": NAME, "waits": TEXT, "for": maybe(NAME), "since": maybe(LINE)}, PLACE)
RUN = Form({"seed": maybe(SEED), "order": many(NAME), "points": many(LINE), "limit": COUNT, "steps": many(STEP),
            "asking": many(Form({"thread": NAME, **PLACE, "ask": ASK}, {})), "ended": many(NAME), "verdict": SAID},
           {"start": STATE, "core": many(CORE), "died": TEXT})
DIRECTIVE = Form({"low": NAME, "moments": many(Form({"thread": NAME, "number": LINE, "step": maybe(LINE)}, {})),
                  "verdict": SAID},
                 {"threads": COUNT, "steps": COUNT, "depth": COUNT, "bound": DECIMAL, "tried": COUNT})
PASSING = Form({"run": RUN, "change": Form({"point": COUNT, "to": maybe(LINE)}, {}), "says": TEXT, "differs": LINE}, {})
HEADING = Form({"run": RUN, "again": many(Form({"says": TEXT, "command": TEXT}, {}))}, {
    "kind": TEXT, "key": many(TEXT), "sentence": TEXT, "told": many(TEXT),
    "shares": many(Form({"round": COUNT, "count": COUNT}, {})),
    "verdicts": many(Form({"verdict": SAID, "count": COUNT, "steps": COUNT}, {})),
    "races": many(Form({"var": NAME, "first": LINE, "second": LINE}, {})),
    "locks": Form({}, {"order": many(NAME), "cycle": many(Form({"step": LINE, "thread": NAME, "held": NAME,
                                                                "taken": NAME}, {}))}),
    "find": DIRECTIVE, "directive": DIRECTIVE, "passing": PASSING})
DEAL = Form({"threads": many(Form({"name": NAME}, {**PLACE, "held": FLAG})),
             "vars": many(Form({"name": NAME, "value": DECIMAL}, {})), "mutexes": many(NAME), "conds": many(NAME),
             "rwlocks": many(NAME), "sems": many(Form({"name": NAME, "count": COUNT}, {})),
             "barriers": many(Form({"name": NAME, "size": COUNT}, {}))}, {})
ROUND = Form({"depth": COUNT, "steps": COUNT, "limit": COUNT, "seeds": COUNT, "failures": COUNT},
             {"from": DECIMAL, "sweep": FLAG})
DOCUMENT = Form({"document": plain("1", lambda it: is_number(it) and it == 1), "writer": TEXT, "title": TEXT,
                 "sources": many(Form({"file": TEXT, "text": TEXT}, {})), "deal": DEAL, "names": by_name(TEXT),
                 "headings": many(HEADING)}, {"command": TEXT, "rounds": many(ROUND), "status": COUNT})


def read_json(text: str) -> Any:
    """The value of a text of JSON, whose numbers are finite."""
    def refuse(word: str) -> Any:
        raise NoDocument(f"the number {word[:20]} isn't finite, and no number of a document")
    try:
        return json.loads(text, parse_constant=refuse, parse_float=fraction)
    except RecursionError:
        raise NoDocument(f"its members stand more than {DEEPEST} deep in one another") from None
    except ValueError as error:
        raise NoDocument(f"it is no JSON: {error}") from None


def fraction(word: str) -> float:
    value = float(word)
    if value in (float("inf"), float("-inf")):
        raise NoDocument(f"the number {word[:20]} isn't finite, and no number of a document")
    return value


def check_document(document: Any) -> None:
    """Refused where it isn't of the form, or where a run names threads or objects that aren't dealt."""
    DOCUMENT(document, "")
    deal = document["deal"]
    threads = names_of(deal["threads"], "deal.threads")
    objects = {kind: names_of(deal[member], f"deal.{member}") for kind, member in
               {"var": "vars", "mutex": "mutexes", "cond": "conds", "sem": "sems", "barrier": "barriers",
                "rwlock": "rwlocks"}.items()} | {"thread": threads}
    for number, heading in enumerate(document["headings"]):
        check_run(heading["run"], f"headings[{number}].run", threads, objects)
        if "passing" in heading:
            check_run(heading["passing"]["run"], f"headings[{number}].passing.run", threads, objects)


def names_of(listed: Iterable[Any], path: str) -> set[str]:
    """The names, each of which is there once."""
    names: set[str] = set()
    for place, it in enumerate(listed):
        name = it if isinstance(it, str) else it["name"]
        if name in names:
            fail(f"{path}[{place}]", "a name that isn't there yet")
        names.add(name)
    return names


def check_run(run: Any, path: str, threads: set[str], objects: dict[str, set[str]]) -> None:
    if not threads <= set(run["order"]) or len(set(run["order"])) < len(run["order"]):  # a plan may have more
        fail(f"{path}.order", "each thread of the deal, once,")
    asks = [(f"{path}.{member}[{place}]", it) for member in ("steps", "asking") for place, it in enumerate(run[member])]
    for at, it in asks:
        asked = ask_of(it["ask"].split(" "), 2)
        if it["thread"] not in threads:
            fail(f"{at}.thread", "a thread of the deal")
        if asked and any(name not in objects[kind] for kind, name in asked[1]):
            fail(f"{at}.ask", "what the deal has")
    if not set(run["ended"]) <= threads:
        fail(f"{path}.ended", "threads of the deal")
    words = run["verdict"].split()
    is_well = words[0] in ("passed", "cut") or words[1] in threads and len(words) == {
        "failed": 3, "misuse": 4, "fault": 4}.get(words[0], len(words) | 1)
    if not is_well or words[0] in ("failed", "misuse", "fault") and not run["steps"]:
        fail(f"{path}.verdict", "a verdict of the deal's threads and the run's steps")
