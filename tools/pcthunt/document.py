"""The document of a failing run, as docs/document.md describes it: its first part, and what is worked out from that.

    python3 tools/pcthunt/document.py FIRST.json

writes the whole document of a first part, which a layer that runs real threads wrote."""

from __future__ import annotations

import json
import os
import sys

sys.dont_write_bytecode = True
if __name__ == "__main__":
    sys.path[0] = os.path.dirname(os.path.dirname(os.path.realpath(__file__)))

from pcthunt.explain import sentences_of, sentences_of_deal
from pcthunt.inputs import read
from pcthunt.output import DONE, USAGE, Refused, cut_line, ends_well, leave
from pcthunt.output import put as write
from pcthunt.schema import NoDocument, check_document, read_json
from pcthunt.states import KINDS, FIRST_VALUES, Json, Listed, ask_words, changed, listed, why
from pctmodel.directive import Directive
from pctmodel.locks import Nesting, lock_order
from pctmodel.races import races_of
from pctmodel.run import Event, World
from pctmodel.script import Script
from pctmodel.trace import Trace

MOST_STEPS_FOR_RACES = 2000  # the plain model looks at each pair of steps
HELD_BY = {"lock": 1, "trylock": 1, "regain": 2}  # where the mutex stands that a step takes
GIVEN_BY = {"unlock": 1, "release": 2}


def deal_of(script: Script, file: str) -> Json:
    """The threads and objects of a script."""
    threads = [{"name": name, "file": file, "line": thread.line, "held": name in script.held}
               for name, thread in script.threads.items()]
    deal: Json = {"threads": threads}
    for kind, member in KINDS.items():
        first = FIRST_VALUES.get(kind)
        value = str if kind == "var" else int
        deal[member] = [{"name": name, first: value(number)} if first else name
                        for name, number in script.objects[kind].items()]
    return deal


def world_after(script: Script, events: list[Event]) -> World:
    world = World(script)
    for event in events:
        world.step(event.thread)
    return world


def run_of(script: Script, trace: Trace, file: str, seed: Json | None = None) -> Json:
    """The first part of a run, from its trace."""
    bodies = world_after(script, trace.events).bodies
    failing = trace.verdict.split()[1:2] if trace.verdict.split()[0] in ("failed", "misuse", "fault") else []
    return {
        "seed": seed, "order": trace.order, "points": trace.points, "limit": trace.limit,
        "steps": [{"thread": it.thread, "file": file, "line": it.line, "ask": ask_words(it.ask),
                   "answer": str(it.answer)} for it in trace.events],
        "asking": [{"thread": name, "file": file, "line": body.line, "ask": ask_words(body.ask)}
                   for name, body in bodies.items() if body.ask and name not in failing],
        "ended": [name for name, body in bodies.items() if body.ask is None and name not in failing],
        "verdict": trace.verdict,
    }


def first_part(title: str, text: str, runs: list[Json], script: Script) -> Json:
    """The first part of a document: a heading for each run."""
    return {
        "document": 1, "writer": "pct-hunt", "title": title, "sources": [{"file": title, "text": text}],
        "deal": deal_of(script, title), "names": {}, "headings": [{"run": run, "again": []} for run in runs],
    }


def code_of(line: str) -> str:
    """The line without what stands before it and without its comment."""
    return line.split("#")[0].strip()


class Texts:
    """The lines of the sources."""

    def __init__(self, sources: list[Json]) -> None:
        self.lines: dict[str, list[str]] = {it["file"]: it["text"].split("\n") for it in sources}
        self.is_script = {it["file"]: it["text"].lstrip().startswith(("script", "#")) for it in sources}

    def at(self, file: str, line: int) -> str:
        lines = self.lines.get(file, [])
        text: str = lines[line - 1] if 0 < line <= len(lines) else ""
        return cut_line(code_of(text) if self.is_script.get(file) else text.strip())


def complete_run(run: Json, deal: Json, texts: Texts) -> Listed:
    """Puts into the run what is worked out of it, and answers the world at its end."""
    world = Listed(deal, run)
    before = run["start"] = world.state()
    previous: Json | None = None
    for number, step in enumerate(run["steps"], 1):
        thread = step["thread"]
        step["text"] = ("after " if step.get("near") else "") + texts.at(step["file"], step["line"])
        step["own"] = world.taken[thread] + 1
        step["why"], step["over"] = why(before, step, previous)
        if number in world.lowered:
            step["lowered"] = world.lowered[number]
        world.step(thread, number)
        after = world.state()
        step["changes"] = changed(before, after)
        note_moves(step, before, after)
        before, previous = after, step
    if run["verdict"].startswith("stuck"):
        run["core"] = core_of(world)
    return world


def note_moves(step: Json, before: Json, after: Json) -> None:
    """Whom the step wakes, and who can go after it who couldn't before."""
    news = step["changes"].get("threads", {})
    old = before["threads"]
    released = [name for name, told in news.items() if told["is"] == "enabled" and name != step["thread"]
                and old[name]["is"] in ("blocked", "held")]
    woken = [name for cond, told in step["changes"].get("conds", {}).items() for name in told["woken"]
             if name not in before["conds"][cond]["woken"] and name not in released]
    for member, names in (("released", released), ("woken", woken)):
        if names:
            step[member] = names


def core_of(world: Listed) -> list[Json]:
    """Of a stuck run the threads on a cycle of waits, else those that wait for what nobody can give. A thread that
    only waits for one of these is left out."""
    ended = world.ended()
    waits = {name: world.holder(name) for name in world.names
             if world.asked(name) and not world.is_held(name) and name not in ended}
    on_cycle = [name for name in waits if is_on_cycle(name, waits)]
    chosen = on_cycle or [name for name, holder in waits.items() if holder is None or holder not in waits]
    return [wait_of(world, name, waits[name]) for name in chosen or waits]


def is_on_cycle(name: str, waits: dict[str, str | None]) -> bool:
    seen: set[str] = set()
    other = waits.get(name)
    while other in waits and other not in seen:
        if other == name:
            return True
        seen.add(other)
        other = waits[other]
    return False


def wait_of(world: Listed, name: str, holder: str | None) -> Json:
    asked = world.asked(name)
    assert asked is not None
    what = asked.ask[2] if asked.ask[0] == "regain" else asked.ask[1] if len(asked.ask) > 1 else ""
    since = world.since.get(str(what), {}).get(holder) if holder else None
    return {"thread": name, "file": asked.file, "line": asked.line, "waits": world.waits_for(name), "for": holder,
            "since": since}


def nestings_in(events: list[Event]) -> list[Nesting]:
    """The first nesting of each two mutexes."""
    held: dict[str, list[str]] = {}
    found: dict[tuple[str, str], Nesting] = {}
    for number, event in enumerate(events, 1):
        own = held.setdefault(event.thread, [])
        word = event.ask[0]
        if word in HELD_BY and (word != "trylock" or event.answer == 1):
            taken = event.ask[HELD_BY[word]]
            for mutex in own:
                found.setdefault((mutex, taken), Nesting(number, event.thread, mutex, taken))
            own.append(taken)
        elif word in GIVEN_BY and event.ask[GIVEN_BY[word]] in own:
            own.remove(event.ask[GIVEN_BY[word]])
    return list(found.values())


def locks_of(script: Script, events: list[Event]) -> Json:
    """The member `locks` of a heading: an order of the mutexes as a list of names, or a cycle of nestings."""
    report = lock_order(script, nestings_in(events))
    cycle = [it._asdict() for it in report if isinstance(it, Nesting)]
    return {"cycle": cycle} if cycle else {"order": report}


def events_of(run: Json) -> list[Event]:
    return [Event(it["thread"], it["line"], tuple(int(word) if word.lstrip("-").isdigit() else word
                                                  for word in it["ask"].split()), int(it["answer"]))
            for it in run["steps"]]


def sentence_of(run: Json) -> str:
    """What went wrong, in one sentence."""
    if "died" in run:
        return str(run["died"])
    kind, *rest = run["verdict"].split()
    last = run["steps"][-1] if run["steps"] else {"text": ""}
    at = f"line {rest[1]}" if len(rest) > 1 else ""
    if kind == "failed":
        return f"{rest[0]}'s assertion in {at} fails: {last['text']}"
    if kind == "misuse":
        what = {"notowner": "gives back what it doesn't hold", "semfull": "raises a semaphore that is full",
                "alreadystarted": "starts a thread that was started already",
                "toomanyreads": "takes more read holds than a lock has room for"}[rest[2]]
        return f"{rest[0]} {what}, in {at}: {last['text']}"
    if kind == "fault":
        what = {"overflow": "a result is out of range", "zerodivisor": "a divisor is 0",
                "spin": "it makes 10,000 moves without a step"}[rest[2]]
        return f"{rest[0]} can't go on in {at}: {what}"
    if kind == "stuck":
        return stuck_sentence(run["core"])
    return f"The run was cut after {len(run['steps'])} steps" if kind == "cut" else "The run passes"


def stuck_sentence(core: list[Json]) -> str:
    names = [it["thread"] for it in core]
    if all(it["for"] in names for it in core):
        if len(core) == 1:
            return f"{names[0]} waits for itself: it waits for {core[0]['waits']}"
        return f"{listed(names)} wait for one another, and nobody can go"
    waits = [f"{it['thread']} waits for {it['waits']}" for it in core[:4]]
    if len(core) > 4:
        waits.append(f"{len(core) - 4} more wait")
    return "; ".join(waits) + ": nobody is left who could give it"


def complete(document: Json, script: Script | None = None) -> Json:
    """Puts into the document what is worked out of its first part, and of the script where it is one's."""
    texts = Texts(document["sources"])
    for heading in document["headings"]:
        run = heading["run"]
        dealt, events = complete_run(run, document["deal"], texts).script, events_of(run)
        heading["kind"] = run["verdict"].split()[0]
        heading["sentence"] = sentence_of(run)
        if not script:  # a layer's variables are atomics, on which steps don't race
            heading.setdefault("races", [])
        elif len(events) <= MOST_STEPS_FOR_RACES:
            heading["races"] = [race._asdict() for race in races_of(dealt, events)]
        heading["locks"] = locks_of(dealt, events)
        races = heading.get("races", [])
        heading["told"] = sentences_of(script, run, events, races) if script else \
            sentences_of_deal(dealt, run, events, races)
        passing = heading.get("passing")
        if passing:
            complete_run(passing["run"], document["deal"], texts)
    return document


def directive_of(directive: Directive, run: Json) -> Json:
    """The directive's member, with the steps of the run at which its moments come."""
    steps: dict[tuple[str, int], int] = {}
    own: dict[str, int] = {}
    for number, step in enumerate(run["steps"], 1):
        own[step["thread"]] = own.get(step["thread"], 0) + 1
        steps[step["thread"], own[step["thread"]]] = number
    moments = [{"thread": thread, "number": number, "step": steps.get((thread, number))}
               for thread, number in directive.events]
    return {"low": directive.low, "moments": moments, "verdict": directive.verdict}


def without_texts(document: Json) -> Json:
    """The document as it is written, in which lines of sources stand in the sources alone."""
    def run(told: Json) -> Json:
        return told | {"steps": [{name: value for name, value in step.items() if name != "text"}
                                 for step in told["steps"]]}

    def heading(told: Json) -> Json:
        passing = told.get("passing")
        beside = {"passing": passing | {"run": run(passing["run"])}} if passing else {}
        return told | {"run": run(told["run"])} | beside

    return document | {"headings": [heading(it) for it in document["headings"]]}


def put(document: Json) -> str:
    """The document's text: one line, by which each writer makes the same bytes."""
    return json.dumps(without_texts(document), ensure_ascii=False, separators=(",", ":"), sort_keys=True,
                      allow_nan=False) + "\n"


def main() -> int:
    if len(sys.argv) != 2 or sys.argv[1].startswith("--"):
        raise Refused(USAGE, "usage: document.py FIRST.json")
    try:
        document = read_json(read(sys.argv[1]).decode())
        check_document(document)
        write(put(complete(document)))
    except (NoDocument, UnicodeDecodeError) as error:
        raise Refused(USAGE, f"{sys.argv[1]} is no first part of a document: {error}") from None
    except (ValueError, KeyError, TypeError, AttributeError, AssertionError, IndexError) as error:
        raise Refused(USAGE, f"{sys.argv[1]}: its run can't be made again: {type(error).__name__} {error}") from None
    return DONE


if __name__ == "__main__":
    leave(ends_well("document", main))
