"""What is said of a failing run: where values came from, who holds what since when, which signal came too early."""

from __future__ import annotations

import itertools
from collections.abc import Iterator

from pcthunt.states import Json, listed
from pcthunt.watch import CHANGES, Watched, watched, watched_events
from pctmodel.run import Event
from pctmodel.script import Script, Statement

MOST_SENTENCES = 7  # the nearest ones
MOST_LOOKS = 8  # equal steps in a row, of which more are a spin
WAKES = ("signal", "broadcast")


def statements_in(block: list[Statement]) -> Iterator[Statement]:
    """All statements of a block, those within others too."""
    for statement in block:
        yield statement
        yield from statements_in(statement.block)
        yield from statements_in(statement.otherwise or [])


class Story:
    """Sentences on a run, none of them twice."""

    def __init__(self, script: Script, run: Json, events: list[Event], seen: Watched) -> None:
        self.script, self.run, self.events, self.seen = script, run, events, seen
        self.told: list[str] = []
        self.told_steps: set[int] = set()
        self.is_answer_told: set[int] = set()
        self.told_changes: set[tuple[int, int]] = set()  # reads and the changes after them
        self.other: dict[tuple[str, int], Event] = {}  # by thread and its own number the steps of a run that passes
        self.told_holds: set[tuple[str, int]] = set()  # threads and the steps since which they hold something

    def tell(self, sentence: str) -> None:
        if sentence not in self.told:
            self.told.append(sentence)

    def beside(self, passing: Json | None) -> None:
        """Keeps the steps of the run beside it, which passes."""
        own: dict[str, int] = {}
        for step in passing["run"]["steps"] if passing else ():
            own[step["thread"]] = own.get(step["thread"], 0) + 1
            ask = tuple(step["ask"].split())
            self.other[step["thread"], own[step["thread"]]] = Event(step["thread"], step["line"], ask,
                                                                   int(step["answer"]))

    def answer_beside(self, number: int) -> int | None:
        """What the same step of the thread was answered in the run that passes, where that is something else."""
        event = self.events[number - 1]
        own = sum(it.thread == event.thread for it in self.events[:number])
        other = self.other.get((event.thread, own))
        is_same = other and other.line == event.line and other.ask == tuple(map(str, event.ask))
        return other.answer if other and is_same and other.answer != event.answer else None

    def of_difference(self, threads: list[str]) -> None:
        """First what these threads were answered otherwise than in the run that passes, at last."""
        for number in range(len(self.events), 0, -1):
            event = self.events[number - 1]
            beside = self.answer_beside(number) if event.thread in threads and event.ask[0] != "check" else None
            if beside is not None:
                used = [origin for _, origin in self.seen.registers.get(len(self.events), {}).values()]
                if all(origin is None or origin.steps != {number} for origin in used):  # these come first anyway
                    self.tell_answer(number)
                return

    def of_branches(self, thread: str) -> None:
        """The tests by which the thread came there, the nearest first: which answers they used, and who wrote that."""
        lines: set[int] = set()
        own_last = max((number for number, it in enumerate(self.events, 1) if it.thread == thread), default=0)
        names = self.script.threads[thread].names if thread in self.script.threads else {}
        for test in reversed(self.seen.tests.get(thread, [])):
            steps = sorted(test.steps - self.is_answer_told)
            if test.line in lines or not steps:
                continue
            lines.add(test.line)
            used = listed([f"{names.get(name, name)} = {value}" for name, value in test.registers.items()])
            self.is_answer_told.update(steps)
            self.tell(f"line {test.line} tested {used}: {'; '.join(self.answer(it) for it in steps[-2:])}")
            if own_last > steps[-1]:
                self.of_sources(steps[-2:], own_last)

    def line(self, number: int) -> str:
        step = self.run["steps"][number - 1]
        return f"line {step['line']}: {step['text']}"

    def at(self, number: int) -> str:
        return f"at step {number} ({self.line(number)})"

    # Where values came from.

    def of_registers(self, number: int) -> None:
        """The registers that a step uses, with the line and the reads that gave each value."""
        thread = self.script.threads[self.events[number - 1].thread]
        for own, (value, origin) in self.seen.registers.get(number, {}).items():
            name = thread.names.get(own, own)
            if origin is None:
                self.tell(f"{name} is {value}, as at the start")
                continue
            steps = sorted(origin.steps)
            direct = len(steps) == 1 and self.run["steps"][steps[0] - 1]["line"] == origin.line
            if direct:
                self.tell(f"{name} is {value}: {self.answer(steps[0])}")
                self.is_answer_told.add(steps[0])
            else:
                whence = ", from the answers to " + listed([f"step {it}" for it in steps]) if steps else ""
                self.tell(f"{name} is {value}: line {origin.line} set it{whence}")
            self.of_sources(steps, number)

    def of_sources(self, steps: list[int], used: int) -> None:
        """Back from answers that the step `used` used, to the writes that they saw and what those used."""
        for step in steps:
            if step in self.told_steps or len(self.told) >= MOST_SENTENCES:
                continue
            self.told_steps.add(step)
            self.tell_answer(step)
            self.of_staleness(step, used)
            writer = self.seen.written.get(step)
            if writer:
                self.of_sources(sorted(self.seen.inputs.get(writer, ())), writer)

    def tell_answer(self, number: int) -> None:
        if number not in self.is_answer_told:
            self.is_answer_told.add(number)
            self.tell(self.answer(number))

    def answer(self, number: int) -> str:
        """What the step was answered, and who had written that."""
        event = self.events[number - 1]
        word, *names = event.ask
        beside = self.answer_beside(number)
        whence = self.writer(number) + ("" if beside is None else f"; in the passing run it was {beside}")
        if word == "read":
            return f"{event.thread} read {names[0]} = {event.answer} {self.at(number)}{whence}"
        asked = " ".join(map(str, event.ask))
        return f"{event.thread}'s {asked} gave {event.answer} {self.at(number)}{whence}"

    def writer(self, number: int) -> str:
        if number not in self.seen.written:
            return ""
        writer = self.seen.written[number]
        if writer is None:
            return f", its first value{self.to_be_written(self.events[number - 1])}"
        return f", as {self.events[writer - 1].thread} left it {self.at(writer)}"

    def to_be_written(self, event: Event) -> str:
        """Who comes to write the variable only now, or hasn't come to it."""
        var = event.ask[1]
        for asking in self.run["asking"]:
            words = asking["ask"].split()
            if words[0] in CHANGES and words[1] == var and asking["thread"] != event.thread:
                return f"; {asking['thread']} is about to change it in line {asking['line']}"
        late: list[str] = []
        for name, thread in self.script.threads.items():
            lines = [it.line for it in statements_in(thread.block) if it.word in CHANGES and it.names[0][1] == var]
            taken = {it.line for it in self.events if it.thread == name}
            if lines and name != event.thread and name not in self.run["ended"] and not taken & set(lines):
                late.append(f"{name} in line {lines[0]}")
        return f"; not yet changed by {listed(late)}" if late else ""

    def of_staleness(self, step: int, used: int) -> None:
        change = self.seen.change_after(step, used)
        if change and (step, change) not in self.told_changes:
            self.told_changes.add((step, change))
            event, other = self.events[step - 1], self.events[change - 1]
            self.tell(f"between {event.thread}'s step {step} and step {used} ({self.line(used)}), {other.thread} "
                      f"changed {event.ask[1]} {self.at(change)}")

    def of_reads(self, thread: str) -> None:
        """By what the thread came there: its last read of each variable, and whether that changed meanwhile."""
        end = len(self.events) + 1
        for var, step in sorted(self.seen.reads.get(thread, {}).items(), key=lambda it: -it[1])[:4]:
            change = self.seen.change_after(step, end)
            self.tell_answer(step)
            if change and (step, change) not in self.told_changes:
                self.told_changes.add((step, change))
                other = self.events[change - 1]
                self.tell(f"after {thread}'s step {step}, {other.thread} changed {var} {self.at(change)}")

    def of_entry(self, thread: str) -> None:
        """By which of its last waits the thread came there: its start, a wait, a semaphore, a barrier."""
        last: dict[tuple[str, str], int] = {}
        for number, event in enumerate(self.events, 1):
            if event.thread == thread and event.ask[0] in ("begin", "regain", "down", "leave"):
                last[event.ask[0], str(event.ask[1]) if len(event.ask) > 1 else ""] = number
        for (word, name), number in sorted(last.items(), key=lambda it: it[1]):
            if word == "begin":
                starts = [at for at, event in enumerate(self.events, 1) if event.ask == ("start", thread)]
                self.tell(f"{thread} was started by {self.events[starts[-1] - 1].thread} {self.at(starts[-1])}")
            elif word == "regain":
                self.tell(f"{thread} came back from its wait on {name} {self.at(number)}")
                self.of_signals(thread, name, number)
            elif word == "down":
                self.of_raises(thread, name, number)
            else:
                met = [event.thread for event in self.events[:number] if event.ask == ("arrive", name)]
                size = self.script.objects["barrier"][name]
                self.tell(f"{thread} left {name} {self.at(number)}: it is for {size}, and {listed(met[-size:])} were "
                          "at it")

    def of_raises(self, thread: str, sem: str, number: int) -> None:
        """Who raised the semaphore that the thread took."""
        ups = [at for at, event in enumerate(self.events[:number], 1) if event.ask == ("up", sem)]
        told = "; ".join(f"{self.events[at - 1].thread} raised it {self.at(at)}" for at in ups[-3:])
        self.tell(f"{thread} took {sem} {self.at(number)}" + (f": {told}" if told else ""))

    # Waits.

    def of_wait(self, core: Json) -> None:
        thread, ask = core["thread"], self.asked(core["thread"]).split()
        self.tell(f"{thread}, in line {core['line']}, waits for {core['waits']}{self.since(core)}")
        if core["for"] in self.run["ended"]:
            self.tell(f"{core['for']} has ended, and holds it still")
        if core["since"]:
            self.told_holds.add((core["for"], core["since"]))
        if ask[0] == "regain":
            self.of_signals(thread, ask[1])
        elif ask[0] == "down":
            self.of_semaphore(ask[1])
        elif ask[0] == "leave":
            self.of_barrier(ask[1])

    def of_holds(self, thread: str) -> None:
        """What the thread holds and no sentence said to be waited for."""
        for held, number in self.held_by(thread):
            if (thread, number) not in self.told_holds:
                self.tell(f"{thread} holds {held} since step {number} ({self.line(number)})")

    def asked(self, thread: str) -> str:
        return str(next(it["ask"] for it in self.run["asking"] if it["thread"] == thread))

    def since(self, core: Json) -> str:
        return f" since step {core['since']} ({self.line(core['since'])})" if core["since"] else ""

    def held_by(self, thread: str) -> list[tuple[str, int]]:
        """What the thread holds at the end, with the steps that took it."""
        held: dict[str, int] = {}
        for number, event in enumerate(self.events, 1):
            if event.thread == thread:
                word, *names = event.ask
                has_tried = word in ("trylock", "trywrlock", "tryrdlock") and event.answer == 1
                if word in ("lock", "wrlock", "rdlock") or has_tried:
                    held[names[0]] = number
                elif word == "regain":
                    held[names[1]] = number
                elif word in ("unlock", "rwunlock", "release"):
                    held.pop(names[-1], None)
        return list(held.items())

    def of_signals(self, thread: str, cond: str, end: int | None = None) -> None:
        """Which signals came before the step `end`, and whom they woke."""
        before = self.events[:end]
        waits = max((number for number, event in enumerate(before, 1)
                     if event.thread == thread and event.ask[:2] == ("release", cond)), default=0)
        if waits:
            self.tell(f"{thread} began to wait {self.at(waits)}")
        signals = [number for number, event in enumerate(before, 1) if event.ask[0] in WAKES and event.ask[1] == cond]
        for number in signals[-3:]:
            event = self.events[number - 1]
            what = f"{event.thread}'s {event.ask[0]} of {cond} {self.at(number)}"
            if event.answer == 0:
                self.tell(f"{what} woke nobody: nobody waited")
            else:
                woken = self.woken_by(number, cond)
                self.tell(f"{what} woke {listed(woken)}")
        if not signals:
            self.tell(f"no signal on {cond} came")

    def woken_by(self, number: int, cond: str) -> list[str]:
        waiting: list[str] = []
        for event in self.events[:number - 1]:
            if event.ask[:2] == ("release", cond):
                waiting.append(event.thread)
            elif event.ask[0] in WAKES and event.ask[1] == cond:
                waiting = waiting[event.answer:]
        return waiting[:self.events[number - 1].answer]

    def of_semaphore(self, sem: str) -> None:
        for word, told in (("down", "was taken last"), ("up", "was raised last")):
            steps = [number for number, event in enumerate(self.events, 1)
                     if event.ask[0] in (word, f"try{word}") and event.ask[1] == sem
                     and (not event.ask[0].startswith("try") or event.answer == 1)]
            if steps:
                self.tell(f"{sem} {told} by {self.events[steps[-1] - 1].thread} {self.at(steps[-1])}")
            elif word == "up":
                self.tell(f"{sem} was never raised")

    def of_barrier(self, barrier: str) -> None:
        arrivals = [number for number, event in enumerate(self.events, 1) if event.ask == ("arrive", barrier)]
        left = sum(event.ask == ("leave", barrier) for event in self.events)
        size = self.script.objects["barrier"][barrier]
        last = len(arrivals) - len(arrivals) % size
        at_it = [self.events[number - 1].thread for number in arrivals[last:]]
        self.tell(f"{barrier} is for {size}; {len(arrivals)} arrived and {left} left; "
                  f"{listed(at_it) if at_it else 'nobody'} {'is' if len(at_it) < 2 else 'are'} at it")

    # Misuse.

    def of_owner(self, thread: str, name: str) -> None:
        uses = [number for number, event in enumerate(self.events[:-1], 1) if name in event.ask[1:]]
        for number in uses[-3:]:
            event = self.events[number - 1]
            self.tell(f"{event.thread} took the step {' '.join(map(str, event.ask))} {self.at(number)}")


def sentences_of(script: Script, run: Json, events: list[Event], races: list[Json],
                 passing: Json | None = None) -> list[str]:
    """The sentences on the run of a script, beside one that passes."""
    story = Story(script, run, events, watched(script, events))
    story.beside(passing)
    return told_by(story, races)


def sentences_of_deal(script: Script, run: Json, events: list[Event], races: list[Json]) -> list[str]:
    """The sentences on a run whose threads' code isn't a script's; the script has the deal's threads and objects
    alone."""
    return told_by(Story(script, run, events, watched_events(events)), races)


def told_by(story: Story, races: list[Json]) -> list[str]:
    run, events = story.run, story.events
    kind, *rest = run["verdict"].split()
    if kind in ("failed", "fault") and events:
        story.of_difference(rest[:1])
        story.of_registers(len(events))
        story.of_branches(rest[0])
        story.of_entry(rest[0])
        story.of_reads(rest[0])
    elif kind == "misuse":
        story.of_owner(rest[0], events[-1].ask[1])
        story.of_reads(rest[0])
    elif kind == "stuck":
        for core in run["core"]:
            story.of_wait(core)
        for core in run["core"]:
            story.of_holds(core["thread"])
            story.of_branches(core["thread"])
            story.of_reads(core["thread"])
    elif kind == "cut":
        of_loop(story)
    for race in races:
        one, other = story.at(race["first"]), story.at(race["second"])
        first, second = events[race["first"] - 1].thread, events[race["second"] - 1].thread
        story.tell(f"a data race on {race['var']}: {first} {one} and {second} {other}, and nothing orders them")
    return story.told[:MOST_SENTENCES]


def equal_at_end(events: list[Event]) -> int:
    """How many steps at the end of a run are one and the same."""
    return sum(1 for _ in itertools.takewhile(lambda it: it == events[-1], reversed(events)))


def of_loop(story: Story) -> None:
    """A run that was cut: what a thread looked at again and again, or else the lines of its last steps."""
    looks = equal_at_end(story.events)
    if looks > MOST_LOOKS:
        event, first = story.events[-1], len(story.events) - looks + 1
        words = " ".join(map(str, event.ask))
        what = f"looked at {event.ask[1]}" if event.ask[0] in ("read", "cas") else f"made the step {words}"
        story.tell(f"{event.thread} {what} {looks:,} times from step {first} on ({story.line(first)}), and nobody else "
                   "went who could change it")
        return
    last = [(event.thread, event.line) for event in story.events[-100:]]
    for thread, line in sorted(set(last), key=lambda it: -last.count(it))[:4]:
        number = max(at for at, event in enumerate(story.events, 1) if (event.thread, event.line) == (thread, line))
        story.tell(f"{thread} came to {story.line(number)}, {last.count((thread, line))} times in the last "
                   f"{len(last)} steps: a loop that waits")
