"""What is told of a run: a sentence, its steps in lanes, where each thread stands, and for a race its two places."""

from __future__ import annotations

import re
import signal
from collections.abc import Iterator

from pcttry.runner import Access, End, Run, Step, Told
from pcttry.symbols import Symbols

WIDTH = 18
# The function around a lambda, and the lambda's number in it.
LAMBDA = re.compile(r"(\w+)(?:\([^{}]*\))?(?: const)?::\{lambda[^{}]*#(\d+)\}")
# Steps by which one thread wakes another, with the thread's number as what they ask.
WAKES = 14


def signal_name(number: int) -> str:
    try:
        return signal.Signals(number).name
    except ValueError:
        return f"signal {number}"


def sentence(run: Run, told: Told) -> str:
    """What a run came to, in one sentence."""
    words = {End.DEADLOCK: "deadlock: nobody can go on", End.LIVELOCK: f"livelock: {told.told}",
             End.CUT: f"cut: {told.told}", End.MISUSE: f"misuse: {told.told}",
             End.RACE: "data race", End.USE_AFTER_FREE: "use after free"}
    if run.end in words:
        return words[run.end]
    if run.end != End.GOES:
        return told.told
    if has_hung(run):
        return "it hangs, and was ended"
    if run.status & 127:
        return f"it died by {signal_name(run.status & 127)}"
    return f"it ended with status {run.status >> 8}" if run.status else "it passed"


class Report:
    """A run with its places and names."""

    def __init__(self, run: Run, told: Told, symbols: Symbols) -> None:
        self.run, self.told, self.symbols = run, told, symbols
        lists = [step.frames for step in [*told.steps, *told.waiting]] + [it.frames for it in told.accesses]
        symbols.look_up([frame for frames in lists for frame in frames] + list(told.functions.values()))
        self.names = self.thread_names()

    # --- Names ---

    def function_of(self, thread: int) -> str:
        """The program's outermost function in the thread's first step that stands in one."""
        start = self.symbols.name(self.told.functions.get(thread, 0)) or ""
        steps = [step for step in self.told.steps if step.thread == thread and len(step.frames) > 1]
        if start and not start.startswith(("execute_native", "std::")):
            return short_name(start)
        for step in steps:
            users = [place for place in self.symbols.users(step.frames) if place.function != "main"]
            if users:
                name = short_name(users[-1].function)
                return name if name != "operator" else f"lambda_{users[-1].line}"
        return f"thread_{thread}"

    def thread_names(self) -> dict[int, str]:
        names = {0: "main"}
        for thread in sorted(set(self.told.functions) - {0}):
            name = self.function_of(thread)
            same = sum(1 for it in names.values() if it == name or it.rsplit("_", 1)[0] == name)
            names[thread] = f"{name}_{same + 1}" if same else name
        return names

    def name(self, thread: int) -> str:
        return self.names.get(thread, f"thread_{thread}")

    def object(self, address: int) -> str:
        """A global's name, or the number of a thread's seat, which is told as an address below 65."""
        if 0 < address < 65:
            return self.name(address - 1)
        return (self.symbols.name(address) or f"{address:#x}") if address else ""

    def what(self, step: Step) -> str:
        """A step in words."""
        if step.kind == WAKES:
            return f"{step.what} {self.name(step.object)}"
        words = [step.what, self.object(step.at)]
        if step.what.startswith(("atomic", "plain read", "plain write")):
            words.append(f"= {signed(step.value)}")
        if step.kind in (6, 28, 29) and not step.answer:
            words.append("is busy")
        return " ".join(word for word in words if word)

    def place(self, frames: tuple[int, ...]) -> str:
        place = self.symbols.place(frames)
        return place.short() if place else ""

    # --- Text ---

    def lanes(self) -> Iterator[str]:
        """A line for each step, below its thread's name."""
        threads = sorted({step.thread for step in self.told.steps})
        if len(threads) > 4:
            yield from self.rows()
            return
        texts = self.texts()
        width = max([WIDTH, *map(len, texts)]) + 2
        yield "  step  " + "".join(self.name(thread).ljust(width) for thread in threads) + "place"
        for number, (step, text) in enumerate(zip(self.told.steps, texts, strict=True), 1):
            lane = threads.index(step.thread)
            row = " " * (lane * width) + text
            yield f"{number:6}  {row.ljust(len(threads) * width - 1)} {self.place(step.frames)}".rstrip()

    def texts(self) -> list[str]:
        """Of each step its words, with the change points after it."""
        points = self.told.points
        marks = {number: "".join(f" v{i + 1}" for i, it in enumerate(points) if it == number) for number in points}
        return [self.what(step) + marks.get(number, "") for number, step in enumerate(self.told.steps, 1)]

    def rows(self) -> Iterator[str]:
        for number, (step, text) in enumerate(zip(self.told.steps, self.texts(), strict=True), 1):
            yield f"{number:6}  {self.name(step.thread)}: {text}  {self.place(step.frames)}".rstrip()

    def access(self, access: Access, word: str) -> Iterator[str]:
        verb = ("atomic " if access.is_atomic else "") + word
        where = self.object(access.at)
        yield f"  {self.name(access.thread)} {verb} {where}, {access.size} bytes, in {self.place(access.frames)}"
        for place in self.symbols.users(access.frames)[1:5]:
            yield f"      called in {place.short()} ({short_name(place.function)})"
        if access.held:
            yield "      holding " + ", ".join(map(self.object, access.held))

    def accesses(self) -> Iterator[str]:
        """Of a race its two accesses; of a use after free the use and the free; else where the program died."""
        known = self.told.accesses
        if len(known) == 2 and self.run.end == End.RACE:
            for access in known:
                yield from self.access(access, "writes" if access.is_write else "reads")
        elif len(known) == 2:
            freed, use = known
            yield from self.access(use, "writes" if use.is_write else "reads")
            yield f"  {self.name(freed.thread)} freed it in {self.place(freed.frames)}"
        elif known:
            for i, place in enumerate(self.symbols.users(known[0].frames)[:5]):
                where = f"{place.short()} ({short_name(place.function)})"
                yield f"  {self.name(known[0].thread)} {'called ' if i else ''}in {where}"

    def waiting(self) -> Iterator[str]:
        for step in self.told.waiting:
            yield f"  {self.name(step.thread)} {waits(self.what(step))}  {self.place(step.frames)}"

    def lines(self, with_lanes: bool) -> Iterator[str]:
        yield sentence(self.run, self.told)
        yield from self.accesses()
        if self.run.end in (End.DEADLOCK, End.LIVELOCK, End.CUT) or has_hung(self.run):
            yield from self.waiting()
        if with_lanes:
            yield from self.lanes()


def has_hung(run: Run) -> bool:
    return run.end == End.GOES and run.status & 127 == signal.SIGKILL


def waits(text: str) -> str:
    return text if text.startswith("waits") else f"wants: {text}"


def signed(value: int) -> int:
    return value - (1 << 64) if value >> 63 else value - (1 << 32) if value >> 31 == 1 else value


def short_name(name: str) -> str:
    """A function's name without its parameters, templates and scopes; a lambda by where it stands."""
    found = LAMBDA.findall(name)
    if found:
        return "{}_lambda_{}".format(*found[-1])
    depth, kept = 0, []
    for letter in name.split("(")[0]:
        depth += letter == "<"
        if depth == 0:
            kept.append(letter)
        depth -= letter == ">"
    return "".join(kept).rsplit("::", 1)[-1].rsplit(" ", 1)[-1] or name
