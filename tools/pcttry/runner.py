"""The program's own process, which makes runs: native/c/stand_process.c says by which lines."""

from __future__ import annotations

import enum
import os
import subprocess
from collections.abc import Sequence
from dataclasses import dataclass, field


class Refused(Exception):
    """The program can't be tested; the text says why."""


class End(enum.IntEnum):
    """How a run ended, as stand.h has it."""

    GOES = 0
    DEADLOCK = 1
    LIVELOCK = 2
    CUT = 3
    MISUSE = 4
    RACE = 5
    USE_AFTER_FREE = 6
    ASSERTION = 7
    CRASH = 8
    DEPARTED = 9
    MORE_SEATS = 10
    REFUSED = 11
    LAYER_FAULT = 12


@dataclass(frozen=True)
class Run:
    """What came of a run. `status` is the process's, as wait gives it; `digest` is of its steps and what they read."""

    seed: int
    depth: int
    end: End
    steps: int
    seats: int
    status: int
    digest: str


@dataclass(frozen=True)
class Step:
    """A step, or what a thread asks; `frames` are return addresses, the innermost first."""

    thread: int
    kind: int
    object: int
    answer: int
    at: int
    value: int
    frames: tuple[int, ...]
    what: str


@dataclass(frozen=True)
class Access:
    """An access of memory, with the mutexes that its thread held."""

    thread: int
    size: int
    is_write: bool
    is_atomic: bool
    at: int
    frames: tuple[int, ...]
    held: tuple[int, ...]


@dataclass
class Told:
    """All that is known of the last run."""

    told: str = ""
    accesses: list[Access] = field(default_factory=list)
    functions: dict[int, int] = field(default_factory=dict)
    waiting: list[Step] = field(default_factory=list)
    points: list[int] = field(default_factory=list)
    learned: list[int] = field(default_factory=list)
    steps: list[Step] = field(default_factory=list)


@dataclass(frozen=True)
class Module:
    """A file that the program consists of, and where it stands in memory."""

    base: int
    end: int
    path: str


def addresses(word: str) -> tuple[int, ...]:
    return tuple(address for part in word.split(",") if (address := int(part, 16)))


def step_of(words: Sequence[str]) -> Step:
    thread, kind, number, answer, at, value, frames = words[:7]
    return Step(int(thread), int(kind), int(number), int(answer), int(at, 16), int(value, 16), addresses(frames),
                " ".join(words[7:]))


def access_of(words: Sequence[str]) -> Access:
    thread, size, is_write, is_atomic, at, frames, held = words
    return Access(int(thread), int(size), is_write != "0", is_atomic != "0", int(at, 16), addresses(frames),
                  addresses(held))


def told_of(lines: Sequence[str]) -> Told:
    told = Told()
    for line in lines:
        word, *words = line.split(" ")
        if word == "told":
            told.told = line[5:]
        elif word == "access":
            told.accesses.append(access_of(words))
        elif word == "thread":
            told.functions[int(words[0])] = int(words[1], 16)
        elif word == "waiting":
            told.waiting.append(step_of(words))
        elif word == "point":
            told.points.append(int(words[0]))
        elif word == "learned":
            told.learned.append(int(words[0], 16))
        else:
            told.steps.append(step_of(words))
    return told


def run_of(line: str) -> Run:
    _, seed, depth, end, steps, seats, status, digest = line.split()
    return Run(int(seed), int(depth), End(int(end)), int(steps), int(seats), int(status), digest)


class Runner:
    """One process of the program; several make runs side by side."""

    def __init__(self, command: Sequence[str], preload: str | None = None) -> None:
        self.command = list(command)
        commands, self.commands = os.pipe()
        self.answers, answers = os.pipe()
        environment = {**os.environ, "PCT_STAND": f"{commands},{answers}"}
        if preload:
            environment["LD_PRELOAD"] = preload
        try:
            self.process = subprocess.Popen(self.command, env=environment, pass_fds=(commands, answers))
        except OSError as error:
            raise Refused(f"{self.command[0]}: {error.strerror}") from error
        finally:
            os.close(commands)
            os.close(answers)
        self.reader = os.fdopen(self.answers, encoding="utf-8", errors="replace")

    def send(self, line: str) -> None:
        try:
            os.write(self.commands, f"{line}\n".encode())
        except BrokenPipeError:
            self.refuse()

    def refuse(self) -> None:
        self.process.wait()
        raise Refused(f"{self.command[0]} isn't a program that pct-cc or pct-c++ linked: it doesn't answer")

    def answer(self) -> list[str]:
        lines: list[str] = []
        for line in self.reader:
            if line == ".\n":
                return lines
            lines.append(line.rstrip("\n"))
        self.refuse()
        return lines

    def call(self, line: str) -> list[str]:
        self.send(line)
        return self.answer()

    def set(self, name: str, value: int) -> None:
        self.send(f"set {name} {value}")

    def run(self, seed: int, depth: int) -> Run:
        return run_of(self.call(f"run {seed} {depth}")[0])

    def tell(self) -> Told:
        return told_of(self.call("tell"))

    def modules(self) -> list[Module]:
        rows = [line.split(" ", 3)[1:] for line in self.call("modules")]
        return [Module(int(base, 16), int(end, 16), path) for base, end, path in rows]

    def close(self) -> None:
        os.close(self.commands)
        self.reader.close()
        try:
            self.process.wait(5)
        except subprocess.TimeoutExpired:
            self.process.kill()
