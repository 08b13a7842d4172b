"""The file of a failing run, by which it is made again."""

from __future__ import annotations

import ast
from collections.abc import Sequence
from dataclasses import dataclass

from pcttry.runner import Module, Refused, Run, Told
from pcttry.search import Settings

HEAD = "pct-try trace 1"
KEPT = ("plain", "reuse", "timeouts", "chaos", "limit", "patience", "any_status")


@dataclass
class Trace:
    """A run of a program: its words, what it went by, who took each step, and the places that are steps, each by
    its file's name and how far in it that is."""

    command: list[str]
    seed: int
    depth: int
    n: int
    k: int
    settings: dict[str, int]
    threads: list[int]
    learned: list[tuple[int, str]]
    digest: str
    verdict: str


def offsets(addresses: Sequence[int], modules: Sequence[Module]) -> list[tuple[int, str]]:
    found = [(address, next((it for it in modules if it.base <= address < it.end), None)) for address in addresses]
    return [(address - it.base, it.path.rsplit("/", 1)[-1]) for address, it in found if it]


def absolute(learned: Sequence[tuple[int, str]], modules: Sequence[Module]) -> list[int]:
    bases = {it.path.rsplit("/", 1)[-1]: it.base for it in modules}
    return [bases[name] + offset for offset, name in learned if name in bases]


def text_of(trace: Trace) -> str:
    lines = [HEAD, *(f"word {word!r}" for word in trace.command), f"seed {trace.seed}", f"depth {trace.depth}",
             f"threads {trace.n}", f"steps {trace.k}", *(f"{name} {value}" for name, value in trace.settings.items()),
             *(f"learned {offset:x} {name}" for offset, name in trace.learned),
             "list " + " ".join(map(str, trace.threads)), f"digest {trace.digest}", f"verdict {trace.verdict}"]
    return "".join(f"{line}\n" for line in lines)


def trace_of(command: Sequence[str], run: Run, n: int, k: int, settings: Settings, told: Told,
             modules: Sequence[Module], verdict: str) -> Trace:
    kept = {name: int(getattr(settings, name)) for name in KEPT}
    return Trace(list(command), run.seed, run.depth, n, k, kept, [step.thread for step in told.steps],
                 offsets(told.learned, modules), run.digest, verdict)


def settings_of(trace: Trace) -> Settings:
    """What the run went by, but for what a search alone takes."""
    kept = trace.settings
    return Settings(plain=kept["plain"], reuse=bool(kept["reuse"]), timeouts=bool(kept["timeouts"]),
                    chaos=bool(kept["chaos"]), limit=kept["limit"], patience=kept["patience"],
                    any_status=bool(kept["any_status"]))


def word_of(text: str) -> str:
    word = ast.literal_eval(text)
    if not isinstance(word, str):
        raise ValueError(text)
    return word


def read(path: str) -> Trace:
    try:
        with open(path, encoding="utf-8") as file:
            head, *lines = file.read().splitlines()
    except (OSError, UnicodeDecodeError, ValueError) as error:
        raise Refused(f"{path}: it can't be read: {error}") from error
    if head != HEAD:
        raise Refused(f"{path}: it isn't a trace that pct-try wrote")
    rows = [line.partition(" ")[::2] for line in lines]
    one = dict(rows)
    try:
        learned = [(int(text.split(" ", 1)[0], 16), text.split(" ", 1)[1]) for name, text in rows if name == "learned"]
        return Trace([word_of(text) for name, text in rows if name == "word"], int(one["seed"]), int(one["depth"]),
                     int(one["threads"]), int(one["steps"]), {name: int(one[name]) for name in KEPT},
                     [int(word) for word in one["list"].split()], learned, one["digest"], one["verdict"])
    except (KeyError, ValueError, IndexError, SyntaxError) as error:
        raise Refused(f"{path}: a line of the trace is missing or bad: {error}") from error
