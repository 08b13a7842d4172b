"""The drawn scripts of tests/compare, each driven by a layer over the library and given to the program beside it."""

import collections
import importlib.machinery
import importlib.util
import os
import random
import subprocess
from types import ModuleType
from typing import Any, Iterator

from commands import Commands
from driving import Different
from pctmodel.script import Faulty, parse
from pctmodel.words import read_words


def loaded(file: str) -> ModuleType:
    """The module of a program without an ending."""
    loader = importlib.machinery.SourceFileLoader(os.path.basename(file), file)
    module = importlib.util.module_from_spec(importlib.util.spec_from_loader(loader.name, loader))
    loader.exec_module(module)
    return module


class Beside:
    """Drawn scripts in a folder of their own, and how often each end was met."""

    def __init__(self, calls: Any, program: str, top: str, room: str) -> None:
        self.calls, self.program, self.room = calls, program, room
        self.compare = loaded(os.path.join(top, "tests", "compare"))
        self.ends: collections.Counter[str] = collections.Counter()

    def write(self, name: str, data: bytes) -> None:
        with open(os.path.join(self.room, name), "wb") as file:
            file.write(data)

    def by_program(self, words: list[str]) -> tuple[str, str]:
        done = subprocess.run([self.program, *words], cwd=self.room, stdin=subprocess.DEVNULL, capture_output=True,
                              text=True, timeout=60, check=False)
        told = (done.stdout.encode(), done.stderr.encode())
        end = self.compare.end_of(words[0], *told) if any(told) else f"nothing, {done.returncode}"
        self.ends[f"{words[0]}: {end}"] += 1
        return done.stdout, done.stderr

    def same(self, number: int, words: list[str], made: Any) -> tuple[str, bool]:
        """Whether a layer tells what the program tells. Where it doesn't, that is said."""
        wanted = self.by_program(words)
        try:
            found = made(read_words(words).options)
        except Different as difference:
            found = difference
        told = (found, "") if isinstance(found, str) else found
        return f"script {number}: {' '.join(words)}: the program: {wanted}, by the library: {told}", told == wanted

    def of_script(self, number: int) -> Iterator[tuple[str, bool]]:
        """Each command over what a number draws. None where the script has a fault."""
        drawn, as_text = self.compare.Drawn(number), self.compare.as_text
        script = as_text(drawn.lines())
        try:
            parsed = parse(script)
        except Faulty:
            return
        options, dice = drawn.options(), random.Random(f"{number} layer")
        commands = Commands(self.calls, parsed, dice)
        self.write("s.pct", script)
        words = ["run", "s.pct", *options]
        yield self.same(number, words, commands.of_run)
        trace = self.by_program(words)[0].encode()
        for data in (trace, drawn.spoiled_trace(trace)):
            self.write("t.txt", data)
            yield self.same(number, ["replay", "s.pct", "t.txt"], lambda _, data=data: commands.of_replay(data))
        yield self.same(number, drawn.campaign(), commands.of_campaign)
        for command in ("races", "locks"):
            text = as_text(drawn.dense_lines(command))
            self.write("d.pct", text)
            dense = Commands(self.calls, parse(text), dice)
            yield self.same(number, [command, "d.pct", *options], getattr(dense, f"of_{command}"))
        yield from self.of_directives(number, drawn, options, dice)

    def of_directives(self, number: int, drawn: Any, options: list[str],
                      dice: random.Random) -> Iterator[tuple[str, bool]]:
        for kind in ("directive", "find"):
            text = self.compare.as_text(drawn.dense_lines(kind))
            parsed = parse(text)
            commands = Commands(self.calls, parsed, dice)
            self.write("d.pct", text)
            if kind == "find":
                yield self.same(number, ["find", "d.pct", *options], commands.of_find)
                continue
            file, expose, certify = drawn.directive(parsed)
            for data in (file, drawn.spoiled(file)):
                self.write("d.txt", data)
                yield self.same(number, expose, lambda given, data=data: commands.of_expose(data, given))
                yield self.same(number, certify, lambda given, data=data: commands.of_certify(data, given))
