"""The forms of a script's lines in words, and what is declared before a line."""

from __future__ import annotations

import difflib
import re
from dataclasses import dataclass, field

from pctmodel.script import (BLOCKS, DECLARATIONS, KEYWORDS, OBJECTS, REGISTERS, STATEMENTS, Faulty, Parser, Script,
                             Thread, cut_tokens, is_name)

KIND_WORDS = {"var": "a variable", "mutex": "a mutex", "cond": "a condition", "sem": "a semaphore",
              "barrier": "a barrier", "rwlock": "a read-write lock", "thread": "a thread"}
PLACES = {"REG": "REG", "EXPR": "EXPR", "var": "VAR", "mutex": "MUTEX", "cond": "COND", "sem": "SEM",
          "barrier": "BARRIER", "rwlock": "RWLOCK", "thread": "THREAD", ",": ",", "NAME": "NAME", "=": "=",
          "NUMBER": "NUMBER", "INTEGER": "NUMBER"}
FORMS = {word: " ".join([word, *(PLACES[item] for item in form.split())])
         for word, form in {**DECLARATIONS, **STATEMENTS, "thread": "NAME"}.items()} | {"end": "end", "else": "else"}
CASE_FREE = {word.lower(): word for word in KEYWORDS[3]}
# What other languages and libraries call it.
SYNONYMS = {
    "acquire": "lock", "release": "unlock", "notify": "signal", "notify_one": "signal", "notify_all": "broadcast",
    "notifyall": "broadcast", "post": "up", "sem_post": "up", "sem_wait": "down", "pthread_mutex_lock": "lock",
    "pthread_mutex_unlock": "unlock", "pthread_cond_wait": "wait", "pthread_cond_signal": "signal",
    "pthread_cond_broadcast": "broadcast", "pthread_join": "join", "sleep": "yield", "nop": "yield", "skip": "yield",
    "let": "set", "mov": "set", "load": "read", "store": "write", "int": "var", "endif": "end", "fi": "end",
    "done": "end", "od": "end", "endwhile": "end", "endthread": "end", "otherwise": "else", "check": "assert",
    "condition": "cond", "semaphore": "sem", "lockguard": "lock", "rdunlock": "rwunlock", "wrunlock": "rwunlock",
            "spawn": "start",
}


def joined(tokens: list[str]) -> str:
    """Tokens as a line of a script has them."""
    text = " ".join(tokens)
    text = re.sub(r"\s+,", ",", re.sub(r"\(\s+", "(", re.sub(r"\s+\)", ")", text)))
    return re.sub(r"(^|[=(,] ?|[-+*/%<>|&] |\w (?=- ?\d+$))([-!]) (?=[\w(])", r"\1\2", text)


def nearest(word: str, names: list[str], likeness: float = 0.6) -> str | None:
    """The name that the word is most like, in whatever case."""
    lower = {name.lower(): name for name in reversed(names)}
    found = difflib.get_close_matches(word.lower(), list(lower), 1, likeness)
    return lower[found[0]] if found else None


def fresh(name: str, taken: set[str]) -> str:
    while name in taken or not is_name(name, 3):
        name += "2"
    return name


def loose_tokens(line: str) -> list[str]:
    tokens = cut_tokens(line)
    return line.split() if tokens is None else tokens


@dataclass
class Scope:
    """What is known before a line."""

    script: Script
    open: list[object]
    lines: list[str]
    header: int
    future: set[str]
    used: set[str] = field(default_factory=set)
    last_end: int = 0

    @classmethod
    def before(cls, data: bytes, number: int) -> Scope:
        """The scope of the line of that number, before which no line is faulty."""
        parser = Parser(data)
        try:
            parser.read()
        except Faulty:
            pass
        lines = data.decode(errors="replace").split("\n")
        header = next((at for at, line in enumerate(lines, 1) if line.split("#")[0].strip()), 1)
        used = {word for line in lines for word in loose_tokens(line)}
        ends = [thread.end_line for thread in parser.script.threads.values() if 0 < thread.end_line < number]
        last_end = max(ends, default=0)
        return cls(parser.script, list(parser.open), lines, header, set(parser.future_threads), used, last_end)

    def kind(self, name: str) -> str | None:
        is_thread = name in self.future
        return next((kind for kind in OBJECTS if name in self.script.objects[kind]), "thread" if is_thread else None)

    def has(self, kind: str, name: str) -> bool:
        return name in self.names(kind)

    def names(self, kind: str) -> list[str]:
        return sorted(self.future) if kind == "thread" else list(self.script.objects[kind])

    def any_name(self, kind: str) -> str:
        names = self.names(kind)
        return names[0] if names else f"{PLACES[kind]}"

    def declares_all(self, words: list[str], items: list[str]) -> bool:
        return all(item not in (*OBJECTS, "thread") or self.has(item, word) for word, item in zip(words, items))

    def register(self) -> str:
        """The lowest register that the open thread doesn't use, or r0."""
        begin = self.open[0].line if self.open and isinstance(self.open[0], Thread) else 1
        used = {word for line in self.lines[begin:] for word in loose_tokens(line)} if self.open else set()
        return next((name for name in REGISTERS if name not in used), "r15")

    def unused(self, name: str) -> str:
        return fresh(name, self.used)

    def innermost(self) -> tuple[str, int]:
        """What is open, and in which line it began."""
        if not self.open:
            return "nothing", 0
        block = self.open[-1]
        if isinstance(block, Thread):
            name = next((it for it, thread in self.script.threads.items() if thread is block), "")
            return f"thread {name}", block.line
        return f"the {block.word}", block.line  # type: ignore[attr-defined]

    def open_lines(self, line: str, number: int) -> list[tuple[int, str]]:
        """The lines that opened what is open after this one."""
        lines = [it.line for it in self.open]  # type: ignore[attr-defined]
        return [(at, self.lines[at - 1].split("#")[0].strip()) for at in lines]

    def first_thread(self) -> int:
        """The line of the first thread, or that after the header."""
        threads = [thread.line for thread in self.script.threads.values()]
        return min(threads, default=self.header + 1)

    def declared_in(self, name: str) -> int:
        return next((at for at, line in enumerate(self.lines, 1) if (cut_tokens(line) or [""])[1:2] == [name]
                     and (cut_tokens(line) or [""])[0] in (*DECLARATIONS, "thread")), 0)

    def end_of_block(self, number: int, lines: list[str]) -> int:
        """The line of the `end` of the block that the line opens or is in, or 0."""
        depth = 1
        for at in range(number + 1, len(lines) + 1):
            first = (loose_tokens(lines[at - 1]) or [""])[0]
            depth += first in BLOCKS or first == "thread"
            depth -= first == "end"
            if depth == 0:
                return at
        return 0


def as_register_reads(scope: Scope, value: list[str]) -> tuple[list[str], list[str]]:
    """The reads that bring the variables of an expression into registers, and the expression over these."""
    found: dict[str, str] = {}
    taken = {it for it in value if it in REGISTERS}
    first = scope.register()
    free = [first, *(it for it in REGISTERS if it != first)]
    for it in value:
        if scope.kind(it) == "var" and it not in found:
            found[it] = next(name for name in free if name not in taken)
            taken.add(found[it])
    return [f"read {register} {var}" for var, register in found.items()], [found.get(it, it) for it in value]
