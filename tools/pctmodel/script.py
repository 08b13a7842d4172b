"""Scripts for the model: a text is read line by line, and its first fault is raised."""

from __future__ import annotations

import re
from collections.abc import Callable
from dataclasses import dataclass, field
from typing import Any, Union

LEAST, GREATEST = -(2**63), 2**63 - 1
WORDS_OF_1 = """script var mutex cond sem barrier thread end read write add cas lock trylock unlock wait signal
    broadcast down trydown up arrive join yield assert set if else while""".split()
WORDS_OF_3 = "rwlock rdlock wrlock tryrdlock trywrlock rwunlock".split()
KEYWORDS = {1: {*WORDS_OF_1}, 2: {*WORDS_OF_1, "start"}, 3: {*WORDS_OF_1, "start", *WORDS_OF_3}}
REGISTERS = [f"r{number}" for number in range(16)]
OBJECTS = ["var", "mutex", "cond", "sem", "barrier", "rwlock"]
MOST_THREADS = {1: 16, 2: 16, 3: 64}

# What follows the first word of a line. A small word is a name of that kind which was declared before.
DECLARATIONS = {
    "var": "NAME = INTEGER", "mutex": "NAME", "cond": "NAME", "sem": "NAME = NUMBER", "barrier": "NAME = NUMBER",
    "rwlock": "NAME",
}
STATEMENTS = {
    "read": "REG var", "write": "var EXPR", "add": "REG var EXPR", "cas": "REG var EXPR , EXPR",
    "lock": "mutex", "trylock": "REG mutex", "unlock": "mutex",
    "wait": "cond mutex", "signal": "cond", "broadcast": "cond",
    "down": "sem", "trydown": "REG sem", "up": "sem", "arrive": "REG barrier",
    "join": "thread", "start": "thread", "yield": "",
    "assert": "EXPR", "set": "REG EXPR", "if": "EXPR", "while": "EXPR",
    "rdlock": "rwlock", "wrlock": "rwlock", "tryrdlock": "REG rwlock", "trywrlock": "REG rwlock", "rwunlock": "rwlock",
}
BLOCKS = ("if", "while")
# The operators between two parts, by rising strength.
LEVELS = [["||"], ["&&"], ["==", "!=", "<", "<=", ">", ">="], ["+", "-"], ["*", "/", "%"]]
COMPARISONS = LEVELS[2]
TOKEN = re.compile(r"[A-Za-z_][A-Za-z0-9_]*|[0-9]+|\|\||&&|[=!<>]=|[-<>+*/%!(),=]")


# A number, a register, or an operator with its parts.
Expression = Union[int, str, tuple[Any, ...]]


class Faulty(Exception):
    """A text is refused: its first faulty line, and that line's first fault."""

    def __init__(self, line: int, kind: str) -> None:
        super().__init__(line, kind)
        self.line, self.kind = line, kind


class NoForm(Exception):
    """The tokens of a line are no form of its place."""


@dataclass
class Statement:
    """A statement by its first word, with its line from 1, its register, its names, its values and its blocks."""

    word: str
    line: int
    register: str | None = None
    names: list[tuple[str, str]] = field(default_factory=list)  # pairs of kind and name
    values: list[Expression] = field(default_factory=list)
    declared: str = ""
    number: int = 0  # of a declaration
    block: list[Statement] = field(default_factory=list)
    otherwise: list[Statement] | None = None


@dataclass
class Thread:
    """A thread: the line that begins it, its statements, the line of its end, and names that its registers have."""

    line: int
    block: list[Statement]
    end_line: int = 0
    names: dict[str, str] = field(default_factory=dict)


@dataclass
class Script:
    """A script of version 1 to 3."""

    version: int
    objects: dict[str, dict[str, int]]  # by kind: names with what they are at first
    threads: dict[str, Thread]  # by name
    held: set[str]  # the threads that begin only after a start

    def declares(self, kind: str, name: str) -> bool:
        return name in self.threads if kind == "thread" else name in self.objects[kind]


def cut_lines(data: bytes) -> list[bytes]:
    lines = data.split(b"\n")
    return lines if lines[-1] else lines[:-1]


def is_blank(line: bytes) -> bool:
    return not line.split(b"#")[0].strip(b" \t\r")


def is_name(word: str, version: int = 1) -> bool:
    """Whether a word is a name in that version: 1 to 32 characters, no keyword and no register."""
    form = re.fullmatch(r"[A-Za-z_][A-Za-z0-9_]{0,31}", word)
    return bool(form) and word not in KEYWORDS[version] and word not in REGISTERS


def cut_tokens(text: str) -> list[str] | None:
    """The tokens of a line, or None where it can't be cut into tokens."""
    found: list[str] = []
    at = 0
    while at < len(text) and text[at] != "#":
        if text[at] in " \t\r":
            at += 1
            continue
        match = TOKEN.match(text, at)
        if not match:
            return None
        token, at = match.group(), match.end()
        runs_on = token[0].isdigit() and re.match("[A-Za-z_]", text[at:])
        if runs_on or (re.match("[A-Za-z_]", token) and len(token) > 32):
            return None
        found.append(token)
    return found


class Tokens:
    """The tokens of one line after its first word. A number in an expression is an int, a register its name."""

    def __init__(self, tokens: list[str]) -> None:
        self.tokens, self.at = tokens, 0
        self.numbers: list[int] = []

    def next(self) -> str:
        return self.tokens[self.at] if self.at < len(self.tokens) else ""

    def take(self, is_taken: Callable[[str], object]) -> str:
        token = self.next()
        if not token or not is_taken(token):
            raise NoForm
        self.at += 1
        return token

    def number(self) -> int:
        return int(self.take(lambda token: token[0].isdigit()))

    def expression(self, level: int = 0) -> Expression:
        if level == len(LEVELS):
            return self.part()
        left = self.expression(level + 1)
        while self.next() in LEVELS[level]:
            operator = self.take(bool)
            left = (operator, left, self.expression(level + 1))
            if operator in COMPARISONS:
                break
        return left

    def part(self) -> Expression:
        token = self.next()
        if token in ("-", "!"):
            self.take(bool)
            return (token, self.part())
        if token == "(":
            self.take(bool)
            inner = self.expression()
            self.take(lambda token: token == ")")
            return inner
        if token in REGISTERS:
            return self.take(bool)
        self.numbers.append(self.number())
        return self.numbers[-1]


def read_form(statement: Statement, form: str, tokens: Tokens, version: int) -> None:
    """Puts the tokens into the statement by its form."""
    def name_of(token: str) -> bool:
        return is_name(token, version)

    for item in form.split():
        if item == "REG":
            statement.register = tokens.take(REGISTERS.__contains__)
        elif item == "NAME":
            statement.declared = tokens.take(name_of)
        elif item == "EXPR":
            statement.values.append(tokens.expression())
        elif item == "NUMBER":
            statement.number = tokens.number()
        elif item == "INTEGER":
            is_negative = tokens.next() == "-" and bool(tokens.take(bool))
            statement.number = -tokens.number() if is_negative else tokens.number()
        elif item in OBJECTS or item == "thread":
            statement.names.append((item, tokens.take(name_of)))
        else:
            tokens.take(item.__eq__)
    if tokens.next():
        raise NoForm


class Parser:
    """A script as it is read line by line."""

    def __init__(self, data: bytes) -> None:
        self.lines = cut_lines(data)
        self.script = Script(0, {kind: {} for kind in OBJECTS}, {}, set())
        self.open: list[Thread | Statement] = []  # the innermost last: the thread, and each if and while in it
        self.future_threads = {name for line in self.lines for name in self.thread_named(line)}

    @staticmethod
    def thread_named(line: bytes) -> list[str]:
        try:
            tokens = cut_tokens(line.decode()) or []
        except UnicodeDecodeError:
            return []
        return tokens[1:] if tokens[:1] == ["thread"] and len(tokens) == 2 else []

    def read(self) -> Script:
        is_nothing = all(map(is_blank, self.lines))
        for number, line in enumerate(self.lines, 1):
            fault = self.fault_of_bytes(number, line) or ("BadHeader" if is_nothing else self.take_line(number, line))
            if fault:
                raise Faulty(number, fault)
        if is_nothing:
            raise Faulty(1, "BadHeader")
        return self.script

    @staticmethod
    def fault_of_bytes(number: int, line: bytes) -> str | None:
        try:
            line.decode()
        except UnicodeDecodeError:
            return "NotUtf8"
        if len(line) > 256:
            return "LineTooLong"
        return "TooManyLines" if number > 4096 else None

    def take_line(self, number: int, line: bytes) -> str | None:
        """Takes the line into the script, or answers its fault."""
        statement = None
        tokens = cut_tokens(line.decode())
        if is_blank(line):
            pass
        elif not self.script.version:
            if tokens not in (["script", "1"], ["script", "2"], ["script", "3"]):
                return "BadHeader"
            self.script.version = int(tokens[1])
        elif tokens is None:
            return "BadToken"
        else:
            statement, parts = Statement(tokens[0], number), Tokens(tokens[1:])
            try:
                read_form(statement, self.form_at_place(tokens[0]), parts, self.script.version)
            except NoForm:
                return "BadStatement"
            fault = self.fault_of_names(statement) or self.fault_of_numbers(statement, parts.numbers)
            if fault:
                return fault
        fault = self.fault_of_blocks(statement, number == len(self.lines))
        if not fault and statement:
            self.keep(statement)
        return fault

    def form_at_place(self, word: str) -> str:
        if word not in KEYWORDS[self.script.version]:
            raise NoForm
        if word in ("end", "else"):
            return ""
        forms = {"thread": "NAME"}
        if self.open:
            forms = STATEMENTS
        elif not self.script.threads:
            forms = {**DECLARATIONS, **forms}
        if word not in forms:
            raise NoForm
        return forms[word]

    def fault_of_names(self, statement: Statement) -> str | None:
        for kind, name in statement.names:
            is_known = name in self.future_threads if kind == "thread" else self.script.declares(kind, name)
            if not is_known:
                return "UnknownName"
        if any(self.script.declares(kind, statement.declared) for kind in [*OBJECTS, "thread"]):
            return "TwiceNamed"
        return None

    @staticmethod
    def fault_of_numbers(statement: Statement, numbers: list[int]) -> str | None:
        ranges = {"var": (LEAST, GREATEST), "sem": (0, 2**31 - 1), "barrier": (1, 1000)}
        least, greatest = ranges.get(statement.word, (0, 0))
        is_well = all(number <= GREATEST for number in numbers) and least <= statement.number <= greatest
        return None if is_well else "NumberRange"

    def fault_of_blocks(self, statement: Statement | None, is_last: bool) -> str | None:
        word = statement.word if statement else ""
        opens = word == "thread" or word in BLOCKS
        if is_last and (opens or len(self.open) > (word == "end")):
            return "NoEnd"
        innermost = self.open[-1] if self.open else None
        takes_else = isinstance(innermost, Statement) and innermost.word == "if" and innermost.otherwise is None
        if (word == "end" and not self.open) or (word == "else" and not takes_else):
            return "StrayEnd"
        if is_last and not self.script.threads:
            return "NoThread"
        is_full = word == "thread" and len(self.script.threads) == MOST_THREADS[self.script.version]
        is_full |= word in OBJECTS and len(self.script.objects[word]) == 64
        is_full |= word in BLOCKS and len(self.open) == 33  # the thread, and 32 blocks
        return "TooMany" if is_full else None

    def keep(self, statement: Statement) -> None:
        word = statement.word
        if word == "thread":
            thread = self.script.threads[statement.declared] = Thread(statement.line, [])
            self.open.append(thread)
        elif word in OBJECTS:
            self.script.objects[word][statement.declared] = statement.number
        elif word == "end":
            closed = self.open.pop()
            if isinstance(closed, Thread):
                closed.end_line = statement.line
        elif word == "else":
            innermost = self.open[-1]
            assert isinstance(innermost, Statement)
            innermost.otherwise = []
        else:
            self.innermost_block().append(statement)
            if word in BLOCKS:
                self.open.append(statement)
            if word == "start":
                self.script.held.add(statement.names[0][1])

    def innermost_block(self) -> list[Statement]:
        innermost = self.open[-1]
        if isinstance(innermost, Statement) and innermost.otherwise is not None:
            return innermost.otherwise
        return innermost.block


def parse(data: bytes) -> Script:
    """The script of a text. Raises Faulty, with the line and the kind of the first fault, where it is none."""
    if len(data) > 1048576:
        raise Faulty(1, "TooMany")
    return Parser(data).read()
