"""The plain script that a shorter one stands for, with the line of the shorter one that each of its lines is of."""

from __future__ import annotations

import math
from dataclasses import dataclass, field, replace

from pctexpand.arrays import Arrays
from pctexpand.lines import OWN_WORDS, USES, Fault, Line, constant_of, is_new_name, tokens_of, with_values
from pctmodel.script import OBJECTS, REGISTERS

MOST_LINES, MOST_BYTES_OF_A_LINE, MOST_COPIES, MOST_CHOICES = 4096, 256, 64, 256


class Unexpanded(Exception):
    """A script that can't be expanded: its faulty lines, each with a sentence."""

    def __init__(self, faults: list[tuple[int, str]]) -> None:
        super().__init__(faults)
        self.faults = faults


@dataclass(frozen=True)
class Place:
    """A `choose` in a thread: the line of the plain script that it is, its text before the value, and its values."""

    thread: str
    number: int  # from 1
    source: int
    before: str
    least: int
    greatest: int


@dataclass
class Expansion:
    """A plain script. Lines are numbered from 1; `lines[n - 1]` is the line of the shorter script that line n is of."""

    text: list[str]
    lines: list[int]
    places: list[Place] = field(default_factory=list)
    names: dict[str, dict[str, str]] = field(default_factory=dict)  # by thread: names of registers
    threads: dict[str, int] = field(default_factory=dict)  # by name of a copy: the line of its `thread`

    def runs(self) -> int:
        """How many plain scripts there are, one for each way to choose."""
        return math.prod(place.greatest - place.least + 1 for place in self.places)

    def chosen(self, number: int) -> list[tuple[Place, int]]:
        """What is chosen in the script of that number, from 0."""
        found: list[tuple[Place, int]] = []
        for place in reversed(self.places):
            number, digit = divmod(number, place.greatest - place.least + 1)
            found.insert(0, (place, place.least + digit))
        return found

    def plain(self, number: int = 0) -> bytes:
        """The plain script of that number, from 0."""
        made = list(self.text)
        for place, value in self.chosen(number):
            made[place.number - 1] = f"{place.before} {value}  # of {place.least}..{place.greatest}"
        return "\n".join(made).encode()


def is_expanded(data: bytes) -> bool:
    """Whether a text uses what only a shorter script has."""
    return bool(USES.search(data))


def expand(data: bytes) -> Expansion:
    """The plain script, which is the text itself where it uses nothing of a shorter one. Raises Unexpanded."""
    try:
        texts = data.decode().split("\n")
    except UnicodeDecodeError:
        texts = data.decode(errors="surrogateescape").split("\n")
    if not is_expanded(data):
        return Plain(data, list(range(1, len(texts) + 1)))
    return Expander([Line.of(number, text) for number, text in enumerate(texts, 1)]).made()


class Plain(Expansion):
    """A script that uses nothing of a shorter one: its bytes are what they were."""

    def __init__(self, data: bytes, lines: list[int]) -> None:
        super().__init__([], lines)
        self.data = data

    def plain(self, number: int = 0) -> bytes:
        return self.data


class Expander:
    """A shorter script that is read line by line. Behind a fault it goes on."""

    def __init__(self, lines: list[Line]) -> None:
        self.lines = lines
        self.values: dict[str, str] = {}  # of constants, and in a thread of ME and of names of registers
        self.arrays = Arrays()
        self.faults: list[tuple[int, str]] = []
        self.expansion = Expansion([], [])
        self.declared: dict[str, int] = {}
        self.copies = {name: count for line in lines for name, count in self.copies_in(line)}
        self.thread = ""

    def copies_in(self, line: Line) -> list[tuple[str, int]]:
        """The names and numbers of copies that the line declares; what a constant is there, is read before."""
        words = line.words()
        if words[:1] == ["const"]:
            try:
                self.take_constant(line)
            except Fault:
                pass  # it is told where the line's turn comes
        if words[:1] != ["thread"] or words[2:3] != ["*"]:
            return []
        try:
            count = constant_of(tokens_words(words[3:], self.values), "the number of copies")
        except Fault:
            count = 1
        return [(words[1], min(max(count, 1), MOST_COPIES))]

    def made(self) -> Expansion:
        self.values.clear()
        self.declared.clear()
        at = 0
        while at < len(self.lines):
            many = self.end_of_thread(at) - at if self.lines[at].first() == "thread" else 1
            self.take(self.lines[at:at + many])
            at += many
        runs = self.expansion.runs()
        if runs > MOST_CHOICES:
            self.faults.append((self.expansion.places[0].source,
                                f"all choices together are {runs:,} scripts, and at most {MOST_CHOICES} are run"))
        if self.faults:
            raise Unexpanded(sorted(set(self.faults)))
        return self.expansion

    def end_of_thread(self, at: int) -> int:
        """The place behind the `end` of the thread that begins there."""
        depth = 0
        for place in range(at, len(self.lines)):
            word = self.lines[place].first()
            depth += (word in ("thread", "if", "while")) - (word == "end")
            if depth == 0:
                return place + 1
        return len(self.lines)

    def take(self, lines: list[Line]) -> None:
        """Takes one line, or all lines of a thread."""
        head = lines[0]
        try:
            if head.first() == "thread":
                self.take_thread(lines)
            elif head.first() == "const":
                self.take_constant(head)
                self.put(head, f"# {head.text.strip()}")
            elif head.first() == "array":
                self.take_array(head)
            elif head.first() in ("reg", "choose"):
                raise Fault(f"`{head.first()}` stands in a thread only")
            else:
                self.note_name(head)
                self.put(head, with_values(head.text, self.values))
        except Fault as fault:
            self.faults.append((head.number, str(fault)))

    def note_name(self, line: Line) -> None:
        words = line.words()
        if words and words[0] in OBJECTS and len(words) > 1:
            self.declare(words[1], line.number)

    def declare(self, name: str, number: int) -> None:
        if name in self.declared:
            raise Fault(f"{name} is there already, in line {self.declared[name]}")
        if name in OWN_WORDS:
            raise Fault(f"{name} is a word of the language")
        self.declared[name] = number

    def take_constant(self, line: Line) -> None:
        words = line.words()
        if len(words) < 4 or words[2] != "=" or not is_new_name(words[1]):
            raise Fault("a constant is `const NAME = NUMBER`")
        self.declare(words[1], line.number)
        value = constant_of(tokens_words(words[3:], self.values), f"the constant {words[1]}")
        self.values[words[1]] = str(value)

    def take_array(self, line: Line) -> None:
        words = line.words()
        if "=" not in words or not is_new_name(words[1]) or len(words) < 5:
            raise Fault("an array is `array NAME SIZE = NUMBER`, its size 1 to 64")
        name, equals = words[1], words.index("=")
        size = constant_of(tokens_words(words[2:equals], self.values), "the size of an array")
        value = constant_of(tokens_words(words[equals + 1:], self.values), "the first value of an array")
        if not 1 <= size <= 64:
            raise Fault(f"the size of an array is 1 to 64, and here it is {size}")
        if not is_new_name(f"{name}_{size - 1}"):
            raise Fault(f"{name}_{size - 1} has more than 32 characters")
        self.declare(name, line.number)
        self.arrays.sizes[name] = size
        for place in range(size):
            self.declare(f"{name}_{place}", line.number)
            self.put(line, f"{line.indent()}var {name}_{place} = {value}{'' if place else line.comment()}")

    # Threads.

    def take_thread(self, lines: list[Line]) -> None:
        """A thread, or each copy of one."""
        words = lines[0].words()
        if words[2:3] != ["*"]:
            self.take_copy(lines, words[1] if len(words) > 1 else "", None)
            return
        count = constant_of(tokens_words(words[3:], self.values), "the number of copies")
        if not 1 <= count <= MOST_COPIES:
            raise Fault(f"the number of copies is 1 to {MOST_COPIES}, and here it is {count}")
        for place in range(count):
            if place:
                self.put(lines[0], "")
            self.take_copy(lines, f"{words[1]}_{place}", place)

    def take_copy(self, lines: list[Line], name: str, me: int | None) -> None:
        own = dict(self.values)
        free = [it for it in REGISTERS if it not in {word for line in lines for word in line.words()}]
        self.thread = name
        self.expansion.names[name] = {}
        self.expansion.threads[name] = lines[0].number
        if me is not None:
            self.values["ME"] = str(me)
            self.put(lines[0], f"{lines[0].indent()}thread {name}{lines[0].comment()}")
        else:
            self.put(lines[0], lines[0].text)
        for line in lines[1:]:
            try:
                self.take_statement(line, free)
            except Fault as fault:
                self.faults.append((line.number, str(fault)))
        self.values = own

    def take_statement(self, line: Line, free: list[str]) -> None:
        words = line.words()
        if "ME" in words and "ME" not in self.values:
            raise Fault("ME is the number of a copy, and this thread has none: write `thread NAME * COUNT`")
        if line.first() == "reg":
            self.name_registers(line, words[1:], free)
        elif line.first() == "choose":
            self.choose(line)
        elif line.first() in ("join", "start") and words[1:2] and words[1] in self.copies:
            for place in range(self.copies[words[1]]):
                self.put(line, f"{line.indent()}{line.first()} {words[1]}_{place}{'' if place else line.comment()}")
        elif line.first() == "assert" and words[1:2] and words[1][0] == '"':
            self.put(line, self.assertion(line))
        else:
            text = with_values(line.text, self.values)
            for made in self.arrays.accessed(replace(line, text=text, tokens=tuple(tokens_of(text)))):
                self.put(line, made)

    def name_registers(self, line: Line, names: list[str], free: list[str]) -> None:
        if not names:
            raise Fault("a register's name is declared by `reg NAME`")
        for name in names:
            if not is_new_name(name) or name in self.values or name in self.declared:
                raise Fault(f"'{name}' can't be a register's name: it is another's, or no name")
            if not free:
                raise Fault("a thread has sixteen registers, and all are taken")
            self.values[name] = free.pop(0)
            self.expansion.names[self.thread][self.values[name]] = name
        told = ", ".join(f"{name} is {self.values[name]}" for name in names)
        self.put(line, f"{line.indent()}# {told}")

    def assertion(self, line: Line) -> str:
        message, rest = line.tokens[1], line.text[line.tokens[1].end:]
        if len(message.word) < 2 or message.word[-1] != '"':
            raise Fault("a message has a quote before and after it")
        if "#" in message.word:
            raise Fault("a message has no '#'")
        return f"{line.indent()}assert{with_values(rest, self.values)}"

    def choose(self, line: Line) -> None:
        words = with_values(line.text, self.values)
        tokens = [token.word for token in tokens_of(words)]
        if ".." not in tokens or tokens[1] not in REGISTERS:
            raise Fault("a choice is `choose REG LEAST..GREATEST`")
        middle = tokens.index("..")
        least = constant_of(tokens[2:middle], "the least value of a choice")
        greatest = constant_of(tokens[middle + 1:], "the greatest value of a choice")
        if not least <= greatest <= least + MOST_CHOICES:
            raise Fault(f"a choice is of 1 to {MOST_CHOICES} values, and this is of {least} to {greatest}")
        before = f"{line.indent()}set {tokens[1]}"
        self.put(line, f"{before} {least}")
        self.expansion.places.append(Place(self.thread, len(self.expansion.text), line.number, before, least, greatest))

    def put(self, line: Line, text: str) -> None:
        """Puts a line into the plain script."""
        if len(self.expansion.text) == MOST_LINES:
            raise Fault(f"the plain script would have more than {MOST_LINES:,} lines")
        if len(text.encode(errors="surrogateescape")) > MOST_BYTES_OF_A_LINE:
            raise Fault(f"the plain line would have more than {MOST_BYTES_OF_A_LINE} bytes")
        self.expansion.text.append(text)
        self.expansion.lines.append(line.number)


def tokens_words(words: list[str], values: dict[str, str]) -> list[str]:
    """The words with those of a constant's value in its place."""
    return [part for word in words for part in (values[word].replace("-", "- ").split() if word in values else [word])]
