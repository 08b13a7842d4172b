"""Arrays of variables: an element by a constant index is a variable, one by a computed index a chain of `if`."""

from __future__ import annotations

from collections.abc import Iterator
from dataclasses import dataclass, field

from pctexpand.lines import Fault, Line, constant_of
from pctmodel.script import REGISTERS, STATEMENTS, NoForm, Tokens

ACCESSES = [word for word, form in STATEMENTS.items() if "var" in form.split()]
MOST_ELEMENTS = 30  # that a computed index reaches: a script nests at most 32 blocks


@dataclass(frozen=True)
class Access:
    """An element in a line: the array, its index, and the line before and after it."""

    array: str
    index: list[str]
    before: str
    after: str


@dataclass
class Arrays:
    """The arrays of a script by their sizes."""

    sizes: dict[str, int] = field(default_factory=dict)

    def accessed(self, line: Line) -> Iterator[str]:
        """The lines of the plain script for a statement whose constants are numbers."""
        access = self.access_in(line)
        if access is None:
            yield line.text
        elif any(word in REGISTERS for word in access.index):
            yield from self.chain(line, access)
        else:
            place = constant_of(access.index, f"the index of {access.array}")
            if not 0 <= place < self.sizes[access.array]:
                raise Fault(f"{access.array} has the elements 0 to {self.sizes[access.array] - 1}, and here its index "
                            f"is {place}")
            yield f"{access.before}{access.array}_{place}{access.after}"

    def access_in(self, line: Line) -> Access | None:
        words = line.words()
        places = [place for place, word in enumerate(words) if word == "["]
        whole = next((word for place, word in enumerate(words)
                      if word in self.sizes and words[place + 1:place + 2] != ["["]), None)
        if whole:
            raise Fault(f"{whole} is an array: name an element of it, as {whole}[0]")
        if not places:
            return None
        at = places[0]
        if words[0] not in ACCESSES or len(places) > 1 or at - 1 != STATEMENTS[words[0]].split().index("var") + 1:
            raise Fault(f"an element of an array stands where a variable does, in {', '.join(ACCESSES)}; read it into "
                        "a register first")
        name = words[at - 1]
        if name not in self.sizes:
            raise Fault(f"{name} is no array; `array {name} SIZE = NUMBER` declares one")
        if "]" not in words:
            raise Fault("an index has a ']' behind it")
        last = words.index("]")
        first, end = line.tokens[at - 1], line.tokens[last]
        return Access(name, checked(words[at + 1:last]), line.text[:first.at], line.text[end.end:])

    def chain(self, line: Line, access: Access) -> Iterator[str]:
        """The statement in a chain of `if`, for each element one."""
        size, indent = self.sizes[access.array], line.indent()
        if size > MOST_ELEMENTS:
            raise Fault(f"a computed index reaches at most {MOST_ELEMENTS} elements, and {access.array} has {size}")
        index = access.index[0] if len(access.index) == 1 else f"({joined(access.index)})"
        begins, after = access.before[len(indent):], access.after.split("#")[0].rstrip()
        for place in range(size):
            yield f"{indent}{'  ' * place}if {index} == {place}{'' if place else line.comment()}"
            yield f"{indent}{'  ' * place}  {begins}{access.array}_{place}{after}"
            yield f"{indent}{'  ' * place}else"
        yield f"{indent}{'  ' * size}assert 0  # no element of {access.array}"
        yield from (f"{indent}{'  ' * place}end" for place in reversed(range(size)))


def checked(index: list[str]) -> list[str]:
    """The index, which is an expression."""
    try:
        tokens = Tokens(index)
        tokens.expression()
        if tokens.next():
            raise NoForm
    except NoForm:
        raise Fault(f"an index is an expression of numbers, constants and registers, and '{' '.join(index)}' is "
                    "none") from None
    return index


def joined(words: list[str]) -> str:
    return " ".join(words).replace("( ", "(").replace(" )", ")").replace("! ", "!")

