"""Lines of a shorter script: their words, and the words that are put in place of others."""

from __future__ import annotations

import re
from dataclasses import dataclass

from pctmodel.run import Wrong, evaluate
from pctmodel.script import GREATEST, NoForm, Tokens, is_name

TOKEN = re.compile(r'"[^"]*"|[A-Za-z_][A-Za-z0-9_]*|[0-9]+|\.\.|\|\||&&|[=!<>]=|\S')
USES = re.compile(rb'^[ \t]*(?:(?:const|array|reg|choose)\b|thread\b[^#\n]*\*|assert[ \t]*")', re.M)
OWN_WORDS = ("const", "array", "reg", "choose", "ME")


class Fault(Exception):
    """What is wrong with a line, in a sentence."""


@dataclass(frozen=True)
class Token:
    """A word of a line and where it begins, in characters."""

    word: str
    at: int

    @property
    def end(self) -> int:
        return self.at + len(self.word)


@dataclass(frozen=True)
class Line:
    """A line of the shorter script, by its number from 1, with its words up to its comment."""

    number: int
    text: str
    tokens: tuple[Token, ...]

    @classmethod
    def of(cls, number: int, text: str) -> Line:
        return cls(number, text, tuple(tokens_of(text)))

    def words(self) -> list[str]:
        return [token.word for token in self.tokens]

    def first(self) -> str:
        return self.tokens[0].word if self.tokens else ""

    def indent(self) -> str:
        return self.text[:self.tokens[0].at] if self.tokens else ""

    def comment(self) -> str:
        """The comment with what stands before it, or nothing."""
        code = self.text[:self.tokens[-1].end] if self.tokens else ""
        return self.text[len(code):].rstrip() if "#" in self.text[len(code):] else ""


def tokens_of(text: str) -> list[Token]:
    found: list[Token] = []
    for match in TOKEN.finditer(text):
        if match.group()[0] == "#":
            break
        found.append(Token(match.group(), match.start()))
    return found


def with_values(text: str, values: dict[str, str]) -> str:
    """The line with other words in place of those that have a value; what stands between quotes stays."""
    made, at = "", 0
    for token in tokens_of(text):
        made += text[at:token.at] + values.get(token.word, token.word)
        at = token.end
    return made + text[at:]


def is_new_name(word: str) -> bool:
    return is_name(word, 3) and word not in OWN_WORDS


def constant_of(words: list[str], what: str) -> int:
    """The value of an expression without registers."""
    try:
        tokens = Tokens(words)
        expression = tokens.expression()
        if tokens.next() or any(number > GREATEST for number in tokens.numbers):
            raise NoForm
        return evaluate(expression, {})
    except (NoForm, KeyError):
        raise Fault(f"{what} is a number, or an expression of numbers and constants; here is "
                    f"'{' '.join(words)}'") from None
    except Wrong as wrong:
        raise Fault(f"{what}, '{' '.join(words)}', has no value: {wrong}") from None

