"""Places whose races are no failure: a file of patterns, as a sanitizer's suppressions."""

from __future__ import annotations

import fnmatch
from collections.abc import Sequence

from pcttry.runner import Access, Refused
from pcttry.symbols import Place, Symbols


def read(path: str) -> list[str]:
    """A pattern a line, perhaps after `race:`; `#` begins a comment."""
    try:
        with open(path, encoding="utf-8") as file:
            lines = [line.partition("#")[0].strip() for line in file]
    except (OSError, UnicodeDecodeError) as error:
        raise Refused(f"{path}: it can't be read: {error}") from error
    return [line.removeprefix("race:") for line in lines if line]


def matches(pattern: str, place: Place) -> bool:
    """A pattern is a part of a file's path with or without a line, or of a function's name; `*` stands for anything."""
    return any(fnmatch.fnmatchcase(text, f"*{pattern}*") for text in (f"{place.file}:{place.line}", place.function))


def ignored_of(accesses: Sequence[Access], patterns: Sequence[str], symbols: Symbols) -> list[int]:
    """The addresses of those accesses that a pattern names."""
    symbols.look_up([access.frames[0] for access in accesses])
    return [access.frames[0] for access in accesses
            if any(matches(pattern, place) for place in symbols.places[access.frames[0]] for pattern in patterns)]
