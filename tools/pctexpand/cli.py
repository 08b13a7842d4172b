"""The words of pct-expand, and what they make."""

from __future__ import annotations

import os
import sys

from pctexpand.expansion import Expansion, Unexpanded, expand
from pcthunt.inputs import read
from pcthunt.output import BAD_SCRIPT, DONE, USAGE, WRITE_FAULT, Refused, put, shown

USAGE_LINE = "usage: pct-expand [--choice N] [--lines] FILE"
HELP = f"""{USAGE_LINE}

Prints the plain script that a shorter one stands for, as pct and its other commands take it: copies of threads,
constants, arrays, names of registers, messages of assertions and choices are written out. A script that uses none of
these is printed as it is. docs/modelling.md has the rules.

  --choice N  the script of the N-th way to choose (1)
  --lines     before each line the number of the line that it is of
  --help      writes this

The status is 0, 2 for words that aren't taken, 3 for a script that can't be expanded, 6 and 7 for files and output that
can't be read or written, 8 where there is no memory left, 9 where the tool has an error of its own.
"""
MOST_SCRIPT = 1048577


def refusal(path: str, unexpanded: Unexpanded) -> str:
    return "\n".join(f"{shown(path)}: line {line}: {shown(why)}" for line, why in unexpanded.faults)


def expansion_of(path: str, data: bytes) -> Expansion:
    """The expansion of a file's bytes; refused with a line for each fault."""
    try:
        return expand(data)
    except Unexpanded as unexpanded:
        raise Refused(BAD_SCRIPT, refusal(path, unexpanded)) from None


def put_bytes(data: bytes) -> None:
    """All of the bytes on standard output, also those that are no UTF-8."""
    try:
        while data:
            data = data[os.write(1, data):]
    except OSError as error:
        raise Refused(WRITE_FAULT, f"standard output can't be written: {error.strerror}") from None


def main() -> int:
    words = sys.argv[1:]
    if "--help" in words:
        put(HELP)
        return DONE
    choice, is_numbered = "1", "--lines" in words
    if is_numbered:
        words.remove("--lines")
    if words[:1] == ["--choice"] and len(words) > 1:
        choice, words = words[1], words[2:]
    if len(words) != 1 or words[0].startswith("--"):
        raise Refused(USAGE, USAGE_LINE)
    expansion = expansion_of(words[0], read(words[0], MOST_SCRIPT))
    if not (choice.isascii() and choice.isdecimal() and 1 <= int(choice) <= expansion.runs()):
        raise Refused(USAGE, f"--choice takes 1 to {expansion.runs()} here")
    data = expansion.plain(int(choice) - 1)
    if is_numbered:
        texts = data.decode(errors="replace").split("\n")
        put("".join(f"{line:5}  {text}\n" for line, text in zip(expansion.lines, texts)))
    else:
        put_bytes(data)
    return DONE
