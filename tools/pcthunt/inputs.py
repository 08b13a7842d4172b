"""How the tools read what they are given: each file once, so many bytes, and nothing that may never end."""

from __future__ import annotations

import os
import stat

from pcthunt.output import READ_FAULT, USAGE, Refused, reason

MOST_INPUT = 64 * 1024 * 1024  # bytes of a file
MOST_SCRIPT, MOST_TRACE = 1048577, 16777217  # bytes, one more than a script and a trace may have
AS_FIFO: set[str] = set()  # the names that were given behind --fifo


def without_fifos(words: list[str]) -> list[str]:
    """The words, of which each `--fifo NAME` became NAME, which then may be a FIFO or a device."""
    rest, left = [], list(words)
    while left:
        word = left.pop(0)
        if word == "--fifo":
            if not left:
                raise Refused(USAGE, "--fifo wants the name of a file behind it")
            word = left.pop(0)
            AS_FIFO.add(word)
        rest.append(word)
    return rest


def check_names(names: list[str]) -> None:
    """Refused where one of them is a FIFO or a device, which another program is to read."""
    for name in names:
        try:
            check_kind(name, os.stat(name).st_mode)
        except (OSError, ValueError):
            continue


def check_kind(name: str, mode: int) -> None:
    if name not in AS_FIFO and not (stat.S_ISREG(mode) or stat.S_ISDIR(mode)):
        raise Refused(READ_FAULT, f"{name} can't be read: it is no file but a FIFO or a device, which may never end; "
                                  "--fifo before its name, or - for standard input, takes it")


def opened(name: str) -> int:
    """The number of the open file. A FIFO that nobody writes to isn't waited for, but where --fifo names it."""
    if name == "-":
        return os.dup(0)
    number = os.open(name, os.O_RDONLY | os.O_CLOEXEC | (0 if name in AS_FIFO else os.O_NONBLOCK))
    try:
        check_kind(name, os.fstat(number).st_mode)
    except BaseException:
        os.close(number)
        raise
    return number


def begin_of(name: str, most: int) -> bytes:
    """The first bytes of the file, at most so many."""
    parts: list[bytes] = []
    number = opened(name)
    try:
        while most > 0 and (part := os.read(number, min(most, 1 << 20))):
            parts.append(part)
            most -= len(part)
    finally:
        os.close(number)
    return b"".join(parts)


def read(name: str, most: int | None = None) -> bytes:
    """All bytes of the file, or its first ones, at most `most`; `-` is the standard input. Refused with status 6 where
    it can't be read, is a FIFO or a device, or where all are wanted and it has more than the tools take."""
    try:
        data = begin_of(name, MOST_INPUT + 1 if most is None else most)
    except (OSError, ValueError) as error:
        called = "standard input" if name == "-" else name
        raise Refused(READ_FAULT, f"{called} can't be read: {reason(error)}") from None
    if len(data) > MOST_INPUT:
        raise Refused(READ_FAULT, f"{name} can't be read: it has more than 64 MiB, the most that is taken")
    return data


def is_same_file(one: str, other: str) -> bool:
    """Whether two names are of one file that is there."""
    try:
        return os.path.samefile(one, other)
    except (OSError, ValueError):
        return False


def check_output(option: str, output: str | None, inputs: list[str]) -> None:
    """Refused where an output is one of the inputs, which it would replace."""
    for name in inputs:
        if output is not None and is_same_file(output, name):
            raise Refused(USAGE, f"{option} {output}: this is {name}, which is read, and would be overwritten")
