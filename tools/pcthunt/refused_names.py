"""Refusals of lines by their names, their numbers and the blocks that they open or end."""

from __future__ import annotations

from pcthunt.forms import KIND_WORDS, Scope, joined, nearest
from pcthunt.mends import Mend, header_edit, write
from pctmodel.script import DECLARATIONS, MOST_THREADS, OBJECTS, STATEMENTS, cut_tokens


def unknown_name(scope: Scope, line: str, number: int, lines: list[str]) -> Mend:
    """Which name of a line isn't declared with the kind that is needed, and the nearest that is."""
    words = cut_tokens(line) or []
    items = {**DECLARATIONS, **STATEMENTS}[words[0]].split()
    for place, item in enumerate(items, 1):
        if item in (*OBJECTS, "thread") and place < len(words) and not scope.has(item, words[place]):
            return unknown_at(scope, words, place, item, line, number)
    return Mend("", "a name isn't declared")


def unknown_at(scope: Scope, words: list[str], place: int, kind: str, line: str, number: int) -> Mend:
    name, what = words[place], KIND_WORDS[kind]
    indent = line[:len(line) - len(line.lstrip())]
    swapped = [*words[:place], *words[place + 1:place + 2], name, *words[place + 2:]]
    other = scope.kind(name)
    is_else = f", and {name} is {KIND_WORDS[other]}" if other else ""
    if len(swapped) == len(words) and place + 1 < len(words) and scope.has(kind, words[place + 1]) and other:
        mended = joined(swapped)
        return Mend(name, f"{what} is wanted here{is_else}; {write(mended)}", (indent + mended,))
    near = nearest(name, scope.names(kind)) or (scope.names(kind)[0] if other and len(scope.names(kind)) == 1 else None)
    if near:
        mended = joined([*words[:place], near, *words[place + 1:]])
        return Mend(name, f"{what} is wanted here{is_else or f', and none is called {name}'}; "
                          f"{write(mended)}", (indent + mended,))
    if kind == "thread":
        others = scope.names(kind)
        there = f"the threads are {', '.join(others[:8])}" if others else "there is no thread"
        return Mend(name, f"no line of the text is `thread {name}`; {there}")
    if other:
        there = f"; {what[2:].strip()}s are {', '.join(scope.names(kind)[:8])}"
        if not scope.names(kind):
            declared = declared_as(kind, scope.unused(kind[0]))
            there = f", and none is declared; `{declared}` before the first thread declares one"
        return Mend(name, f"{what} is wanted here{is_else}{there}")
    where = scope.first_thread()
    declared = declared_as(kind, name)
    return Mend(name, f"{what} is wanted here, and none is called {name}; put `{declared}` before line {where}", None,
                ((where, (declared, scope.lines[where - 1])),))


def declared_as(kind: str, name: str) -> str:
    return f"{kind} {name}" + {"var": " = 0", "sem": " = 0", "barrier": " = 2"}.get(kind, "")


def twice_named(scope: Scope, line: str, number: int, lines: list[str]) -> Mend:
    """Which name a line declares again, and a name that is free."""
    words = cut_tokens(line) or []
    name = words[1]
    other = scope.unused(f"{name}2")
    mended = joined([words[0], other, *words[2:]])
    return Mend(name, f"{name} is the name of {KIND_WORDS[scope.kind(name) or 'var']} already, of line "
                      f"{scope.declared_in(name)}; write `{mended}`", (mended,))


def number_range(scope: Scope, line: str, number: int, lines: list[str]) -> Mend:
    """Which number of a line is out of its range, and the range."""
    words = cut_tokens(line) or []
    ranges = {"sem": (0, 2**31 - 1, "the first value of a semaphore"), "barrier": (1, 1000, "the number of a barrier"),
              "var": (-2**63, 2**63 - 1, "the first value of a variable")}
    least, greatest, what = ranges.get(words[0], (0, 2**63 - 1, "a number in an expression"))
    bad = next((it for it in words if it.isdecimal() and not least <= int(it) <= greatest
                and not (words[0] == "var" and "-" in words and int(it) <= 2**63)), words[-1])
    mended = joined([str(greatest if int(bad) > greatest else least) if it == bad else it for it in words])
    return Mend(bad, f"{what} is in {least} to {greatest}; write `{mended}`", (mended,))


def no_end(scope: Scope, line: str, number: int, lines: list[str]) -> Mend:
    """Which block or thread is open behind the last line."""
    after = Scope.before("\n".join([*lines[:number], "#"]).encode(), number + 1)
    opens = after.open_lines(line, number)
    what = ", ".join(f"`{text}` of line {at}" for at, text in opens) or "a block"
    ends = ("end",) * max(1, len(opens))
    return Mend("", f"the text ends, and {what} {'is' if len(opens) < 2 else 'are'} open; put "
                    f"{'`end`' if len(ends) == 1 else f'{len(ends)} lines `end`'} after it", (line, *ends))


def stray_end(scope: Scope, line: str, number: int, lines: list[str]) -> Mend:
    """An `end` or `else` that closes nothing."""
    word = line.split("#")[0].strip()
    if word == "end":
        last = scope.last_end
        return Mend("end", "there is no open thread or block that it could end" +
                    (f": the thread before it ends in line {last}" if last else "") + "; leave it out", ())
    what, where = scope.innermost()
    if not scope.open:
        return Mend("else", "no `if` is open here; leave it out", ())
    return Mend("else", f"an `if` that is open and has no `else` is wanted, and the innermost open block is {what} of "
                        f"line {where}; leave it out", ())


def no_thread(scope: Scope, line: str, number: int, lines: list[str]) -> Mend:
    """A script without a thread, and one to add."""
    name = scope.unused("A")
    return Mend("", f"the script has no thread; put `thread {name}`, its statements and `end` after this line",
                (line, f"thread {name}", "  yield", "end"))


def too_many(scope: Scope, line: str, number: int, lines: list[str]) -> Mend:
    """Which limit a line is past: of threads, of objects of a kind, or of blocks within blocks."""
    words = cut_tokens(line) or [""]
    version = scope.script.version
    if words[0] == "thread" and version < 3:
        return Mend(words[-1], f"a script of version {version} has at most {MOST_THREADS[version]} threads, and one "
                               "of version 3 up to 64; write "
                    f"`script 3` in line {scope.header}", None, header_edit(scope, 3))
    if words[0] == "thread":
        return Mend(words[-1], "a script has at most 64 threads; make the model smaller: two or three threads of a "
                               "kind show most bugs")
    if words[0] in OBJECTS:
        return Mend(words[-1], f"a script has at most 64 objects of a kind, and this is {words[0]} 65; use one of "
                               "those that there are")
    if words[0] in ("if", "while"):
        return Mend(words[0], "at most 32 blocks stand within one another; join conditions by &&")
    return Mend("", "the text has more than 1,048,576 bytes; make the model smaller")
