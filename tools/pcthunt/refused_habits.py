"""Refusals of what other languages have: comments by //, assignments with an operator, arrays, exchanges, awaits."""

from __future__ import annotations

from pcthunt.forms import Scope, joined
from pcthunt.mends import Mend, write
from pctmodel.script import REGISTERS, cut_tokens

OPERATORS = ("+", "-", "*", "/", "%")
EXCHANGES = ("xchg", "exchange", "swap", "fetch_and_store")


def habit(scope: Scope, line: str) -> Mend | None:
    """What there is in place of a habit of another language, or None."""
    code = line.split("#")[0]
    if "//" in code:
        mended = line.replace("//", "#", 1)
        return Mend("//", f"a comment begins with #; {write(mended.strip())}", (mended,))
    if "[" in code:
        name = code.split("[")[0].split()[-1:] or ["x"]
        return Mend("[", f"a script for pct has no arrays; one for pct-hunt has, where a line `array {name[0]} SIZE = "
                         f"NUMBER` declares {name[0]} (docs/modelling.md)")
    indent = code[:len(code) - len(code.lstrip())]
    mend = of_words(scope, cut_tokens(line) or [])
    return Mend(mend.word, mend.wanted, tuple(indent + it for it in mend.lines)) if mend and mend.lines else mend


def of_words(scope: Scope, words: list[str]) -> Mend | None:
    first, rest = (words or [""])[0], words[1:]
    if first == "set" and rest[:1] and rest[0] in REGISTERS and rest[1:2] and rest[1] in OPERATORS \
            and rest[2:3] == ["="] and rest[3:]:
        value = rest[3] if len(rest) == 4 else f"({joined(rest[3:])})"
        form = f"set {rest[0]} {rest[0]} {rest[1]} {value}"
        return Mend(f"{rest[1]}=", f"no assignment has an operator; {write(form)}", (form,))
    if first in EXCHANGES and scope.open:
        return exchange(scope, first, rest)
    if first == "await":
        return Mend(first, "nothing waits for a value by itself: a thread waits on a condition in a loop, or takes a "
                           "semaphore by `down` (docs/modelling.md has both)")
    return None


def exchange(scope: Scope, first: str, rest: list[str]) -> Mend:
    wanted = "there is no exchange: `read` and `cas` in a loop do it"
    if len(rest) < 3 or rest[0] not in REGISTERS or scope.kind(rest[1]) != "var":
        return Mend(first, wanted)
    done = next(it for it in reversed(REGISTERS) if it not in rest)
    value = joined(rest[2:])
    lines = (f"set {done} 0", f"while !{done}", f"  read {rest[0]} {rest[1]}",
             f"  cas {done} {rest[1]} {rest[0]} , {value}", "end")
    return Mend(first, f"{wanted}; write `{'`, `'.join(it.strip() for it in lines)}`", lines)
