"""Refusals of scripts that can be mended: the line, the word, what was wanted there, and the nearest form."""

from __future__ import annotations

import re

from pcthunt.forms import Scope
from pcthunt.mends import Mend, mended_text
from pcthunt.output import shown
from pcthunt.refused_habits import habit
from pcthunt.refused_lines import bad_header, bad_statement, bad_token
from pcthunt.refused_names import no_end, no_thread, number_range, stray_end, too_many, twice_named, unknown_name
from pctmodel.script import Faulty, parse


def script_refusal(path: str, data: bytes, fault: Faulty) -> str:
    """The one line that is said of a script that is refused."""
    line, kind = fault.line, fault.kind
    lines = data.split(b"\n")
    raw = lines[line - 1] if line <= len(lines) else b""
    text = shown(raw.decode(errors="backslashreplace").strip())
    mend = mend_of(data, fault)
    at = f" at '{shown(mend.word)}'" if mend.word else ""
    own = f" `{text[:120]}`:" if text else ""
    return f"{shown(path)}: line {line}:{own} {kind}{at}: {mend.wanted}"


def mend_of(data: bytes, fault: Faulty) -> Mend:
    """What mends the fault."""
    text = data.decode(errors="replace")
    lines = text.split("\n")
    line = lines[fault.line - 1] if fault.line <= len(lines) else ""
    scope = Scope.before(data, fault.line)
    teller = {"BadHeader": bad_header, "BadToken": bad_token, "BadStatement": bad_statement,
              "UnknownName": unknown_name, "TwiceNamed": twice_named, "NumberRange": number_range, "NoEnd": no_end,
              "StrayEnd": stray_end, "NoThread": no_thread, "TooMany": too_many}.get(fault.kind)
    if fault.kind in ("BadToken", "BadStatement"):
        mend = habit(scope, line)
        if mend:
            return that_parses(mend, text, fault)
    return that_parses(teller(scope, line, fault.line, lines) if teller else of_bytes(fault.kind, data, fault.line),
                       text, fault)


def that_parses(mend: Mend, text: str, fault: Faulty) -> Mend:
    """The mend, without its proposal where that has a fault itself."""
    mended = mended_text(text, fault.line, mend)
    if mended is None:
        return mend
    last = fault.line + max(len(mend.lines or ()), 1) - 1
    try:
        parse(mended.encode())
    except Faulty as other:
        if other.line <= last and other.kind not in ("NoEnd", "NoThread"):
            return Mend(mend.word, re.sub(r"(; put `[^`]*` before it)?[;:,] (and )?write `.*$", "", mend.wanted))
    return mend


def of_bytes(kind: str, data: bytes, number: int) -> Mend:
    raw = data.split(b"\n")[number - 1] if number <= data.count(b"\n") + 1 else b""
    if kind == "NotUtf8":
        try:
            raw.decode()
            place = 0
        except UnicodeDecodeError as error:
            place = error.start
        mended = raw.decode(errors="ignore")
        return Mend(f"\\x{raw[place]:02x}", f"byte {place + 1} of the line isn't UTF-8; save the file as UTF-8, or "
                                            f"write `{mended.strip()}`", (mended,))
    if kind == "LineTooLong":
        code = raw.split(b"#")[0].decode().rstrip()
        short = (code,) if len(code.encode()) <= 256 else None
        how = "put a part of the expression into a register before it by `set`"
        if short:
            how = f"shorten its comment, or write `{code.strip()}`" if code.strip() else "shorten the comment"
        return Mend("", f"the line has {len(raw)} bytes, and at most 256 are taken; {how}", short)
    return Mend("", f"a script has at most 4,096 lines, and this is line {number}; leave out comments or blank lines, "
                    "or make the model smaller")
