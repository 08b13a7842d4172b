"""Checks of what tools/hunt says of scripts, words and files that are refused: against tests/hunt/refusals and
tests/hunt/calls, and each form that it proposes parses."""

import os
import re
import sys

from hunt_calls import TOP, hunt, read

sys.path.insert(0, os.path.join(TOP, "tools"))

from pcthunt.mends import mended_text
from pcthunt.refusals import mend_of
from pctmodel.script import Faulty, parse

SPELLINGS = 3  # of each row of the table of faults


def cases_of(name):
    """The cases of a file, each after a line `== NAME`."""
    cases = re.split(r"^== (.*)\n", read("tests", "hunt", name), flags=re.M)[1:]
    return list(zip(cases[0::2], cases[1::2]))


def refusals(room):
    """The cases of tests/hunt/refusals: after a line `== NAME` a script, after `--` what is said of it."""
    cases = cases_of("refusals")
    names = [name for name, _ in cases]
    for fault in re.findall(r"^\| (\w+) \|", read("docs", "language.md").split("\n## Faults\n")[1], re.M)[1:]:
        told = sum(name.startswith(f"{fault}, ") for name in names)
        yield f"spellings of {fault}", told >= SPELLINGS
    for name, case in cases:
        text, wanted = case.rsplit("\n--\n", 1)
        data = made_text(text).encode("utf-8", "surrogateescape")
        path = os.path.join(room, "script.pct")
        with open(path, "wb") as file:
            file.write(data)
        status, out, said = hunt(path, "--quiet")
        yield f"refused: {name}", (status, out, said) == (3, "", f"hunt: {wanted.strip().replace('FILE', path)}\n")
        yield f"mended: {name}", is_mended(data, "write `" in wanted)


def repeated(line):
    """The lines that a line of a case stands for."""
    words = line.split(" ", 2)
    if words[0] != "REPEAT":
        return [line]
    return [part for number in range(int(words[1])) for part in words[2].replace("@", str(number)).split("|")]


def made_text(text):
    r"""The text of a case: `\xNN` is a byte, `\t` a tab, and a line `REPEAT N TEXT` is N lines, `@` being the
    number."""
    joined = "\n".join(once for line in text.split("\n") for once in repeated(line))
    joined = re.sub(r"LONG(\d+)", lambda match: "x" * int(match.group(1)), joined)
    joined = joined.replace("\\t", "\t").replace("\\n", "\n").replace("\\u00a0", "\u00a0").replace("\\ufeff", "\ufeff")
    return re.sub(r"\\x([0-9a-f]{2})", lambda match: chr(0xdc00 + int(match.group(1), 16)), joined)


def is_mended(data, proposes):
    """Whether the script with what is proposed is a script, or nothing is proposed and nothing is said to be."""
    try:
        parse(data)
    except Faulty as fault:
        mend = mend_of(data, fault)
        text = mended_text(data.decode(errors="replace"), fault.line, mend)
        if text is None:
            return not proposes
        try:
            parse(text.encode())
        except Faulty:
            return False
        return True
    return False


def calls(_):
    """The cases of tests/hunt/calls: after `==` the words of a call, and then what is said of it. Its files stand in
    the folder tests/hunt/files."""
    for words, case in cases_of("calls"):
        wanted, status = case.strip().rsplit("\n-> ", 1)
        done = hunt("--why", *words.split())
        yield f"why: {words}", done == (int(status), "", f"hunt: {wanted.strip()}\n")
