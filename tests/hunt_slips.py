"""Checks of what is proposed for drawn slips: words of the gallery's scripts left out, doubled, changed or added.
What is proposed has no fault up to its last line, whatever the slip was."""

import glob
import os
import random
import sys

from hunt_calls import TOP, hunt, keep

sys.path.insert(0, os.path.join(TOP, "tools"))

from pcthunt.mends import mended_text
from pcthunt.refusals import mend_of
from pctmodel.script import Faulty, parse

SLIPS = 200
WORDS = ["+=", "//", "x[3]", "xchg", "await", "choose", "==", "(", "r16", "end", "if", ";", "&", "-", "lock", "7",
         "0x1f"]
SAID = {
    "set r0 += 1": "write `set r0 r0 + 1`", "read r0 x // look": "write `read r0 x # look`",
    "read r0 x[3]": "array x SIZE = NUMBER", "xchg r0 x 1": "`read` and `cas` in a loop do it",
    "await x == 1": "waits on a condition in a loop",
}


def fault_of(text):
    try:
        parse(text.encode())
    except Faulty as fault:
        return fault
    return None


def slip(drawn, text):
    """The text with one word of one line that isn't what it was."""
    lines = text.split("\n")
    place = drawn.choice([number for number, line in enumerate(lines) if line.split("#")[0].split()])
    words = lines[place].split("#")[0].split()
    at, how = drawn.randrange(len(words)), drawn.randrange(4)
    words[at:at + 1] = [[], [words[at]] * 2, [drawn.choice(WORDS)], [words[at], drawn.choice(WORDS)]][how]
    lines[place] = "  " + " ".join(words)
    return "\n".join(lines)


def slips(room):
    drawn = random.Random(78)
    texts = []
    for path in sorted(glob.glob(os.path.join(TOP, "examples", "*.pct"))):
        with open(path, encoding="utf-8") as file:
            texts.append(file.read())
    made = proposed = 0
    while made < SLIPS:
        text = slip(drawn, drawn.choice(texts))
        fault = fault_of(text)
        if fault is None:
            continue
        made += 1
        mend = mend_of(text.encode(), fault)
        mended = mended_text(text, fault.line, mend)
        if mended is None:
            yield f"slip {made}: nothing is proposed, and nothing is to be written: {mend.wanted}", \
                "write `" not in mend.wanted
            continue
        proposed += 1
        other, last = fault_of(mended), fault.line + max(len(mend.lines or ()), 1) - 1
        is_well = other is None or other.line > last or other.kind in ("NoEnd", "NoThread")
        yield f"slip {made}: {mend.wanted}", is_well
    yield f"something is proposed for most: {proposed}", proposed > SLIPS * 0.6
    for line, said in SAID.items():
        keep(room, "slip.pct", f"script 1\nvar x = 0\nthread A\n  {line}\nend\n")
        status, _, told = hunt(os.path.join(room, "slip.pct"), "--quiet")
        yield f"{line}: {told}", status == 3 and said in told
