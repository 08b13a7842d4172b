"""What a script should come to: a line `# hunt: ..` in it, or NAME.expect beside NAME.pct."""

from __future__ import annotations

import os
import re

from pcthunt.inputs import read
from pcthunt.output import USAGE, Refused
from pcthunt.report import Result
from pctmodel.script import Script
from pctmodel.trace import threads_of_verdict

MOST_EXPECTED = 4096  # bytes, of which no verdict has so many
ATOMIC = "atomic "
LINE = re.compile(r"^[ \t]*#[ \t]*hunt:[ \t]*(.*?)[ \t\r]*$", re.M)


def is_atomic(name: str, text: str) -> bool:
    """Whether a line `# hunt: atomic NAME ..` says of the variable, or of the array that it is in, that its races are
    meant."""
    names = {name, re.sub(r"_[0-9]+$", "", name)}
    return any(names & set(match.group(1).split()[1:]) for match in LINE.finditer(text)
               if match.group(1).startswith(ATOMIC))


def expectation(path: str, text: str) -> tuple[str, str]:
    """What the script at the path should come to, and where that stands."""
    found = [(match.group(1), f"line {text.count(chr(10), 0, match.start()) + 1}") for match in LINE.finditer(text)
             if not match.group(1).startswith(ATOMIC)]
    beside = os.path.splitext(path)[0] + ".expect"
    if os.path.exists(beside):
        found.append((read(beside, MOST_EXPECTED).decode(errors="replace").strip(), beside))
    if len(found) > 1:
        raise Refused(USAGE, f"{path}: what it should come to is told twice: {found[0][1]} and {found[1][1]}")
    return found[0] if found else ("passes", "")


def check_expectation(path: str, wanted: str, where: str, script: Script) -> None:
    """Refused with status 2 where what a script should come to is none of passes, fails or a verdict of its threads."""
    words = wanted.split()
    is_verdict = bool(words) and words[0] != "passed" and threads_of_verdict(words, 2, script) is not None
    if wanted not in ("passes", "fails") and not is_verdict:
        raise Refused(USAGE, f"{path}: {where}: '{wanted[:120]}' is none of passes, fails, or a verdict of its threads "
                             f"such as 'failed {next(iter(script.threads))} 9'")


def is_as_expected(wanted: str, result: Result) -> bool:
    """A verdict that is wanted is one of the one heading that there is."""
    if wanted == "passes":
        return result.has_run() and not result.has_failed()
    if wanted == "fails":
        return result.has_failed()
    verdicts = [failure.verdict for case in result.cases for failure in case.heading.failures]
    return len(result.cases) == 1 and wanted in verdicts
