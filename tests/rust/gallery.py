"""Holds what tests/gallery.rs of the crate for Rust wants of its campaigns and traces against the plain model of
tools/pctmodel, which reads the scripts of the gallery."""

import pathlib
import re
import sys
from collections.abc import Iterator

TOP = pathlib.Path(__file__).resolve().parent.parent.parent
sys.path.insert(0, str(TOP / "tools"))

from pctmodel.campaign import drawn, groups_of, rows_of, steps_in_declared_order
from pctmodel.run import run
from pctmodel.script import Script, parse
from pctmodel.trace import Trace, trace_lines

GALLERY = TOP / "native" / "rust" / "tests" / "gallery.rs"
LIMIT, TRACES, DEPTH_OF_TRACES = 10_000, 1000, 2
CAMPAIGN = re.compile(r"lines\((\d+), (\d+), (\d+), (\w+)::test\(\)\),\s*(\[[^]]*\]|Vec::<String>::new\(\))")
SUM = re.compile(r"sum_of_traces\((\w+)::test\), (0x[0-9a-f]+)\)")


def script_of(name: str) -> Script:
    return parse((TOP / "examples" / f"{name}.pct").read_bytes())


def fnv(data: bytes, start: int) -> int:
    """FNV-1a of 64 bits, going on from a sum."""
    for byte in data:
        start = (start ^ byte) * 0x100000001B3 % 2**64
    return start


def sum_of_traces(script: Script) -> int:
    """The sum of the trace files of the seeds, one after the other."""
    total, steps = 0xCBF29CE484222325, steps_in_declared_order(script, LIMIT)
    for seed in range(1, TRACES + 1):
        order, points = drawn(script, seed, DEPTH_OF_TRACES, steps)
        events, verdict = run(script, order, points, LIMIT)
        trace = Trace(2 if script.version == 3 else 1, order, points, LIMIT, events, verdict)
        total = fnv("".join(f"{line}\n" for line in trace_lines(trace)).encode(), total)
    return total


def campaign_of(script: Script, depth: int, seeds: int) -> tuple[int, list[str]]:
    """From how many steps points are drawn, and the lines of the groups."""
    steps = steps_in_declared_order(script, LIMIT)
    groups = groups_of(rows_of(script, 1, seeds, depth, steps, LIMIT))
    return steps, [" ".join(map(str, group)) for group in groups]


def faults() -> Iterator[str]:
    """What the model says otherwise, and each script of the gallery that no campaign is of."""
    text = GALLERY.read_text(encoding="utf-8")
    campaigns, sums = CAMPAIGN.findall(text), SUM.findall(text)
    for depth, seeds, steps, name, lines in campaigns:
        found = campaign_of(script_of(name), int(depth), int(seeds))
        wanted = int(steps), re.findall(r'"([^"]*)"', lines)
        if found != wanted:
            yield f"{name}: gallery.rs wants {wanted}, and the model has {found}"
    for name, wanted in sums:
        found = sum_of_traces(script_of(name))
        if found != int(wanted, 16):
            yield f"{name}: gallery.rs wants traces of the sum {wanted}, and those of the model have {found:#x}"
    scripts = {path.stem for path in (TOP / "examples").glob("*.pct")}
    known = {name for *_, name, _ in campaigns}
    yield from (f"{name}: gallery.rs has no campaign of it" for name in sorted(scripts - known))
    if len(sums) < 10:
        yield f"gallery.rs has traces of {len(sums)} scripts, not of ten"
