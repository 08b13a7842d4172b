"""The document of a script and a trace of it, for a page that shows a run of which there is a trace."""

from __future__ import annotations

from pcthunt.output import typed
from pcthunt.document import complete, first_part, run_of
from pcthunt.passing import passing_run
from pcthunt.picture import Departs
from pcthunt.states import Json
from pctmodel.run import replay, run
from pctmodel.script import Script
from pctmodel.trace import Trace


def is_of_its_head(script: Script, trace: Trace) -> bool:
    """Whether the trace is the run of its order and its points, and not another that was written down."""
    return bool(run(script, trace.order, trace.points, trace.limit) == (trace.events, trace.verdict))


def document_of_trace(names: tuple[str, str], text: str, script: Script, trace: Trace) -> Json:
    """The document of a trace, with the names of the script's file and of the trace's."""
    departure = replay(script, trace)
    if departure:
        raise Departs(departure[0])
    title = names[0]
    document = first_part(title, text, [run_of(script, trace, title)], script)
    document["writer"] = "lanes"
    heading = document["headings"][0]
    heading["again"] = [{"says": "the trace is confirmed by", "command": typed(["pct", "replay", *names])}]
    if trace.verdict not in ("passed", "cut") and is_of_its_head(script, trace):
        passing = passing_run(script, trace, title)
        if passing:
            heading["passing"] = passing
    return complete(document, script)
