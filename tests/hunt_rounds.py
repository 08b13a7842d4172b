"""Checks of the rounds of tools/hunt: that they are the program's campaigns, or sweeps of all choices where a stand-in
for the program has them, with parts on processors of their own, and of the line that says how far it is."""

import json
import os
import pty
import re
import subprocess
import time

from hunt_calls import HUNT, PCT, TOP, at, environment, hunt, keep


def rounds(room):
    words = ["examples/philosophers.pct", "--seeds", "500", "--depth", "3", "--quiet"]
    made = {jobs: hunt(*words, "--jobs", jobs) for jobs in ("1", "3", "8")}
    yield "the same bytes at any number of jobs", len({out for _, out, _ in made.values()}) == 1
    whole = [hunt(*words, "--json", "--jobs", jobs)[1] for jobs in ("1", "5")]
    yield "the same document at any number of jobs", whole[0] == whole[1] != ""
    yield from campaigns("examples/philosophers.pct", json.loads(whole[0]))
    words = ["examples/one_condition.pct", "--seeds", "300", "--depth", "3", "--quiet", "--certify", "0", "--json"]
    yield from campaigns("examples/one_condition.pct", json.loads(hunt(*words)[1]))
    first = hunt("examples/lost_update.pct", "--seeds", "200", "--first", "--quiet")[1]
    yield "--first ends after the first failure", "depth 2" in first and "depth 3" not in first
    status, text, _ = hunt("examples/bounded_buffer.pct", "--seeds", "100", "--from", str(2**64 - 50), "--depth", "2",
                           "--quiet", "--certify", "0")
    yield "seeds go on at 0 after the greatest one", status in (0, 1) and f"100 seeds from {2**64 - 50} on" in text
    status, text, _ = hunt("examples/philosophers_mended.pct", "--seeds", "1000000", "--time", "2", "--quiet")
    is_told = "goes on by" in text and " --from " in text
    yield "--time ends the search, and it is told how to go on", status == 0 and is_told
    yield from processors(room)
    yield from on_a_terminal()


def timed(_):
    """A hunt without a number of seeds has a time, and runs all choices of a depth where these take less."""
    begun = time.monotonic()
    status, text, _ = hunt("examples/models/srcu.pct", "--quiet", "--certify", "0")
    yield "a bug of 1 in 4,096 choices is found, which 4,000 seeds miss", status == 1 and "failed Reader 17" in text
    yield "all choices of its depth are run", "all 8,192 choices of depth 4: 2 fail" in text
    by_seeds = hunt("examples/models/srcu.pct", "--quiet", "--certify", "0", "--seeds", "4000")
    yield "the seeds miss it", by_seeds[0] == 0 and "nothing failed" in by_seeds[1]
    yield "it ends soon after the first failure", time.monotonic() - begun < 60
    status, text, _ = hunt("examples/lost_update_mended.pct", "--quiet", "--depth", "3")
    yield "what would have been found", status == 0 and "a bug of depth 2 or 3 in runs of at most 6 steps: found, " \
        "as all choices were run" in text.replace("\n    ", " ")
    status, text, _ = hunt("examples/philosophers_mended.pct", "--quiet", "--time", "2")
    told = re.search(r"([\d,]+) of 19,200,000 choices of depth 5, drawn: none fails\n", text)
    drawn = int(told.group(1).replace(",", "")) if told else 0
    yield "by chance", drawn > 0 and f"1 in 800,000 draws or more show it, and {drawn:,} were made" in \
        text.replace("\n    ", " ")
    yield "how it goes on", f"--time 2 --from {drawn + 1}\n" in text
    document = json.loads(hunt("examples/models/srcu.pct", "--quiet", "--certify", "0", "--json")[1])
    yield "the document's rounds", [it["depth"] for it in document["rounds"]] == list(range(1, 6))


SPIN = """script 1
var ready = 0
thread Waiter
  while !r0
    read r0 ready
  end
end
thread Setter
  write ready 1
end
"""
GUARDED = """script 1
var open = 0
var data = 0
# hunt: atomic open
thread Reader
  read r0 open
  if r0
    read r1 data
    assert r1 == 7
  end
end
thread Writer
  write open 1
  write data 7
end
"""


def causes(room):
    """What is said of a failure follows its branches, is at most seven sentences, and has no race that is meant; a spin
    is one line; and runs that are stuck for one reason are one failure."""
    keep(room, "guarded.pct", GUARDED)
    status, text, _ = hunt(os.path.join(room, "guarded.pct"), "--quiet", "--seeds", "200", "--depth", "2")
    told = re.sub(r"\n     +", " ", text)
    yield "the branch", status == 1 and "- line 7 tested r0 = 1: Reader read open = 1 at step " in told and \
        "as Writer left it at step 1 (line 13: write open 1)" in told
    yield "the passing run", "; in the passing run it was 7\n" in told
    keep(room, "plain.pct", GUARDED.replace("# hunt: atomic open\n", ""))
    plain = hunt(os.path.join(room, "plain.pct"), "--quiet", "--seeds", "200", "--depth", "2")[1]
    yield "no race that is meant", "a data race on open" in plain and "a data race on" not in told
    keep(room, "spin.pct", SPIN)
    words = ["--quiet", "--seeds", "200", "--depth", "1", "--limit", "500"]
    status, text, _ = hunt(os.path.join(room, "spin.pct"), *words)
    told = re.sub(r"\n     +", " ", text)
    yield "a spin is one line", "Waiter looked at ready 500 times from step 1 on (line 5: read r0 ready), and nobody " \
        "else went who could change it" in told
    yield "its rows are few", status == 1 and text.count("read ready = 0") < 5
    for name in ("channel", "futex", "mcs"):
        words = [f"examples/models/{name}.pct", "--quiet", "--seeds", "2000", "--certify", "0", "--json"]
        document = json.loads(hunt(*words)[1])
        found = document["headings"]
        yield f"{name}: one failure", len(found) == 1 and len(found[0]["verdicts"]) > 1
        yield f"{name}: at most seven sentences", 0 < len(found[0]["told"]) <= 7


def campaigns(script, document):
    """Each round is the program's campaign, with points drawn from as many steps as the longest run before it had that
    wasn't cut."""
    longest = None
    for round_ in document["rounds"]:
        is_swept = "sweep" in round_
        words = ["--from", round_.get("from", "1"), "--count", str(200 if is_swept else round_["seeds"])]
        words += ["--steps", str(longest)] if longest else []
        out = subprocess.run([PCT, "campaign", at(script), *words, "--depth", str(round_["depth"])],
                             capture_output=True,
                             text=True, check=False).stdout.splitlines()
        at_groups = next(number for number, line in enumerate(out) if line.startswith("groups "))
        rows = [line.split(" ", 2) for line in out[5:at_groups]]
        failing = sum(verdict != "passed" for _, _, verdict in rows)
        name = f"{script}: the round of depth {round_['depth']}"
        yield f"{name} is the campaign", is_swept or (failing, len(rows)) == (round_["failures"], round_["seeds"])
        yield f"{name}: its steps", out[2] == f"steps {round_['steps']}" and longest in (None, round_["steps"])
        longest = max([longest or 1, *(int(steps) for _, steps, verdict in rows if verdict != "cut")])


def sweeps(_):
    """Where the program has `sweep` and the choices are few, all of them are run in a campaign's place."""
    swept = {"PCT": at("tests", "hunt", "with_sweep")}
    words = ["examples/lost_update.pct", "--quiet", "--certify", "0"]
    status, text, said = hunt(*words, "--depth", "3", env=swept)
    wanted = ["all 6 choices of depth 1: none fails", "all 48 choices of depth 2: 6 fail",
              "all 384 choices of depth 3: 90 fail"]
    yield "all choices", (status, said) == (1, "") and text.splitlines()[1:4] == [f"  {line}" for line in wanted]
    yield "the share of all choices", "6 of all 48 choices at depth 2, 90 of all 384 choices at depth 3." in text
    yield "the first choice", " run examples/lost_update.pct --order A,B,Check --points 1 " in text
    document = json.loads(hunt(*words, "--depth", "2", "--json", env=swept)[1])
    told = [(it["seeds"], it["failures"], it["sweep"], "from" in it) for it in document["rounds"]]
    yield "sweeps in a document", told == [(6, 0, True, False), (48, 6, True, False)]
    few = hunt(*words, "--depth", "2", "--seeds", "47", env=swept)[1]
    yield "too many choices", "all 6 choices of depth 1" in few and "depth 2: 47 seeds from 1 on" in few
    page = hunt("examples/lost_update_mended.pct", "--quiet", "--depth", "2", env=swept)
    yield "none fails", page[0] == 0 and "choices of depth 2: none fails" in page[1]


def processors(room):
    """Each part of a round is pinned to a processor, and they are spread."""
    noted = os.path.join(room, "noted")
    os.mkdir(noted)
    given = {"PCT": at("tests", "hunt", "stand_in"), "NOTED": noted}
    hunt("examples/lost_update_mended.pct", "--seeds", "2000", "--depth", "2", "--quiet", env=given)
    found = []
    for name in os.listdir(noted):
        with open(os.path.join(noted, name), encoding="ascii") as file:
            found.append(file.read().split())
    yield "each part has one processor", len(found) > 0 and all(len(it) == 1 for it in found)
    yield "parts are spread", len({it[0] for it in found}) == min(len(os.sched_getaffinity(0)), len(found))


def on_a_terminal():
    """The line of progress on a terminal: it is written over, and nothing of it stays."""
    ours, theirs = pty.openpty()
    words = [*HUNT, "examples/stale_read_mended.pct", "--seeds", "20000", "--depth", "2"]
    given = environment(PCT=at("tests", "hunt", "stand_in"))
    with subprocess.Popen(words, stdout=subprocess.DEVNULL, stderr=theirs, cwd=TOP, env=given) as call:
        os.close(theirs)
        said = b""
        while True:
            try:
                data = os.read(ours, 65536)
            except OSError:  # the other end is closed
                break
            said += data
            if not data:
                break
    os.close(ours)
    lines = said.decode().split("\r\x1b[K")
    shown = [line for line in lines if line.startswith("round 1, depth 2: ")]
    parts = (" of 20,000 seeds, ", " a second, 0 fail, ", " s left")
    yield "progress on a terminal", call.returncode == 0 and any(all(part in line for part in parts) for line in shown)
    yield "nothing of it stays", lines[-1] == "" and "\n" not in said.decode()
