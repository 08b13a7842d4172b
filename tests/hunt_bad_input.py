"""Checks of tools/hunt with bad input and at bad times: words, names, disks and streams, slow scripts,
interruptions."""

import os
import resource
import shlex
import signal
import subprocess
import sys
import time

from hunt_calls import HUNT, PCT, TOP, at, environment, hunt, keep, read

SCRIPT = "examples/lost_update.pct"
FEW = ["--seeds", "50", "--depth", "1", "--quiet"]
MOST_SECONDS = 500  # that a call may take on a busy machine


def says(done, status, part):
    """Whether it is one line with that part, and the status."""
    return done[0] == status and part in done[2] and "Traceback" not in done[2] and done[2].count("\n") == 1


def words(room):
    """Words, files and names."""
    yield "no pct", says(hunt(SCRIPT, *FEW, env={"PCT": "/nowhere/pct"}), 2, "/nowhere/pct can't be started")
    yield "no script", says(hunt("nowhere.pct"), 6, "nowhere.pct can't be read")
    yield "no word", says(hunt(), 2, "SCRIPT")
    yield "a wrong word", says(hunt(SCRIPT, "--deep", "2"), 2, "--deep")
    yield "a wrong value", says(hunt(SCRIPT, "--depth", "9"), 2, "'9' is none of 1 to 8")
    yield "a folder without scripts", says(hunt("docs", *FEW), 2, "has no script")
    yield "a document of a folder", says(hunt("examples", "--json"), 2, "one script")
    junit = hunt(SCRIPT, *FEW, "--junit", "/nowhere/x.xml")
    yield "a report that can't be written", says(junit, 7, "/nowhere/x.xml can't be written")
    yield "no GNU parallel", says(hunt(SCRIPT, "--sshlogin", ":", *FEW, env={"PATH": os.path.dirname(sys.executable)}),
                                  2,
                                  "needs GNU parallel")
    done = subprocess.run([*HUNT, "-", *FEW], input=read(SCRIPT), capture_output=True, text=True, check=False)
    yield "a pipe as the script", done.returncode == 0 and "nothing failed" in done.stdout
    yield from without_pct(room)


def without_pct(room):
    """A copy of the tools with no pct beside them, and none on the path."""
    folder = os.path.join(room, "alone", "tools")
    os.makedirs(folder)
    for name in ("hunt", "pcthunt", "pctmodel"):
        os.symlink(at("tools", name), os.path.join(folder, name))
    copied = os.path.join(room, "alone", "program.py")
    keep(room, "alone/program.py", "import sys\nsys.path.insert(0, sys.argv[1])\nimport pcthunt.program as program\n"
         "program.TOP = sys.argv[2]\nfrom pcthunt.cli import main\nfrom pcthunt.output import ends_well, leave\n"
         "sys.argv = ['hunt', sys.argv[3]]\nleave(ends_well('hunt', main))\n")
    call = [sys.executable, copied, at("tools"), os.path.join(room, "alone"), at(SCRIPT)]
    done = subprocess.run(call, capture_output=True, text=True, check=False, env=environment(PATH="/nowhere"))
    yield "no pct at all", says((done.returncode, done.stdout, done.stderr), 2, "there is no pct: neither at ")


def names(room):
    """A script whose name a shell, HTML or XML might take for more: each command that is told runs as it stands."""
    for name in ("a</script>\"'.pct", "--odd $(name) `id`.pct"):
        path = keep(room, f"named/{name}", read("examples", "stale_read.pct"))
        page, junit = os.path.join(room, "named.html"), os.path.join(room, "named.xml")
        status, text, said = hunt(path, "--seeds", "50", "--depth", "2", "--quiet", "--html", page, "--junit", junit)
        yield f"a script called {name!a}", (status, said) == (1, "") and "B's assertion in line 9 fails" in text
        commands = [line.split("    # ")[0].strip() for line in text.split("To see it again:\n")[1].splitlines()
                    if "    # its trace" in line]
        done = subprocess.run(["sh", "-c", commands[0]], capture_output=True, text=True, check=False, cwd=TOP)
        yield f"the command for {name!a}", done.stdout.endswith("verdict failed B 9\n")
        yield f"the page of {name!a}", "</script>\"'" not in read(page).split("<body>")[1].split("application/json")[0]


def outputs(room):
    """Output that is full or closed, for each tool."""
    trace = at("tests", "cases", "gallery_lost_update_fails", "out")
    made = subprocess.run([PCT, "campaign", at(SCRIPT), "--from", "1", "--count", "9", "--depth", "2"],
                          capture_output=True,
                          text=True, check=False)
    report = keep(room, "report", made.stdout)
    words_of = {"hunt": [at(SCRIPT), "--seeds", "50", "--quiet"], "lanes": [at(SCRIPT), trace], "merge": [report]}
    for where, to in (("full", ">/dev/full"), ("closed", ">&-")):
        for tool, given in words_of.items():
            call = shlex.join([sys.executable, at("tools", tool), *given])
            done = subprocess.run(["sh", "-c", f"{call} {to}"], capture_output=True, text=True, check=False)
            said = (done.returncode, "", done.stderr)
            yield f"output that is {where}: {tool}", says(said, 7, f"{tool}: standard output can't be written")


def disks(room):
    """A disk that is full, or has no room for all: files take no more than so many bytes, as the system refuses it."""
    page, junit = keep(room, "kept.html", "kept"), keep(room, "kept.xml", "kept")
    for name, most, more, part in (
            ("no room for the script", 100, [], "script.pct can't be written"),
            ("no room for a page", 20000, ["--html", page], "kept.html can't be written"),
            ("no room for a JUnit report", 2500, ["--junit", junit], "kept.xml can't be written"),
            ("no room for the text", 1000, [], "standard output can't be written")):
        before = set(os.listdir(room))
        with open(os.path.join(room, "output"), "w", encoding="utf-8") as out:
            done = subprocess.run([*HUNT, SCRIPT, "--seeds", "300", "--depth", "2", "--quiet", *more], stdout=out,
                                  stderr=subprocess.PIPE, text=True, check=False, cwd=TOP,
                                  env=environment(TMPDIR=room), preexec_fn=lambda most=most: resource.setrlimit(
                                      resource.RLIMIT_FSIZE, (most, most)))
        yield f"{name}: a line and a status", says((done.returncode, "", done.stderr), 7, part)
        yield f"{name}: nothing is left", set(os.listdir(room)) - before <= {"output"}
    yield "what stood there stands", read(page) == read(junit) == "kept"


# At bad times.


def heed_interruptions():
    """In the background of a shell they are ignored, and so by all that is started there."""
    signal.signal(signal.SIGINT, signal.SIG_DFL)


def interrupted_at(room, command, *more, first="0", by=signal.SIGINT):
    """A hunt that is interrupted while pct's command goes on, of campaigns one from that seed on: the status, the
    output and what is said."""
    mark = os.path.join(room, f"at-{command}-{first}-{by}{''.join(more)}")
    given = environment(PCT=at("tests", "hunt", "stand_in"), DELAYED=command, DELAYED_AT=mark, DELAYED_FROM=first)
    words = [*HUNT, SCRIPT, "--seeds", "300", "--depth", "2", "--jobs", "4", "--quiet", *more]
    with subprocess.Popen(words, stdout=subprocess.PIPE, stderr=subprocess.PIPE, text=True, cwd=TOP, env=given,
                          preexec_fn=heed_interruptions) as call:
        end = time.monotonic() + MOST_SECONDS
        while not os.path.exists(mark) and call.poll() is None and time.monotonic() < end:
            time.sleep(0.05)
        call.send_signal(by)
        out, said = call.communicate(timeout=MOST_SECONDS)
    return call.returncode, out, said


def interruptions(room):
    """A hunt that is interrupted tells what it has, wherever it is."""
    status, text, said = interrupted_at(room, "campaign")
    is_told = "no run came to its end" in text and "goes on by" in text
    yield "before a seed is run", (status, said) == (130, "") and is_told
    status, text, said = interrupted_at(room, "campaign", first="230")
    is_told = "The search was ended: interrupted" in text and " of 300 seeds from 1 on" in text
    yield "in the search", (status, said) == (1, "") and is_told and "1. Check's assertion in line 19 fails" in text
    status, text, said = interrupted_at(room, "races", by=signal.SIGTERM)
    yield "asked to end", (status, said) == (1, "") and "The explanation was interrupted" in text
    status, text, said = interrupted_at(room, "run")
    is_told = "1 verdict, which isn't explained" in text and "'failed Check 19' is the first, which 'pct run" in text
    yield "before a run is made", (status, said) == (1, "") and is_told and "The explanation was interrupted" in text
    for command, has, lacks in (("races", "B's step", "a data race on"), ("find", "a data race on", "by find"),
                                ("certify", "it passes; the runs differ", "certified:")):
        status, text, said = interrupted_at(room, command)
        is_told = "1. Check's assertion in line 19 fails" in text and "The explanation was interrupted" in text
        yield f"while {command} goes on", (status, said) == (1, "") and is_told and lacks not in text
        yield f"while {command} goes on: what was there", command == "races" or has in text
    status, text, said = interrupted_at(room, "certify", "--json")
    is_said = said.startswith("hunt: interrupted; it goes on by pct-hunt ") and said.count("\n") == 1
    yield "a document", status == 1 and is_said and '"kind":"failed"' in text and '"tried"' not in text


def slow_scripts(room):
    """A script of which one seed takes minutes: lines say how far it is, and --time ends it."""
    given = {"PCT": at("tests", "hunt", "stand_in"), "DELAYED": "campaign", "DELAYED_AT": os.path.join(room, "slow")}
    begun = time.monotonic()
    status, text, said = hunt(SCRIPT, "--time", "12", env=given)
    yield "it ends in time", time.monotonic() - begun < 12 + 60
    yield "a line every ten seconds", "hunt: round 0, depth 1: 0 of 200 seeds" in said and "Traceback" not in said
    yield "what it has", status == 130 and "no run came to its end" in text and "12 seconds were over" in text
    folder = os.path.join(room, "slow scripts")
    keep(folder, "a.pct", read(SCRIPT).replace("# hunt: failed Check 19\n", ""))
    status, text, _ = hunt(folder, "--time", "2", "--quiet", env=given)
    yield "it isn't what passes", status == 1 and text.startswith("NOT ")


GROUPS = [words, names, outputs, disks, interruptions, slow_scripts]
