"""Checks of native/c's runner: silences, output that is lost, files, deaths, scribbles, forks and debuggers."""

from __future__ import annotations

import json
import os
import re
import shutil
import subprocess
import time

from c_builder import TOP, Builder, Checks, shell


def silences(builder: Builder) -> Checks:
    """Two seconds without a step: who is where, in which call. The call isn't ended by that."""
    for waits, where in {"lock_real()": "waits in pthread_mutex_lock, called from silent.c:14",
                         "go_round()": "is in its own code, at silent.c:17"}.items():
        program = builder.build("faults/silent.c", "silent", f"-DWAITS={waits}")
        status, said, wrong = builder.run(program, "--depth", "1", "--seeds", "1", "--patience", "3")
        line = f"pct: no step for 2 seconds: Waiter {where}, after its step at silent.c:27; "
        yield f"silent: {waits}", status == 1 and line in wrong and "no step for 3 seconds" in said
    program = builder.build("faults/silent.c", "silent", "-DWAITS=poll_long()")
    status, said, wrong = builder.run(program, "--depth", "1", "--seeds", "1", "--trace", "none.trace")
    yield "silent: a call that comes back", (status, "passed in 1 seeds" in said) == (0, True)
    yield "silent: poll", "Waiter waits in poll, called from silent.c:11, " in wrong and "interrupted" not in wrong


def lost_checks(builder: Builder) -> Checks:
    """Output that is lost is told, by status 7; what is no option's value by a sentence with its range."""
    passes = builder.build("gallery/lost_update_mended.c", "kept")
    fails = builder.build("gallery/lost_update.c", "lost")
    campaign = "--campaign --depth 1 --seeds 9"
    for line in (f"{passes} >/dev/full", f"{passes} {campaign} >/dev/full", f"{passes} {campaign} >&-", f"{passes} >&-",
                 f"{passes} --traces /dev/full", f"{fails} --trace /dev/full", f"{fails} --json /dev/full",
                 f"{fails} --trace none/lost.trace", f"{passes} --help >/dev/full",
                 f"{fails} --trace lost.trace && {fails} --replay lost.trace >/dev/full || exit $?"):
        status, _, wrong = shell(builder, line.replace("&&", ";"))
        is_told = re.fullmatch(r"pct: .*: what is written there is lost\n", wrong) is not None
        yield f"lost: {line}", status == 7 and is_told
    yield "lost: /dev/full stays", not os.path.isfile("/dev/full")
    status, said, wrong = builder.run(passes, "--help")
    options = re.findall(r"^  (--\w+)", said, re.M)
    yield "help", (status, wrong) == (0, "") and all(f"`{it}" in read_page() for it in options) and len(options) == 17
    yield "a value out of range", builder.run(passes, "--seeds", "100001") == \
        (1, "", "pct: --seeds takes a number from 1 to 100000, and not 100001\n")


def read_page() -> str:
    with open(os.path.join(TOP, "docs", "c.md"), encoding="utf-8") as file:
        return file.read()


def file_checks(builder: Builder) -> Checks:
    """Files come whole: four tests at once write one trace; a link is replaced, and not followed."""
    program, folder = builder.build("gallery/lost_update.c", "beside"), os.path.join(builder.room, "files")
    os.makedirs(folder, exist_ok=True)
    victim, trace = os.path.join(folder, "victim"), os.path.join(folder, "one.trace")
    with open(victim, "w", encoding="utf-8") as file:
        file.write("as it was")
    os.symlink(victim, trace)
    words = f"--seeds 1 --depth 2 --from 13 --trace {trace} --json {trace}.json --traces {trace}.all >/dev/null"
    line = " & ".join([f"while [ $n -lt 20 ]; do n=$((n+1)); {program} {words}; done"] * 4)
    shell(builder, f"n=0; {line} & wait")
    with open(victim, encoding="utf-8") as file:
        yield "files: a link isn't followed", file.read() == "as it was" and not os.path.islink(trace)
    status, said, _ = builder.run(program, "--replay", trace)
    yield "files: a whole trace", status == 1 and "departs" not in said and said.count("the trace has") == 1
    with open(f"{trace}.json", encoding="utf-8") as file:
        yield "files: a whole document", json.load(file)["document"] == 1
    left = sorted(os.listdir(folder))
    yield f"files: none is left beside them {left}", left == \
        ["one.sites", "one.trace", "one.trace.all", "one.trace.json", "victim"]


def is_left(program: str) -> bool:
    """Whether a process of a program is left."""
    words = ["pgrep", "-f", "-x", f"{re.escape(program)}.*"]
    return subprocess.run(words, capture_output=True, check=False).returncode == 0


def kill_checks(builder: Builder) -> Checks:
    """A runner that is killed at any moment takes its children with it."""
    program, left = builder.build("faults/hangs.c", "killed"), 0
    for moment in range(50):
        runner = subprocess.Popen([program, "--patience", "60"], stdout=subprocess.DEVNULL, stderr=subprocess.DEVNULL,
                                  cwd=builder.room)
        time.sleep(0.0007 * moment)
        runner.kill()
        runner.wait()
        waited = 0
        while is_left(program) and waited < 10:
            time.sleep(0.1)
            waited += 1
        left += is_left(program)
    yield f"killed runners: {left} children are left", left == 0


def scribble_checks(builder: Builder) -> Checks:
    """Threads that write over what their process shares with the runner: a sentence, and no death of the runner."""
    program, sentence = builder.build("faults/scribbles.c"), "pct: what a run left in shared memory can't be ("
    words = f"{program} --seeds 1 --depth 1 --patience 1 --trace scribbles.trace"
    whole = [shell(builder, words, SCRIBBLE=str(3 * number)) for number in range(1, 41)]
    yield "scribbles: 40 sentences", [it[0] for it in whole] == [1] * 40 and all(sentence in it[2] for it in whole)
    parts = [shell(builder, words, SCRIBBLE=str(number)) for number in range(1, 61) if number % 3]
    yield "scribbles: parts", all(it[0] in (0, 1) and it[1] + it[2] for it in parts)


def process_checks(builder: Builder) -> Checks:
    """A run that forks; and a replay under a debugger, which is made in the process that it has."""
    refused = "pct: forks.c:13 can't be a step: it stands in a process that a thread of the run has forked\n"
    told = builder.run(builder.build("faults/forks.c", "forks", "-DSTEPS=1"), "--seeds", "9")
    yield "fork: with a step", told == (1, "", refused)
    program = builder.build("faults/forks.c", "forks", "-DSTEPS=0")
    told = builder.run(program, "--seeds", "9", "--traces", "forks.traces")
    with open(os.path.join(builder.room, "forks.traces"), encoding="utf-8") as file:
        traces = file.read()
    yield "fork: without one", told[0] == 0 and "passed in 27 seeds" in told[1] and " read cell = 1" in traces
    if shutil.which("gdb"):
        program = builder.build("rules/names.cpp", "debugged")
        builder.run(program, "--depth", "1", "--trace", "debugged.trace")
        orders = [word for it in ("break grow", "run", "bt 1", "delete", "continue") for word in ("-ex", it)]
        status, said, _ = builder.run("gdb", "-batch", *orders, "--args", program, "--replay", "debugged.trace")
        yield "a replay under gdb", status == 0 and re.search(r"^#0 +grow \(\)", said, re.M) is not None and \
            "\nverdict failed Main 18\n" in said and "exited with code 01" in said
