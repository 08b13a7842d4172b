"""Checks of the tools at their limits and with what strangers made: every status of their help, small limits of memory
and threads, foreign text, FIFOs, outputs onto inputs, hosts."""

import json
import os
import random
import re
import resource
import signal
import subprocess
import sys
import time

from hunt_calls import HUNT, PCT, TOP, at, environment, hunt, keep, read

SCRIPT, PASSES = "examples/lost_update.pct", "examples/stale_read_mended.pct"
TRACE = "tests/cases/gallery_lost_update_fails/out"
FEW = ["--seeds", "50", "--depth", "1", "--quiet"]
NOBODY = 65534


def tool(name, *words, env=None, **options):
    done = subprocess.run([sys.executable, at("tools", name), *words], capture_output=True, text=True, check=False,
                          cwd=TOP, env=environment(**(env or {})), timeout=600, errors="surrogateescape", **options)
    return done.returncode, done.stdout, done.stderr


def is_line(done, status, part=""):
    return done[0] == status and part in done[2] and done[2].count("\n") == 1 and "Traceback" not in done[2]


def broken(name, module, function, *words, error="LookupError"):
    """A call of a tool in which a function of a module raises what nothing foresees."""
    code = ("import os, runpy, sys\nsys.dont_write_bytecode = True\nname, module, function = sys.argv[1:4]\n"
            "sys.path.insert(0, os.path.dirname(name))\nimport importlib\n"
            f"def raises(*_, **__): raise {error}('odd\\n::error::x')\n"
            "setattr(importlib.import_module(module), function, raises)\n"
            "sys.argv = [name, *sys.argv[4:]]\nrunpy.run_path(name, run_name='__main__')\n")
    done = subprocess.run([sys.executable, "-c", code, at("tools", name), module, function, *words], text=True,
                          capture_output=True, check=False, cwd=TOP, env=environment())
    return done.returncode, done.stdout, done.stderr


def within(kind, most, words, user=None):
    """A call under a limit of the system, as another user where one is given: root has no limit of processes."""
    def limit():
        resource.setrlimit(kind, (most, most))
        if user is not None and os.getuid() == 0:
            os.setgroups([])
            os.setgid(user)
            os.setuid(user)
    done = subprocess.run(["/usr/bin/python3", *words], capture_output=True, text=True, check=False, cwd=TOP,
                          preexec_fn=limit, env=environment(TMPDIR="/tmp"))
    return done.returncode, done.stdout, done.stderr


def statuses_of_hunt(room):
    """By status a call that ends with it."""
    stand_in = keep(room, "garbage", "#!/bin/sh\ncase $1 in --help) exec \"$REAL\" --help;; *) echo garbage;; esac\n")
    os.chmod(stand_in, 0o755)
    faulty = keep(room, "faulty.pct", "script 1\nthread A\n  lock m\nend\n")
    directive = keep(room, "d.directive", "directive 9\n")
    return {
        0: hunt(PASSES, *FEW), 1: hunt(SCRIPT, "--seeds", "200", "--depth", "2", "--quiet", "--certify", "0"),
        2: hunt(SCRIPT, "--deep"), 3: hunt(faulty, *FEW), 4: hunt("--page", faulty),
        5: hunt("--why", "expose", SCRIPT, directive, "--order", "A,B,Check",
                 "--steps", "20"), 6: hunt("nowhere.pct"),
        7: hunt(PASSES, *FEW, "--junit", "/nowhere/x.xml"),
        8: within(resource.RLIMIT_NPROC, 1, [at("tools", "hunt"), PASSES, *FEW], NOBODY),
        9: hunt(PASSES, *FEW, env={"PCT": stand_in, "REAL": PCT}),
        130: signalled(signal.SIGINT), 143: signalled(signal.SIGTERM),
    }


def signalled(by):
    """A hunt that gets a signal while it searches a script that doesn't fail."""
    words = [*HUNT, "examples/two_phase_mended.pct", "--seeds", "1000000", "--quiet"]
    with subprocess.Popen(words, stdout=subprocess.PIPE, stderr=subprocess.PIPE, text=True, cwd=TOP, env=environment(),
                          preexec_fn=lambda: signal.signal(signal.SIGINT, signal.SIG_DFL)) as call:
        try:
            call.wait(2)
        except subprocess.TimeoutExpired:
            call.send_signal(by)
        out, said = call.communicate(timeout=100)
    return call.returncode, out, said


def statuses(room):
    """Every status that a tool's help names, and no other."""
    found = statuses_of_hunt(room)
    told = hunt("--help")[1].split("The status is ")[1].split("'pct-hunt --why")[0]
    yield "the help names each status", {int(it) for it in re.findall(r"\b\d+\b", told)} == set(found)
    for status, done in found.items():
        is_said = status in (0, 1, 130, 143) or is_line(done, status)
        yield f"hunt: status {status} {done[0]} {done[2][:200]}", done[0] == status and is_said
    report = keep(room, "report", subprocess.run([PCT, "campaign", at(PASSES), "--from", "1", "--count", "2", "--depth",
                                                  "1"], capture_output=True, text=True, check=True).stdout)
    failing = keep(room, "failing", subprocess.run([PCT, "campaign", at(SCRIPT), "--from", "1", "--count", "99",
                                                    "--depth", "2"], capture_output=True, text=True,
                                                   check=False).stdout)
    other = keep(room, "other", read(TRACE).replace("read counter = 0", "read counter = 1", 1))
    calls = {
        "lanes": {0: tool("lanes", SCRIPT, TRACE), 1: tool("lanes", SCRIPT, other), 2: tool("lanes", SCRIPT),
                  6: tool("lanes", SCRIPT, "nowhere"), 7: full("lanes", SCRIPT, TRACE),
                  8: broken("lanes", "pctmodel.trace", "read_trace", SCRIPT, TRACE, error="MemoryError"),
                  9: broken("lanes", "pctmodel.trace", "read_trace", SCRIPT, TRACE)},
        "merge": {0: tool("merge", report), 1: tool("merge", failing), 2: tool("merge", report, report),
                  6: tool("merge", "nowhere"), 7: full("merge", report),
                  8: broken("merge", "pcthunt.reports", "merged", report, error="MemoryError"),
                  9: broken("merge", "pcthunt.reports", "merged", report)},
    }
    for name, by_status in calls.items():
        told = " ".join(tool(name, "--help")[1].split()).split("The status is ")[1]
        named = {int(it) for it in re.findall(r"\b\d+ (?=where)", told)} - {130, 64}
        yield f"{name}: the help names each status {named}", named == set(by_status)
        for status, done in by_status.items():
            yield f"{name}: status {status} {done[0]} {done[2][:200]}", done[0] == status and (
                status < 2 or is_line(done, status))


def full(name, *words):
    with open("/dev/full", "wb") as out:
        done = subprocess.run([sys.executable, at("tools", name), *words], stdout=out, stderr=subprocess.PIPE,
                              text=True, check=False, cwd=TOP)
    return done.returncode, "", done.stderr


def limits(_):
    """Little memory and few threads: the result, or status 8 or 9 and a line, where Python itself has begun."""
    for most in range(18000, 60000, 3000):
        for words in (["hunt", PASSES, *FEW], ["lanes", SCRIPT, TRACE, "--html"], ["hunt", "--page",
                                                                                   "tests/page/rust_pool.json"]):
            done = within(resource.RLIMIT_AS, most << 10, [at("tools", words[0]), *words[1:]])
            is_well = done[0] == 0 and done[1] and not done[2] or is_line(done, 8) or is_line(done, 9)
            has_begun = "Python runtime state" not in done[2]
            yield f"{most} KB: {words[0]} {done[0]} {done[2][:200]}", is_well or not has_begun
    for most in (1, 2, 3, 4, 6):
        done = within(resource.RLIMIT_NPROC, most, [at("tools", "hunt"), PASSES, *FEW, "--jobs", "8"], NOBODY)
        yield f"{most} threads: {done[0]} {done[2][:200]}", done[0] == 0 and not done[2] or is_line(done, 8)
    done = broken("hunt", "pcthunt.hunting", "failures_of", PASSES, *FEW)
    yield f"an error in the tool {done}", is_line(done, 9, "LookupError: odd\\n::error::x); please report it")


# Foreign text.

FOREIGN = "a\n::error::x\u202e\x1b[31m\r##[error]y"
ACTS = re.compile("[\x00-\x09\x0b-\x1f\x7f-\x9f\u200e\u200f\u2028-\u202e\u2066-\u2069]")


def acts(text):
    """The lines that act on a terminal, or on GitHub's runner, but for the tool's annotations."""
    lines = text.split("\n")
    own = re.compile(r"::error file=[^ ]*,line=\d+,title=pct-hunt::")
    return [line for line in lines if ACTS.search(line) or line.lstrip().startswith("::") and not own.match(line)
            or "##[" in line]


def foreign_text(room):
    """Names of files, expectations, comments and words that would act on a terminal or on GitHub's runner."""
    folder = os.path.join(room, "foreign")
    text = read("examples", "stale_read.pct").replace("# hunt: failed B 9\n", "")
    comment = text + "# \u202e::error::z ##[error]w \x9b31m\n"
    keep(folder, f"{FOREIGN}.pct", comment)
    keep(folder, "b.pct", comment)
    keep(folder, "b.expect", "::error::x\n##[error]y\u202e\n::warning::z\n")
    keep(folder, "c.pct", comment + "# hunt: \u202e::error\x85##[x] \x1b[31m\n")
    keep(folder, "d.pct", text.replace("assert ", "assert \u202e::error::q ##[x]\x1b "))
    junit = os.path.join(room, "foreign.xml")
    github = {"GITHUB_ACTIONS": "true"}
    words = ["--seeds", "50", "--depth", "2", "--quiet", "--certify", "0"]
    calls = {"a folder": [folder, *words, "--junit", junit]}
    for name in (f"{FOREIGN}.pct", "d.pct"):
        path = os.path.join(folder, name)
        calls |= {f"hunt {name!a}": [path, *words], f"why {name!a}": ["--why", "run", path, "--order", FOREIGN],
                  f"page {name!a}": ["--page", path], f"two {name!a}": [path, FOREIGN],
                  f"html {name!a}": [path, *words, "--html", f"/nowhere/{FOREIGN}"]}
    for name, given in calls.items():
        status, out, said = hunt(*given, env=github)
        yield f"{name}: nothing acts {status} {acts(out + said)[:3]}", status in range(7 + 1) and not acts(
            out) and not acts(said) and (out + said) != ""
    yield "JUnit: nothing acts", not acts(re.sub("&#1[03];", "\x0b", read(junit)))
    path = os.path.join(folder, f"{FOREIGN}.pct")
    status, out, _ = hunt(path, *words, env=github)
    commands = [line.split("    # ")[0].strip() for line in out.splitlines() if "    # its trace" in line]
    done = subprocess.run(["sh", "-c", commands[0]], capture_output=True, text=True, check=False, cwd=TOP)
    yield "a command for it runs as it stands", status == 1 and done.stdout.endswith("verdict failed B 9\n")
    trace = keep(folder, f"{FOREIGN}.trace", done.stdout)
    for form in ("--text", "--html", "--svg"):
        done = tool("lanes", path, trace, *([form] if form != "--svg" else []), env=github)
        lines = [line for line in done[1].split("\n") if line.lstrip().startswith("::")]
        is_well = done[0] == 0 and not lines and (form != "--text" or not acts(done[1]))
        yield f"lanes {form} {done[0]} {lines[:2]}", is_well
    group = {"count": 1, "steps": 1, "first": 1, "verdict": "failed\n::error::x"}
    odd = json.dumps({"threads": 1, "steps": 1, "depth": 1, "limit": 1, "rows": [[1, 1, "failed\n::error::x"]],
                      "groups": [group]})
    done = tool("merge", keep(folder, f"{FOREIGN}.report", odd), env=github)
    yield f"merge: nothing acts {done}", is_line(done, 2) and not acts(done[2]) and done[1] == ""


# Files.


def odd_files(room):
    """FIFOs and devices, files that are too long, outputs onto inputs."""
    fifo = os.path.join(room, "fifo")
    os.mkfifo(fifo)
    for name, words in (("hunt", [fifo, *FEW]), ("lanes", [fifo, TRACE]), ("lanes", [SCRIPT, fifo]), ("merge", [fifo]),
                        ("hunt", ["--page", fifo]), ("hunt", ["--why", "run", fifo]), ("hunt", ["/dev/zero", *FEW])):
        done = tool(name, *words)
        yield f"{name} {words}: a FIFO isn't waited for {done}", is_line(done, 6, "FIFO or a device")
    for given in (["/dev/stdin"], ["--fifo"]):
        yield f"{given}: no FIFO", hunt(*given, *(FEW if given[0] != "--fifo" else []))[0] == (
            6 if given[0] != "--fifo" else 2)
    for given in (["-"], ["--fifo", "/dev/stdin"]):
        done = subprocess.run([*HUNT, *given, *FEW], input=read(PASSES), capture_output=True, text=True, check=False)
        yield f"{given} as the script", done.returncode == 0 and "nothing failed" in done.stdout
    done = subprocess.run([sys.executable, at("tools", "lanes"), at(SCRIPT), "--fifo", "/dev/stdin", "--text"],
                          input=read(TRACE), capture_output=True, text=True, check=False)
    yield "lanes --fifo", done.returncode == 0 and done.stdout == tool("lanes", SCRIPT, TRACE, "--text")[1]
    long = os.path.join(room, "long")
    with open(long, "wb") as file:
        file.truncate((64 << 20) + 1)
    for name, words in (("merge", [long]), ("hunt", ["--page", long])):
        done = tool(name, *words)
        yield f"{name}: 64 MiB and one byte {done[0]} {done[2]}", is_line(done, 6, "more than 64 MiB")
    yield from onto_inputs(room)


def onto_inputs(room):
    script = keep(room, "kept.pct", read(PASSES))
    linked = os.path.join(room, "linked.html")
    os.symlink(script, linked)
    document = keep(room, "kept.json", read("tests", "page", "rust_pool.json"))
    for words in ([script, *FEW, "--html", script], [script, *FEW, "--junit", script], [script, *FEW, "--html", linked],
                  ["--page", document, "--html", document]):
        yield f"{words[-2]} onto an input", is_line(hunt(*words), 2, "would be overwritten")
    yield "the inputs stand", read(script) == read(PASSES) and read(document) == read("tests", "page", "rust_pool.json")


# Machines, and signals.


def machines(room):
    """--sshlogin takes hosts, users, ports and numbers of jobs, and no command: none is run."""
    made = os.path.join(room, "made")
    odd = [f"touch {made};", f"$(touch {made})", f"`touch {made}`", f"ssh -oProxyCommand=touch\\ {made} x", "a b", "",
           ":,", "-oProxyCommand=x", "8/", "x/:", "host:", "host:x", "@host", "a\n:", "99999/host", "@group/host", ".."]
    for given in odd:
        done = hunt(PASSES, *FEW, "--sshlogin", given)
        says = "is no machine" if given[:1] != "-" else "expected one argument"
        yield f"--sshlogin {given!a} {done}", is_line(done, 2, says)
    yield "no command is run", not os.path.exists(made)
    sys.path.insert(0, at("tools"))
    from pcthunt.machines import check_machines
    for given in (":", "8/:", "host", "8/user@host:22", ":,2/one,user@two.example.org:2222", "[::1]:22", "10.0.0.1"):
        check_machines(given)
        yield f"--sshlogin {given}", True


def lasting(marker):
    """The processes that have the marker in their environment."""
    found = []
    for number in filter(str.isdecimal, os.listdir("/proc")):
        try:
            with open(f"/proc/{number}/environ", "rb") as file:
                has_marker = marker.encode() in file.read()
            with open(f"/proc/{number}/stat", encoding="utf-8", errors="replace") as file:
                is_dead = file.read().rpartition(")")[2].split()[0] == "Z"
        except OSError:
            continue
        found += [number] if has_marker and not is_dead else []
    return found


def moments(room):
    """Signals at random moments of a hunt, seeded, start-up too and repeated: a status that is documented, one line
    or a report with how to go on, nothing left; after SIGKILL no process goes on."""
    drawn = random.Random(76)
    many = int(os.environ.get("MOMENTS", "40"))
    for number in range(many):
        by = [signal.SIGINT, signal.SIGTERM, signal.SIGKILL][number % 3]
        own = os.path.join(room, f"moment{number}")
        os.mkdir(own)
        after = drawn.random() ** 2 * 1.5
        status, out, said, alive = at_moment(own, by, after, drawn.randrange(1, 4))
        name = f"moment {number}: {by.name} after {after:.3f} s"
        if by == signal.SIGKILL:
            yield f"{name}: nothing goes on {alive}", not alive
            continue
        begun = status in (1, 128 + by) and "Traceback" not in said
        goes_on = status == 1 or "goes on by" in out or "begin again" in said
        before = status == -by or "Traceback" in said and "File \"/work" not in said and "<frozen" in said
        is_left = [it for it in os.listdir(own) if it != "kept"]
        yield f"{name}: {status} {said[-300:]} {is_left}", (begun and goes_on or before) and not is_left and not alive


def at_moment(own, by, after, times):
    """A hunt that gets a signal after so many seconds, so many times: status, output, error output, what goes on."""
    marker = f"MOMENT={own}"
    words = [*HUNT, SCRIPT, "--seeds", "100000", "--depth", "3", "--quiet", "--html", os.path.join(own, "kept")]
    with subprocess.Popen(words, stdout=subprocess.PIPE, stderr=subprocess.PIPE, text=True, cwd=TOP,
                          env=environment(TMPDIR=own, MOMENT=own),
                          preexec_fn=lambda: signal.signal(signal.SIGINT, signal.SIG_DFL)) as call:
        time.sleep(after)
        for _ in range(times):
            call.send_signal(by)
            time.sleep(0.01)
        out, said = call.communicate(timeout=300)
    end = time.monotonic() + (10 if by == signal.SIGKILL else 1)
    while (alive := lasting(marker)) and time.monotonic() < end:
        time.sleep(0.1)
    return call.returncode, out, said, alive


# Documents.


def members_of(form, found):
    """All members that a form names, with those within them."""
    for name, check in {**form.needed, **form.other}.items():
        found.add(name)
        for inner in parts_of(check):
            if inner not in found:
                found.add(inner)
                members_of(inner, found)


def parts_of(check):
    """The forms in a check: itself, or those that its lists and objects have."""
    if hasattr(check, "needed"):
        return [check]
    cells = [cell.cell_contents for cell in getattr(check, "__closure__", None) or ()]
    return [part for cell in cells if callable(cell) for part in parts_of(cell)]


def forms_of_documents(room):
    """The schema has the members that docs/document.md lists, and a document of another form is refused by the path."""
    sys.path.insert(0, at("tools"))
    from pcthunt import schema
    schema.Form.__hash__ = lambda form: id(form)
    found = set()
    members_of(schema.DOCUMENT, found)
    named = {it for it in found if isinstance(it, str)}
    page = read("docs", "document.md")
    told = set(re.findall(r"[`{ \"]([a-z]+)(?=[`},¹ \"])", " ".join(re.findall(r"`[^`]*`", page))))
    yield f"document.md lists each member of the schema {named - told}", named <= told
    of_first = set(re.findall(r"`([a-z]+)`¹", page))
    forms = (schema.DOCUMENT, schema.HEADING, schema.RUN, schema.STEP)
    needed = {name for form in forms for name in form.needed}
    may_lack = {name for name in of_first - needed for form in forms if name in form.other}
    yield f"what belongs to the first part is needed, {may_lack} aside", of_first - may_lack == needed
    yield f"what may lack of it is what a layer alone knows {may_lack}", may_lack == {"died", "near"}
    whole = json.loads(read("tests", "page", "rust_pool.json"))
    step = whole["headings"][0]["run"]["steps"][3]
    for path, change in {
            "title": lambda it: it.pop("title"), "sources[0].text": lambda it: it["sources"][0].update(text=7),
            "headings[0].run.steps[3].ask": lambda it: steps(it)[3].update(ask="lock nowhere"),
            "headings[0].run.steps[0].line": lambda it: steps(it)[0].update(line="4"),
            "headings[0].run.order": lambda it: it["headings"][0]["run"]["order"].pop(),
            "deal.vars[1].name": lambda it: it["deal"]["vars"][1].update(name=None),
            "headings[0].again[0].says": lambda it: it["headings"][0]["again"][0].update(says=[]),
            "the number NaN": lambda it: it.update(odd=float("nan")),
            "the number Infinity": lambda it: it.update(odd=float("inf"))}.items():
        changed = json.loads(json.dumps(whole))
        change(changed)
        done = hunt("--page", keep(room, "changed.json", json.dumps(changed)))
        yield f"{path}: {done[0]} {done[2]}", is_line(done, 4, path) and done[1] == ""
    long = json.loads(json.dumps(whole))
    long["sources"][0]["text"] = "\n" * 4 + "x" * 1_000_000 + "\n"
    for it in steps(long):
        it["line"] = 5
    done = subprocess.run([sys.executable, at("tools", "pcthunt", "document.py"),
                           keep(room, "long.json", json.dumps(long))], capture_output=True, text=True, check=False)
    yield f"a line of a megabyte is there once {len(done.stdout)}", done.returncode == 0 and len(
        done.stdout) < 1_500_000 and step["ask"] == "read is_closed"


def steps(document):
    return document["headings"][0]["run"]["steps"]


GROUPS = [forms_of_documents, machines, moments, statuses, limits, foreign_text, odd_files]
