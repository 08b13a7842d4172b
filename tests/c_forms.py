"""Checks of native/c's forms: C++ by each standard, files as they stand, and where steps stand."""

from __future__ import annotations

import json
import os
import re
import sys

from c_builder import DOCUMENT, LAYER, Builder, Checks


def standards(builder: Builder) -> Checks:
    """Each type of the header by the standards from C++17 to C++23, whose headers differ."""
    for standard in ("c++17", "c++20", "c++2b"):
        for source in ("modern", "types"):
            program = builder.build(f"rules/{source}.cpp", f"{source}_{standard}", f"-std={standard}")
            status, said, wrong = builder.run(program, "--seeds", "100")
            yield f"{builder.name}: {source}.cpp by {standard}", (status, wrong) == (0, "") and "passed in 300" in said


def stands(builder: Builder) -> Checks:
    """Files that know nothing of pct, by one -include each."""
    shims = {"pthread": ["pct_pthread.h"], "atomic": ["pct_stdatomic.h", "pct_threads.h"],
             "poll": ["pct_poll.h", "pct_pthread.h"]}
    for name, headers in shims.items():
        made = os.path.join(builder.room, f"stands_{name}.o")
        words = [word for header in headers for word in ("-include", header)]
        builder.compile(builder.compiler, "-std=gnu11", "-D_GNU_SOURCE", *words, "-c",
                        os.path.join(LAYER, "tests", "rules", f"stands_{name}.c"), "-o", made)
        program = builder.build(f"rules/test_{name}.c", f"stands_{name}", made)
        status, said, wrong = builder.run(program, "--seeds", "300")
        yield f"{builder.name}: {name} as it stands", (status, wrong) == (0, "") and "passed in 900 seeds" in said
    try:
        builder.compile(builder.compiler, "-std=c11", "-include", "pct_pthread.h", "-c",
                        os.path.join(LAYER, "pct_test.c"), "-o", os.path.join(builder.room, "none.o"))
        yield "the layer with -include", False
    except RuntimeError as complaint:
        yield "the layer with -include", "pct_test.c is compiled apart, without -include" in str(complaint)


def isolated_statics(builder: Builder) -> Checks:
    """Statics in functions whose constructors make steps, with a process for each run."""
    status, said, wrong = builder.made("rules/statics.cpp", "--isolate", "--seeds", "50")
    yield f"{builder.name}: statics.cpp --isolate", (status, wrong) == (0, "") and "passed in 150 seeds" in said


def places(builder: Builder) -> Checks:
    """A step in a header, in an operator, in std's guard and in the test's file: in the text, in FILE.sites and in a
    replay; with debug information, and without, where it stands after a place."""
    here = [f"places.cpp:{line}" for line in (17, 17, 20, 21, 21, 20, 24, 25, 27, 27)]
    by_calls = {"-g": [f"places.cpp:{line}" for line in (12, 14, 15)], "-g0": ["after stepped.hpp:3"] * 3}
    header = os.path.join(LAYER, "tests", "rules", "stepped.hpp")
    for how, by_call in by_calls.items():
        program, wanted = builder.build("rules/places.cpp", f"places{how}", how), ["stepped.hpp:3", *by_call, *here]
        said = builder.run(program, "--seeds", "1", "--lanes", "--trace", "places.trace", "--json", "places.json")[1]
        told = re.findall(r"^ +\d+  .*?  ((?:after )?\S+)$", said, re.MULTILINE)
        yield f"{builder.name}: places {how}: lanes", told == wanted
        again = builder.run(program, "--replay", "places.trace")[1]
        replayed = re.findall(r"^\d+ .*    ((?:after )?\S+)$", again, re.MULTILINE)
        yield f"{builder.name}: places {how}: replay", replayed == wanted and "the trace has " in again
        with open(os.path.join(builder.room, "places.sites"), encoding="utf-8") as file:
            sites = file.read()
        near = "4095 near 3 " + header + "\n" if how == "-g0" else ""
        names = "var number\nmutex guard\nrwlock rwlock\n"
        yield f"{builder.name}: places {how}: sites", sites.endswith(f"{names}4096 at 3 {header}\n{near}")
        whole = builder.run(sys.executable, DOCUMENT, "places.json")[1]
        steps = json.loads(whole)["headings"][0]["run"]["steps"]
        yield f"{builder.name}: places {how}: the page", [step.get("near", False) for step in steps] == \
            [place.startswith("after") for place in wanted]
    said = builder.made("faults/elsewhere.cpp", "--seeds", "9", "--lanes", "--trace", "elsewhere.trace")[1]
    verdict = "failed Main elsewhere.hpp:3\n"
    again = builder.run(os.path.join(builder.room, "elsewhere_cpp"), "--replay", "elsewhere.trace")[1]
    yield "places: a verdict in another file", f" steps: {verdict}" in said and f"\nverdict {verdict}" in said and \
        f"\nverdict {verdict}" in again
