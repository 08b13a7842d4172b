#!/usr/bin/env python3
"""A plain model of pct, written from the description of the language and the files and not from the crates. It is a
second opinion: the cases under tests/cases are typed by hand or come from it, never from the program.

    python3 tests/model.py run FILE --order A,B,C

takes the words of bin/pct, and gives its output, its line on the error stream and its status."""

import os
import sys

sys.dont_write_bytecode = True
sys.path.insert(0, os.path.join(os.path.dirname(os.path.dirname(os.path.realpath(__file__))), "tools"))
sys.setrecursionlimit(10000)  # an expression has parts within parts
sys.set_int_max_str_digits(0)

from pctmodel.campaign import (
    Frame, big_script, drawn, groups_of, json_line, rows_of, steps_in_declared_order, text_lines)
from pctmodel.directive import Directive, certify, directed_run, directive_lines, points_of, read_directive
from pctmodel.find import moments_of, reduced
from pctmodel.locks import Nesting, is_good, lock_order, nestings_of
from pctmodel.races import races_of
from pctmodel.run import Event, replay, run
from pctmodel.script import Faulty, parse
from pctmodel.sweep import endings_of, has_too_many, sweep_json, sweep_text
from pctmodel.trace import Trace, read_trace, step_line, trace_lines
from pctmodel.words import NotTaken, read_words

DONE, FOUND, USAGE, BAD_SCRIPT, BAD_TRACE, BAD_DIRECTIVE, READ_FAULT, WRITE_FAULT = range(8)


class Refused(Exception):
    """The status and the line on the error stream."""


def usage(number):
    return Refused(USAGE, f"usage: word {number}")


def read_file(name, most):
    try:
        with open(name, "rb") as file:
            return file.read(most)
    except (OSError, ValueError):
        raise Refused(READ_FAULT, "read fault")


def read_script(name):
    data = read_file(name, 1048577)
    try:
        return parse(data)
    except Faulty as fault:
        raise Refused(BAD_SCRIPT, f"script: line {fault.line} {fault.kind}")


def steps_to_draw_from(script, settings, limit):
    return settings.options.get("--steps") or steps_in_declared_order(script, limit)


def refuse_other_order(script, settings):
    """An order that is given names every thread once."""
    if sorted(settings.options["--order"]) != sorted(script.threads):
        raise usage(settings.places["--order"])


def scheduled(settings):
    """The script, and the order, the points and the limit of its run."""
    script, options = read_script(settings.before[0]), settings.options
    limit = options.get("--limit", 10000)
    if "--order" in options:
        refuse_other_order(script, settings)
        return script, options["--order"], options.get("--points", []), limit
    steps = steps_to_draw_from(script, settings, limit)
    return script, *drawn(script, options["--seed"], options["--depth"], steps), limit


def trace_of(script, order, points, limit, events, verdict):
    return trace_lines(Trace(2 if script.version == 3 else 1, order, points, limit, events, verdict))


def run_command(settings):
    scheduled_run = scheduled(settings)
    events, verdict = run(*scheduled_run)
    return trace_of(*scheduled_run, events, verdict), DONE if verdict == "passed" else FOUND


def races_command(settings):
    script, *schedule = scheduled(settings)
    races = races_of(script, run(script, *schedule)[0])
    lines = [f"race {race.var} {race.first} {race.second}" for race in races]
    return [*lines, f"races {len(races)}"], FOUND if races else DONE


def locks_command(settings):
    script, *schedule = scheduled(settings)
    nestings = nestings_of(script, run(script, *schedule)[0])
    report = lock_order(script, nestings)
    assert is_good(script, nestings, report)
    if not report or not isinstance(report[0], Nesting):
        return [" ".join(["order", *report])], DONE
    return [*(" ".join(map(str, ("nest", *nest))) for nest in report), f"cycle {len(report)}"], FOUND


def replay_command(settings):
    script = read_script(settings.before[0])
    data = read_file(settings.before[1], 16777217)
    try:
        trace = read_trace(data, script)
    except Faulty as fault:
        raise Refused(BAD_TRACE, f"trace: line {fault.line} {fault.kind}")
    departure = replay(script, trace)
    if not departure:
        return [f"confirmed {trace.verdict}"], DONE
    step, found = departure
    written = f"verdict {trace.verdict}" if step > len(trace.events) else step_line(step, trace.events[step - 1])
    if isinstance(found, Event):
        found = step_line(step, found)
    return [f"departs {step}", f"written {written}", f"found {found}"], FOUND


def campaign_command(settings):
    script, options = read_script(settings.before[0]), settings.options
    limit, depth = options.get("--limit", 10000), options["--depth"]
    steps = steps_to_draw_from(script, settings, limit)
    rows = rows_of(script, options["--from"], options["--count"], depth, steps, limit)
    frame, groups = Frame(len(script.threads), steps, depth, limit), groups_of(rows)
    report = [json_line(frame, rows, groups)] if options.get("--form") == "json" else text_lines(frame, rows, groups)
    return report, FOUND if groups else DONE


def sweep_command(settings):
    script, options = read_script(settings.before[0]), settings.options
    limit, depth = options.get("--limit", 10000), options["--depth"]
    steps = steps_to_draw_from(script, settings, limit)
    if has_too_many(script, depth, steps):
        return [f"toomany {len(script.threads)}"], FOUND
    frame, endings = Frame(len(script.threads), steps, depth, limit), endings_of(script, depth, steps, limit)
    report = [sweep_json(frame, endings)] if options.get("--form") == "json" else list(sweep_text(frame, endings))
    return report, DONE if all(ending.verdict == "passed" for ending in endings) else FOUND


def big_command(settings):
    text, limit = big_script(int(settings.before[0])), 10000
    script = parse(text.encode())
    steps = steps_in_declared_order(script, limit)
    rows = rows_of(script, 1, 20, 3, steps, limit)
    failures = [row for row in rows if row.verdict != "passed"]
    values = {"lines": len(text.splitlines()), "steps": steps, "runs": len(rows), "failures": len(failures)}
    values["groups"] = len(groups_of(rows))
    return [f"{name} {value}" for name, value in values.items()], FOUND if failures else DONE


def directive_of(settings, script):
    data = read_file(settings.before[1], 65537)
    try:
        return read_directive(data, script)
    except Faulty as fault:
        raise Refused(BAD_DIRECTIVE, f"directive: line {fault.line} {fault.kind}")


def expose_command(settings):
    script, options = read_script(settings.before[0]), settings.options
    refuse_other_order(script, settings)
    directive = directive_of(settings, script)
    order, steps, limit = options["--order"], options["--steps"], options.get("--limit", 10000)
    directed = directed_run(script, order, directive.events, limit)
    if len(directed[0]) > steps:
        return [f"toolong {len(directed[0])}"], FOUND
    points = points_of(directed[0], directive.events, steps)
    events, verdict = run(script, order, points, limit)
    assert (events, verdict) == directed
    return trace_of(script, order, points, limit, events, verdict), DONE if verdict == directive.verdict else FOUND


def certify_command(settings):
    script, options = read_script(settings.before[0]), settings.options
    directive = directive_of(settings, script)
    lines, is_certified = certify(script, directive, options["--steps"], options.get("--limit", 10000))
    return lines, DONE if is_certified else FOUND


def find_command(settings):
    script, order, points, limit = scheduled(settings)
    events, verdict = run(script, order, points, limit)
    if verdict == "passed":
        return [f"passes {len(events)}"], DONE
    moments = moments_of(events, points)
    assert directed_run(script, order, moments, limit) == (events, verdict)
    return directive_lines(Directive(order[-1], reduced(script, order, moments, verdict, limit), verdict)), FOUND


COMMANDS = {
    "run": run_command, "replay": replay_command, "campaign": campaign_command, "big": big_command,
            "races": races_command,
    "locks": locks_command, "find": find_command, "expose": expose_command, "certify": certify_command,
    "sweep": sweep_command,
}


def answer(words):
    """The lines of the output and the status."""
    try:
        settings = read_words(words)
    except NotTaken as refusal:
        raise usage(refusal.args[0])
    return COMMANDS[settings.command](settings)


def say(line):
    """One line on the error stream. That it can't be written changes no status."""
    try:
        os.write(2, f"{line}\n".encode())
    except OSError:
        pass


def text_of_case(name):
    """What a case of the program's own options wants, or none where there is no such case."""
    out = os.path.join(os.path.dirname(os.path.abspath(__file__)), "cases", name, "out")
    if not os.path.exists(out):
        return None
    with open(out, encoding="ascii") as text:
        return text.read().splitlines()


def own_answer(words):
    """The lines of the program's own options; none for other words. Its help and its explanations are the cases'
    texts, and so are the words that it names where it is asked for another one."""
    if words == ["--version"]:
        return ["pct 0.2.0"]
    if words == ["--help"]:
        return text_of_case("own_help")
    if len(words) == 2 and words[0] == "--explain":
        known = text_of_case(f"explain_{words[1]}") if words[1].isalnum() else None
        return known or text_of_case("own_explain_of_a_part")
    return None


def main():
    try:
        own = own_answer(sys.argv[1:])
        lines, status = (own, 0) if own is not None else answer(sys.argv[1:])
        for line in lines:
            os.write(1, f"{line}\n".encode())
    except Refused as refusal:
        status, reason = refusal.args
        say(reason)
    except OSError:
        status = WRITE_FAULT
        say("write fault")
    sys.exit(status)


if __name__ == "__main__":
    main()
