"""Why pct refuses words, files that can't be read, traces and directives, and what it wants in their place."""

from __future__ import annotations

import os
import shlex

from pcthunt.forms import nearest
from pcthunt.inputs import read
from pcthunt.output import BAD_DIRECTIVE, BAD_SCRIPT, BAD_TRACE, READ_FAULT, USAGE, Refused, put, shown
from pcthunt.program import Program
from pcthunt.refusals import script_refusal
from pctmodel.directive import read_directive
from pctmodel.script import Faulty, Script, is_name, parse
from pctmodel.trace import ASKS, ASKS_OF_2, read_trace
from pctmodel.words import COMMANDS, RANGES

VALUES = {"--order": "A,B", "--points": "3", "--limit": "1000", "--seed": "1", "--depth": "2", "--steps": "20",
          "--from": "1", "--count": "1000", "--form": "text", "--serve": "caller"}
SECOND_FILES = {"replay": "TRACE", "expose": "DIRECTIVE", "certify": "DIRECTIVE"}
WANTED_OF = {
    "--order": "all names of the script's threads, each once, joined by single commas",
    "--points": "one to seven steps in 1 to 100000, joined by single commas", "--form": "text or json",
    "--serve": "caller or threads",
}


def why_words(program: Program, words: list[str]) -> int:
    """Calls pct with the words; where it takes them, what it writes is written, and else it is said why not."""
    answer = program.call(*words)
    if answer.status in (0, 1):
        put(answer.out)
        return answer.status
    if answer.status == USAGE:
        told = of_words(program, words, answer.said)
    elif answer.status == READ_FAULT:
        told = of_files(words)
    elif answer.status == BAD_SCRIPT:
        told = of_script(words[1])
    elif answer.status in (BAD_TRACE, BAD_DIRECTIVE):
        told = of_second_file(words[1], words[2], answer.status)
    else:
        told = f"pct ended with {answer.status}: {answer.said or 'it said nothing'}"
    raise Refused(answer.status if 0 < answer.status < 9 else USAGE, told)


# Words.


def of_words(program: Program, words: list[str], said: str) -> str:
    """The first word that isn't taken, and what is wanted there."""
    number = int(said.split()[-1]) if said.split()[-1:] and said.split()[-1].isdecimal() else 1
    word = words[number - 1] if number <= len(words) else None
    if words[:1] == ["--explain"]:
        what = "a word is missing" if len(words) < 2 else "one word is wanted"
        return f"pct --explain: {what}; they are {explained(program)}"
    if number == 1:
        near = nearest(words[0], list(COMMANDS)) if words else None
        at = "" if word is None else f", {shown(word)!r}"
        told = f"word 1{at}: a command is wanted, one of {', '.join(COMMANDS)}"
        return told + (f"; the nearest is {near}" if near else "")
    command = words[0]
    files = COMMANDS[command][0]
    if number <= files + 1 and word is None:
        what = "the script" if number == 2 else f"{SECOND_FILES[command].lower()} file"
        return f"word {number} is missing: {what}; for example {example(words)}"
    if number > len(words):
        return f"{missing(words)}; for example {example(words)}"
    return f"word {number}, {shown(words[number - 1])!r}: {wanted_at(words, number)}"


def explained(program: Program) -> str:
    """The words that pct explains, from the end of its help."""
    told = program.call("--help").out.split("\nWORD is ")[-1]
    lines = [line for line in told.splitlines() if line.startswith("  ")]
    return " ".join(dict.fromkeys(word for line in lines for word in line.strip().split("  ")[-1].split()))


def options_in(words: list[str]) -> dict[str, str]:
    rest = words[COMMANDS[words[0]][0] + 1:]
    return dict(zip(rest[0::2], rest[1::2]))


def form_of(words: list[str]) -> dict[str, bool]:
    """Of the command's forms the one that has most of the given options."""
    given = options_in(words)
    return max(COMMANDS[words[0]][1], key=lambda form: sum(name in form for name in given))


def missing(words: list[str]) -> str:
    """Which words are missing."""
    rest = words[COMMANDS[words[0]][0] + 1:]
    if len(rest) % 2:
        return f"the value of {rest[-1]} is missing"
    forms = COMMANDS[words[0]][1]
    lacking = [" and ".join(name for name, is_needed in form.items() if is_needed and name not in options_in(words))
               for form in forms if options_in(words).keys() <= form.keys()]
    return f"{' or else '.join(lacking)} {'is' if ' and ' not in lacking[0] else 'are'} missing"


def example(words: list[str]) -> str:
    """The words with what they lack, for the declared order."""
    command = words[0]
    files, forms = COMMANDS[command]
    names = [*words[1:files + 1], *["FILE", SECOND_FILES.get(command, "")][len(words[1:files + 1]):files]]
    given = options_in(words) if len(words) > files else {}
    form = next((it for it in forms if given.keys() <= it.keys()), forms[0])
    values = VALUES | {"--order": declared_order(names[0])}
    told = [part for name, is_needed in form.items() if is_needed or name in given
            for part in (name, given.get(name, values[name]))]
    return f"`pct {shlex.join([command, *names, *told])}`"


def declared_order(name: str) -> str:
    try:
        return ",".join(parse(read(name, 1048577)).threads)
    except (Faulty, Refused):
        return "A,B"


def wanted_at(words: list[str], number: int) -> str:
    """What is wanted at the place of a word that isn't taken."""
    command = words[0]
    files, forms = COMMANDS[command]
    place, word = number - 1, words[number - 1]
    options = sorted({name for form in forms for name in form})
    if command == "big" and place == 1:
        return "how many pieces the script has is wanted, 1 to 100"
    if (place - files) % 2 == 1:
        if not options:
            return f"{command} takes no word there"
        if word in options and word in words[files + 1:place:2]:
            return f"{word} is there twice"
        if word in options:
            return f"{word} doesn't go with {words[files + 1]}"
        near = nearest(word, options)
        return f"an option is wanted, one of {', '.join(options)}" + (f"; the nearest is {near}" if near else "")
    option = words[place - 1]
    if option == "--order":
        return of_order(words[1], word)
    if option in RANGES:
        least, greatest = RANGES[option]
        return f"{option} wants a decimal in {least} to {greatest} without leading zeros"
    return f"{option} wants {WANTED_OF.get(option, 'another value')}"


def of_order(file: str, word: str) -> str:
    """What an order lacks, or has too much."""
    declared = declared_order(file).split(",")
    given = word.split(",")
    told = [f"{name} is missing" for name in declared if name not in given]
    told += [f"{shown(name)!r} is no thread" for name in dict.fromkeys(given) if name not in declared]
    told += [f"{name} is there {given.count(name)} times" for name in dict.fromkeys(given) if given.count(name) > 1]
    why = f": {', '.join(told)}" if told else ""
    return f"--order wants {WANTED_OF['--order']}{why}; as declared: {','.join(declared)}"


# Files.


def of_files(words: list[str]) -> str:
    """Which file can't be read."""
    for name in words[1:COMMANDS[words[0]][0] + 1]:
        if os.path.isdir(name):
            return f"{shown(name)} can't be read: it is a folder"
        try:
            read(name, 1)
        except Refused as refused:
            return shown(refused.why)
    return "a file can't be read"


def of_script(name: str) -> str:
    data = read(name, 1048577)
    try:
        parse(data)
    except Faulty as fault:
        return script_refusal(name, data, fault)
    return f"{shown(name)}: pct refuses it, and the plain model doesn't"


def of_second_file(script_name: str, name: str, status: int) -> str:
    """The faulty line of a trace or a directive."""
    script, data = parse(read(script_name, 1048577)), read(name, 16777217)
    try:
        (read_trace if status == BAD_TRACE else read_directive)(data, script)
    except Faulty as fault:
        lines = data.decode("latin-1").split("\n")
        line = lines[fault.line - 1] if fault.line <= len(lines) else ""
        wanted = (of_trace if status == BAD_TRACE else of_directive)(fault, line, lines, script)
        own = f" `{shown(line)[:120]}`:" if line else ""
        return f"{shown(name)}: line {fault.line}:{own} {fault.kind}: {wanted}"
    return f"{shown(name)}: pct refuses it, and the plain model doesn't"


def spaces(line: str) -> str | None:
    """What is wrong with the spaces of a line of a trace or a directive, which stand single."""
    mended = " ".join(line.split())
    if line == mended:
        return None
    what = "none stands before or after them"
    is_tab = "\t" in line
    if is_tab or "\r" in line:
        what = f"here is {'a tab' if is_tab else 'a carriage return at its end'}"
    return f"words have one space between them, and {what}; write `{mended}`"


HEAD_OF_TRACE = ("`trace 1`, or `trace 2` for a script of version 3", "`order` and every thread once",
                 "`points` and none to seven steps", "`limit` and a number of steps")


def of_trace(fault: Faulty, line: str, lines: list[str], script: Script) -> str:
    order = f"order {' '.join(script.threads)}"
    if fault.kind == "BadHeader":
        example_line = ("trace 1", order, "points", "limit 10000")[fault.line - 1]
        wanted = f"line {fault.line} of a trace is {HEAD_OF_TRACE[fault.line - 1]}"
        return f"{wanted}; {spaces(line) or f'write `{example_line}`'}"
    if fault.kind == "BadLine":
        if fault.line == len(lines) and line:
            return f"the line isn't ended by a line feed; write `{line}` and end the line"
        return spaces(line) or step_form(line, script)
    return of_either(fault, line, script)


def step_form(line: str, script: Script) -> str:
    words = line.split(" ")
    if words[0] == "verdict":
        near = nearest(words[1] if len(words) > 1 else "", ["passed", "cut", "failed", "stuck", "misuse", "fault"])
        form = " ".join(["verdict", near, *words[2:]]) if near and near != words[1] else "verdict passed"
        return ("a verdict is passed, cut, failed THREAD LINE, stuck THREAD LINE .., misuse THREAD LINE KIND or fault "
                f"THREAD LINE KIND; write `{form}`")
    asks = ASKS | ASKS_OF_2
    if "=" not in words:
        return f"a step is NUMBER THREAD LINE ASK = ANSWER, and it has no ` = `; write `{line} = 0`"
    if len(words) > 3 and words[3] not in asks:
        near = nearest(words[3], list(asks))
        mended = " ".join([*words[:3], near or "", *words[4:]])
        return f"{shown(words[3])!r} is no ask" + (f"; write `{mended}`" if near else "")
    ask = f"{words[3]} {asks.get(words[3], '')}" if len(words) > 3 else "its words"
    return f"a step is NUMBER THREAD LINE ASK = ANSWER, and the ask is `{ask.strip()}`"


def of_directive(fault: Faulty, line: str, lines: list[str], script: Script) -> str:
    if fault.kind == "BadHeader":
        example_line = ("directive 1", f"low {next(iter(script.threads))}")[fault.line - 1]
        wanted = f"line {fault.line} of a directive is `{'directive 1' if fault.line == 1 else 'low THREAD'}`"
        return f"{wanted}; {spaces(line) or f'write `{example_line}`'}"
    if fault.kind == "TooLong":
        return "a directive has at most seven lines `after`; leave this one out"
    if fault.kind == "BadLine":
        if fault.line == len(lines) and line:
            return f"the line isn't ended by a line feed; write `{line}` and end the line"
        words = line.split(" ")
        near = nearest(words[0], ["after", "verdict"])
        if near == "after":
            thread = words[1] if len(words) > 1 and is_name(words[1]) else next(iter(script.threads))
            number = next((it for it in words[2:] if it.isdecimal() and it != "0"), "1").lstrip("0")
            mended = f"after {thread} {number}"
            return spaces(line) or f"a moment is `after THREAD NUMBER`, the number in 1 to 100000; write `{mended}`"
        return spaces(line) or "a line is `after THREAD NUMBER`, or `verdict VERDICT`; write `verdict passed`"
    return of_either(fault, line, script)


def of_either(fault: Faulty, line: str, script: Script) -> str:
    if fault.kind == "UnknownName":
        names = [*script.threads, *(name for by_name in script.objects.values() for name in by_name)]
        unknown = next((word for word in line.split(" ") if is_name(word, 1) and word not in [*ALL_WORDS, *names]), "")
        near = nearest(unknown, names)
        if not unknown:
            return "a name isn't declared with the kind that its place needs"
        mended = " ".join(near or "" if word == unknown else word for word in line.split(" "))
        return f"{shown(unknown)!r} is declared nowhere in the script" + (f"; write `{mended}`" if near else "")
    return {
        "TooLong": "the file, or the run, is longer than its limit says; raise `limit`, or leave out the steps after "
                   "it",
        "OutOfOrder": "steps are numbered from 1 on, each one more than that before it",
        "NoVerdict": "the file ends before its verdict; write a line `verdict ..` here",
        "MoreAfterVerdict": "nothing follows the verdict; leave this line and all after it out",
    }.get(fault.kind, "see docs/formats.md")


ALL_WORDS = {*ASKS, *ASKS_OF_2, *"order points limit verdict after low stuck failed misuse fault passed cut".split(),
             *"notowner semfull alreadystarted toomanyreads overflow zerodivisor spin".split()}
