"""Refusals of lines that are no form of the language: the header, tokens and statements."""

from __future__ import annotations

import re

from pcthunt.forms import CASE_FREE, FORMS, SYNONYMS, Scope, as_register_reads, joined, nearest
from pcthunt.mends import Mend, header_edit, write
from pctmodel.script import DECLARATIONS, KEYWORDS, OBJECTS, REGISTERS, STATEMENTS, cut_tokens, is_name


def bad_header(scope: Scope, line: str, number: int, lines: list[str]) -> Mend:
    """What a first line that isn't blank lacks as a header, and the nearest one."""
    words = line.lstrip("\ufeff").split("#")[0].split()
    wanted = "the first line that isn't blank is `script 1`, `script 2` or `script 3`"
    if line.startswith("\ufeff"):
        return Mend("\\ufeff", f"{wanted}; a byte order mark stands before it: save the file without one",
                    (line.lstrip("\ufeff"),))
    if not words:
        return Mend("", f"{wanted}; the file has no line but blank ones", ("script 1", "thread A", "  yield", "end"))
    if words[0].lower() in ("script", "pct", "version"):
        version = next((it for it in (words[1:2] or ["1"])[0][::-1] if it in "123"), "1")
        return Mend(" ".join(words[1:]) or words[0], f"{wanted}; write `script {version}`", (f"script {version}",))
    return Mend(words[0], f"{wanted}; put it before this line", ("script 1", line))


def bad_token(scope: Scope, line: str, number: int, lines: list[str]) -> Mend:
    """The first place at which the line can't be cut."""
    code = line.split("#")[0]
    word = first_bad(code)
    said, mended = token_mend(word, code)
    mended = mended.rstrip()
    proposal = mended if cut_tokens(mended) is not None else None
    if proposal is None or not mended.strip():
        return Mend(word, said, (mended,) if proposal is not None else None)
    return Mend(word, f"{said}; write `{mended.strip()}`", (mended,))


def first_bad(code: str) -> str:
    """The first piece of the line that is no token."""
    single = re.search(r"(?<!&)&(?!&)|(?<!\|)\|(?!\|)", code)
    if single and cut_tokens(code[:single.start()]) is not None:
        return single.group()
    for end in range(1, len(code) + 1):
        if all(cut_tokens(code[:end] + more) is None for more in ("", "&", "|")):
            start = end - 1
            while start > 0 and is_of_word(code[start - 1]) and is_of_word(code[end - 1]):
                start -= 1
            piece = re.match(r"\w+|.", code[start:])
            return piece.group() if piece else code[start:end]
    return code.strip()


def is_of_word(character: str) -> bool:
    return character.isalnum() or character == "_"


def token_mend(word: str, code: str) -> tuple[str, str]:
    if word in ("&", "|"):
        bit = re.sub(r"(\S+) & 1\b", r"\1 % 2", code)
        if bit != code:
            return "one & is no operator; whether a number that isn't negative is odd is its rest by 2", bit
        both = re.sub(r"(?<![&|])([&|])(?![&|])", r"\1\1", code)
        return f"one {word[:1]} is no operator; 'and' is && and 'or' is ||", both
    if word == ";":
        return "a line is a statement, and nothing ends it", code.replace(";", "")
    if word in "{}":
        closed = code.replace("}", "end" if code.strip() == "}" else "")
        return "a block begins with its line and ends with `end`", closed.replace("{", "")
    if word == "\u00a0":
        return "a no-break space stands there, and words are separated by spaces", code.replace("\u00a0", " ")
    if word and word[0].isdigit():
        digits = re.match(r"\d+", word)
        if re.fullmatch(r"0[xX][0-9a-fA-F]+", word):
            return "numbers are decimals", code.replace(word, str(int(word, 16)))
        mended = code.replace(word, digits.group() if digits else "")
        return "a letter may not follow a number, and a name begins with a letter", mended
    if len(word) > 32:
        return f"a name has at most 32 characters, and this one {len(word)}", code.replace(word, word[:32])
    if word in "\"'`.":
        return "there are neither texts nor parts of names", re.sub(r"[\"'`.]", "", code)
    wanted = "names are of ASCII letters, digits and _, and the operators are || && == != < <= > >= + - * / % !"
    return wanted, code.replace(word, "")


# Statements.


def bad_statement(scope: Scope, line: str, number: int, lines: list[str]) -> Mend:
    """What the tokens of a line lack as a statement of their place, and the nearest form."""
    words = cut_tokens(line) or [""]
    indent = line[:len(line) - len(line.lstrip())]
    for rule in (wrong_word, wrong_place, wrong_words):
        mend = rule(scope, words, number, lines)
        if mend:
            indented = mend.lines and tuple(it if it[:1] == " " else indent + it for it in mend.lines)
            return Mend(mend.word, mend.wanted, indented, mend.edits)
    form = FORMS[words[0]]
    return Mend(words[-1], f"the form is `{form}`")


def wrong_word(scope: Scope, words: list[str], number: int, lines: list[str]) -> Mend | None:
    """The first word begins no line of this version."""
    first, version = words[0], scope.script.version
    if first in KEYWORDS[version]:
        return None
    for later in (2, 3):
        if first in KEYWORDS[later]:
            return Mend(first, f"{first} is of version {later}, and this script is of version {version}; write "
                               f"`script {later}` in line {scope.header}", None, header_edit(scope, later))
    rest = words[1:]
    if first in REGISTERS and rest[:1] == ["="]:
        return assigned(scope, first, rest[1:], "set")
    if first in REGISTERS:
        return Mend(first, f"a line begins with a word for what it does; a register is given a value by `set {first} "
                           "1`",
                    (f"set {first} 1",))
    if scope.kind(first) == "var" and rest[:1] == ["="]:
        return assigned(scope, first, rest[1:], "write")
    if scope.kind(first) == "var" and rest[:1] in (["+"], ["-"]):
        by = "1" if rest[:2] in (["+", "+"], ["-", "-"]) or len(rest) < 3 else joined(rest[2:])
        sign = "-" if rest[0] == "-" else ""
        form = f"add {scope.register()} {first} {sign}{by}"
        return Mend(first, f"a variable is added to by `add`; {write(form)}", (form,))
    lower = CASE_FREE.get(first.lower())
    if lower and lower in KEYWORDS[3]:
        form = joined([lower, *rest])
        return Mend(first, f"words are in small letters; {write(form)}", (form,))
    if first in ("elif", "elsif", "elseif"):
        return else_if(scope, rest, number, lines)
    known = SYNONYMS.get(first.lower()) or nearest(first, [*STATEMENTS, *DECLARATIONS, "thread", "end", "else"], 0.7)
    if known:
        form = known if known in ("end", "else", "yield") else joined([known, *rest])
        return Mend(first, f"no line begins with {first}; the nearest word is {known}: {write(form)}", (form,))
    return Mend(first, f"no line begins with {first}; a statement begins with one of "
                       f"{' '.join(it for it in STATEMENTS if it in KEYWORDS[version])}")


def assigned(scope: Scope, target: str, value: list[str], word: str) -> Mend:
    reads, value = as_register_reads(scope, value)
    form = f"{word} {target} {joined(value or ['0'])}"
    if word == "set" and len(value) == 1 and reads and value[0] in reads[0]:
        form, reads = f"read {target} {reads[0].split()[2]}", []
    return Mend("=", f"{'a register' if word == 'set' else 'a variable'} is given a value by `{word}`; {write(form)}"
                + (f" after {', '.join(f'`{it}`' for it in reads)}" if reads else ""), (*reads, form))


def wrong_place(scope: Scope, words: list[str], number: int, lines: list[str]) -> Mend | None:
    first = words[0]
    if first == "else" and words[1:2] == ["if"]:
        return else_if(scope, words[2:], number, lines)
    if first in ("end", "else"):
        return Mend(words[1], f"`{first}` stands alone; write `{first}`", (first,)) if len(words) > 1 else None
    if first == "script":
        return Mend(first, "the header comes once, in the first line; leave this line out", ())
    if first == "thread" and scope.open:
        what, where = scope.innermost()
        ends = ("end",) * len(scope.open)
        return Mend(first, f"{what} of line {where} is still open; put "
                           f"{'`end`' if len(ends) == 1 else f'{len(ends)} lines `end`'} before "
                    "this line", (*ends, joined(words)))
    if first in DECLARATIONS and (scope.open or scope.script.threads):
        where = scope.first_thread()
        above = (where, (joined(words), lines[where - 1]))
        return Mend(first, f"declarations stand before the first thread; put `{joined(words)}` before line "
                           f"{where}", (), (above,))
    if first in STATEMENTS and not scope.open:
        name = scope.unused("A")
        return Mend(first, f"a statement stands in a thread, between `thread {name}` and `end`",
                    (f"thread {name}", f"  {joined(words)}", "end"))
    return None


def else_if(scope: Scope, condition: list[str], number: int, lines: list[str]) -> Mend:
    end = scope.end_of_block(number, lines)
    edits = ((end, (lines[end - 1], lines[end - 1])),) if end else ()
    form = joined(["if", *condition])
    return Mend("if", f"`else` stands alone; put `{form}` on a line of its own after it, and one more `end` after its "
                      "block",
                ("else", form), edits)


def wrong_words(scope: Scope, words: list[str], number: int, lines: list[str]) -> Mend | None:
    """A known word at its place, whose other words aren't of its form."""
    first, rest = words[0], words[1:]
    form = "NAME" if first == "thread" else {**DECLARATIONS, **STATEMENTS}[first]
    if first in DECLARATIONS or first == "thread":
        return declaration(scope, first, rest, form)
    return statement(scope, first, rest, form, number, lines)


def declaration(scope: Scope, first: str, rest: list[str], form: str) -> Mend:
    name = rest[0] if rest else ""
    wanted = f"the form is `{FORMS[first]}`"
    value = {"NAME": "", "NAME = INTEGER": " = 0", "NAME = NUMBER": " = 2" if first == "barrier" else " = 0"}[form]
    if not rest or not re.match("[A-Za-z_]", name):
        mended = f"{first} {scope.unused(first[0] if first != 'thread' else 'A')}{value}"
        return Mend(name or first, f"a name is wanted; {write(mended)}", (mended,))
    if not is_name(name, scope.script.version):
        what = "a register" if name in REGISTERS else "a keyword"
        other = scope.unused(f"{name}_")
        mended = joined([first, other]) + (" " + joined(rest[1:]) if rest[1:] else value)
        return Mend(name, f"{name} is {what}, and no name; {write(mended)}", (mended,))
    if not value:
        mended = f"{first} {name}"
        return Mend(rest[1], f"{wanted}, and nothing follows; {write(mended)}", (mended,))
    numbers = [it for it in rest[1:] if it.isdecimal()]
    minus = "-" if "-" in rest and first == "var" else ""
    mended = f"{first} {name} = {minus}{numbers[0]}" if numbers else f"{first} {name}{value}"
    return Mend(rest[1] if len(rest) > 1 else name, f"{wanted}, with its first value; {write(mended)}", (mended,))


def statement(scope: Scope, first: str, rest: list[str], form: str, number: int, lines: list[str]) -> Mend:
    items = form.split()
    names = [it for it in items if it in (*OBJECTS, "thread")]
    wanted = f"the form is `{FORMS[first]}`"
    unknown = (it for it in rest if it not in REGISTERS and scope.kind(it) is None)
    wrong = next((it for it in unknown if re.fullmatch(r"r\d+", it)), None)
    if wrong:
        other = [("r15" if it == wrong else it) for it in rest]
        mended = joined([first, *other])
        return Mend(wrong, f"the registers are r0 to r15, and {wrong} is none; {write(mended)}", (mended,))
    if "EXPR" in items:
        mend = with_expression(scope, first, rest, items, number, lines)
        if mend:
            return mend
    if "REG" in items and rest and scope.kind(rest[0]) is not None and rest[0] not in REGISTERS:
        swapped = [*rest[1:2], rest[0], *rest[2:]] if rest[1:2] and rest[1] in REGISTERS else [scope.register(), *rest]
        mended = joined([first, *swapped])
        return Mend(rest[0], f"a register comes first, for the answer: {wanted}; {write(mended)}", (mended,))
    if "REG" not in items and rest and rest[0] in REGISTERS and names and len(rest) > 1:
        mended = joined([first, *rest[1:]])
        return Mend(rest[0], f"{first} gives no answer, and takes no register: {wanted}; {write(mended)}", (mended,))
    return filled(scope, first, rest, items, wanted)


def filled(scope: Scope, first: str, rest: list[str], items: list[str], wanted: str) -> Mend:
    """The form with what the line has for its places, and else with what is declared."""
    words, left = [first], [it for it in rest if it not in ("(", ")", ",")]
    for item in items:
        if item == "REG":
            words.append(next((it for it in left if it in REGISTERS), scope.register()))
        elif item == "EXPR":
            words.append("0")
        elif item == ",":
            words.append(",")
        else:
            words.append(next((it for it in left if scope.kind(it) == item), scope.any_name(item)))
    mended = joined(words)
    lacking = len(rest) < len([it for it in items if it != ","])
    word = rest[len(items)] if len(rest) > len(items) else rest[-1] if rest else first
    said = "nothing follows there" if not items else "a word is missing" if lacking else "a word is another or too many"
    said = "the expression isn't whole" if items[-1:] == ["EXPR"] and not lacking else said
    declared = scope.declares_all(words[1:], items)
    return Mend(word, f"{said}: {wanted}" + (f"; {write(mended)}" if declared else ""), (mended,) if declared else None)


def with_expression(scope: Scope, first: str, rest: list[str], items: list[str], number: int,
                    lines: list[str]) -> Mend | None:
    """What is wrong with an expression, or before it."""
    before = items.index("EXPR")
    swapped = set_or_write(scope, first, rest)
    if swapped:
        return swapped
    if before and rest and items[0] == "REG" and rest[0] not in REGISTERS and scope.kind(rest[0]) == "var":
        if first == "cas" and "," not in rest and len(rest) == 3:
            rest = [rest[0], rest[1], ",", rest[2]]
        mended = joined([first, scope.register(), *(rest if len(rest) > 1 else [*rest, "1"])])
        return Mend(rest[0], f"a register comes first, for the answer: the form is `{FORMS[first]}`; "
                             f"{write(mended)}", (mended,))
    if first == "cas" and "," not in rest and len(rest) == 4:
        mended = joined([first, *rest[:3], ",", rest[3]])
        return Mend(rest[3], f"a comma stands between the two values; {write(mended)}", (mended,))
    head, value = rest[:before], rest[before:]
    if any(scope.kind(it) == "var" for it in value):
        return variable_in(scope, first, head, value, number, lines)
    cleaned = [it for it in value if it not in ("then", "do")]
    cleaned = ["==" if it == "=" and first in ("if", "while", "assert") else it for it in cleaned]
    if cleaned != value:
        word = next(it for it in value if it in ("then", "do", "="))
        mended = joined([first, *head, *cleaned])
        said = f"nothing stands behind the expression, and {word} is no word"
        said = "= is no comparison; equal is ==" if word == "=" else said
        return Mend(word, f"{said}; {write(mended)}", (mended,))
    chained = chain_of(value)
    if chained:
        mended = joined([first, *head, *chained])
        return Mend(value[3], f"comparisons don't chain; {write(mended)}", (mended,))
    if head and not value:
        mended = joined([first, *head, "0"])
        return Mend(head[-1], f"an expression is missing: the form is `{FORMS[first]}`; {write(mended)}", (mended,))
    unknown = next((it for it in value if is_name(it, scope.script.version)), None)
    if unknown:
        mended = joined([first, *head, *[scope.register() if it == unknown else it for it in value]])
        return Mend(unknown, f"an expression has numbers and registers, and {unknown} is none; "
                             f"{write(mended)}", (mended,))
    return None


def set_or_write(scope: Scope, first: str, rest: list[str]) -> Mend | None:
    """Where `set` has a variable, or `write` its two the other way round."""
    is_swapped = len(rest) == 2 and rest[0] in REGISTERS and scope.kind(rest[1]) == "var"
    if first == "set" and rest and scope.kind(rest[0]) == "var":
        mended = joined(["write", *rest])
        return Mend(rest[0], f"{rest[0]} is a variable, and set gives a register its value; {write(mended)}", (mended,))
    if first == "set" and is_swapped:
        mended = f"read {rest[0]} {rest[1]}"
        return Mend(rest[1], f"{rest[1]} is a variable, and an expression has registers; {write(mended)}", (mended,))
    if first == "write" and is_swapped:
        mended = f"write {rest[1]} {rest[0]}"
        return Mend(rest[0], f"the variable comes first; {write(mended)}", (mended,))
    return None


def chain_of(value: list[str]) -> list[str] | None:
    """A < B < C as two comparisons."""
    signs = ("<", "<=", ">", ">=", "==", "!=")
    if len(value) == 5 and value[1] in signs and value[3] in signs:
        return [value[0], value[1], value[2], "&&", value[2], value[3], value[4]]
    return None


def variable_in(scope: Scope, first: str, head: list[str], value: list[str], number: int, lines: list[str]) -> Mend:
    """A variable in an expression."""
    var = next(it for it in value if scope.kind(it) == "var")
    reads, value = as_register_reads(scope, value)
    mended = joined([first, *head, *value])
    told = " and ".join(f"`{it}`" for it in reads)
    if first == "while":
        end = scope.end_of_block(number, lines)
        edits = ((end, (*reads, lines[end - 1])),) if end else ()
        return Mend(var, f"{var} is a variable, and a condition reads registers; put {told} before it and at the end "
                         f"of its body, and write `{mended}`", (*reads, mended), edits)
    what = "a condition" if first in ("if", "assert") else "an expression"
    return Mend(var, f"{var} is a variable, and {what} reads registers; put {told} before it, and write "
                     f"`{mended}`", (*reads, mended))
