"""Every constant, size and offset of include/pct.h: as C has them, as stock Rust has them of the crates' own structs
and numbers, and as this Python's bindings have them, each compared with the others; and the numbers of the
definitions."""

import ctypes
import glob
import os
import re
import shutil
import subprocess
from typing import Iterator

import bound

CRATES = ("c_values", "c_tells", "c_texts", "pct_c")
# A struct of Rust with the layout of C: its name and its fields.
OF_C = re.compile(r"#\[repr\(C\)\]\n(?:#\[[^\n]*\n)*pub struct (\w+) \{\n(.*?)^\}", re.M | re.S)
# A limit that has a name, which the lengths of their fields cite.
LIMIT = re.compile(r"^pub const \w+: \w+ = [\d_]+;$", re.M)
# Fields of Rust that have another name in C.
RENAMED = {"PctBook.held": "PctBook.at", "PctTrace.held": "PctTrace.at"}
# The asks of the definition that aren't one capital word after PCT_ASK_.
ASKS = {"None": "NONE", "Check true": "CHECK_HOLDS", "Check false": "CHECK_FAILS", "Fault Overflow": "OVERFLOW",
        "Fault ZeroDivisor": "ZERO_DIVISOR", "Fault Spin": "SPIN"}
OUTCOMES = {"Ends Passed": "PCT_PASSED", "Ends (Failed thread line)": "PCT_FAILED",
            "Ends (Misuse thread line kind)": "PCT_MISUSE", "Ends (VerdictFault thread line kind)": "PCT_FAULT",
            "Ends Cut": "PCT_CUT", "Departed thread": "PCT_DEPARTED", "Ends (Stuck places)": "PCT_STUCK"}
REASONS = {"Overflow": "FAULT_OVERFLOW", "ZeroDivisor": "FAULT_ZERO_DIVISOR", "Spin": "FAULT_SPIN"}


def read(file: str) -> str:
    with open(file, encoding="utf-8") as text:
        return text.read()


def capitals(name: str) -> str:
    """TryRdLock as TRY_RD_LOCK."""
    return re.sub(r"(?<=[a-z])(?=[A-Z])", "_", name).upper()


class Header:
    """The constants and the structs of the header's text, without its comments."""

    def __init__(self, file: str) -> None:
        text = re.sub(r"/\*.*?\*/", "", read(file), flags=re.S)
        enums = re.findall(r"typedef enum \w+ \{(.*?)\}", text, re.S)
        self.constants = re.findall(r"#define (PCT_(?:MOST_\w+|VERSION)) \d+", text)
        self.constants += [name for body in enums for name in re.findall(r"(PCT_\w+) =", body)]
        self.structs = {name: re.findall(r"(\w+)(?:\[\d+\])?;", body)
                        for name, body in re.findall(r"typedef struct (\w+) \{(.*?)\}", text, re.S)}


def source_of_c(header: Header) -> str:
    """A program of C that prints them."""
    lines = [f'say("{name}", {name});' for name in header.constants]
    for struct, fields in header.structs.items():
        lines.append(f'say("sizeof {struct}", sizeof({struct}));')
        lines += [f'say("{struct}.{field}", offsetof({struct}, {field}));' for field in fields]
    body = "\n    ".join(lines)
    return ('#include "pct.h"\n#include <stdio.h>\n'
            'static void say(const char *name, unsigned long long number) { printf("%s %llu\\n", name, number); }\n'
            f"int main(void) {{\n    {body}\n    return 0;\n}}\n")


def rust_of_crates(top: str) -> dict[str, str]:
    """The structs with the layout of C of the crates' sources, as stock Rust: without what is for proofs alone."""
    found = {}
    for crate in CRATES:
        for file in sorted(glob.glob(os.path.join(top, "crates", crate, "src", "*.rt"))):
            for name, body in OF_C.findall(read(file)):
                fields = re.findall(r"^    (?:pub )?(\w+): ([^\n]*),$", body, re.M)
                found[name] = "".join(f"    {field}: {kind},\n" for field, kind in fields)
    return found


def limits_of_crates(top: str) -> str:
    """The limits of the crates' sources, which are stock Rust."""
    return "\n".join(LIMIT.findall(read(os.path.join(top, "crates", "pct_ask", "src", "limits.rt"))))


def source_of_rust(limits: str, structs: dict[str, str], wanted: list[str]) -> str:
    """A program of stock Rust that prints the layouts of the structs that the header has."""
    declared = [f"#[repr(C)]\nstruct {name} {{\n{body}}}\n" for name, body in structs.items()]
    lines = []
    for name in wanted:
        if name not in structs:
            continue
        lines.append(f'println!("sizeof {name} {{}}", std::mem::size_of::<{name}>());')
        for field in re.findall(r"^    (\w+):", structs[name], re.M):
            shown = RENAMED.get(f"{name}.{field}", f"{name}.{field}")
            lines.append(f'println!("{shown} {{}}", std::mem::offset_of!({name}, {field}));')
    body = "\n    ".join(lines)
    return f"#![allow(dead_code)]\n\n{limits}\n\nstruct Global;\n\n{''.join(declared)}\nfn main() {{\n    {body}\n}}\n"


def printed(words: list[str]) -> dict[str, int]:
    done = subprocess.run(words, capture_output=True, text=True, check=True)
    return {name: int(number) for name, _, number in (line.rpartition(" ") for line in done.stdout.splitlines())}


def by_c(header: Header, top: str, room: str) -> dict[str, int]:
    source, program = os.path.join(room, "layout.c"), os.path.join(room, "layout")
    with open(source, "w", encoding="utf-8") as file:
        file.write(source_of_c(header))
    subprocess.run(["cc", "-std=c99", "-Wall", "-Wextra", "-Werror", f"-I{top}/include", "-o", program, source],
                   check=True)
    return printed([program])


def by_rust(header: Header, top: str, room: str) -> dict[str, int]:
    source, program = os.path.join(room, "layout.rs"), os.path.join(room, "layout_of_rust")
    with open(source, "w", encoding="utf-8") as file:
        file.write(source_of_rust(limits_of_crates(top), rust_of_crates(top), list(header.structs)))
    subprocess.run(["rustc", "--edition", "2021", "-o", program, source], check=True)
    return printed([program])


def by_python() -> dict[str, int]:
    found = {}
    for struct in bound.STRUCTS:
        name = f"Pct{struct.__name__}"
        found[f"sizeof {name}"] = ctypes.sizeof(struct)
        found |= {f"{name}.{field}": getattr(struct, field).offset for field, *_ in struct._fields_}
    return found


def of_definitions(top: str) -> dict[str, int]:
    """The numbers that the definitions and the code of the crates give to what has a name in the header."""
    specs = os.path.join(top, "crates", "c_values", "specs")
    code = os.path.join(top, "crates", "pct_c", "src")
    asks = re.search(r"^asks_by a b x y =\n(.*?)∷ \[\]", read(os.path.join(specs, "Asks.antt")), re.M | re.S).group(1)
    found = {}
    for number, item in enumerate(item.strip() for item in asks.split("∷")):
        ask = re.sub(r"^Some |[()]", "", item)
        ask = re.sub(r"( [abxy])+$", "", ask)
        found[f"PCT_ASK_{ASKS.get(ask, capitals(ask))}"] = number
    outcomes = read(os.path.join(specs, "Outcomes.antt"))
    for pattern, name in OUTCOMES.items():
        head = rf"^outcome_numbers \(?{re.escape(pattern)}\)? ="
        kind = re.search(rf"{head}\s+(?:numbers_by |record \{{\n  kind = )(\d+)", outcomes, re.M)
        found[name] = int(kind.group(1))
    for name, number in re.findall(r"^(?:misuse|fault)_number (\w+) = (\d+)", outcomes, re.M):
        found[f"PCT_{REASONS.get(name, capitals(name))}"] = int(number)
    for name, number in re.findall(r"^pub const (\w+): u32 = (\d+);", read(os.path.join(code, "status.rt")), re.M):
        found[f"PCT_{name}"] = int(number)
    for name, number in re.findall(r"^const (\w+): u32 = (\d+);", read(os.path.join(code, "turn.rt")), re.M):
        found[f"PCT_CHOICE_{name}"] = int(number)
    return found


def checks(top: str, room: str) -> Iterator[tuple[str, bool]]:
    header = Header(os.path.join(top, "include", "pct.h"))
    of_c = by_c(header, top, room)
    layouts = {name: number for name, number in of_c.items() if not name.startswith("PCT_")}
    sources = [("Python", by_python(), layouts)]
    if shutil.which("rustc"):
        sources.append(("stock Rust", by_rust(header, top, room), layouts))
    numbers = of_definitions(top)
    sources.append(("the definitions", numbers, {name: number for name, number in of_c.items() if name in numbers}))
    for whose, found, wanted in sources:
        for name in sorted(found.keys() | wanted.keys()):
            yield f"{name}: {found.get(name)} in {whose}, {wanted.get(name)} in C", found.get(name) == wanted.get(name)
    families = ("PCT_ASK_", "PCT_CHOICE_")
    for name in of_c:
        if name.startswith(families) and name != "PCT_CHOICE_NONE":
            yield f"{name} stands in the definitions", name in numbers
