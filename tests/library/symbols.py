"""What lib/libpct.a and lib/libpct.so define and want, by nm and objdump."""

import os
import re
import subprocess
from typing import Iterator

import bound

WANTED_OF_OTHERS = re.compile(r"malloc|realloc|free|mem[a-z]+")
OWN = re.compile(r"pct_book_\w+|pct_draw|pct_text_\w+|pct_tell_\w+")
# Sections that a program may write in. What the loader alone writes (.data.rel.ro) isn't among them.
WRITTEN = re.compile(r"\.(data|bss|tdata|tbss)(\.|$)(?!rel\.ro)")
TWO = """#include "pct.h"
#include <stdio.h>
uint32_t other_tell_version(void);
int main(void) { return printf("%u %u\\n", pct_tell_version(), other_tell_version()) < 0; }
"""


def told(*words: str) -> str:
    return subprocess.run(words, capture_output=True, text=True, check=True).stdout


def defined(file: str, *options: str) -> set[str]:
    """The global names that a file defines."""
    return {line.split()[2] for line in told("nm", "-g", "--defined-only", *options, file).splitlines()
            if len(line.split()) == 3}


def wanted(file: str) -> set[str]:
    """The names that an archive wants of others."""
    names = {line.split()[-1] for line in told("nm", "-u", file).splitlines() if line.strip().startswith("U ")}
    return names - defined(file)


def written(file: str) -> dict[str, int]:
    """The sections of a file that a program may write in, and their sizes."""
    rows = re.findall(r"^ *\d+ (\S+) +([0-9a-f]{8}) ", told("objdump", "-h", file), re.M)
    return {name: int(size, 16) for name, size in rows if WRITTEN.match(name) and int(size, 16)}


def two_link(archive: str, top: str, room: str) -> str:
    """What a program says that links the whole library and a whole copy of it, whose calls have other names."""
    pairs = [f"{name}=other{name.removeprefix('pct')}" for name in sorted(defined(archive))]
    renamed = [word for pair in pairs for word in ("--redefine-sym", pair)]
    copy, source, program = (os.path.join(room, name) for name in ("libother.a", "two.c", "two"))
    subprocess.run(["objcopy", *renamed, archive, copy], check=True)
    with open(source, "w", encoding="ascii") as file:
        file.write(TWO)
    subprocess.run(["cc", f"-I{top}/include", "-o", program, source, "-Wl,--whole-archive", archive, copy,
                    "-Wl,--no-whole-archive"], check=True)
    return told(program)


def checks(folder: str, top: str, room: str) -> Iterator[tuple[str, bool]]:
    archive, shared = os.path.join(folder, "libpct.a"), os.path.join(folder, "libpct.so")
    with open(os.path.join(top, "include", "pct.h"), encoding="ascii") as header:
        declared = set(bound.declarations(header.read()))
    names = defined(archive)
    yield f"libpct.a defines just the header's calls: {sorted(names ^ declared)}", names == declared
    yield "each begins with its family's word", all(map(OWN.fullmatch, names))
    others = {name for name in wanted(archive) if not WANTED_OF_OTHERS.fullmatch(name)}
    yield f"it wants the allocator and mem* alone, not {sorted(others)}", not others
    yield f"it has no data that is written: {written(archive)}", not written(archive)
    exported = defined(shared, "-D")
    yield f"libpct.so exports just them: {sorted(exported ^ declared)}", exported == declared
    yield "two such libraries link together", two_link(archive, top, room) == "1 1\n"
