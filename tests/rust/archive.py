"""The crate out of the archive that ./dist makes: how it finds the library, and the commands of docs/rust.md in an
empty folder."""

import json
import os
import pathlib
import re
import shutil
import subprocess
import tempfile
from collections.abc import Iterator

TOP = pathlib.Path(__file__).resolve().parent.parent.parent
PAGE = TOP / "docs" / "rust.md"
OWN = ("PCT_LIB_DIR", "PCT_SEEDS", "PCT_DEPTH", "PCT_FROM", "PCT_REPLAY", "PKG_CONFIG_PATH", "CARGO_TARGET_DIR",
       "RUSTFLAGS")
MISSING = ("pct: no libpct.a: neither in PCT_LIB_DIR, nor in ../../lib or ../../../lib from this crate, nor by "
           "pkg-config.")
Checks = Iterator[tuple[str, bool]]


def environment(**more: str) -> dict[str, str]:
    """The environment without what this crate and cargo would take from it."""
    kept = {name: value for name, value in os.environ.items() if name not in OWN}
    return {**kept, "CARGO_NET_OFFLINE": "true", "RUST_BACKTRACE": "0", "CARGO_TERM_COLOR": "never", **more}


def linked_paths(crate: pathlib.Path, **more: str) -> tuple[list[str], str]:
    """Where the crate's build looks for libraries, and what it says. It is made anew each time."""
    words = ["cargo", "check", "--quiet", "--message-format", "json"]
    with tempfile.TemporaryDirectory() as target:
        done = subprocess.run(words, cwd=crate, capture_output=True, text=True, check=False,
                              env=environment(CARGO_TARGET_DIR=target, **more))
    told = [json.loads(line) for line in done.stdout.splitlines() if line.startswith("{")]
    return [path for it in told if it["reason"] == "build-script-executed" for path in it["linked_paths"]], done.stderr


def wanted(folder: pathlib.Path) -> list[str]:
    return [f"native={folder.resolve()}"]


def finding(prefix: pathlib.Path, room: pathlib.Path) -> Checks:
    """Each way in which the library is found, and what is said where there is none."""
    crate, library = prefix / "share" / "pct" / "rust", prefix / "lib"
    yield "the library beside an installed crate", linked_paths(crate)[0] == wanted(library)
    inside, alone, other = room / "top" / "native" / "rust", room / "alone" / "far" / "off" / "crate", room / "other"
    for place in (inside, alone):
        shutil.copytree(crate, place)
    for place in (room / "top" / "lib", other):
        place.mkdir()
        shutil.copy(library / "libpct.a", place)
    yield "the library of the repository", linked_paths(inside)[0] == wanted(room / "top" / "lib")
    yield "the library that PCT_LIB_DIR names", linked_paths(inside, PCT_LIB_DIR=str(other))[0] == wanted(other)
    if shutil.which("pkg-config"):
        found, _ = linked_paths(alone, PKG_CONFIG_PATH=str(library / "pkgconfig"))
        yield "the library by pkg-config", found == wanted(library)
    nowhere = str(room / "nowhere")
    yield "no library", MISSING in linked_paths(alone, PKG_CONFIG_LIBDIR=nowhere)[1]
    yield "a wrong PCT_LIB_DIR", MISSING in linked_paths(inside, PCT_LIB_DIR=nowhere)[1]


def version(prefix: pathlib.Path, room: pathlib.Path) -> Checks:
    """A library whose calls are of another version is refused by its number."""
    header = (prefix / "include" / "pct.h").read_text(encoding="utf-8")
    calls = sorted(set(re.findall(r"\b(pct_[a-z_]+)\(", header)) - {"pct_tell_version"})
    source, folder = room / "other.c", room / "version"
    folder.mkdir()
    lines = [f"void {call}(void) {{ abort(); }}" for call in calls]
    begin = "#include <stdlib.h>\nunsigned pct_tell_version(void) { return 2; }\n"
    source.write_text(begin + "\n".join(lines) + "\n", encoding="utf-8")
    subprocess.run(["cc", "-c", source, "-o", folder / "other.o"], check=True)
    subprocess.run(["ar", "rc", folder / "libpct.a", folder / "other.o"], check=True)
    words = ["cargo", "run", "--quiet", "--example", "pool"]
    done = subprocess.run(words, cwd=TOP / "native" / "rust", capture_output=True, text=True, check=False,
                          env=environment(PCT_LIB_DIR=str(folder), CARGO_TARGET_DIR=str(room / "target")))
    sentence = "pct: the library that was linked has another version than this crate"
    yield "a library of another version", sentence in done.stderr


def blocks() -> list[tuple[str, str]]:
    """The commands of the page, and the texts that stand behind some."""
    return re.findall(r"^```(sh|text)\n(.*?)^```$", PAGE.read_text(encoding="utf-8"), re.M | re.S)


def stands_in(text: str, told: str) -> str | None:
    """The first line of a text that isn't, in order, a line of what was told."""
    rest = iter(told.splitlines())
    return next((line for line in text.splitlines() if not any(line == other.rstrip() for other in rest)), None)


def page(prefix: pathlib.Path, room: pathlib.Path) -> Checks:
    """The page's commands, one after the other in an empty folder. A text has lines of what the commands before it
    wrote."""
    folder = room / "empty"
    folder.mkdir()
    commands = [text for kind, text in blocks() if kind == "sh"]
    script = "".join(f"{text}\nprintf '\\n== %s\\n' $?\n" for text in commands)
    done = subprocess.run(["sh"], input=script, cwd=folder, stdout=subprocess.PIPE, stderr=subprocess.STDOUT, text=True,
                          check=False, env=environment(PREFIX=str(prefix)))
    told = re.split(r"^== \d+\n", done.stdout.replace(f"{folder.resolve()}/", ""), flags=re.M)
    yield "the page's commands have an end", len(told) == len(commands) + 1
    number = -1
    for kind, text in blocks():
        number += kind == "sh"
        missing = stands_in(text, told[number].replace("counts/target", "target")) if kind == "text" else None
        if missing is not None:
            print(f"docs/rust.md: no line {missing!r} in\n{told[number]}")
        if kind == "text":
            yield f"the text behind the page's commands {number + 1}", missing is None
