#!/usr/bin/env python3
"""Holds this crate beside std: each stable type of the modules that it replaces is here; each stable method and
function has std's signature, by the pages that `cargo doc` makes of this crate (methods.py FOLDER, the folder
`doc/pct`), and is called in tests/parity/calls.rs among the calls of its type where std of the rust-version has it; or
it stands on the list of those left out. What std has comes from rustc's own pages; where these aren't installed, from
tests/parity/methods, which `methods.py --write` makes of them. Ends with a line that says how many there are and
whence."""

import html
import pathlib
import re
import subprocess
import sys
from typing import NamedTuple

HERE = pathlib.Path(__file__).resolve().parent
CRATE = HERE.parent.parent
MODULES = {"sync": "sync", "atomic": "sync/atomic", "mpsc": "sync/mpsc", "thread": "thread", "hint": "hint"}
# What pages of std's own types say of methods isn't this crate's: it hands these types on.
HANDED_ON = {"Arc", "Weak", "PoisonError", "TryLockError", "Ordering", "AccessError", "LocalKey"}
UNSTABLE = "This is a nightly-only experimental API"
MARK = re.compile(r"<(?:/?(?:a|span|div|wbr|code|h4)\b)[^>]*>")
METHOD = re.compile(r'<section id="(?:method|associatedfunction)\.')
CALLS = re.compile(r"// Of ([A-Za-z ]+):\n(.*?)(?=// Of |\Z)", re.S)


class Item(NamedTuple):
    """A type `sync.Mutex`, a method `Mutex.lock` or a function `thread.spawn`: since which version, and its
    signature."""
    name: str
    since: str
    signature: str

    @property
    def version(self) -> list[int]:
        return [int(number) for number in self.since.split(".")[:2]]


def plain(code: str) -> str:
    """A signature without marks, names of parameters, and bounds in two spellings."""
    text = " ".join(html.unescape(MARK.sub("", code)).replace("\xa0", " ").split())
    text = text.split(" { /* private fields */ }")[0]
    bound = re.search(r"fn \w+<(\w+): (.*?)>\(", text)
    if bound:
        name, of = bound.groups()
        text = text.replace(f"<{name}: {of}>(", f"<{name}>(") + f"where {name}: {of},"
    text = re.sub(r"([(,] ?)(?:mut )?[a-z_]\w*: ", r"\1", text).replace("where T: Sized,", "")
    return re.sub(r"\s|,(?=\))|,$", "", text.replace("mut self", "self"))


def since_of(head: str) -> str:
    told = re.search(r"Stable since Rust version ([\d.]+)", head)
    return told.group(1) if told else "0.0"


def methods_of(name: str, page: str) -> list[Item]:
    """The stable inherent methods of a type's page: those before the list of trait implementations."""
    found = []
    for section in METHOD.split(page.split('id="trait-implementations"')[0])[1:]:
        head = section.split('<div class="docblock"')[0]
        code = re.search(r'<h4 class="code-header">(.*?)</h4>', head, re.S)
        if UNSTABLE not in head and code:
            found.append(Item(f"{name}.{re.split(r'[^A-Za-z_0-9]', section)[0]}", since_of(head), plain(code.group(1))))
    return found


def items_of(folder: pathlib.Path) -> list[Item]:
    """The stable items of the pages of a crate."""
    found = []
    for module, part in MODULES.items():
        for path in sorted((folder / part).glob("*.*.html")):
            kind, name = path.name.split(".")[:2]
            page = path.read_text(encoding="utf-8")
            head = page.split('<h2 id="')[0]
            if UNSTABLE in head or kind not in ("struct", "enum", "type", "fn"):
                continue
            code = re.search(r'<pre class="rust item-decl"><code>(.*?)</code></pre>', head, re.S)
            signature = plain(code.group(1)) if code and kind == "fn" else ""
            found.append(Item(f"{module}.{name}", since_of(head), signature))
            if kind == "struct" and name not in HANDED_ON:
                found += methods_of(name, page)
    return found


def std_pages() -> pathlib.Path | None:
    try:
        told = subprocess.run(["rustc", "--print", "sysroot"], capture_output=True, text=True, check=True)
    except (OSError, subprocess.CalledProcessError):
        return None
    folder = pathlib.Path(told.stdout.strip()) / "share/doc/rust/html/std"
    return folder if folder.is_dir() else None


def std_items() -> tuple[list[Item], str]:
    folder = std_pages()
    if folder:
        return items_of(folder), "rustc's own pages"
    lines = (HERE / "methods").read_text(encoding="utf-8").splitlines()
    items = [Item(*[*line.split("\t"), ""][:3]) for line in lines]
    return items, "the list tests/parity/methods, since rustc's pages aren't installed"


def left_out() -> tuple[set[str], set[str]]:
    """The names that are left out, and those of atomics that aren't const here."""
    lines = (HERE / "left_out").read_text(encoding="utf-8").splitlines()
    words = [line.split() for line in lines if line and not line.startswith("#")]
    not_const = {second for first, second, *_ in words if first == "const"}
    return {first for first, *_ in words if first != "const"}, not_const


def calls_by_type() -> dict[str, str]:
    """The calls of each type: those below the comments that name it."""
    found: dict[str, str] = {}
    for names, text in CALLS.findall((HERE / "calls.rs").read_text(encoding="utf-8")):
        for name in names.split():
            found[name] = found.get(name, "") + text
    return found


def handed_on() -> set[str]:
    """The names that modules of this crate take from std as they are."""
    source = "\n".join(path.read_text(encoding="utf-8") for path in sorted((CRATE / "src").rglob("*.rs")))
    uses = re.findall(r"pub use std::\w+(?:::\w+)*::(\{[^}]*\}|\w+);", source)
    return {name for use in uses for name in re.findall(r"\w+", use)}


def fault_of(item: Item, own: dict[str, Item], calls: dict[str, str], taken: set[str], least: list[int]) -> str | None:
    """What is wrong with an item of std here."""
    group, name = item.name.split(".")
    is_taken = group in MODULES and name in taken
    if item.name not in own and not is_taken:
        return "isn't here"
    if not is_taken and item.signature != own[item.name].signature:
        return f"has the signature\n  {own[item.name].signature} in place of\n  {item.signature}"
    is_integer = re.fullmatch(r"Atomic[IU](?:\d+|size)", group)
    text = calls.get("integers" if is_integer else group, "")
    is_call = item.signature and item.version <= least
    if is_call and not re.search(rf"(?:\.|::){name}\b\s*(?:\(|::<|;)", text):
        return "isn't called in parity/calls.rs"
    return None


def main() -> None:
    items, whence = std_items()
    if sys.argv[1:] == ["--write"]:
        (HERE / "methods").write_text("".join("\t".join(item).rstrip() + "\n" for item in items), encoding="utf-8")
        return
    if len(sys.argv) != 2:
        sys.exit("usage: methods.py --write | FOLDER")
    own = {item.name: item for item in items_of(pathlib.Path(sys.argv[1]))}
    least = re.search(r'rust-version = "(\d+)\.(\d+)"', (CRATE / "Cargo.toml").read_text(encoding="utf-8"))
    version = [int(number) for number in least.groups()] if least else []
    calls, taken, (left, not_const) = calls_by_type(), handed_on(), left_out()
    failed = 0
    for item in items:
        is_left = item.name in left or item.name.split(".")[1] in left
        if item.name.startswith("Atomic") and item.name.split(".")[1] in not_const:
            item = item._replace(signature=item.signature.replace("pubconstfn", "pubfn"))
        fault = None if is_left else fault_of(item, own, calls, taken, version)
        if fault:
            failed += 1
            print(f"{item.name} {fault}")
    print(f"parity: {len(items) - failed} passed, {failed} failed, of {whence}")
    sys.exit(failed > 0 or not items)


if __name__ == "__main__":
    main()
