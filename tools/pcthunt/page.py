"""The page that shows a document of failing runs: one file that reads nothing else, made from the template of web/.

    python3 tools/pcthunt/page.py DOCUMENT.json [--html FILE]

writes the page, as `pct-hunt --page` does."""

from __future__ import annotations

import base64
import gzip
import hashlib
import html
import json
import os
import re
import sys
from string import Template
from typing import Any

sys.dont_write_bytecode = True
if __name__ == "__main__":
    sys.path[0] = os.path.dirname(os.path.dirname(os.path.realpath(__file__)))

from pcthunt.document import complete, without_texts
from pcthunt.inputs import check_output, read
from pcthunt.output import BAD_TRACE, DONE, USAGE, Refused, ends_well, keep, leave, put
from pcthunt.schema import NoDocument, check_document, read_json

Json = dict[str, Any]
WEB = os.path.join(os.path.dirname(os.path.realpath(__file__)), "web")
SCRIPTS = ["state.js", "words.js", "dom.js", "marks.js", "lanes.js", "story.js", "panels.js", "findings.js", "main.js"]
MOST_UNPACKED = 2_000_000  # characters of a document that stands in the page as it is
# What could end the element that has the JSON, or a line of it, and what UTF-8 has no form for.
UNSAFE = re.compile("[<>&\u2028\u2029\ud800-\udfff]")


def part(name: str) -> str:
    """A part of the page, from beside this module."""
    with open(os.path.join(WEB, name), encoding="utf-8") as file:
        return file.read()


def embedded(document: Json) -> tuple[str, str]:
    """The type of an element of HTML that has the document, and what stands in it: JSON, or of a long run packed."""
    text = json.dumps(without_texts(document), ensure_ascii=False, separators=(",", ":"), allow_nan=False)
    if len(text) > MOST_UNPACKED:
        packed = gzip.compress(text.encode(errors="replace"), 3, mtime=0)
        return "application/gzip", base64.b64encode(packed).decode()
    return "application/json", UNSAFE.sub(lambda found: f"\\u{ord(found[0]):04x}", text)


def shown(text: str) -> str:
    """The text as HTML."""
    return html.escape(text.encode(errors="replace").decode()).replace("\n", "&#10;").replace("\r", "&#13;")


def digest(text: str) -> str:
    """By what a content policy knows an element of a script or a style."""
    return "'sha256-" + base64.b64encode(hashlib.sha256(text.encode()).digest()).decode() + "'"


def policy(style: str, code: str) -> str:
    """Nothing is loaded from anywhere, and no other script or style runs."""
    return (f"default-src 'none'; script-src {digest(code)}; style-src {digest(style)}; base-uri 'none'; "
            "form-action 'none'")


def plain(document: Json) -> str:
    """What a reader without JavaScript sees: each failure's sentence, verdict and commands."""
    lines = [f"<p>{shown(heading.get('sentence', ''))} <code>{shown(heading['run']['verdict'])}</code></p>"
             + "".join(f"<p><code>{shown(it['command'])}</code></p>" for it in heading.get("again", []))
             for heading in document["headings"]]
    return "\n".join(lines)


def page_of(document: Json) -> str:
    """The page of a whole document."""
    style = "\n" + part("page.css")
    code = '\n"use strict";\n' + "\n".join(part(name) for name in SCRIPTS)
    kind, embedded_document = embedded(document)
    return Template(part("template.html")).substitute(
        policy=policy(style, code), title=shown(document["title"]), plain=plain(document), style=style,
        kind=kind, document=embedded_document, code=code)


def write_page(document: Json, path: str) -> None:
    """Keeps the page in the file of that name: all of it, or the file is as it was."""
    keep(path, page_of(document))


def whole(document: Json) -> Json:
    """The document, with what is worked out of a first part where a layer wrote no more."""
    is_whole = all("start" in heading["run"] for heading in document["headings"])
    return document if is_whole else complete(document)


def document_in(text: str) -> Json:
    """The document of a text of JSON. Raises NoDocument, with the path of the member that isn't of its form."""
    document = read_json(text)
    check_document(document)
    try:
        return whole(document)
    except (ValueError, KeyError, TypeError, AttributeError, AssertionError, IndexError) as error:
        raise NoDocument(f"its run can't be made again: {type(error).__name__} {error}") from None


def read_document(name: str) -> Json:
    try:
        return document_in(read(name).decode())
    except (NoDocument, UnicodeDecodeError) as error:
        raise Refused(BAD_TRACE, f"{name} is no document of a failing run: {error}") from None


def page_words(words: list[str]) -> int:
    """Writes the page of the document that the words name: on standard output, or into the file behind --html."""
    match words:
        case [name] if not name.startswith("--"):
            put(page_of(read_document(name)))
        case [name, "--html", path] if not name.startswith("--"):
            check_output("--html", path, [name])
            write_page(read_document(name), path)
        case _:
            raise Refused(USAGE, "usage: pct-hunt --page DOCUMENT.json [--html FILE]")
    return DONE


if __name__ == "__main__":
    leave(ends_well("page", lambda: page_words(sys.argv[1:])))
