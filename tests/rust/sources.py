"""What the crate's sources keep to: where unsafe code stands, and how long modules and functions are."""

import pathlib
import re
from collections.abc import Iterator

MOST_LINES, MOST_OF_FUNCTION = 500, 40
FUNCTION = re.compile(r'( *)(?:pub(?:\([a-z]+\))? )?(?:const )?(?:unsafe )?(?:extern "C" )?fn \w+')
UNSAFE = re.compile(r"\bunsafe\b(?!_)")


def functions_of(lines: list[str]) -> Iterator[tuple[int, int]]:
    """The first line and the length of each function, by how far it stands in."""
    for first, line in enumerate(lines):
        begun = FUNCTION.match(line)
        head_ends = next((text for text in lines[first:] if text.rstrip().endswith((";", "{", "}"))), "")
        if begun and not head_ends.rstrip().endswith(";"):
            end = begun.group(1) + "}"
            ends = (at for at in range(first, len(lines)) if lines[at].rstrip() == end or lines[at].endswith(" }"))
            last = next(ends, first)
            yield first + 1, last - first + 1


def faults_of(crate: pathlib.Path, unsafe: str = "ffi.rs") -> Iterator[str]:
    """Unsafe code stands in the file of that name alone."""
    for path in sorted((crate / "src").rglob("*.rs")):
        lines, name = path.read_text(encoding="utf-8").splitlines(), path.relative_to(crate)
        if len(lines) > MOST_LINES:
            yield f"{name} has {len(lines)} lines"
        long = [(first, many) for first, many in functions_of(lines) if many > MOST_OF_FUNCTION]
        yield from (f"{name}:{first}: a function of {many} lines" for first, many in long)
        numbered = enumerate(lines, 1) if path.name != unsafe else ()
        yield from (f"{name}:{at}: unsafe" for at, line in numbered if UNSAFE.search(line.split("//")[0]))
