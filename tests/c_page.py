"""A page, docs/c.md or another, as its reader has it: the archive that ./dist makes, and its lines run beside it."""

from __future__ import annotations

import os
import pathlib
import re
import subprocess

from unpacked import unpacked


class Page:
    """The archive that ./dist makes, unpacked, and an empty folder in which the page's lines are run."""

    def __init__(self, room: str, name: str = "c.md") -> None:
        self.folder = os.path.join(room, "alone")
        os.mkdir(self.folder)
        prefix = unpacked(pathlib.Path(room))
        if prefix is None:
            raise RuntimeError("./dist made no archive")
        library = os.path.join(prefix, "lib")
        self.paths = {"PKG_CONFIG_PATH": os.path.join(library, "pkgconfig")}
        self.docs = os.path.join(prefix, "share", "doc", "pct", "docs")
        with open(os.path.join(self.docs, name), encoding="utf-8") as file:
            self.text = file.read().replace("/usr/local", str(prefix))

    def blocks(self, kind: str) -> list[str]:
        return re.findall(rf"^```{kind}\n(.*?)^```$", self.text, re.M | re.S)

    def broken_links(self) -> list[str]:
        """Links of the page to files that aren't installed."""
        links = re.findall(r"\]\(([^)#:]+)(?:#[^)]*)?\)", self.text)
        return [link for link in links if not os.path.exists(os.path.join(self.docs, link))]

    def here(self, lines: str) -> subprocess.CompletedProcess[str]:
        return subprocess.run(["sh", "-c", lines], capture_output=True, text=True, check=False, cwd=self.folder,
                              env={**os.environ, **self.paths})

    def write(self, name: str, text: str) -> None:
        with open(os.path.join(self.folder, name), "w", encoding="utf-8") as file:
            file.write(text)
