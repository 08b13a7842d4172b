"""Compiles and runs the tests below native/c/tests, for check_c and its parts."""

from __future__ import annotations

import os
import re
import subprocess
from collections.abc import Iterator

TOP = os.path.dirname(os.path.dirname(os.path.abspath(__file__)))
LAYER = os.path.join(TOP, "native", "c")
LIBRARY = os.path.join(os.environ.get("PCT_LIB_DIR", os.path.join(TOP, "lib")), "libpct.a")
PCT = os.environ.get("PCT", os.path.join(TOP, "bin", "pct"))
DOCUMENT = os.path.join(TOP, "tools", "pcthunt", "document.py")
SANITIZERS = ["-O0", "-fsanitize=address,undefined", "-fno-sanitize-recover=all"]
CPP_OF = {"gcc": "g++", "clang": "clang++"}
Checks = Iterator[tuple[str, bool]]


class Builder:
    """Compiles tests in a folder by one C compiler and its companion for C++; the layer once."""

    def __init__(self, room: str, compiler: str, *options: str) -> None:
        self.compiler, self.options = compiler, list(options)
        self.name = " ".join([compiler, *(it for it in options if it.startswith("-fsanitize"))])
        self.room = os.path.join(room, re.sub("[ =,]", "_", self.name))
        self.layer = os.path.join(self.room, "pct_test.o")
        os.makedirs(self.room)
        self.compile(compiler, "-std=c11", "-c", os.path.join(LAYER, "pct_test.c"), "-o", self.layer)

    def compile(self, compiler: str, *words: str) -> None:
        command = [compiler, "-Wall", "-Wextra", "-Werror", "-O1", "-g", *self.options, "-I", LAYER,
                   "-I", os.path.join(TOP, "include"), *words]
        done = subprocess.run(command, capture_output=True, text=True, check=False, timeout=600)
        if done.returncode:
            raise RuntimeError(f"{' '.join(command)}: {done.stderr[:1000]}")

    def build(self, source: str, name: str = "", *words: str) -> str:
        """The path of a program that is made of a file below native/c/tests; a compiler's complaint ends the check."""
        path = os.path.join(self.room, name or os.path.basename(source).replace(".", "_"))
        is_cpp = source.endswith(".cpp")
        self.compile(CPP_OF[self.compiler] if is_cpp else self.compiler, "-std=c++17" if is_cpp else "-std=c11", *words,
                     os.path.join(LAYER, "tests", source), self.layer, LIBRARY, "-pthread", "-ldl", "-o", path)
        return path

    def run(self, *words: str) -> tuple[int, str, str]:
        """The status, what it said and what it complained of; run in the builder's folder."""
        done = subprocess.run(words, capture_output=True, text=True, check=False, cwd=self.room, timeout=900,
                              errors="replace")
        return done.returncode, done.stdout, done.stderr

    def made(self, source: str, *words: str) -> tuple[int, str, str]:
        return self.run(self.build(source), *words)


def shell(builder: Builder, line: str, **more: str) -> tuple[int, str, str]:
    """As `run`, of a line of the shell, with more in the environment."""
    done = subprocess.run(["sh", "-c", line], capture_output=True, text=True, check=False, cwd=builder.room,
                          timeout=900, errors="replace", env={**os.environ, **more})
    return done.returncode, done.stdout, done.stderr
