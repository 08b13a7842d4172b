"""Calls of tools/hunt, for its checks."""

import os
import subprocess
import sys

TOP = os.path.dirname(os.path.dirname(os.path.abspath(__file__)))
HUNT = [sys.executable, os.path.join(TOP, "tools", "hunt")]
PCT = os.path.join(TOP, "bin", "pct")


def at(*names):
    return os.path.join(TOP, *names)


def read(*names):
    with open(at(*names), encoding="utf-8") as file:
        return file.read()


def environment(**more):
    """That of a call of hunt, whatever this process was given."""
    return {name: value for name, value in os.environ.items() if name not in ("GITHUB_ACTIONS", "PCT")} | more


def hunt(*words, env=None, **options):
    """The status, the output and what is said."""
    done = subprocess.run([*HUNT, *words], capture_output=True, text=True, check=False, cwd=TOP, timeout=600,
                          env=environment(**(env or {})), **options)
    return done.returncode, done.stdout, done.stderr


def keep(room, name, text):
    path = os.path.join(room, name)
    os.makedirs(os.path.dirname(path), exist_ok=True)
    with open(path, "w", encoding="utf-8") as file:
        file.write(text)
    return path
