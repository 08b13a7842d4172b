"""What a hunt is asked for."""

from __future__ import annotations

import os
from dataclasses import dataclass, field

from pcthunt.output import typed

AT_DEPTH_1 = 200  # seeds of round 0
SECONDS, DEPTH, DEPTH_BY_SEEDS, SEEDS_OF_A_ROUND = 10.0, 5, 4, 10000  # where none are given


@dataclass
class Settings:
    """What a hunt is asked for. Limits count steps, times seconds; no seconds are no end."""

    depth: int = 4
    seeds: int = 10000
    first: int = 0  # the first seed of each round
    limit: int = 10000
    seconds: float | None = None
    is_timed: bool = False  # it has no number of seeds, and ends by its time
    is_time_given: bool = False
    is_first_enough: bool = False
    jobs: int = 0
    is_quiet: bool = False
    certify: int = 2000  # how many directives are tried
    sshlogin: str | None = None
    given: list[str] = field(default_factory=list)  # the words that were given, without the script

    def command(self, script: str, **others: object) -> str:
        """The command of the hunt, with other options in place of those that were given."""
        words = list(self.given)
        for option, value in others.items():
            name = f"--{option}"
            while name in words:
                at = words.index(name)
                del words[at:at + 2]
            words += [name, str(value)]
        return typed(["pct-hunt", script, *words])


def processors() -> list[int]:
    """The processors that this process may use."""
    if hasattr(os, "sched_getaffinity"):
        return sorted(os.sched_getaffinity(0))
    return list(range(os.cpu_count() or 1))
