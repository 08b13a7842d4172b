"""What a hunt says on the error stream while it goes on."""

from __future__ import annotations

import os
import time

SELDOM = 10.0  # seconds between two lines where nobody looks


class Progress:
    """A line that is written over on a terminal; elsewhere a line every ten seconds; or none."""

    def __init__(self, is_quiet: bool, seconds: float | None) -> None:
        self.is_quiet = is_quiet
        self.begun = self.said = self.round_begun = time.monotonic()
        self.end = self.begun + seconds if seconds is not None else None
        self.is_terminal = not is_quiet and is_terminal()
        self.is_shown = False

    def begin_round(self) -> None:
        self.round_begun = time.monotonic()

    def seconds_left(self) -> float | None:
        return None if self.end is None else self.end - time.monotonic()

    def show(self, number: int, depth: int, done: int, wanted: int, failures: int) -> None:
        now = time.monotonic()
        if self.is_quiet or now - self.said < (0.1 if self.is_terminal else SELDOM):
            return
        self.said = now
        rate = done / max(now - self.round_begun, 0.001)
        left = (wanted - done) / rate if rate else None
        if self.end is not None:
            left = max(0.0, min(self.end - now, left) if left is not None else self.end - now)
        told = f"round {number}, depth {depth}: {done:,} of {wanted:,} seeds, {rate:,.0f} a second, {failures:,} fail"
        self.write(told + (f", {left:,.0f} s left" if left is not None else ""))

    def tell(self, what: str) -> None:
        """What is done after the search: on a terminal at once, elsewhere where ten seconds have passed."""
        now = time.monotonic()
        if not self.is_quiet and (self.is_terminal or now - self.said >= SELDOM):
            self.said = now
            self.write(what)

    def write(self, line: str) -> None:
        text = f"\r\x1b[K{line[:78]}" if self.is_terminal else f"hunt: {line}\n"
        self.is_shown = self.is_terminal
        try:
            os.write(2, text.encode())
        except OSError:
            self.is_quiet = True

    def clear(self) -> None:
        if self.is_shown:
            self.is_shown = False
            try:
                os.write(2, b"\r\x1b[K")
            except OSError:
                self.is_quiet = True


def is_terminal() -> bool:
    try:
        return os.isatty(2)
    except OSError:
        return False
