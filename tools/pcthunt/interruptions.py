"""Requests to end, by SIGINT and SIGTERM: noted wherever they come, and raised only where a part says that it may be
left."""

from __future__ import annotations

import signal
import threading
from collections.abc import Iterator
from contextlib import contextmanager


class Interruptions:
    """How many signals came, and which was the first."""

    def __init__(self) -> None:
        self.count = 0
        self.heeded = 0  # of these so many are answered for
        self.status = 0  # 128 and the number of the first signal
        self.is_open = False  # whether a signal that comes now is raised

    def heed(self) -> None:
        """Notes signals from here on, also where they are ignored, as in the background of a shell."""
        for number in (signal.SIGINT, signal.SIGTERM):
            signal.signal(number, self.note)

    def note(self, number: int, _: object) -> None:
        self.count += 1
        self.status = self.status or 128 + number
        if self.is_open:
            self.is_open = False
            raise KeyboardInterrupt(self.status)

    def is_noted(self) -> bool:
        """Whether a signal came that nothing answered for yet."""
        return self.count > self.heeded

    def answer(self) -> None:
        """Those that came are answered for: something was left, or it is told."""
        self.heeded = self.count

    def raise_noted(self) -> None:
        if self.is_noted():
            raise KeyboardInterrupt(self.status)

    @contextmanager
    def open(self) -> Iterator[None]:
        """A part that a signal leaves, also one that came before it. What it does may be left anywhere."""
        self.raise_noted()
        self.is_open = True
        try:
            self.raise_noted()
            yield
        finally:
            self.is_open = False

    @contextmanager
    def closed(self) -> Iterator[None]:
        """A part within such a one that has to come to its end. Other threads take no signals."""
        if threading.current_thread() is not threading.main_thread():
            yield
            return
        was_open, self.is_open = self.is_open, False
        try:
            yield
        finally:
            self.is_open = was_open


INTERRUPTIONS = Interruptions()  # those of this process
