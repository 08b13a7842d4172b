"""The program: where it is, and its calls."""

from __future__ import annotations

import ctypes
import os
import shutil
import signal
import subprocess
import threading
from collections.abc import Callable
from dataclasses import dataclass, field

from pcthunt.interruptions import INTERRUPTIONS
from pcthunt.output import ERROR, NO_MEMORY, OUT_OF_ROOM, USAGE, Refused, reason, typed

TOP = os.path.dirname(os.path.dirname(os.path.dirname(os.path.realpath(__file__))))


PR_SET_PDEATHSIG = 1


def dies_with_us(number: int = signal.SIGKILL) -> Callable[[], None]:
    """What a child does before it begins: it has the system end it when the thread that made it ends."""
    parent, prctl = os.getpid(), getattr(ctypes.CDLL(None), "prctl", None)

    def asks() -> None:
        if prctl is not None and prctl(PR_SET_PDEATHSIG, number) == 0 and os.getppid() != parent:
            os._exit(1)  # the parent ended before that

    return asks


@dataclass(frozen=True)
class Answer:
    status: int
    out: str
    said: str


def status_of(answer: Answer) -> int:
    """The status of a tool whose call of the program didn't come to its end: the call's own, or that of an error."""
    return answer.status if 0 < answer.status < 9 else ERROR


def found() -> str:
    """PCT's words, else the program that ./build leaves, that beside an installed pct-hunt, or that on the path."""
    places = [os.path.join(TOP, "bin", "pct"), os.path.join(TOP, "..", "..", "bin", "pct")]
    places += [path for path in [shutil.which("pct")] if path]
    for path in places:
        if os.path.isfile(path) and os.access(path, os.X_OK):
            return path
    raise Refused(USAGE, f"there is no pct: neither at {places[0]} nor on the path; ./build makes it")


@dataclass
class Program:
    """pct, with all of its calls that are under way."""

    words: list[str]
    running: set[subprocess.Popen[str]] = field(default_factory=set)
    lock: threading.Lock = field(default_factory=threading.Lock)
    is_stopped: bool = False

    @classmethod
    def here(cls) -> Program:
        given = os.environ.get("PCT", "").split()
        return cls(given or [found()])

    def name(self) -> str:
        """What a reader types for it in this folder."""
        path = os.path.realpath(self.words[-1])
        on_path = shutil.which("pct")
        if on_path and os.path.realpath(on_path) == path:
            return "pct"
        for near in (os.path.join("bin", "pct"), os.path.relpath(path)):
            if os.path.exists(near) and os.path.realpath(near) == path and not near.startswith(".."):
                return typed([*self.words[:-1], near])
        return typed([*self.words[:-1], path])

    def call(self, *words: str) -> Answer:
        """What the program answers to the words."""
        with INTERRUPTIONS.closed():
            call = self.begun(words)
            if call is None:
                return Answer(-1, "", "")
            try:
                out, said = self.told(call)
            except BaseException:  # interrupted, the call ends with its caller
                call.kill()
                call.wait()
                raise
            finally:
                with self.lock:
                    self.running.discard(call)
        return Answer(call.returncode, out, said.strip())

    def begun(self, words: tuple[str, ...]) -> subprocess.Popen[str] | None:
        """A call that goes on, or None where none is to begin any more."""
        try:
            with self.lock:
                if self.is_stopped:
                    return None
                call = subprocess.Popen([*self.words, *words], stdin=subprocess.DEVNULL, stdout=subprocess.PIPE,
                                        stderr=subprocess.PIPE, text=True, errors="replace",
                                        start_new_session=True, preexec_fn=dies_with_us())
                self.running.add(call)
        except OSError as error:
            status = NO_MEMORY if error.errno in OUT_OF_ROOM else USAGE
            raise Refused(status, f"{self.words[0]} can't be started: {reason(error)}") from None
        return call

    @staticmethod
    def told(call: subprocess.Popen[str]) -> tuple[str, str]:
        """What the call writes on both streams. In the main thread it is left where a signal came."""
        is_main = threading.current_thread() is threading.main_thread()
        while True:
            try:
                return call.communicate(timeout=0.1 if is_main else None)
            except subprocess.TimeoutExpired:
                INTERRUPTIONS.raise_noted()

    def whole(self, *words: str) -> Answer:
        """The answer, which has to be one of 0 or 1."""
        answer = self.call(*words)
        if answer.status not in (0, 1):
            raise Refused(status_of(answer), f"'{typed(['pct', *words])}' ended with {answer.status}: "
                                             f"{answer.said or 'no word'}")
        return answer

    def stop(self) -> None:
        """Ends the calls that are under way, and begins no more."""
        with self.lock:
            self.is_stopped = True
            for call in self.running:
                call.kill()

    def go_on(self) -> None:
        with self.lock:
            self.is_stopped = False

    def has_caller(self) -> bool:
        return "--serve caller" in self.call("--help").out

    def has_sweep(self) -> bool:
        return any(line.split()[1:2] == ["sweep"] for line in self.call("--help").out.splitlines())
