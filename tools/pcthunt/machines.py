"""The parts of a round on several machines, by GNU parallel."""

from __future__ import annotations

import base64
import gzip
import math
import os
import re
import selectors
import shutil
import signal
import subprocess
from collections.abc import Iterator

from pcthunt.output import USAGE, Refused
from pcthunt.program import Program, dies_with_us
from pcthunt.reports import SEEDS, NoReport, Report, merged, reports_of
from pcthunt.rounds import BATCH, MOST_OF_A_PART, Crew, Parts, Round

MOST_PARTS, MOST_TRIES = 64, 4
MOST_SENT = 90000  # characters of a script, packed, that go along with a command
NEEDED = ("--sshlogin needs GNU parallel, which isn't here (Debian's package is called parallel); without --sshlogin "
          "the parts are made on this machine alone")


# Of GNU parallel's list a machine: how many jobs, and `:` for this one, or a user, a host and a port.
MACHINE = re.compile(r"([0-9]{1,4}/)?(:|([A-Za-z0-9_][A-Za-z0-9_.-]*@)?([A-Za-z0-9][A-Za-z0-9._-]*|\[[0-9A-Fa-f:.]+\])"
                     r"(:[0-9]{1,5})?)")


def check_machines(given: str) -> None:
    """Refused where a part of the list is none of the form of a machine: GNU parallel would run it as a command."""
    for machine in given.split(","):
        if not MACHINE.fullmatch(machine):
            raise Refused(USAGE, f"--sshlogin: '{machine}' is no machine: wanted is a list such as :,8/user@host:22, "
                                 "of jobs, user, host and port, without commands")


def is_gnu_parallel() -> bool:
    path = shutil.which("parallel")
    if not path:
        return False
    told = subprocess.run([path, "--version"], stdin=subprocess.DEVNULL, capture_output=True, text=True, check=False)
    return "GNU parallel" in told.stdout


class MachineParts(Parts):
    """Hands the parts to GNU parallel. Those that a machine doesn't bring back are made again, by others."""

    def __init__(self, program: Program, script: str, crew: Crew, sshlogin: str) -> None:
        super().__init__(program, script, crew)
        self.sshlogin = sshlogin
        check_machines(sshlogin)
        if not is_gnu_parallel():
            raise Refused(USAGE, NEEDED)

    def command(self, round_: Round) -> list[str]:
        """Each part's output stands between two lines that tell its seeds and its status. The script goes along,
        packed, and is taken away again."""
        with open(self.script, "rb") as file:
            packed = base64.b64encode(gzip.compress(file.read(), mtime=0)).decode()
        if len(packed) > MOST_SENT:
            raise Refused(USAGE, f"the script is too long to be sent along with a command: {len(packed):,} "
                                 "characters, packed")
        words = ["campaign", "script.pct", "--from", "{1}", "--count", "{2}", "--depth", str(round_.depth),
                 "--limit", str(round_.limit), *(["--steps", str(round_.steps)] if round_.steps else [])]
        job = (f"room=$(mktemp -d) && cd \"$room\" && echo {packed} | base64 -d | gzip -d >script.pct && echo part "
               f"{{1}} {{2}} && {{ pct {' '.join(words)}; status=$?; echo end {{1}} $status; cd /; rm -rf \"$room\"; "
               "test $status -le 1; }")
        return ["parallel", "--plain", "--colsep", " ", "--sshlogin", self.sshlogin, "--retries", str(MOST_TRIES), job]

    def reports(self, round_: Round) -> Iterator[Report | None]:
        size = BATCH * max(1, min(MOST_OF_A_PART, math.ceil(round_.wanted / MOST_PARTS)) // BATCH)
        missing = {(round_.first + begun) % SEEDS: min(size, round_.wanted - begun)
                   for begun in range(0, round_.wanted, size)}
        said = ""
        for _ in range(MOST_TRIES):
            if not missing:
                return
            before = len(missing)
            for made in self.run(round_, dict(missing)):
                if isinstance(made, str):
                    said = made
                    continue
                if made:
                    missing.pop(made.rows[0].seed, None)
                yield made
            if len(missing) == before:
                break
        if missing:
            raise Refused(USAGE, f"{len(missing)} parts came back from no machine: "
                                 f"{said.strip().splitlines()[-1] if said.strip() else 'nothing was said'}")

    def run(self, round_: Round, parts: dict[int, int]) -> Iterator[Report | str | None]:
        """The reports of the parts that come back, and then what was said."""
        path = os.pathsep.join([os.path.dirname(os.path.realpath(self.program.words[-1])), os.environ.get("PATH", "")])
        call = subprocess.Popen(self.command(round_), stdin=subprocess.PIPE, stdout=subprocess.PIPE,
                                stderr=subprocess.PIPE, env={**os.environ, "PATH": path}, start_new_session=True,
                                preexec_fn=dies_with_us(signal.SIGINT))
        assert call.stdin and call.stdout and call.stderr
        try:
            call.stdin.write("".join(f"{first} {count}\n" for first, count in parts.items()).encode())
            call.stdin.close()
            reader = Reader(parts)
            said = b""
            with selectors.DefaultSelector() as selector:
                selector.register(call.stdout, selectors.EVENT_READ)
                selector.register(call.stderr, selectors.EVENT_READ)
                while selector.get_map():
                    for key, _ in selector.select(0.1) or []:
                        data = os.read(key.fd, 65536)
                        if not data:
                            selector.unregister(key.fileobj)
                        elif key.fileobj is call.stdout:
                            yield from reader.take(data)
                        else:
                            said += data
                    yield None
            yield said.decode(errors="replace")
        finally:
            if call.poll() is None:
                call.terminate()  # parallel ends its jobs and removes what it sent
                try:
                    call.wait(10)
                except subprocess.TimeoutExpired:
                    call.kill()
            call.wait()


class Reader:
    """Cuts what comes back into whole parts; what isn't whole is left out, and so made again."""

    def __init__(self, parts: dict[int, int]) -> None:
        self.parts = parts
        self.rest = b""
        self.first: int | None = None
        self.lines: list[str] = []

    def take(self, data: bytes) -> Iterator[Report]:
        *whole, self.rest = (self.rest + data).split(b"\n")
        for line in whole:
            words = line.decode("ascii", "replace").split(" ")
            if words[0] == "part":
                self.first, self.lines = int(words[1]) if words[1].isdecimal() else None, []
            elif words[0] == "end":
                report = self.report(words[1:])
                self.first = None
                if report:
                    yield report
            else:
                self.lines.append(" ".join(words))

    def report(self, words: list[str]) -> Report | None:
        if self.first is None or words[:1] != [str(self.first)] or words[1:] not in (["0"], ["1"]):
            return None
        try:
            report = merged(list(reports_of("a machine", "\n".join(self.lines))))
        except NoReport:
            return None
        is_it = report.rows[0].seed == self.first and len(report.rows) == self.parts.get(self.first)
        return report if is_it else None
