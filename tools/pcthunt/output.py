"""How the tools write: all of it or a line and a status, and never a traceback; foreign text as what it is."""

from __future__ import annotations

import errno
import os
import shlex
import sys
from collections.abc import Callable

# The statuses, as those of pct; 9 is an error in a tool, or in what it calls.
DONE, FOUND, USAGE, BAD_SCRIPT, BAD_TRACE, BAD_DIRECTIVE, READ_FAULT, WRITE_FAULT, NO_MEMORY, ERROR = range(10)
INTERRUPTED, ENDED = 130, 143  # by SIGINT, and by SIGTERM
OUT_OF_ROOM = (errno.ENOMEM, errno.EAGAIN)  # what the system answers where there is no memory or no thread left
LONGEST_LINE = 4096  # characters of a line that is shown


def shown(text: str) -> str:
    """The text with what isn't printable (control characters, bidi marks, line breaks) written by its code, so that
    nothing of it acts on a terminal or in a log."""
    if text.isprintable():
        return text
    return "".join(it if it.isprintable() else it.encode("unicode_escape").decode() for it in text)


def cut_line(text: str) -> str:
    """A line as it is shown: of a long one its beginning."""
    return text if len(text) <= LONGEST_LINE else text[:LONGEST_LINE - 2] + ".."


def shown_lines(text: str) -> str:
    """The text, line by line as it is shown. At GitHub none of its lines is a command to the runner."""
    return "\n".join(map(shown_line, text.split("\n")))


def shown_line(line: str) -> str:
    """The line as it is shown. At GitHub it is no command to the runner: one begins with `::` or has `##[` anywhere."""
    line = shown(line)
    if not is_at_github():
        return line
    begin = len(line) - len(line.lstrip())
    if line.startswith("::", begin):
        line = f"{line[:begin]}\\x3a{line[begin + 1:]}"
    return line.replace("##[", "#\\x23[")


def is_at_github() -> bool:
    return os.environ.get("GITHUB_ACTIONS") == "true"


def typed(words: list[str]) -> str:
    """The words as a shell takes them, in one line that is printable and no command to GitHub's runner."""
    return " ".join(shlex.quote(word) if word.isprintable() and "##[" not in word else printed(word)
                    for word in words)


def printed(word: str) -> str:
    """A word that isn't printable, as what `printf` makes of it."""
    parts = [it if it.isprintable() else "".join(f"\\0{byte:03o}" for byte in it.encode(errors="surrogateescape"))
             for it in word.replace("\\", "\\\\")]
    escaped = "".join(parts).replace("##[", "#\\0043[")
    return f'"$(printf %b {shlex.quote(escaped)})"'


class Refused(Exception):
    """A status, and the line or lines that say why, as they are shown."""

    def __init__(self, status: int, *lines: str) -> None:
        super().__init__(status, *lines)
        self.status, self.why = status, "\n".join(map(shown, lines))


def say(line: str) -> None:
    """A line, or lines, on the error stream. That it can't be written changes nothing."""
    try:
        os.write(2, f"{shown_lines(line)}\n".encode(errors="backslashreplace"))
    except OSError:
        pass


def put(text: str) -> None:
    """All of the text on standard output, as it is."""
    data = memoryview(text.encode(errors="backslashreplace"))
    try:
        while data:
            data = data[os.write(1, data):]
    except OSError as error:
        raise Refused(WRITE_FAULT, f"standard output can't be written: {error.strerror}") from None


def keep(name: str, text: str | bytes) -> None:
    """The text in the file of that name: all of it, or the file is as it was."""
    from pcthunt.interruptions import INTERRUPTIONS
    data = text if isinstance(text, bytes) else text.encode(errors="backslashreplace")
    try:
        if os.path.exists(name) and not os.path.isfile(name):  # a pipe or a device is written to in its place
            with open(name, "wb") as file:
                file.write(data)
        else:
            with INTERRUPTIONS.closed():
                replace(name, data)
    except (OSError, ValueError) as error:
        raise Refused(WRITE_FAULT, f"{name} can't be written: {reason(error)}") from None


def replace(name: str, data: bytes) -> None:
    """Puts a file with the data in the place of what has the name."""
    import tempfile
    handle, room = tempfile.mkstemp(dir=os.path.dirname(os.path.abspath(name)), prefix=".pct-")
    try:
        with open(handle, "wb") as file:
            file.write(data)
        os.chmod(room, 0o666 & ~umask())
        os.replace(room, name)
    except BaseException:
        os.unlink(room)
        raise


def umask() -> int:
    mask = os.umask(0)
    os.umask(mask)
    return mask


def reason(error: BaseException) -> str:
    return str(getattr(error, "strerror", None) or error)


def hold_streams() -> None:
    """Where a standard stream is closed, its number is taken, so that no file of the tool gets it; a write there
    fails."""
    for number in range(3):
        try:
            os.fstat(number)
        except OSError:
            os.open(os.devnull, os.O_RDONLY)


def ends_well(tool: str, main: Callable[[], int]) -> int:
    """The status of a tool's main, whatever comes of it."""
    try:
        hold_streams()
        return main()
    except Refused as refused:
        say(f"{tool}: {refused.why}")
        return refused.status
    except SystemExit as ended:  # argparse's own end, at --help and at words that aren't taken
        return ended.code if isinstance(ended.code, int) else USAGE
    except KeyboardInterrupt as interrupted:
        status = int(interrupted.args[0]) if interrupted.args else INTERRUPTED
        say(f"{tool}: interrupted; the same words begin again")
        return status
    except BaseException as error:  # what nothing else caught: never a traceback, and never a status of a result
        return of_error(tool, error)


def of_error(tool: str, error: BaseException) -> int:
    """Says in a line what nothing foresaw, and answers the status for it."""
    if is_out_of_room(error):
        say(f"{tool}: there is no memory, or no thread, left for this ({shown(str(error)) or 'no memory'})")
        return NO_MEMORY
    if isinstance(error, OSError) and error.filename is not None:
        say(f"{tool}: {shown(str(error.filename))}: {error.strerror}")
        return WRITE_FAULT if error.errno == errno.ENOSPC else READ_FAULT
    if os.environ.get("PCT_TRACEBACK"):
        import traceback
        say("".join(traceback.format_exception(error)).rstrip())
    say(f"{tool}: an error in the tool ({place_of(error)}{type(error).__name__}: {shown(str(error))[:200]}); please "
        "report it with these words, its files, and what PCT_TRACEBACK=1 adds")
    return ERROR


def is_out_of_room(error: BaseException) -> bool:
    """Whether the system had no memory or no thread left: also where Python finds none for a module."""
    said = str(error)
    return (isinstance(error, MemoryError) or isinstance(error, OSError) and error.errno in OUT_OF_ROOM
            or isinstance(error, RuntimeError) and "start new thread" in said
            or isinstance(error, ImportError) and ("map segment" in said or "allocate memory" in said))


def place_of(error: BaseException) -> str:
    """The line of the tool at which the error was raised."""
    trace, place = error.__traceback__, ""
    while trace is not None:
        place = f"{os.path.basename(trace.tb_frame.f_code.co_filename)}:{trace.tb_lineno}: "
        trace = trace.tb_next
    return place


def leave(status: int) -> None:
    """Ends the process. What was put is written; Python's own streams have nothing left to say."""
    sys.stdout = sys.stderr = None  # type: ignore[assignment]
    os._exit(status)
