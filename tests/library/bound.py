"""include/pct.h for Python: its structs and calls, by ctypes over lib/libpct.so."""

import ctypes
import re
from ctypes import POINTER, c_bool, c_int64, c_size_t, c_uint8, c_uint32, c_uint64, c_void_p
from typing import Any, Sequence


class Ask(ctypes.Structure):
    _fields_ = [("kind", c_uint32), ("a", c_uint32), ("b", c_uint32), ("x", c_int64), ("y", c_int64)]


class Event(ctypes.Structure):
    _fields_ = [("thread", c_uint32), ("line", c_uint32), ("ask", Ask), ("answer", c_int64)]


class Outcome(ctypes.Structure):
    _fields_ = [("kind", c_uint32), ("reason", c_uint32), ("thread", c_uint32), ("line", c_uint32),
                ("blocked", c_uint64), ("lines", c_uint32 * 64)]


class Moment(ctypes.Structure):
    _fields_ = [("thread", c_uint32), ("number", c_uint32)]


class Deal(ctypes.Structure):
    _fields_ = [("threads", c_uint32), ("mutexes", c_uint32), ("conditions", c_uint32), ("rwlocks", c_uint32)]


class Turn(ctypes.Structure):
    _fields_ = [("status", c_uint32), ("choice", c_uint32), ("thread", c_uint32), ("answer", c_int64)]


class Count(ctypes.Structure):
    _fields_ = [("status", c_uint32), ("count", c_uint64)]


class Read(ctypes.Structure):
    _fields_ = [("status", c_uint32), ("line", c_uint32), ("fault", c_uint32)]


class Book(ctypes.Structure):
    _fields_ = [("full", c_bool), ("at", c_void_p)]


class Trace(ctypes.Structure):
    _fields_ = [("full", c_bool), ("at", c_void_p)]


class Head(ctypes.Structure):
    _fields_ = [("status", c_uint32), ("version", c_uint32), ("limit", c_uint32), ("threads", c_uint64),
                ("points", c_uint64), ("steps", c_uint64)]


class Directive(ctypes.Structure):
    _fields_ = [("low", c_uint32), ("count", c_uint32), ("moments", Moment * 7), ("verdict", Outcome)]


class Bound(ctypes.Structure):
    _fields_ = [("status", c_uint32), ("low", c_uint64), ("high", c_uint64)]


class Race(ctypes.Structure):
    _fields_ = [("variable", c_uint32), ("first", c_uint32), ("second", c_uint32)]


class Nesting(ctypes.Structure):
    _fields_ = [("step", c_uint32), ("thread", c_uint32), ("held", c_uint32), ("taken", c_uint32)]


class Locks(ctypes.Structure):
    _fields_ = [("status", c_uint32), ("kind", c_uint32), ("count", c_uint64)]


class Row(ctypes.Structure):
    _fields_ = [("seed", c_uint64), ("steps", c_uint32), ("verdict", Outcome)]


class Group(ctypes.Structure):
    _fields_ = [("verdict", Outcome), ("count", c_uint32), ("steps", c_uint32), ("first", c_uint64)]


class Frame(ctypes.Structure):
    _fields_ = [("threads", c_uint32), ("steps", c_uint32), ("depth", c_uint32), ("limit", c_uint32)]


STRUCTS = [Ask, Event, Outcome, Moment, Deal, Turn, Count, Read, Book, Trace, Head, Directive, Bound, Race, Nesting,
           Locks, Row, Group, Frame]
(DONE, ENDED, POSTED, NOT_YET, OVER, BAD, NO_MEMORY, NO_BOOK, NO_ROOM) = range(9)
CHOICE_TURN, CHOICE_WAITS, CHOICE_OVER = 1, 2, 3
(PASSED, FAILED, STUCK, MISUSE, FAULT, CUT, DEPARTED) = range(1, 8)

# What the header calls a type, and what ctypes does. A pointer is one, whatever is const behind it.
OF_HEADER = {"uint8_t": c_uint8, "uint32_t": c_uint32, "uint64_t": c_uint64, "int64_t": c_int64, "size_t": c_size_t,
             **{f"Pct{struct.__name__}": struct for struct in STRUCTS}}
DECLARATION = re.compile(r"^(\w+) (pct_\w+)\(([^)]*)\);", re.M)


def type_of(words: str) -> Any:
    """What a parameter of the header is for ctypes."""
    kind = OF_HEADER[words.replace("const ", "").split()[0].rstrip("*")]
    return POINTER(kind) if "*" in words else kind


def declarations(header: str) -> dict[str, tuple[str, list[str]]]:
    """By call, the type of its answer and its parameters, of the header's text."""
    text = re.sub(r"/\*.*?\*/", "", header, flags=re.S)
    return {name: (answer, [] if parameters == "void" else [" ".join(each.split()) for each in parameters.split(",")])
            for answer, name, parameters in DECLARATION.findall(text)}


def library(file: str, header_file: str) -> ctypes.CDLL:
    """The library with each call of the header."""
    loaded = ctypes.CDLL(file)
    with open(header_file, encoding="ascii") as header:
        declared = declarations(header.read())
    for name, (answer, parameters) in declared.items():
        call = getattr(loaded, name)
        call.argtypes = [type_of(each) for each in parameters]
        call.restype = None if answer == "void" else OF_HEADER[answer]
    return loaded


def items(kind: Any, values: Sequence[Any]) -> tuple[Any, int]:
    """A list for C: where its items are, and their number. An empty list is NULL."""
    return ((kind * len(values))(*values) if values else None), len(values)


def numbers(values: Sequence[int]) -> tuple[Any, int]:
    return items(c_uint32, values)


def text(data: bytes) -> tuple[Any, int]:
    return items(c_uint8, data)
