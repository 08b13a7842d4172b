"""Each bad argument of each call: the status is PCT_BAD, and nothing is changed, neither of the caller's memory nor of
a book or a trace, by what they tell."""

import copy
import ctypes
from ctypes import byref
from typing import Any, Iterator

import bound
from bound import (BAD, DONE, FAILED, FAULT, MISUSE, NO_ROOM, STUCK, Ask, Book, Deal, Directive, Event, Frame, Moment,
                   Nesting,
                   Outcome, Race, Row, Trace)

MOST = 2**32 - 1
NAMES = b"thread A\nthread B\nvar x\nmutex m\ncond c\nsem s\nbarrier b\nrwlock l\n"
TRACE = b"trace 2\norder A B\npoints 1\nlimit 9\n1 A 3 write x 1 = 0\n2 B 4 read x = 1\nverdict failed B 5\n"
DIRECTIVE = b"directive 1\nlow B\nafter A 1\nverdict failed B 5\n"
# How many objects there are of what an ask names by `a`, by the kinds of asks; `b` is a mutex.
OBJECT_ASKS = [*range(1, 17), *range(26, 31)]
ITEMS = {"uint32_t": ctypes.c_uint32, "int64_t": ctypes.c_int64, "uint8_t": ctypes.c_uint8}
FAILED_B = Outcome(FAILED, 0, 1, 5)
STEPS = [Event(0, 3, Ask(2, 0, 0, 1), 0), Event(1, 4, Ask(1), 1)]


def room(kind: Any, count: int) -> Any:
    """A buffer whose bytes are all the same."""
    made = (kind * count)()
    ctypes.memset(made, 0xA5, ctypes.sizeof(made))
    return made


def changed(value: Any, **fields: Any) -> Any:
    """A copy of a struct with other fields. Those of an inner one are its name, two lines and their own."""
    made = copy.deepcopy(value)
    for field, number in fields.items():
        *outer, last = field.split("__")
        part = made
        for name in outer:
            part = getattr(part, name)
        setattr(part, last, number)
    return made


def of_outcomes() -> Iterator[Outcome]:
    """Outcomes that aren't verdicts over two names."""
    yield from (Outcome(kind) for kind in (0, 7, 8, MOST))
    for kind, reason in ((FAILED, 0), (MISUSE, 1), (FAULT, 1)):
        yield from (Outcome(kind, reason, thread, line) for thread, line in ((2, 5), (MOST, 5), (0, 0), (0, 4097)))
    yield from (Outcome(MISUSE, reason, 0, 5) for reason in (0, 5, MOST))
    yield from (Outcome(FAULT, reason, 0, 5) for reason in (0, 4, MOST))
    beyond, without_line = Outcome(STUCK, 0, 0, 0, 4), Outcome(STUCK, 0, 0, 0, 1)
    beyond.lines[2] = 5
    yield from (beyond, without_line, Outcome(STUCK))


def of_steps() -> Iterator[list[Event]]:
    """Steps that say nothing of two threads and one object of each kind."""
    asks = [Ask(0), Ask(31), Ask(MOST), Ask(8, 0, 1), Ask(9, 0, 1), Ask(17, 2), Ask(24, 2)]
    asks += [Ask(kind, 1) for kind in OBJECT_ASKS]
    yield from ([STEPS[0], Event(1, 4, ask)] for ask in asks)
    yield from ([Event(thread, 4, Ask(1)), STEPS[1]] for thread in (2, MOST))


def of_names() -> Iterator[bytes]:
    lines = ["thread", "thread A B", "threads C", "thread A", "var x", "mutex A", "var 1x", "var x-y",
             f"var {'y' * 33}", "var read",
             "var r1", "var  y", "\n"]
    yield from (NAMES + f"{line}\n".encode() for line in lines)
    yield NAMES + b"".join(b"var x%d\n" % number for number in range(64))
    yield NAMES + b"var \xff\n"


DEAL = {"deal": Deal(2, 1, 1, 1), "variables": [0], "semaphores": [0], "barriers": [2]}
BAD_DEAL = [
    *(("deal", changed(DEAL["deal"], **{field: count}))
      for field, counts in (("threads", (0, 65, MOST)), ("mutexes", (65,)), ("conditions", (65,)),
                            ("rwlocks", (65, MOST)))
      for count in counts),
    *((name, [1] * 65) for name in ("variables", "semaphores", "barriers")),
    ("semaphores", [-1]), ("semaphores", [2**31]), ("barriers", [0]), ("barriers", [1001]), ("barriers", [-1])]
BAD_ORDER = [("order", order) for order in ([0], [0, 1, 1], [0, 0], [0, 2], [MOST, 0], [])]
BAD_LIMIT = [("limit", limit) for limit in (0, 100001, MOST)]
BAD_NAMES = [("names", names) for names in of_names()]
BAD_STEPS = [("steps", steps) for steps in of_steps()]
BAD_VERDICTS = [("verdict", verdict) for verdict in of_outcomes()]
LONG = [Moment(0, 1)] * 8
FOUND = Directive(1, 1, (Moment * 7)(Moment(0, 1)), FAILED_B)
ROWS = [Row(1, 2, FAILED_B), Row(2, 2, Outcome(1))]
REPORT = {"names": NAMES, "frame": Frame(2, 2, 2, 9), "rows": ROWS, "text": room(ctypes.c_uint8, 512)}
BAD_REPORT = [*BAD_NAMES, ("rows", [ROWS[1]] * 100001),
              *(("rows", [ROWS[1], Row(1, 2, outcome)]) for outcome in of_outcomes())]
# Of these reports and lists no names are asked: any thread and any line will do.
BAD_ROWS = [("rows", [ROWS[1]] * 100001)] + [
    ("rows", [ROWS[1], Row(1, 2, outcome)]) for outcome in of_outcomes()
    if outcome.kind not in (FAILED, STUCK) and not (outcome.kind in (MISUSE, FAULT) and outcome.reason == 1)]
NO_STEPS = [("steps", [STEPS[0], Event(1, 4, Ask(0))]), ("steps", [Event(0, 3, Ask(31)), STEPS[1]]),
            ("steps", [STEPS[0]] * 100001)]
# By call, what it takes well, and the arguments that are bad, by their names in the header.
GIVEN: dict[str, tuple[dict[str, Any], list[tuple[str, Any]]]] = {
    "pct_draw": (
        {"seed": 1, "threads": 2, "steps": 5, "depth": 3, "order": room(ctypes.c_uint32, 2),
         "points": room(ctypes.c_uint32, 2)},
        [("threads", 0), ("threads", 1), ("threads", 3), ("threads", 65), ("steps", 0), ("steps", 100001), ("depth", 0),
         ("depth", 2),
         ("depth", 4), ("depth", 9), ("orders", 1), ("count", 1)]),
    "pct_book_by_points": ({**DEAL, "order": [1, 0], "points": [1], "limit": 9},
                           [*BAD_DEAL, *BAD_ORDER, *BAD_LIMIT, ("points", [1] * 8)]),
    "pct_book_by_moments": ({**DEAL, "order": [1, 0], "moments": [Moment(0, 1)], "limit": 9},
                            [*BAD_DEAL, *BAD_ORDER, *BAD_LIMIT, ("moments", LONG)]),
    "pct_book_by_list": ({**DEAL, "threads": [1, 0], "limit": 9},
                         [*BAD_DEAL, *BAD_LIMIT, ("threads", [2]), ("threads", [0, MOST])]),
    "pct_text_trace": (
        {"names": NAMES, "version": 2, "limit": 9, "order": [0, 1], "points": [1], "steps": STEPS, "verdict": FAILED_B,
         "text": room(ctypes.c_uint8, 512)},
        [*BAD_NAMES, ("version", 0), ("version", 3), ("limit", 1), *BAD_LIMIT, *BAD_ORDER, ("points", [1] * 8),
         ("points", [0]),
         ("points", [100001]), *BAD_STEPS, *BAD_VERDICTS,
         *(("steps", [changed(STEPS[0], line=line), STEPS[1]]) for line in (0, 4097, MOST))]),
    "pct_text_verdict": ({"names": NAMES, "verdict": FAILED_B, "text": room(ctypes.c_uint8, 64)},
                         [*BAD_NAMES, *BAD_VERDICTS]),
    "pct_text_directive": (
        {"names": NAMES, "directive": FOUND, "text": room(ctypes.c_uint8, 256)},
        [*BAD_NAMES, *(("directive", changed(FOUND, verdict=outcome)) for outcome in of_outcomes()),
         *(("directive", changed(FOUND, **{field: number}))
           for field, number in (("low", 2), ("low", MOST), ("count", 8), ("count", MOST))),
         *(("directive", changed(FOUND, moments=(Moment * 7)(Moment(*each))))
           for each in ((2, 1), (0, 0), (0, 100001)))]),
    "pct_text_read_directive": ({"names": NAMES, "text": DIRECTIVE, "directive": room(Directive, 1)},
                                [*BAD_NAMES, ("text", b""), ("text", DIRECTIVE[:-1]), ("text", b"x" + DIRECTIVE)]),
    "pct_text_read_trace": ({"names": NAMES, "text": TRACE},
                            [*BAD_NAMES, ("text", b""), ("text", TRACE[:-1]), ("text", b"x" + TRACE)]),
    "pct_text_trace_order": ({"order": room(ctypes.c_uint32, 2), "points": room(ctypes.c_uint32, 1)},
                             [("order_count", 1), ("order_count", 0), ("point_count", 0),
                              ("order", room(ctypes.c_uint32, 3)),
                              ("points", room(ctypes.c_uint32, 2))]),
    "pct_text_trace_steps": ({"from": 0, "steps": room(Event, 2)},
                             [("from", 1), ("from", 3), ("from", MOST), ("steps", room(Event, 3))]),
    "pct_text_report": (REPORT, BAD_REPORT),
    "pct_text_report_json": (REPORT, BAD_REPORT),
    "pct_tell_moments": ({"steps": STEPS, "points": [1], "moments": room(Moment, 7)},
                         [("points", [1] * 8), ("points", [0]), *NO_STEPS]),
    "pct_tell_points": ({"steps": STEPS, "most": 9, "moments": [Moment(0, 1)], "points": room(ctypes.c_uint32, 1)},
                        [("moments", LONG), ("most", 0), ("most", 100001), ("point_count", 0),
                         ("points", room(ctypes.c_uint32, 2)), *NO_STEPS]),
    "pct_tell_order_count": ({"threads": 3}, [("threads", 0), ("threads", 8), ("threads", MOST)]),
    "pct_tell_order": ({"threads": 3, "low": 2, "place": 1, "order": room(ctypes.c_uint32, 3)},
                       [("threads", 0), ("threads", 2), ("threads", 8), ("low", 3), ("low", MOST), ("place", 2),
                        ("place", MOST),
                        ("order_count", 2)]),
    "pct_tell_bound": ({"threads": 3, "steps": 8, "points": 2},
                       [("threads", 0), ("threads", 8), ("steps", 0), ("steps", 100001), ("points", 8)]),
    "pct_tell_races": ({**DEAL, "steps": STEPS, "races": room(Race, 2)}, [*BAD_DEAL, *BAD_STEPS]),
    "pct_tell_lock_order": ({**DEAL, "steps": STEPS, "mutexes": room(ctypes.c_uint32, 1), "nestings": room(Nesting, 1)},
                            [*BAD_DEAL, *BAD_STEPS]),
    "pct_tell_groups": ({"rows": ROWS, "groups": room(bound.Group, 2)}, BAD_ROWS),
}


class Call:
    """A call with arguments by their names, over memory of its own."""

    def __init__(self, calls: Any, declared: list[str], name: str, given: dict[str, Any]) -> None:
        self.call, self.kept = getattr(calls, name), []
        self.arguments: list[Any] = []
        for parameter in declared:
            words, last = parameter.rsplit(None, 1)
            self.add(words, last.lstrip("*"), "*" in last, given)

    def add(self, kind: str, name: str, is_pointer: bool, given: dict[str, Any]) -> None:
        """An argument: a count that isn't given is that of the list before it."""
        value = given.get(name, self.kept[-1] if self.kept else None)
        if not is_pointer:
            self.arguments.append(len(value) if name not in given else value)
            return
        if isinstance(value, (list, bytes)):
            of_item = ITEMS.get(kind.split()[-1]) or getattr(bound, kind.split()[-1].removeprefix("Pct"))
            value = (of_item * len(value))(*value)
        elif isinstance(value, ctypes.Array):
            value = type(value).from_buffer_copy(value)
        self.kept.append(value)
        self.arguments.append(value if isinstance(value, ctypes.Array) else byref(value))

    def status(self) -> int:
        told = self.call(*self.arguments)
        return told if isinstance(told, int) else told.status

    def memory(self) -> bytes:
        return b"".join(map(bytes, self.kept))


def told_by_book(calls: Any, book: Book) -> bytes:
    """All that a book tells."""
    length, outcome = calls.pct_book_length(byref(book)), Outcome()
    steps = (Event * length.count)()
    status = calls.pct_book_steps(byref(book), 0, steps, length.count), calls.pct_book_outcome(byref(book),
                                                                                               byref(outcome))
    turn = calls.pct_book_next(byref(book))
    return bytes(length) + bytes(steps) + bytes(outcome) + repr((status, turn.status, turn.choice,
                                                                 turn.thread)).encode()


def a_book(calls: Any) -> Book:
    """A book of three threads: the first is away, the second asks for its second step, and the third has ended."""
    book, order = Book(), (ctypes.c_uint32 * 3)(2, 1, 0)
    lists = [part for values in ([0], [0], [2]) for part in bound.items(ctypes.c_int64, values)]
    calls.pct_book_by_points(byref(book), byref(Deal(3, 1, 1, 1)), *lists, order, 3, None, 0, 9)
    for name, thread, ask in (("post", 2, Ask(0)), ("step", 1, Ask(18)), ("post", 1, Ask(5))):
        getattr(calls, f"pct_book_{name}")(byref(book), thread, 7, byref(ask))
    return book


def of_turns(calls: Any) -> Iterator[tuple[str, bool]]:
    """Posts, takes, steps and readings that a book refuses."""
    book = a_book(calls)
    before = told_by_book(calls, book)
    asks = [Ask(31), Ask(MOST), Ask(8, 0, 1), Ask(9, 0, MOST), Ask(17, 3), Ask(24, 3),
            *(Ask(kind, 1) for kind in OBJECT_ASKS)]
    posts = [(thread, Ask(18)) for thread in (1, 2, 3, 64, MOST)] + [(0, ask) for ask in asks]
    for name in ("pct_book_post", "pct_book_step"):
        for thread, ask in posts:
            turn = getattr(calls, name)(byref(book), thread, 7, byref(ask))
            what = f"{name} of thread {thread}, ask {ask.kind} {ask.a} {ask.b}: status {turn.status}"
            yield what, (turn.status, turn.answer) == (BAD, 0) and told_by_book(calls, book) == before
    for thread in (0, 2, 3, 64, MOST):
        turn = calls.pct_book_take(byref(book), thread)
        yield f"pct_book_take of thread {thread}: {turn.status}", (turn.status, told_by_book(calls, book)) == (BAD,
                                                                                                               before)
    for begin, count in ((0, 2), (1, 1), (2, 0), (MOST, 0), (MOST, 2)):
        steps = room(Event, 2)
        status = calls.pct_book_steps(byref(book), begin, steps, count)
        yield f"pct_book_steps from {begin}, {count}: {status}", (status, bytes(steps)) == (BAD, bytes(room(Event, 2)))
    calls.pct_book_free(byref(book))


def shown(value: Any) -> str:
    """A bad argument, in few words."""
    if isinstance(value, list):
        return f"[{', '.join(map(shown, value[-2:]))}] of {len(value)}"
    fields = getattr(value, "_fields_", None)
    return f"{type(value).__name__} {bytes(value)[:40].hex()}" if fields else repr(value)[-60:]


def of_call(calls: Any, declared: dict[str, tuple[str, list[str]]], name: str) -> Iterator[tuple[str, bool]]:
    """A call with each of its bad arguments. Its handle has a book, or a trace."""
    well, bad = GIVEN[name]
    parameters = declared[name][1]
    book, trace = a_book(calls), Trace()
    read = calls.pct_text_read_trace(byref(trace), *bound.text(NAMES), *bound.text(TRACE))
    given = {**well, "book": book, "trace": trace}
    for parameter, value in bad:
        call = Call(calls, parameters, name, {**given, parameter: value})
        memory, told = call.memory(), told_by_book(calls, book)
        status = call.status()
        is_kept = call.memory() == memory and told_by_book(calls, book) == told
        yield f"{name}, {parameter} {shown(value)}: status {status}", status == BAD and is_kept
    call = Call(calls, parameters, name, given)
    yield f"{name} as it is well: {call.status()}", read.status == DONE and call.status() in (DONE, NO_ROOM)
    calls.pct_book_free(byref(book))
    calls.pct_text_trace_free(byref(trace))


def checks(calls: Any, header_file: str) -> Iterator[tuple[str, bool]]:
    with open(header_file, encoding="ascii") as header:
        declared = bound.declarations(header.read())
    yield from of_turns(calls)
    for name in GIVEN:
        yield from of_call(calls, declared, name)
