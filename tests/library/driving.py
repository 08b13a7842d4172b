"""A layer over the library, for a test of it: the bodies of the plain model post and take, and what comes of it is told
in the words of the program."""

import random
from ctypes import byref, c_int64, c_uint8
from typing import Any, Callable, Optional

from bound import (CHOICE_OVER, CHOICE_TURN, CHOICE_WAITS, DONE, ENDED, NOT_YET, NO_ROOM, POSTED, Ask, Book, Deal,
                   Event,
                   Moment, Outcome, items, numbers, text)
from pctmodel.run import Body
from pctmodel.trace import ASKS, ASKS_OF_2

KINDS = ["", "read", "write", "add", "cas", "lock", "trylock", "unlock", "release", "regain", "signal", "broadcast",
         "down",
         "trydown", "up", "arrive", "leave", "join", "yield", "check 1", "check 0", "fault overflow",
         "fault zerodivisor",
         "fault spin", "start", "begin", "rdlock", "wrlock", "tryrdlock", "trywrlock", "rwunlock"]
FAULTS = ["", "TooLong", "BadHeader", "BadLine", "UnknownName", "OutOfOrder", "NoVerdict", "MoreAfterVerdict"]
LIMIT = 10000


class Different(Exception):
    """A call answers other than it must."""


def want(what: str, found: Any, *wanted: Any) -> None:
    if found not in wanted:
        raise Different(f"{what}: {found}, not {' or '.join(map(str, wanted))}")


class Script:
    """What the library is told of a script: its deal, its lists of first values, and its names."""

    def __init__(self, parsed: Any) -> None:
        self.parsed, objects = parsed, parsed.objects
        self.threads = list(parsed.threads)
        self.places = {kind: {name: place for place, name in enumerate(names)}
                       for kind, names in [*objects.items(), ("thread", parsed.threads)]}
        self.deal = Deal(len(self.threads), *(len(objects[kind]) for kind in ("mutex", "cond", "rwlock")))
        self.lists = [part for kind in ("var", "sem", "barrier")
                      for part in items(c_int64, list(objects[kind].values()))]
        lines = [f"{kind} {name}\n" for kind, names in self.places.items() for name in names]
        self.names = text("".join(lines).encode())
        self.version = 2 if parsed.version == 3 else 1

    def order(self, names: list[str]) -> list[int]:
        return [self.places["thread"][name] for name in names]

    def ask(self, asked: Optional[tuple[Any, ...]]) -> Ask:
        """The numbers of an ask of the model."""
        if asked is None:
            return Ask()
        form = {**ASKS, **ASKS_OF_2}[asked[0]].split()
        if form and "|" in form[0]:
            return Ask(KINDS.index(f"{asked[0]} {asked[1]}"))
        objects = [self.places[kind][word] for kind, word in zip(form, asked[1:]) if kind != "VALUE"]
        values = [word for kind, word in zip(form, asked[1:]) if kind == "VALUE"]
        return Ask(KINDS.index(asked[0]), *(objects + [0, 0])[:2], *(values + [0, 0])[:2])


class Layer:
    """The calls of the library over the bodies of one script."""

    def __init__(self, calls: Any, script: Any) -> None:
        self.calls, self.script = calls, Script(script)

    def make(self, by: str, limit: int, *lists: Any) -> Book:
        book, script = Book(), self.script
        status = getattr(self.calls, f"pct_book_by_{by}")(byref(book), byref(script.deal), *script.lists, *lists, limit)
        want(f"pct_book_by_{by}", status, DONE)
        return book

    def by_points(self, order: list[int], points: list[int], limit: int) -> Book:
        return self.make("points", limit, *numbers(order), *numbers(points))

    def by_moments(self, order: list[int], moments: list[tuple[int, int]], limit: int) -> Book:
        return self.make("moments", limit, *numbers(order), *items(Moment, [Moment(*each) for each in moments]))

    def run(self, book: Book, dice: random.Random) -> tuple[list[Event], Outcome]:
        """Serves the bodies, in any of the ways in which a layer may, and answers the steps and the outcome. The book
        is freed."""
        serving = Serving(self, book, dice)
        while serving.choice != (CHOICE_OVER, 0):
            serving.move()
        steps, outcome = self.steps(book, dice), Outcome()
        want("pct_book_outcome", self.calls.pct_book_outcome(byref(book), byref(outcome)), DONE)
        self.calls.pct_book_free(byref(book))
        return steps, outcome

    def steps(self, book: Book, dice: random.Random) -> list[Event]:
        """The steps of a book, read in two parts."""
        length = self.calls.pct_book_length(byref(book))
        want("pct_book_length", length.status, DONE)
        steps, cut = (Event * length.count)(), dice.randint(0, length.count)
        for begin, end in ((0, cut), (cut, length.count)):
            part = (Event * (end - begin))()
            want("pct_book_steps", self.calls.pct_book_steps(byref(book), begin, part, end - begin), DONE)
            steps[begin:end] = part[:]
        return list(steps)

    def told(self, call: Callable[..., Any], *given: Any) -> str:
        """A text of the library, into a buffer of just its length."""
        needed = call(*self.script.names, *given, None, 0)
        want("a text without room", needed.status, NO_ROOM)
        room = (c_uint8 * needed.count)()
        done = call(*self.script.names, *given, room, needed.count)
        want("a text", (done.status, done.count), (DONE, needed.count))
        return bytes(room).decode()

    def verdict(self, outcome: Outcome) -> str:
        return self.told(self.calls.pct_text_verdict, byref(outcome))

    def trace(self, version: int, order: list[int], points: list[int], limit: int, steps: list[Event],
              outcome: Outcome) -> str:
        return self.told(self.calls.pct_text_trace, version, limit, *numbers(order), *numbers(points),
                         *items(Event, steps), byref(outcome))


class Serving:
    """A book and its bodies, and what was told last of whose turn it is."""

    def __init__(self, layer: Layer, book: Book, dice: random.Random) -> None:
        parsed = layer.script.parsed
        self.calls, self.script, self.book, self.dice = layer.calls, layer.script, book, dice
        self.bodies = [Body(thread, name in parsed.held) for name, thread in parsed.threads.items()]
        self.away, self.asks = set(range(len(self.bodies))), set()
        first = self.calls.pct_book_next(byref(book))
        want("pct_book_next", first.status, DONE)
        self.choice = (first.choice, first.thread)

    def move(self) -> None:
        """What is awaited, or now and then something else that a thread may do."""
        kind, thread = self.choice
        way = self.dice.randrange(6)
        if way == 0 and self.away:
            self.step(self.dice.choice(sorted(self.away)))
        elif way == 1 and self.away:
            self.post(self.dice.choice(sorted(self.away)))
        elif way == 2 and self.asks:
            self.take(self.dice.choice(sorted(self.asks)))
        elif kind == CHOICE_TURN:
            self.take(thread)
        elif kind == CHOICE_WAITS:
            (self.step if way == 3 else self.post)(thread)
        else:
            raise Different(f"the choice is {self.choice}")

    def learn(self, turn: Any) -> None:
        self.choice = (turn.choice, turn.thread)
        again = self.calls.pct_book_next(byref(self.book))
        want("the choice of pct_book_next", (again.status, again.choice, again.thread), (DONE, *self.choice))

    def posted(self, thread: int) -> tuple[int, int, Any]:
        body = self.bodies[thread]
        self.away.discard(thread)
        if body.ask is not None:
            self.asks.add(thread)
        return thread, body.line, byref(self.script.ask(body.ask))

    def post(self, thread: int) -> None:
        turn = self.calls.pct_book_post(byref(self.book), *self.posted(thread))
        want("pct_book_post", (turn.status, turn.answer), (DONE, 0))
        self.learn(turn)

    def take(self, thread: int) -> None:
        before = self.choice
        turn = self.calls.pct_book_take(byref(self.book), thread)
        self.learn(turn)
        if before == (CHOICE_TURN, thread):
            self.answered(thread, turn)
        else:
            want("pct_book_take of another", (turn.status, turn.answer, *self.choice), (NOT_YET, 0, *before))

    def step(self, thread: int) -> None:
        turn = self.calls.pct_book_step(byref(self.book), *self.posted(thread))
        self.learn(turn)
        if turn.status == POSTED:
            is_turn = thread in self.asks and self.choice == (CHOICE_TURN, thread)
            want("the turn after a post", (turn.answer, is_turn), (0, False))
        else:
            self.answered(thread, turn)

    def answered(self, thread: int, turn: Any) -> None:
        want("the status of a step", turn.status, ENDED if turn.choice == CHOICE_OVER else DONE)
        self.bodies[thread].answer(turn.answer)
        self.asks.discard(thread)
        self.away.add(thread)
