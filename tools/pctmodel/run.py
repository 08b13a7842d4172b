"""Runs for the model: what a thread asks, what its steps do, and who takes the next step."""

from __future__ import annotations

from collections import Counter
from collections.abc import Callable
from typing import TYPE_CHECKING, Any, NamedTuple

from pctmodel.script import GREATEST, LEAST, REGISTERS, Expression, Script, Statement, Thread

if TYPE_CHECKING:
    from pctmodel.trace import Trace

Ask = tuple[Any, ...]  # a word, and names and numbers behind it
MOST_MOVES = 10000


class Event(NamedTuple):
    """A step: who took it, at which line, what was asked, and the answer."""

    thread: str
    line: int
    ask: Ask
    answer: int


class Wrong(Exception):
    """An expression has no value: overflow or zerodivisor."""


class Ends(Exception):
    """A step ends the run. It carries the first and the last words of the verdict."""


def fitting(number: int) -> int:
    if not LEAST <= number <= GREATEST:
        raise Wrong("overflow")
    return number


def quotient(left: int, right: int) -> int:
    """The quotient rounded toward zero."""
    if right == 0:
        raise Wrong("zerodivisor")
    return abs(left) // abs(right) * (1 if (left < 0) == (right < 0) else -1)


def remainder(left: int, right: int) -> int:
    whole = fitting(quotient(left, right))
    return left - whole * right


OPERATIONS: dict[str, Callable[[int, int], int]] = {
    "==": lambda left, right: int(left == right), "!=": lambda left, right: int(left != right),
    "<": lambda left, right: int(left < right), "<=": lambda left, right: int(left <= right),
    ">": lambda left, right: int(left > right), ">=": lambda left, right: int(left >= right),
    "+": lambda left, right: left + right, "-": lambda left, right: left - right,
    "*": lambda left, right: left * right, "/": quotient, "%": remainder,
}


def evaluate(expression: Expression, registers: dict[str, int]) -> int:
    if isinstance(expression, int):
        return expression
    if isinstance(expression, str):
        return registers[expression]
    operator, *parts = expression
    first = evaluate(parts[0], registers)
    if len(parts) == 1:
        return int(first == 0) if operator == "!" else fitting(-first)
    if operator == "&&":
        return int(first != 0 and evaluate(parts[1], registers) != 0)
    if operator == "||":
        return int(first != 0 or evaluate(parts[1], registers) != 0)
    return fitting(OPERATIONS[operator](first, evaluate(parts[1], registers)))


class Body:
    """A thread: the statements that remain, sixteen registers, and what it asks next, with the line. An ask is a tuple
    of its words, and None where the thread has ended."""

    def __init__(self, thread: Thread, is_held: bool) -> None:
        self.thread, self.rest = thread, thread.block
        self.registers = dict.fromkeys(REGISTERS, 0)
        self.begins = is_held
        self.is_half_done = False  # the head is a wait or an arrive, and its first answer has come
        self.ask, self.line = self.next_post()

    def next_post(self) -> tuple[Ask | None, int]:
        if self.begins:
            return ("begin",), self.thread.line
        moves = 0
        try:
            while self.rest and self.rest[0].word in ("set", "if", "while"):
                if moves == MOST_MOVES:
                    raise Wrong("spin")
                self.move(self.rest[0])
                moves += 1
            return (self.ask_of(self.rest[0]), self.rest[0].line) if self.rest else (None, self.thread.end_line)
        except Wrong as wrong:
            return ("fault", str(wrong)), self.rest[0].line

    def move(self, head: Statement) -> None:
        value = evaluate(head.values[0], self.registers)
        if head.word == "set":
            assert head.register is not None
            self.registers[head.register] = value
            self.rest = self.rest[1:]
        elif head.word == "if":
            self.rest = (head.block if value else head.otherwise or []) + self.rest[1:]
        else:
            self.rest = head.block + self.rest if value else self.rest[1:]

    def ask_of(self, head: Statement) -> Ask:
        values = [evaluate(value, self.registers) for value in head.values]
        names = [name for _, name in head.names]
        if head.word == "wait":
            return ("regain" if self.is_half_done else "release", *names)
        if head.word == "arrive":
            return ("leave" if self.is_half_done else "arrive", *names)
        if head.word == "assert":
            return ("check", int(values[0] != 0))
        return (head.word, *names, *values)

    def answer(self, value: int) -> None:
        assert self.ask is not None
        word = self.ask[0]
        if word == "begin":
            self.begins = False
        elif word == "fault":
            self.rest = []
        elif word in ("release", "arrive"):
            self.is_half_done = True
        else:
            register = self.rest[0].register
            if register:
                self.registers[register] = value
            self.rest, self.is_half_done = self.rest[1:], False
        self.ask, self.line = self.next_post()


class Store:
    """The objects of a script. `do_ASK` makes the step of an ask and answers it, or raises how the run ends."""

    def __init__(self, script: Script) -> None:
        self.values = dict(script.objects["var"])
        self.owner: dict[str, str | None] = dict.fromkeys(script.objects["mutex"])
        self.waiting: dict[str, list[str]] = {cond: [] for cond in script.objects["cond"]}
        self.woken: dict[str, list[str]] = {cond: [] for cond in script.objects["cond"]}
        self.counts = dict(script.objects["sem"])
        self.sizes = dict(script.objects["barrier"])
        self.arrived: dict[str, list[str]] = {barrier: [] for barrier in self.sizes}
        # whether it is the serial one
        self.released: dict[str, dict[str, bool]] = {barrier: {} for barrier in self.sizes}
        self.started: list[str] = []
        self.writer: dict[str, str | None] = dict.fromkeys(script.objects["rwlock"])
        self.holds: dict[str, Counter[str]] = {lock: Counter() for lock in self.writer}

    def is_enabled(self, thread: str, ask: Ask, ended: set[str]) -> bool:
        match ask:
            case ("lock", mutex):
                return self.owner[mutex] is None
            case ("regain", cond, mutex):
                return thread in self.woken[cond] and self.owner[mutex] is None
            case ("down", sem):
                return self.counts[sem] > 0
            case ("leave", barrier):
                return thread in self.released[barrier]
            case ("join", target):
                return target in ended
            case ("begin",):
                return thread in self.started
            case ("rdlock", lock):
                return self.writer[lock] is None
            case ("wrlock", lock):
                return self.writer[lock] is None and not self.holds[lock].total()
        return True

    def do_read(self, _: str, var: str) -> int:
        return self.values[var]

    def do_write(self, _: str, var: str, value: int) -> int:
        self.values[var] = value
        return 0

    def do_add(self, _: str, var: str, value: int) -> int:
        old = self.values[var]
        if not LEAST <= old + value <= GREATEST:
            raise Ends("fault", "overflow")
        self.values[var] = old + value
        return old

    def do_cas(self, _: str, var: str, old: int, new: int) -> int:
        is_old = self.values[var] == old
        if is_old:
            self.values[var] = new
        return int(is_old)

    def do_lock(self, thread: str, mutex: str) -> int:
        self.owner[mutex] = thread
        return 0

    def do_trylock(self, thread: str, mutex: str) -> int:
        is_free = self.owner[mutex] is None
        if is_free:
            self.owner[mutex] = thread
        return int(is_free)

    def do_unlock(self, thread: str, mutex: str) -> int:
        if self.owner[mutex] != thread:
            raise Ends("misuse", "notowner")
        self.owner[mutex] = None
        return 0

    def do_release(self, thread: str, cond: str, mutex: str) -> int:
        self.do_unlock(thread, mutex)
        self.waiting[cond].append(thread)
        return 0

    def do_regain(self, thread: str, cond: str, mutex: str) -> int:
        self.woken[cond].remove(thread)
        self.owner[mutex] = thread
        return 0

    def do_signal(self, _: str, cond: str, most: int = 1) -> int:
        moved, self.waiting[cond] = self.waiting[cond][:most], self.waiting[cond][most:]
        self.woken[cond] += moved
        return len(moved)

    def do_broadcast(self, thread: str, cond: str) -> int:
        return self.do_signal(thread, cond, len(self.waiting[cond]))

    def do_down(self, _: str, sem: str) -> int:
        self.counts[sem] -= 1
        return 0

    def do_trydown(self, _: str, sem: str) -> int:
        is_there = self.counts[sem] > 0
        self.counts[sem] -= int(is_there)
        return int(is_there)

    def do_up(self, _: str, sem: str) -> int:
        if self.counts[sem] == 2**31 - 1:
            raise Ends("misuse", "semfull")
        self.counts[sem] += 1
        return 0

    def do_arrive(self, thread: str, barrier: str) -> int:
        self.arrived[barrier].append(thread)
        if len(self.arrived[barrier]) == self.sizes[barrier]:
            self.released[barrier] |= {other: other == thread for other in self.arrived[barrier]}
            self.arrived[barrier] = []
        return 0

    def do_leave(self, thread: str, barrier: str) -> int:
        return int(self.released[barrier].pop(thread))

    def do_join(self, *_: str) -> int:
        return 0

    do_yield = do_begin = do_join

    def do_check(self, _: str, holds: int) -> int:
        if not holds:
            raise Ends("failed", "")
        return 0

    def do_fault(self, _: str, kind: str) -> int:
        raise Ends("fault", kind)

    def do_start(self, _: str, target: str) -> int:
        if target in self.started:
            raise Ends("misuse", "alreadystarted")
        self.started.append(target)
        return 0

    def do_rdlock(self, thread: str, lock: str) -> int:
        if self.holds[lock][thread] == 1000:
            raise Ends("misuse", "toomanyreads")
        self.holds[lock][thread] += 1
        return 0

    def do_wrlock(self, thread: str, lock: str) -> int:
        self.writer[lock] = thread
        return 0

    def do_tryrdlock(self, thread: str, lock: str) -> int:
        is_free = self.writer[lock] is None and self.holds[lock][thread] < 1000
        self.holds[lock][thread] += int(is_free)
        return int(is_free)

    def do_trywrlock(self, thread: str, lock: str) -> int:
        is_free = self.writer[lock] is None and not self.holds[lock].total()
        if is_free:
            self.writer[lock] = thread
        return int(is_free)

    def do_rwunlock(self, thread: str, lock: str) -> int:
        if self.writer[lock] == thread:
            self.writer[lock] = None
        elif self.holds[lock][thread]:
            self.holds[lock][thread] -= 1
        else:
            raise Ends("misuse", "notowner")
        return 0


class World:
    """The threads and the objects after some steps."""

    def __init__(self, script: Script) -> None:
        self.bodies = {name: Body(thread, name in script.held) for name, thread in script.threads.items()}
        self.store = Store(script)
        self.events: list[Event] = []
        self.verdict: str | None = None

    def ready(self) -> list[str]:
        """The threads whose ask is enabled, as they are declared."""
        ended = {name for name, body in self.bodies.items() if body.ask is None}
        return [name for name, body in self.bodies.items()
                if body.ask and self.store.is_enabled(name, body.ask, ended)]

    def verdict_at_rest(self) -> str:
        """The verdict where nobody is enabled."""
        is_held = {name for name, body in self.bodies.items() if body.ask == ("begin",)} - set(self.store.started)
        stuck = [f" {name} {body.line}" for name, body in self.bodies.items() if body.ask and name not in is_held]
        return "stuck" + "".join(stuck) if stuck else "passed"

    def step(self, thread: str) -> None:
        body = self.bodies[thread]
        assert body.ask is not None
        word, *operands = body.ask
        try:
            answer = getattr(self.store, "do_" + word)(thread, *operands)
        except Ends as ends:
            answer, (first, last) = 0, ends.args
            self.verdict = f"{first} {thread} {body.line} {last}".strip()
        self.events.append(Event(thread, body.line, body.ask, answer))
        body.answer(answer)


def ranked_run(script: Script, order: list[str], many: int, limit: int,
               is_given: Callable[[int, list[Event], str], bool]) -> tuple[list[Event], str]:
    """The events and the verdict of the run: each step is by the enabled thread of the greatest value. Right after a
    step its thread has the value i, in 1..many, where `is_given(i, events, thread)`."""
    world = World(script)
    values = {name: many + len(order) - place for place, name in enumerate(order)}
    while not world.verdict:
        ready = world.ready()
        if not ready:
            world.verdict = world.verdict_at_rest()
        elif len(world.events) == limit:
            world.verdict = "cut"
        else:
            chosen = max(ready, key=values.__getitem__)
            world.step(chosen)
            for index in range(1, many + 1):
                if is_given(index, world.events, chosen):
                    values[chosen] = index
    return world.events, world.verdict


def run(script: Script, order: list[str], points: list[int], limit: int) -> tuple[list[Event], str]:
    """The run of an order and change points: the i-th point gives its value to the thread of the step of its number."""
    return ranked_run(script, order, len(points), limit, lambda index, events, _: points[index - 1] == len(events))


def replay(script: Script, trace: Trace) -> tuple[int, Event | str] | None:
    """None where the trace's threads make its events and its verdict again. Else the first step that differs, with what
    is found there: an event, or the words of a line."""
    world = World(script)
    for step, written in enumerate(trace.events, 1):
        if world.verdict:
            return step, f"verdict {world.verdict}"
        if written.thread not in world.ready():
            return step, f"notenabled {written.thread}"
        world.step(written.thread)
        if world.events[-1] != written:
            return step, world.events[-1]
    ready, step = world.ready(), len(trace.events) + 1
    if not world.verdict and ready and step <= trace.limit:
        return step, f"goes {ready[0]}"
    verdict = world.verdict or ("cut" if ready else world.verdict_at_rest())
    return None if verdict == trace.verdict else (step, f"verdict {verdict}")
