"""The states of a run between its steps, worked out from what its threads asked and from nothing else."""

from __future__ import annotations

from collections.abc import Iterable
from dataclasses import dataclass
from typing import Any

from pctmodel.run import Ends, Store
from pctmodel.script import Script, Thread

Json = dict[str, Any]
Ask = tuple[Any, ...]
# The members of a deal and of a state, by the kind of an object in a script.
KINDS = {"var": "vars", "mutex": "mutexes", "cond": "conds", "sem": "sems", "barrier": "barriers",
         "rwlock": "rwlocks"}
FIRST_VALUES = {"var": "value", "sem": "count", "barrier": "size"}


@dataclass(frozen=True)
class Asked:
    """What a thread asks at a place."""

    ask: Ask
    file: str
    line: int


def read_ask(text: str) -> Ask:
    """An ask as it stands in a trace."""
    return tuple(int(word) if word.lstrip("-").isdigit() else word for word in text.split())


def ask_words(ask: Iterable[Any]) -> str:
    """An ask as a trace has it."""
    return " ".join(map(str, ask))


def script_of(deal: Json) -> Script:
    """A script of the deal's objects and threads, without statements."""
    objects: dict[str, dict[str, int]] = {}
    for kind, member in KINDS.items():
        given = deal.get(member, [])
        first = FIRST_VALUES.get(kind)
        objects[kind] = {it["name"]: int(it[first]) for it in given} if first else dict.fromkeys(given, 0)
    held = {it["name"] for it in deal["threads"] if it.get("held")}
    return Script(3, objects, {it["name"]: Thread(0, []) for it in deal["threads"]}, held)


def listed(names: list[str]) -> str:
    """Names as a sentence has them, the first three of many."""
    if len(names) > 4:
        return f"{', '.join(names[:3])} and {len(names) - 3} others"
    return " and ".join([", ".join(names[:-1]), names[-1]]) if len(names) > 1 else names[0]


class Listed:
    """The threads and the objects of a run while its listed steps are taken."""

    def __init__(self, deal: Json, run: Json) -> None:
        self.script = script_of(deal)
        self.store = Store(self.script)
        self.names = [it["name"] for it in deal["threads"]]
        self.queues: dict[str, list[Asked]] = {name: [] for name in self.names}
        for step in [*run["steps"], *run["asking"]]:
            asked = Asked(read_ask(step["ask"]), step["file"], step["line"])
            self.queues[step["thread"]].append(asked)
        self.taken = dict.fromkeys(self.names, 0)
        self.will_end = set(run["ended"])
        self.since: dict[str, dict[str, int]] = {}  # by what is held and thread: the step that took it
        self.ranks = {name: len(run["points"]) + len(run["order"]) - place
                      for place, name in enumerate(run["order"])}
        # The values that points give, by their steps: of equal points the last one counts.
        self.lowered = {point: value for value, point in enumerate(run["points"], 1)}

    def asked(self, name: str) -> Asked | None:
        queue, taken = self.queues[name], self.taken[name]
        return queue[taken] if taken < len(queue) else None

    def ended(self) -> set[str]:
        return {name for name in self.will_end if self.asked(name) is None}

    def is_held(self, name: str) -> bool:
        asked = self.asked(name)
        return asked is not None and asked.ask == ("begin",) and name not in self.store.started

    def holder(self, name: str) -> str | None:
        """The one thread that has what the blocked one waits for, or whose end it waits for."""
        asked = self.asked(name)
        match asked.ask if asked else ():
            case ("lock", mutex):
                return self.store.owner[mutex]
            case ("regain", cond, mutex):
                return self.store.owner[mutex] if name in self.store.woken[cond] else None
            case ("join", target):
                return str(target)
            case ("rdlock" | "wrlock", lock):
                readers = [it for it, count in self.store.holds[lock].items() if count]
                return self.store.writer[lock] or (readers[0] if len(readers) == 1 else None)
        return None

    def waits_for(self, name: str) -> str:
        """In words what the blocked thread waits for."""
        asked = self.asked(name)
        assert asked is not None
        holder = self.holder(name)
        by = "which it holds itself" if holder == name else f"which {holder} holds"
        match asked.ask:
            case ("lock", mutex):
                return f"{mutex}, {by}"
            case ("regain", cond, mutex):
                is_woken = name in self.store.woken[cond]
                return f"{mutex}, {by} (it is signalled on {cond})" if is_woken else f"a signal on {cond}"
            case ("down", sem):
                return f"{sem}, which is 0"
            case ("leave", barrier):
                return f"{barrier}, where {len(self.store.arrived[barrier])} of {self.store.sizes[barrier]} are"
            case ("join", target):
                return f"the end of {target}"
            case ("begin",):
                return "its start"
            case (_, lock):
                return f"{lock}, which {self.users_of(lock)}"
        return "nothing"

    def users_of(self, lock: str) -> str:
        if self.store.writer[lock]:
            return f"{self.store.writer[lock]} writes"
        readers = [name for name, count in self.store.holds[lock].items() if count]
        return f"{listed(readers)} {'reads' if len(readers) == 1 else 'read'}"

    def thread(self, name: str, ended: set[str]) -> Json:
        """The thread's part of a state."""
        asked = self.asked(name)
        if asked is None:
            return {"is": "ended" if name in ended else "unknown", "rank": self.ranks[name]}
        told: Json = {"ask": ask_words(asked.ask), "file": asked.file, "line": asked.line, "rank": self.ranks[name]}
        if self.store.is_enabled(name, asked.ask, ended):
            return {"is": "enabled", **told}
        told |= {"is": "held" if self.is_held(name) else "blocked", "for": self.waits_for(name)}
        holder = self.holder(name)
        return told | {"holder": holder} if holder else told

    def state(self) -> Json:
        """The whole state."""
        store, ended = self.store, self.ended()
        found = {
            "vars": {name: str(value) for name, value in store.values.items()},
            "mutexes": dict(store.owner),
            "rwlocks": {name: {"writer": store.writer[name], "readers": dict(+holds)}
                        for name, holds in store.holds.items()},
            "sems": dict(store.counts),
            "conds": {name: {"waiting": list(store.waiting[name]), "woken": list(store.woken[name])}
                      for name in store.waiting},
            "barriers": {name: list(arrived) for name, arrived in store.arrived.items()},
            "threads": {name: self.thread(name, ended) for name in self.names},
        }
        return {member: by_name for member, by_name in found.items() if by_name}

    def step(self, thread: str, number: int) -> None:
        """Takes the thread's next step, the run's step of that number."""
        asked = self.asked(thread)
        assert asked is not None
        word, *operands = asked.ask
        try:
            getattr(self.store, "do_" + word)(thread, *operands)
        except Ends:
            pass
        self.taken[thread] += 1
        self.note_holds(thread, asked.ask, number)
        self.ranks[thread] = self.lowered.get(number, self.ranks[thread])

    def note_holds(self, thread: str, ask: Ask, number: int) -> None:
        """Keeps since which step the thread has what it took."""
        taken = ask[2] if ask[0] == "regain" else ask[1] if len(ask) > 1 else None
        if ask[0] in ("lock", "trylock", "regain", "rdlock", "wrlock", "tryrdlock", "trywrlock", "down", "trydown"):
            self.since.setdefault(str(taken), {})[thread] = number


def changed(before: Json, after: Json) -> Json:
    """What is other in the second state, name by name."""
    found = {}
    for member, by_name in after.items():
        old = before[member]
        news = {name: value for name, value in by_name.items() if old[name] != value}
        if news:
            found[member] = news
    return found


def why(before: Json, step: Json, previous: Json | None) -> tuple[str, list[str]]:
    """Why the step's thread goes in that state, and the higher threads, which can't."""
    thread, threads = step["thread"], before["threads"]
    rank = threads[thread]["rank"]
    above = [name for name, told in threads.items() if told["rank"] > rank and told["is"] in ("blocked", "held")]
    higher = sorted(above, key=lambda name: -int(threads[name]["rank"]))
    if any(told["rank"] > rank and told["is"] == "enabled" for told in threads.values()):
        return f"{thread} is listed next", higher
    reasons = [f"{name} is higher and waits for {threads[name]['for']}" for name in higher[:3]]
    if len(higher) > 3:
        reasons.append(f"{len(higher) - 3} more are higher and wait")
    if previous and "lowered" in previous and previous["thread"] != thread:
        reasons.insert(0, f"{previous['thread']} was put below the others")
    can_go = sum(told["is"] == "enabled" for told in threads.values())
    last = f"{thread} alone can go" if can_go == 1 else f"{thread} is the highest that can go"
    return "; ".join([*reasons, last]), higher
