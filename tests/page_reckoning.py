"""A small reckoning of a run from the text of its script and the lines of its trace, by nothing of tools/: what
check_page holds a page against."""

import re
from collections import Counter
from dataclasses import dataclass, field


@dataclass
class Step:
    number: int
    thread: str
    line: int
    ask: list
    answer: int


@dataclass
class Moment:
    """The objects after some steps, and of each thread how it stands: enabled, blocked (with what it waits for, and
    who has that, or None), held, ended, or None where the trace doesn't tell."""

    values: dict
    owners: dict
    counts: dict
    waiting: dict
    woken: dict
    arrived: dict
    writers: dict
    readers: dict
    stands: dict = field(default_factory=dict)

    def enabled(self):
        return [name for name, stand in self.stands.items() if stand == ("enabled",)]


def words_of(line):
    return line.split("#")[0].split()


class Reckoning:
    def __init__(self, script, trace):
        self.lines = [""] + script.split("\n")
        head, self.order, self.points = trace.split("\n"), [], []
        self.order, self.points = head[1].split()[1:], [int(word) for word in head[2].split()[1:]]
        self.steps = [self.step_of(line) for line in head if line[:1].isdigit()]
        self.verdict = next(line for line in head if line.startswith("verdict ")).split()[1:]
        self.threads = {words[1]: number for number, words in self.heads("thread")}
        self.held = {words[1] for number, words in self.heads("start")}
        self.released = {}
        self.moments = [self.first()]
        self.reckon()

    @staticmethod
    def step_of(line):
        asked, answer = line.split(" = ")
        number, thread, at, *ask = asked.split()
        return Step(int(number), thread, int(at), ask, int(answer))

    def heads(self, word):
        for number, line in enumerate(self.lines):
            words = words_of(line)
            if words[:1] == [word]:
                yield number, words

    def declared(self, word):
        return {words[1]: int("".join(words[3:]) or 0) for _, words in self.heads(word)}

    def first(self):
        names = {word: self.declared(word) for word in ("var", "mutex", "cond", "sem", "barrier", "rwlock")}
        self.sizes = names["barrier"]
        return Moment(names["var"], dict.fromkeys(names["mutex"]), names["sem"], {it: [] for it in names["cond"]},
                      {it: [] for it in names["cond"]}, {it: [] for it in names["barrier"]},
                      dict.fromkeys(names["rwlock"]),
                      {it: Counter() for it in names["rwlock"]})

    @staticmethod
    def copied(it):
        lists = lambda by: {name: list(value) for name, value in by.items()}
        return Moment(dict(it.values), dict(it.owners), dict(it.counts), lists(it.waiting), lists(it.woken),
                      lists(it.arrived), dict(it.writers), {name: Counter(value) for name, value in it.readers.items()})

    def reckon(self):
        """Each moment, from the first on."""
        asks = {name: [step.ask for step in self.steps if step.thread == name] for name in self.threads}
        self.left = {name: [*of_thread, self.last_ask(name)] for name, of_thread in asks.items()}
        self.started, self.gone = set(), {}
        now = self.moments[0]
        self.tell_stands(now)
        for step in self.steps:
            now = self.copied(now)
            is_last = step is self.steps[-1]
            if not (is_last and self.verdict[0] in ("misuse", "fault")):
                self.take(now, step)
            self.left[step.thread].pop(0)
            self.gone[step.thread] = step.ask
            self.tell_stands(now)
            self.moments.append(now)

    # What is asked after a thread's last step.

    def last_ask(self, name):
        """What the thread asks behind its steps: 'ended', an ask, or None where the trace doesn't tell."""
        kind, *rest = self.verdict
        own = [step for step in self.steps if step.thread == name]
        before = own[-1].ask[0] if own else ""
        if kind == "passed" or (kind == "stuck" and name not in rest):
            return ["begin"] if name in self.held and not own else "ended"
        if kind == "stuck":
            line = int(rest[rest.index(name) + 1])
            return ["begin"] if words_of(self.lines[line])[0] == "thread" else self.ask_at(line, before)
        if any(step.ask == ["join", name] for step in self.steps):
            return "ended"
        if rest[:1] == [name]:
            return None
        return self.next_of_straight(name, own, before)

    def next_of_straight(self, name, own, before):
        """The next statement of a thread that has no if and no while."""
        number, body = self.threads[name] + 1, []
        while words_of(self.lines[number]) != ["end"]:
            body += [number] if words_of(self.lines[number]) else []
            if words_of(self.lines[number])[:1] in (["if"], ["while"]):
                return None
            number += 1
        steps = [line for line in body if words_of(self.lines[line])[0] != "set"]
        if not own:
            return ["begin"] if name in self.held else self.ask_at(steps[0], "") if steps else "ended"
        if before in ("release", "arrive"):
            return self.ask_at(own[-1].line, before)
        after = [line for line in steps if line > own[-1].line]
        return self.ask_at(after[0], "") if after else "ended"

    def ask_at(self, line, before):
        word, *rest = words_of(self.lines[line])
        if word == "wait":
            return ["regain" if before == "release" else "release", *rest]
        if word == "arrive":
            return ["leave" if before == "arrive" else "arrive", rest[1]]
        return [word, *rest]

    # What a step does.

    def take(self, now, step):
        word, *names = step.ask
        name, thread = names[0] if names else "", step.thread
        has_it = step.answer == 1 or not word.startswith("try")
        if word == "write":
            now.values[name] = int(names[1])
        elif word == "add":
            now.values[name] += int(names[1])
        elif word == "cas" and step.answer == 1:
            now.values[name] = int(names[2])
        elif word in ("lock", "trylock") and has_it:
            now.owners[name] = thread
        elif word == "unlock":
            now.owners[name] = None
        elif word in ("down", "trydown") and has_it:
            now.counts[name] -= 1
        elif word == "up":
            now.counts[name] += 1
        elif word == "start":
            self.started.add(name)
        elif word in ("rdlock", "tryrdlock") and has_it:
            now.readers[name][thread] += 1
        elif word in ("wrlock", "trywrlock") and has_it:
            now.writers[name] = thread
        elif word == "rwunlock":
            self.give_back(now, name, thread)
        else:
            self.take_meeting(now, step, name)

    @staticmethod
    def give_back(now, name, thread):
        if now.writers[name] == thread:
            now.writers[name] = None
        else:
            now.readers[name] -= Counter([thread])

    def take_meeting(self, now, step, name):
        """Conditions and barriers."""
        word, thread = step.ask[0], step.thread
        if word == "release":
            now.owners[step.ask[2]] = None
            now.waiting[name].append(thread)
        elif word == "regain":
            now.woken[name].remove(thread)
            now.owners[step.ask[2]] = thread
        elif word in ("signal", "broadcast"):
            now.woken[name] += now.waiting[name][:step.answer]
            del now.waiting[name][:step.answer]
        elif word == "arrive":
            now.arrived[name].append(thread)
            if len(now.arrived[name]) == self.sizes[name]:
                self.released.setdefault(name, set()).update(now.arrived[name])
                now.arrived[name] = []
        elif word == "leave":
            self.released[name].discard(thread)

    # How threads stand.

    def tell_stands(self, now):
        now.stands = {name: self.stand_of(now, name, self.left[name][0]) for name in self.threads}

    def stand_of(self, now, name, ask):
        if ask is None or ask == "ended":
            return None if ask is None else ("ended",)
        if ask[0] == "join" and self.left[ask[1]][0] is None:
            return None
        waits = self.waits_for(now, name, *ask)
        if waits is None:
            return ("enabled",)
        return ("held",) if waits == "start" else ("blocked", *waits)

    def waits_for(self, now, name, word, what="", mutex="", *_):
        """What the ask waits for, and who has it; None where it needn't wait."""
        if word == "lock" and now.owners[what]:
            return what, now.owners[what]
        if word == "regain" and name not in now.woken[what]:
            return what, None
        if word == "regain" and now.owners[mutex]:
            return mutex, now.owners[mutex]
        if word == "down" and now.counts[what] == 0:
            return what, None
        if word == "leave" and name not in self.released.get(what, ()):
            return what, None
        if word == "join" and self.left[what][0] != "ended":
            return what, None
        if word == "begin" and name not in self.started:
            return "start"
        if word in ("rdlock", "wrlock") and now.writers[what]:
            return what, now.writers[what]
        if word == "wrlock" and +now.readers[what]:
            readers = list(+now.readers[what])
            return what, readers[0] if len(readers) == 1 else None
        return None

    def ranks(self, number):
        """The priorities before the step of that number."""
        many = len(self.points)
        ranks = {name: many + len(self.order) - place for place, name in enumerate(self.order)}
        for step in self.steps[:number - 1]:
            for value, point in enumerate(self.points, 1):
                if point == step.number:
                    ranks[step.thread] = value
        return ranks

    def stretches(self):
        """The stretches of steps that one thread takes in a row, by their first and last steps."""
        firsts = [step.number for step, before in zip(self.steps, [None, *self.steps]) if before is None
                  or before.thread != step.thread]
        return list(zip(firsts, [*(first - 1 for first in firsts[1:]), len(self.steps)]))


def races_in(text):
    """The races of what `pct races` writes: their two steps."""
    return [(int(first), int(second)) for first, second in re.findall(r"^race \S+ (\d+) (\d+)$", text, re.M)]
