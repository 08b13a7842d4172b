"""Drawn scripts in the shorter form, for check_expand, with a reading of their own: what the words mean, told by
generators over lists, and nothing of the expansion."""

import random

SIZE, COPIES = 3, 2


class Ends(Exception):
    """A run that an assertion ends."""


class Drawn:
    """A drawn script: its lines, and its threads with what they do. An operand is a number, a register's name, the
    constant N or ME."""

    def __init__(self, seed):
        self.random = random.Random(seed)
        self.lines = ["script 1", f"const N = {self.random.randint(2, 4)}", f"array cell {SIZE} = {seed % 3 - 1}",
                      "var plain = N"]
        self.constant = int(self.lines[1].split()[-1])
        self.first = seed % 3 - 1
        self.threads = {}
        self.chosen = {}
        self.draw_thread("Many", COPIES)
        self.draw_thread("One", None)

    def line(self, text):
        self.lines.append(text)
        return len(self.lines)

    def draw_thread(self, name, copies):
        self.line(f"thread {name} * {COPIES}" if copies else f"thread {name}")
        self.registers = ["r1", "r2"]
        if self.random.random() < 0.5:
            self.line("  reg turn")
            self.registers = ["r1", "turn"]
        self.me = ["ME"] if copies else []
        block = []
        if self.random.random() < 0.3:
            register, greatest = self.random.choice(self.registers), self.random.randint(0, 2)
            block.append(("choose", self.line(f"  choose {register} 0..{greatest}"), register, greatest))
        block += self.block(2, self.random.randint(2, 5))
        self.line("end")
        for place in range(copies or 1):
            self.threads[f"{name}_{place}" if copies else name] = (place, block)

    def operand(self):
        return self.random.choice(["0", "1", "2", "N", *self.me, *self.registers])

    def place(self):
        """A variable: its text and, of an element, its index."""
        if self.random.random() < 0.25:
            return "plain", None
        index = self.operand() if self.random.random() < 0.8 else f"{self.operand()} + {self.operand()}"
        is_constant = not any(word in self.registers for word in index.split())
        if is_constant and not all(0 <= self.value(index, {}, me) < SIZE for me in range(COPIES)):
            index = "1"
        return f"cell[{index}]", index

    def value(self, text, registers, me):
        """The sum of the operands."""
        known = {"N": self.constant, "ME": me, **registers}
        return sum(int(it) if it.isdecimal() else known.get(it, 0) for it in text.split(" + "))

    def block(self, depth, many):
        return [self.statement(depth) for _ in range(many)]

    def statement(self, depth):
        pad, register = "  " * (depth - 1), self.random.choice(self.registers)
        word = self.random.choice(["read", "write", "add", "cas", "set", "assert", "if", "yield"])
        one, other = self.operand(), self.operand()
        if word == "if" and depth < 4:
            at = self.line(f"{pad}if {one} == {other}")
            block = self.block(depth + 1, 2)
            self.line(f"{pad}end")
            return "if", at, one, other, block
        if word in ("if", "yield"):
            return "yield", self.line(f"{pad}yield")
        if word == "set":
            return "set", self.line(f"{pad}set {register} {one} + {other}"), register, f"{one} + {other}"
        if word == "assert":
            return "assert", self.line(f'{pad}assert "of {one}" {one} + {other} != 3'), f"{one} + {other}"
        text, index = self.place()
        said = {"read": f"read {register} {text}", "write": f"write {text} {one}",
                "add": f"add {register} {text} {one}", "cas": f"cas {register} {text} {one} , {other}"}[word]
        return word, self.line(f"{pad}{said}"), register, index, one, other


class Reading:
    """The state of a run, and the threads as generators of events."""

    def __init__(self, drawn, chosen):
        self.drawn, self.chosen = drawn, chosen
        self.cells, self.plain = [drawn.first] * SIZE, drawn.constant
        self.bodies = {name: self.body(name, me, block) for name, (me, block) in drawn.threads.items()}

    def body(self, name, me, block):
        registers = {}
        yield from self.steps(name, me, block, registers)

    def steps(self, name, me, block, registers):
        value = lambda text: self.drawn.value(text, registers, me)
        for word, line, *rest in block:
            if word == "choose":
                registers[rest[0]] = self.chosen[name]
            elif word == "set":
                registers[rest[0]] = value(rest[1])
            elif word == "if":
                if value(rest[0]) == value(rest[1]):
                    yield from self.steps(name, me, rest[2], registers)
            elif word == "yield":
                yield name, line, ("yield",), 0
            elif word == "assert":
                is_well = int(value(rest[0]) != 3)
                yield name, line, ("check", is_well), 0
                if not is_well:
                    raise Ends
            else:
                yield self.access(name, line, word, rest, value, registers)

    def access(self, name, line, word, rest, value, registers):
        register, index, one, other = rest
        place = None if index is None else value(index)
        if place is not None and not 0 <= place < SIZE:
            return name, line, ("check", 0), 0
        var, old = ("plain", self.plain) if place is None else (f"cell_{place}", self.cells[place])
        values = {"read": (), "write": (value(one),), "add": (value(one),), "cas": (value(one), value(other))}[word]
        new = {"read": old, "write": values[0] if values else 0, "add": old + sum(values[:1]),
               "cas": values[-1] if values and old == values[0] else old}[word]
        if place is None:
            self.plain = new
        else:
            self.cells[place] = new
        answer = {"read": old, "write": 0, "add": old, "cas": int(values[:1] == (old,))}[word]
        if word != "write":
            registers[register] = answer
        return name, line, (word, var, *values), answer

    def run(self, schedule):
        """The events of a run: of the threads that are left, the one that the schedule's next number picks."""
        events, left = [], list(self.bodies)
        for pick in schedule:
            if not left:
                break
            name = left[pick % len(left)]
            try:
                event = next(self.bodies[name], None)
            except Ends:
                return events
            if event is None:
                left.remove(name)
                continue
            events.append(event)
            if event[2] == ("check", 0):
                return events
        return events
