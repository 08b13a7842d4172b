"""Commands of the program, made again by a layer over the library: each answers the output, and a refusal's line."""

import random
from ctypes import byref, c_uint32
from typing import Any

from bound import (BAD, DEPARTED, DONE, NO_ROOM, PASSED, Directive, Event, Frame, Group, Moment, Nesting, Outcome, Race,
                   Row, Trace, items, numbers, text)
from driving import FAULTS, LIMIT, Layer, want


class Commands(Layer):
    """The commands over one script. The dice say how a layer serves the bodies; no output depends on them."""

    def __init__(self, calls: Any, script: Any, dice: random.Random) -> None:
        super().__init__(calls, script)
        self.dice = dice

    def scheduled(self, options: dict[str, Any]) -> tuple[list[int], list[int], int]:
        """The order, the points and the limit of the run that options say."""
        limit = options.get("--limit", LIMIT)
        if "--order" in options:
            return self.script.order(options["--order"]), options.get("--points", []), limit
        steps = options.get("--steps", self.steps_in_declared_order(limit))
        return *self.drawn(options["--seed"], options["--depth"], steps), limit

    def steps_in_declared_order(self, limit: int) -> int:
        order = list(range(len(self.script.threads)))
        return max(1, len(self.run(self.by_points(order, [], limit), self.dice)[0]))

    def drawn(self, seed: int, depth: int, steps: int) -> tuple[list[int], list[int]]:
        threads = len(self.script.threads)
        order, points = (c_uint32 * threads)(), (c_uint32 * (depth - 1))()
        want("pct_draw", self.calls.pct_draw(seed, threads, steps, depth, order, threads, points, depth - 1), DONE)
        return list(order), list(points)

    def of_run(self, options: dict[str, Any]) -> str:
        order, points, limit = self.scheduled(options)
        steps, outcome = self.run(self.by_points(order, points, limit), self.dice)
        return self.trace(self.script.version, order, points, limit, steps, outcome)

    def of_replay(self, data: bytes) -> tuple[str, str]:
        read = Trace()
        told = self.calls.pct_text_read_trace(byref(read), *self.script.names, *text(data))
        if told.status == BAD:
            want("the handle of a text with a fault", (read.full, read.at), (False, None))
            return "", f"trace: line {told.line} {FAULTS[told.fault]}\n"
        want("pct_text_read_trace", (told.status, told.line, told.fault), (DONE, 0, 0))
        head, verdict = self.calls.pct_text_trace_head(byref(read)), Outcome()
        written = (Event * head.steps)()
        order, points = (c_uint32 * head.threads)(), (c_uint32 * head.points)()
        want("pct_text_trace_order", self.calls.pct_text_trace_order(byref(read), order, head.threads, points,
                                                                     head.points), DONE)
        want("pct_text_trace_steps", self.calls.pct_text_trace_steps(byref(read), 0, written, head.steps), DONE)
        want("pct_text_trace_verdict", self.calls.pct_text_trace_verdict(byref(read), byref(verdict)), DONE)
        again = self.trace(head.version, list(order), list(points), head.limit, list(written), verdict)
        want("a trace read and written", again.encode(), data)
        self.calls.pct_text_trace_free(byref(read))
        return self.compared(again.splitlines()[4:], head, list(order), list(points),
                             [step.thread for step in written]), ""

    def compared(self, written: list[str], head: Any, order: list[int], points: list[int], threads: list[int]) -> str:
        """What a replay says: the lines of a trace beside those of the run that its threads make."""
        made, outcome = self.run(self.make("list", head.limit, *numbers(threads)), self.dice)
        ends = outcome if outcome.kind != DEPARTED else Outcome(PASSED)
        found = self.trace(2, order, points, head.limit, made, ends).splitlines()[4:]
        if outcome.kind == DEPARTED:
            word = "notenabled" if len(made) < len(threads) else "goes"
            found[-1] = f"{word} {self.script.threads[outcome.thread]}"
        if found == written:
            return f"confirmed {written[-1].partition(' ')[2]}\n"
        place = next(place for place, (one, other) in enumerate(zip(found, written)) if one != other)
        return f"departs {place + 1}\nwritten {written[place]}\nfound {found[place]}\n"

    def of_run_steps(self, options: dict[str, Any]) -> list[Event]:
        return self.run(self.by_points(*self.scheduled(options)), self.dice)[0]

    def filled(self, kind: Any, call: Any, *given: Any) -> list[Any]:
        """The list that a call writes, asked first without room."""
        needed = call(*given, None, 0)
        want("a list without room", needed.status, *([NO_ROOM] if needed.count else [DONE]))
        room = (kind * needed.count)()
        done = call(*given, room, needed.count)
        want("a list", (done.status, done.count), (DONE, needed.count))
        return list(room)

    def of_races(self, options: dict[str, Any]) -> str:
        script, steps = self.script, self.of_run_steps(options)
        races = self.filled(Race, self.calls.pct_tell_races, byref(script.deal), *script.lists, *items(Event, steps))
        names = list(script.places["var"])
        lines = [f"race {names[race.variable]} {race.first} {race.second}\n" for race in races]
        return "".join(lines) + f"races {len(races)}\n"

    def of_locks(self, options: dict[str, Any]) -> str:
        script, steps = self.script, self.of_run_steps(options)
        names = list(script.places["mutex"])
        order, nestings = (c_uint32 * len(names))(), (Nesting * len(names))()
        told = self.calls.pct_tell_lock_order(byref(script.deal), *script.lists, *items(Event, steps),
                                              order, len(names), nestings, len(names))
        want("pct_tell_lock_order", told.status, DONE)
        if told.kind == 1:
            return " ".join(["order", *(names[mutex] for mutex in order[:told.count])]) + "\n"
        lines = [f"nest {nest.step} {script.threads[nest.thread]} {names[nest.held]} {names[nest.taken]}\n"
                 for nest in nestings[:told.count]]
        return "".join(lines) + f"cycle {told.count}\n"

    def of_campaign(self, options: dict[str, Any]) -> str:
        limit, depth = options.get("--limit", LIMIT), options["--depth"]
        steps = options.get("--steps", self.steps_in_declared_order(limit))
        rows = (Row * options["--count"])()
        for place, row in enumerate(rows):
            row.seed = (options["--from"] + place) % 2**64
            made, row.verdict = self.run(self.by_points(*self.drawn(row.seed, depth, steps), limit), self.dice)
            row.steps = len(made)
        frame = Frame(len(self.script.threads), steps, depth, limit)
        call = self.calls.pct_text_report_json if options.get("--form") == "json" else self.calls.pct_text_report
        report = self.told(call, byref(frame), rows, len(rows))
        if options.get("--form") != "json":
            self.check_groups(rows, report.splitlines())
        return report

    def check_groups(self, rows: Any, report: list[str]) -> None:
        """The groups by themselves are those of the report."""
        groups = self.filled(Group, self.calls.pct_tell_groups, rows, len(rows))
        lines = [f"{group.count} {group.steps} {group.first} {self.verdict(group.verdict)}" for group in groups]
        want("pct_tell_groups", lines, report[len(report) - len(lines):])

    def of_find(self, options: dict[str, Any]) -> str:
        order, points, limit = self.scheduled(options)
        steps, outcome = self.run(self.by_points(order, points, limit), self.dice)
        if outcome.kind == PASSED:
            return f"passes {len(steps)}\n"
        told = self.filled(Moment, self.calls.pct_tell_moments, *items(Event, steps), *numbers(points))
        moments, place = [(moment.thread, moment.number) for moment in told], 0
        while place < len(moments):
            fewer = moments[:place] + moments[place + 1:]
            again = self.run(self.by_moments(order, fewer, limit), self.dice)[1]
            is_same = bytes(again) == bytes(outcome)
            moments, place = (fewer, 0) if is_same else (moments, place + 1)
        found = Directive(order[-1], len(moments), (Moment * 7)(*(Moment(*each) for each in moments)), outcome)
        file = self.told(self.calls.pct_text_directive, byref(found))
        want("a directive is written and read", bytes(self.directive(file.encode())[0]) == bytes(found), True)
        return file

    def directive(self, data: bytes) -> tuple[Directive, str]:
        """What is read of a file, and the refusal's line."""
        read = Directive()
        told = self.calls.pct_text_read_directive(*self.script.names, *text(data), byref(read))
        if told.status == BAD:
            want("a fault leaves the directive", any(bytes(read)), False)
            return read, f"directive: line {told.line} {FAULTS[told.fault]}\n"
        want("pct_text_read_directive", (told.status, told.line, told.fault), (DONE, 0, 0))
        return read, ""

    def points(self, steps: list[Event], most: int, moments: list[Moment]) -> list[int]:
        points = (c_uint32 * len(moments))()
        status = self.calls.pct_tell_points(*items(Event, steps), most, *items(Moment, moments), points, len(moments))
        want("pct_tell_points", status, DONE)
        return list(points)

    def of_expose(self, data: bytes, options: dict[str, Any]) -> tuple[str, str]:
        read, refusal = self.directive(data)
        if refusal:
            return "", refusal
        order, limit, most = self.script.order(options["--order"]), options.get("--limit", LIMIT), options["--steps"]
        moments = list(read.moments[:read.count])
        steps = self.run(self.by_moments(order, [(each.thread, each.number) for each in moments], limit), self.dice)[0]
        if len(steps) > most:
            return f"toolong {len(steps)}\n", ""
        points = self.points(steps, most, moments)
        made, outcome = self.run(self.by_points(order, points, limit), self.dice)
        return self.trace(self.script.version, order, points, limit, made, outcome), ""

    def of_certify(self, data: bytes, options: dict[str, Any]) -> tuple[str, str]:
        read, refusal = self.directive(data)
        if refusal:
            return "", refusal
        names, most, limit = self.script.threads, options["--steps"], options.get("--limit", LIMIT)
        moments = list(read.moments[:read.count])
        orders = self.calls.pct_tell_order_count(len(names))
        if orders.status == BAD:
            return f"toomany {len(names)}\n", ""
        lines = []
        for place in range(orders.count):
            order = (c_uint32 * len(names))()
            want("pct_tell_order", self.calls.pct_tell_order(len(names), read.low, place, order, len(names)), DONE)
            words = " ".join(names[thread] for thread in order)
            book = self.by_moments(list(order), [(each.thread, each.number) for each in moments], limit)
            steps, outcome = self.run(book, self.dice)
            if len(steps) > most:
                return f"toolong order {words} steps {len(steps)}\n", ""
            if bytes(outcome) != bytes(read.verdict):
                return f"refuted order {words} verdict {self.verdict(outcome)}\n", ""
            lines.append(" ".join(["order", words, "points", *map(str, self.points(steps, most, moments))]))
        bound = self.calls.pct_tell_bound(len(names), most, len(moments))
        want("pct_tell_bound", bound.status, DONE)
        return "".join(f"{line}\n" for line in [*lines, f"certified 1 in {bound.high * 2**64 + bound.low}"]), ""
