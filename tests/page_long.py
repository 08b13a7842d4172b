"""Checks of the pages of long runs."""

import os
import time

from page_browser import Keys


def long_document(steps, lines=5):
    """A document of a long run of two threads that write in turns, typed by hand."""
    names = ("A", "B")
    place = {"file": "long.pct", "line": 5}
    told = lambda name: {"ask": "write x 1", **place, "is": "enabled", "rank": 1 + (name == "A")}
    listed = [{"thread": names[number // 7 % 2], **place, "ask": f"write x {number}", "answer": "0",
               "own": 1, "why": f"{names[number // 7 % 2]} is listed next", "over": [],
               "changes": {"vars": {"x": str(number)}}}
              for number in range(1, steps + 1)]
    run = {"seed": None, "order": list(names), "points": [], "limit": steps, "steps": listed, "asking": [], "ended": [],
           "verdict": "cut", "start": {"vars": {"x": "0"}, "threads": {name: told(name) for name in names}}}
    deal = {"threads": [{"name": name, "held": False} for name in names], "vars": [{"name": "x", "value": "0"}],
            "mutexes": [],
            "conds": [], "rwlocks": [], "sems": [], "barriers": []}
    return {"document": 1, "writer": "check", "title": "long.pct",
            "sources": [{"file": "long.pct", "text": "\n" * 4 + "write x r0\n" + "a line\n" * (lines - 5)}],
            "deal": deal, "names": {}, "headings": [{"run": run, "again": [], "kind": "cut", "sentence": "It is long"}]}


MOST_LONGEST = 3  # seconds of processor time of all of the browser's processes
MOVES = """
for (let count = 0; count < 100; count += 1) {
  document.dispatchEvent(new KeyboardEvent("keydown", { key: "j", bubbles: true }));
  document.body.getBoundingClientRect();
}
"""


def opened(browser, page, address):
    """Opens a page and waits until a packed document is there."""
    browser.open(page, address)
    end = time.monotonic() + 100
    while not browser.text("#where") and time.monotonic() < end:
        time.sleep(0.02)


def long_sources(room):
    """A run of 90,000 steps in a source of 500,000 lines: its page is small and opens, with the lines near the step;
    others come where they are asked for."""
    browser, steps, lines = room.browser, 90000, 500000
    document = long_document(steps, lines)
    page = room.page_of_document(document, "longest")
    beside = os.path.getsize(page) - len(document["sources"][0]["text"])
    yield f"{beside} bytes beside the sources", beside < 10_000_000
    took = spent(browser, lambda: opened(browser, page, f"#group=1&step={steps}"))
    yield f"{lines} lines are open after {took:.2f} s of processor time", took < MOST_LONGEST
    yield "its value", browser.state()["var"]["x"] == str(steps)
    rows = "return [...document.querySelectorAll('#source [data-line]')].map((it) => Number(it.dataset.line))"
    shown = browser.run(rows)
    is_marked = browser.run("return document.querySelector('#source [aria-current]')?.dataset.line") == "5"
    yield f"the lines near its step: {len(shown)}", is_marked and shown == list(range(1, len(shown) + 1)) and len(
        shown) < 1000
    browser.click("#source .gap button")
    more = browser.run(rows)
    yield f"more lines: {len(more)}", len(shown) < len(more) < 2000 and more == list(range(1, len(more) + 1))
    yield "rules", [*browser.broken_rules(), *browser.unnamed(), *browser.said()] == []


def spent(browser, done):
    """How much processor time the browser takes for what is done."""
    begun = browser.processor_seconds()
    done()
    return browser.processor_seconds() - begun


def long_runs(room):
    """Runs of 2,000 and of 100,000 steps open, and move: by the processor time of all of the browser's processes."""
    browser = room.browser
    for steps, most in ((2000, 4), (100000, 20)):
        page = room.page_of_document(long_document(steps), f"long{steps}")
        took = spent(browser, lambda: opened(browser, page, f"#group=1&step={steps // 2}"))
        told = browser.state()
        is_open = told["where"] == f"Step {steps // 2} of {steps}"
        yield f"{steps} steps are open after {took:.2f} s", took < most and is_open
        yield f"{steps} steps: the value", told["var"]["x"] == str(steps // 2) and told["isSeen"]
        moved = spent(browser, lambda: browser.run(MOVES))
        yield f"{steps} steps: 100 moves take {moved:.1f} s", moved < 5
        yield f"{steps} steps: the value then", browser.state()["var"]["x"] == str(steps // 2 + 100)
        browser.focus("#steps")
        browser.press(Keys.END)
        told = browser.state()
        yield f"{steps} steps: the end", told["var"]["x"] == str(steps) and told["isSeen"]
        yield f"{steps} steps: few elements", browser.run("return document.querySelectorAll('*').length") < 6000
