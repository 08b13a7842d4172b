"""Runs, their pages and a walk through them, for check_page."""

import glob
import json
import os
import re
import subprocess
import sys

from page_browser import Keys
from page_wanted import wrong_state

TOP = os.path.dirname(os.path.dirname(os.path.abspath(__file__)))


def at(*names):
    return os.path.join(TOP, *names)


def read(name):
    with open(name, encoding="utf-8") as file:
        return file.read()


def write(name, text):
    with open(name, "w", encoding="utf-8") as file:
        file.write(text)
    return name


def tool(*words, **options):
    return subprocess.run([sys.executable, *words], capture_output=True, text=True, check=False, **options)


def case_of(name, kind="fails"):
    return at("tests", "cases", f"gallery_{name}_{kind}", "out")


def gallery():
    names = [os.path.basename(it)[len("gallery_"):-len("_fails")] for it in glob.glob(case_of("*")[:-4])]
    return [name for name in sorted(names) if os.path.exists(at("examples", f"{name}.pct"))]


class Room:
    """A folder with the pages of runs."""

    def __init__(self, folder, browser):
        self.folder, self.browser = folder, browser

    def path(self, name):
        return os.path.join(self.folder, name)

    def page(self, script, trace, name):
        """The page that tools/lanes writes of a run."""
        made = tool(at("tools", "lanes"), script, trace, "--html")
        assert made.returncode == 0, made.stderr
        return write(self.path(f"{name}.html"), made.stdout)

    def page_of(self, name):
        path = self.path(f"{name}.html")
        return path if os.path.exists(path) else self.page(at("examples", f"{name}.pct"), case_of(name), name)

    def page_of_document(self, document, name):
        made = tool(at("tools", "hunt"), "--page", write(self.path(f"{name}.json"), json.dumps(document)))
        assert made.returncode == 0, made.stderr
        return write(self.path(f"{name}.html"), made.stdout)


def document_in(page):
    """The document that a page has."""
    return json.loads(re.search(r'<script type="application/json" id="document">(.*?)</script>', read(page),
                                re.S).group(1))


def walk(browser, page, run):
    """Goes through the run by keys, there and back, and answers what was wrong."""
    browser.open(page)
    found = [("start", it) for it in wrong_state(browser.state(), run, 0)]
    for number in range(1, len(run.steps) + 1):
        browser.press("j" if number % 3 == 0 else Keys.ARROW_RIGHT)
        found += [(number, it) for it in wrong_state(browser.state(), run, number)]
    for number in range(len(run.steps) - 1, max(-1, len(run.steps) - 4), -1):
        browser.press("k" if number % 2 else Keys.ARROW_LEFT)
        found += [(number, it) for it in wrong_state(browser.state(), run, number)]
    return found
