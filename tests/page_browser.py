"""A browser for check_page: Debian's chromium, without a screen, and what is read from the page in it."""

import json
import os
import shutil
import time

from selenium import webdriver
from selenium.common.exceptions import WebDriverException
from selenium.webdriver.chrome.options import Options
from selenium.webdriver.chrome.service import Service
from selenium.webdriver.common.action_chains import ActionChains
from selenium.webdriver.common.keys import Keys

KINDS = ["var", "mutex", "rwlock", "sem", "cond", "barrier", "thread"]
# The state that the page shows: by table the rows' texts, what is changed, and what stands above the tables.
STATE = """
const text = (cell) => { const copy = cell.cloneNode(true); copy.querySelectorAll(".was").forEach((it) => it.remove());
                         return copy.textContent.trim(); };
const found = { changed: [] };
for (const kind of arguments[0]) {
  found[kind] = [];
  for (const row of document.querySelectorAll(`#details tr[data-${kind}]`)) {
    const name = row.getAttribute(`data-${kind}`);
    found[kind].push([name, text(row.children[1])]);
    if (row.classList.contains("changed")) found.changed.push(name);
  }
}
// The lanes, from 0, over whose middles an arrow's line begins and ends, the latter where its head is.
const ends = (arrow, row) => {
  const box = arrow.getBoundingClientRect(), isRight = arrow.classList.contains("right");
  const lane = (x) => [...row.querySelectorAll(".lane")].findIndex((it) => {
    const around = it.getBoundingClientRect();
    return Math.abs((around.left + around.right) / 2 - x) < 3;
  });
  return isRight ? [lane(box.left), lane(box.right)] : [lane(box.right), lane(box.left)];
};
const part = (name) => [...document.querySelectorAll(`#details [data-part=${name}]`)].map((it) => it.textContent);
const row = document.querySelector('#steps [aria-selected="true"]');
const line = document.querySelector('#source [aria-current="step"]');
const isWithin = (element, id) => {
  const own = element.getBoundingClientRect(), around = document.getElementById(id).getBoundingClientRect();
  return own.top >= around.top - 1 && own.bottom <= around.bottom + 1;
};
const box = document.getElementById("lanes").getBoundingClientRect(), place = row.getBoundingClientRect();
return { ...found, enabled: part("enabled")[0] ?? "", why: part("why")[0] ?? "", marks: part("mark"),
  where: document.querySelector("#where b").textContent, slider: document.getElementById("slider").value,
  value: document.getElementById("slider").getAttribute("aria-valuetext"),
  line: line ? Number(line.dataset.line) : 0, row: row.dataset.step, label: row.getAttribute("aria-label"),
  active: document.getElementById("steps").getAttribute("aria-activedescendant"), id: row.id,
  isSeen: place.top >= box.top - 1 && place.bottom <= box.bottom + 1, isLineSeen: !line || isWithin(line, "source"),
  arrows: [...row.querySelectorAll(".arrow")].map((it) => [it.dataset.to, it.classList.contains("wakes")]),
  ends: [...row.querySelectorAll(".arrow")].map((it) => ends(it, row)),
  lanes: [...row.querySelectorAll(".lane")].map((it) => it.classList[1]),
  says: document.querySelector("#details .says").textContent };
"""
STORY = """
return [...document.querySelectorAll("#story .blocks > li")].map((item) => ({
  range: item.querySelector("summary .range").textContent, says: item.querySelector(".says").textContent,
  isOpen: item.querySelector("details").open,
  steps: item.querySelectorAll(".steps > li > button[data-step]").length }));
"""
# Of each text that is seen its contrast with what lies under it, and whether it is large.
CONTRAST = """
const canvas = document.createElement("canvas").getContext("2d", { willReadFrequently: true });
const rgba = (colour) => { canvas.clearRect(0, 0, 1, 1); canvas.fillStyle = colour; canvas.fillRect(0, 0, 1, 1);
                           return [...canvas.getImageData(0, 0, 1, 1).data].map((it) => it / 255); };
const linear = (part) => (part <= 0.03928 ? part / 12.92 : ((part + 0.055) / 1.055) ** 2.4);
const light = (colour) => { const [r, g, b] = colour.map(linear); return 0.2126 * r + 0.7152 * g + 0.0722 * b; };
const over = (top, under) => [0, 1, 2].map((it) => top[it] * top[3] + under[it] * (1 - top[3]));
function under(element) {
  const above = [];
  for (let at = element; at; at = at.parentElement) above.push(rgba(getComputedStyle(at).backgroundColor));
  return above.reverse().reduce((below, colour) => over(colour, below), [1, 1, 1]);
}
const found = [], walker = document.createTreeWalker(document.body, NodeFilter.SHOW_TEXT);
for (let node = walker.nextNode(); node; node = walker.nextNode()) {
  const element = node.parentElement;
  if (!node.data.trim() || element.closest("script, style, noscript, .unseen") || !element.checkVisibility()) continue;
  const style = getComputedStyle(element), below = under(element);
  const [one, other] = [light(over(rgba(style.color), below)), light(below)];
  const size = parseFloat(style.fontSize), isLarge = size >= 24 || (size >= 18.66 && Number(style.fontWeight) >= 700);
  found.push([(Math.max(one, other) + 0.05) / (Math.min(one, other) + 0.05), isLarge, node.data.trim().slice(0, 40)]);
}
return found;
"""
# What is wrong in the page by the rules of axe that its elements can break.
RULES = """
const wrong = [], all = (words) => [...document.querySelectorAll(words)];
const say = (rule, element) => wrong.push(`${rule}: ${(element?.outerHTML ?? "").slice(0, 80)}`);
const ids = all("[id]").map((it) => it.id);
if (new Set(ids).size < ids.length) say("duplicate-id");
if (!document.documentElement.lang) say("html-has-lang");
if (!document.title.trim()) say("document-title");
if (all("main").length !== 1) say("landmark-one-main");
if (all("h1").length !== 1) say("page-has-heading-one");
let level = 1;
for (const head of all("h1, h2, h3, h4, h5, h6").filter((it) => it.checkVisibility())) {
  const own = Number(head.tagName[1]);
  if (own > level + 1) say("heading-order", head);
  if (!head.textContent.trim()) say("empty-heading", head);
  level = own;
}
for (const it of all("[aria-labelledby], [aria-activedescendant]")) {
  for (const name of (it.getAttribute("aria-labelledby") ?? it.getAttribute("aria-activedescendant")).split(" "))
    if (!document.getElementById(name)) say("aria-valid-attr-value", it);
}
for (const it of all("ul, ol")) if ([...it.children].some((child) => child.tagName !== "LI")) say("list", it);
for (const it of all("details")) if (it.firstElementChild?.tagName !== "SUMMARY") say("summary-name", it);
for (const it of all("[role=listbox]"))
  if ([...it.children].some((child) => child.getAttribute("role") !== "option")) say("aria-required-children", it);
const nested = ":is([role=option], button, a, summary) :is(button, a, [tabindex])";
for (const it of all(nested)) say("nested-interactive", it);
for (const it of all("table")) if (!it.caption?.textContent.trim()) say("table-caption", it);
for (const it of all("th")) if (!it.scope) say("scope-attr-valid", it);
for (const it of all("[tabindex]")) if (Number(it.tabIndex) > 0) say("tabindex", it);
for (const it of all("[aria-hidden=true] :is(a, button, input, [tabindex])")) say("aria-hidden-focus", it);
for (const it of all("body *").filter((it) => it.checkVisibility())) {
  const style = getComputedStyle(it);
  const scrolls = ["auto", "scroll"].some((word) => [style.overflowX, style.overflowY].includes(word));
  const isFull = it.scrollHeight > it.clientHeight + 1 || it.scrollWidth > it.clientWidth + 1;
  const isReached = it.tabIndex >= 0 || it.querySelector("[tabindex='0'], button, a[href]");
  if (scrolls && isFull && !isReached) say("scrollable-region-focusable", it);
}
for (const it of all("main > *, header > *")) if (it.closest("main, header, nav") === null) say("region", it);
if (/user-scalable|maximum-scale/.test(document.querySelector("meta[name=viewport]").content)) say("meta-viewport");
for (const it of all("button, input, a, summary")) {
  if (!it.checkVisibility() || it.classList.contains("skip")) continue;
  const box = it.getBoundingClientRect();
  if (it.tagName !== "A" && it.type !== "checkbox" && (box.width < 24 || box.height < 24)) say("target-size", it);
}
return wrong;
"""
NAMED_ROLES = {"button", "link", "slider", "checkbox", "listbox", "option", "region", "table", "heading", "navigation",
               "DisclosureTriangle"}


MOST_SECONDS = 120  # that the browser may take for an answer


def is_there():
    return bool(shutil.which("chromium") and shutil.which("chromedriver"))


class Browser:
    def __init__(self):
        options = Options()
        options.binary_location = shutil.which("chromium")
        words = ["--headless=new", "--disable-gpu", "--window-size=1400,1000", "--disable-dev-shm-usage",
                 "--disable-lcd-text"]
        for word in [*words, *(["--no-sandbox"] if os.geteuid() == 0 else [])]:
            options.add_argument(word)
        options.set_capability("goog:loggingPrefs", {"browser": "ALL", "performance": "ALL"})
        self.driver = webdriver.Chrome(options=options, service=Service(shutil.which("chromedriver")))
        self.driver.set_script_timeout(MOST_SECONDS)
        self.driver.set_page_load_timeout(MOST_SECONDS)

    def close(self):
        self.driver.quit()

    def processor_seconds(self):
        """The processor time of the browser so far, which is the same on a busy machine."""
        children, times = {}, {}
        for number in filter(str.isdecimal, os.listdir("/proc")):
            try:
                with open(f"/proc/{number}/stat", encoding="utf-8", errors="replace") as file:
                    words = file.read().rpartition(")")[2].split()
            except OSError:  # it has ended
                continue
            children.setdefault(int(words[1]), []).append(int(number))
            times[int(number)] = int(words[11]) + int(words[12])
        found = [self.driver.service.process.pid]
        for process in found:
            found += children.get(process, [])
        return sum(times.get(process, 0) for process in found) / os.sysconf("SC_CLK_TCK")

    def command(self, name, **words):
        return self.driver.execute_cdp_cmd(name, words)

    def open(self, path, address=""):
        """Opens the page anew."""
        self.driver.get("about:blank")
        self.driver.get(f"file://{path.replace('%', '%25').replace('#', '%23').replace('?', '%3f')}{address}")

    def run(self, script, *words):
        return self.driver.execute_script(script, *words)

    def text(self, words):
        return self.run("return document.querySelector(arguments[0])?.textContent", words)

    def press(self, *keys):
        ActionChains(self.driver).send_keys(*keys).perform()

    def click(self, words):
        element = self.driver.find_element("css selector", words)
        self.run("arguments[0].scrollIntoView({ block: 'center' })", element)
        element.click()

    def focus(self, words):
        self.run("document.querySelector(arguments[0]).focus()", words)

    def state(self):
        """What the page shows of the selected step."""
        told = self.run(STATE, KINDS)
        return told | {kind: dict(told[kind]) for kind in KINDS}

    def story(self):
        return self.run(STORY)

    def address(self):
        """The address, once it has followed the step."""
        time.sleep(0.4)
        return self.run("return location.hash")

    def size(self, width, height):
        self.command("Emulation.setDeviceMetricsOverride", width=width, height=height, deviceScaleFactor=1,
                     mobile=width < 600)

    def scheme(self, word):
        self.command("Emulation.setEmulatedMedia", features=[{"name": "prefers-color-scheme", "value": word}])

    def contrasts(self):
        """The texts that are too faint."""
        return [it for it in self.run(CONTRAST) if it[0] < (3 if it[1] else 4.5)]

    def broken_rules(self):
        return self.run(RULES)

    def unnamed(self):
        """What the browser tells a screen reader without a name, though its role has one."""
        nodes = self.command("Accessibility.getFullAXTree")["nodes"]
        return [node["role"]["value"] for node in nodes
                if not node["ignored"] and node["role"]["value"] in NAMED_ROLES
                and not node.get("name", {}).get("value", "").strip()]

    def roles(self):
        nodes = self.command("Accessibility.getFullAXTree")["nodes"]
        return {(node["role"]["value"], node.get("name", {}).get("value", "")) for node in nodes if not node["ignored"]}

    def said(self):
        """What the browser's console was told: errors."""
        return [it["message"] for it in self.driver.get_log("browser") if it["level"] in ("SEVERE", "ERROR")]

    def requests(self):
        """The addresses that were asked for since the last call."""
        events = [json.loads(it["message"])["message"] for it in self.driver.get_log("performance")]
        return [it["params"]["request"]["url"] for it in events if it["method"] == "Network.requestWillBeSent"]
