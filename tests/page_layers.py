"""Checks of the page of a document that a layer for real threads wrote."""

import json

from page_reckoning import Reckoning
from page_room import at, read, walk
from page_wanted import wrong_story

# What the pool of tests/page/rust_pool.json has, as declarations and statements of a script: typed by hand from its
# source. Lines 25 and 64 are those at which its threads wait at the end.
RUST_POOL = {25: "wait changed jobs", 64: "join Worker1"}
DEAL_OF_POOL = ["var done = 0", "var is_closed = 0", "mutex jobs", "cond changed", "thread main", "thread Worker1",
                "thread Worker2", "start Worker1", "start Worker2"]


def layers(room):
    """The page of a document that the crate for Rust wrote: its steps, and that it tells what went wrong."""
    document = json.loads(read(at("tests", "page", "rust_pool.json")))
    browser = room.browser
    page = room.page_of_document(document, "rust_pool")
    script = "\n".join([*(RUST_POOL.get(line, "") for line in range(1, 101)), *DEAL_OF_POOL, ""])
    run = Reckoning(script, read(at("tests", "page", "rust_pool.trace")))
    found = walk(browser, page, run)
    yield f"a pool in Rust: its steps {found[:4]}", found == [] and len(run.steps) == 30
    said = wrong_story(browser.story(), run, [])
    yield f"a pool in Rust: its story {said}", not said
    told = browser.text("#told")
    yield "a pool in Rust: what went wrong", browser.text("#sentence") == \
        "Worker1 waits for a signal on changed: nobody is left who could give it" and all(part in told for part in (
            "main's broadcast of changed at step 25 (line 62: self.shared.changed.notify_all();) woke nobody: nobody "
            "waited",
            "Worker1 read is_closed = 0 at step 23 (line 24: None if shared.is_closed.load(SeqCst) => return,)",
            "after Worker1's step 23, main changed is_closed at step 24"))
    command = browser.text("#again code")
    yield "a pool in Rust: its command", command == "PCT_REPLAY=target/pct/pool.trace cargo run -p pct --example pool"
    heads = browser.run("return [document.querySelector('#script h3').textContent, "
                        "document.querySelector('#source h4').textContent, document.getElementById('beside').hidden]")
    yield "a pool in Rust: its source", heads == ["Source", "examples/pool.rs", True]
    yield "a pool in Rust: rules", [*browser.broken_rules(), *browser.unnamed(), *browser.said()] == []
