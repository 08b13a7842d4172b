"""Bugs for copies of others' crates, as edits of their texts, with whether the crates' own tests for Loom find them at
1,000 seeds a depth. Those of orderings are found where a cell or an atomic's plain use is behind them."""

import contextlib
import dataclasses
import pathlib
from collections.abc import Iterator


@dataclasses.dataclass(frozen=True)
class Bug:
    """A bug: the words of its row, the file, the text and what takes its place where it stands for the n-th time."""
    text: str
    file: str
    old: str
    new: str
    is_found: bool = True
    nth: int = 0
    # The names of the tests to be run begin so, where not all are.
    tests: list[str] = dataclasses.field(default_factory=list)


@contextlib.contextmanager
def planted(crate: pathlib.Path, bug: Bug) -> Iterator[None]:
    """The crate with the bug."""
    path = crate / bug.file
    text = path.read_text(encoding="utf-8")
    parts = text.split(bug.old)
    if len(parts) < bug.nth + 2:
        raise ValueError(f"{bug.file} doesn't have the text of: {bug.text}")
    at = bug.nth + 1
    path.write_text(bug.old.join(parts[:at]) + bug.new + bug.old.join(parts[at:]), encoding="utf-8")
    try:
        yield
    finally:
        path.write_text(text, encoding="utf-8")


RELEASE, RELAXED = "Ordering::Release", "Ordering::Relaxed"
BOUNDED, SINGLE, UNBOUNDED = "src/bounded.rs", "src/single.rs", "src/unbounded.rs"
QUEUE = [
    Bug("a slot's stamp is stored relaxed by a push", BOUNDED, "slot.stamp.store(tail + 1, Ordering::Release)",
        "slot.stamp.store(tail + 1, Ordering::Relaxed)"),
    Bug("a slot's stamp is stored relaxed by a pop", BOUNDED,
        ".store(head.wrapping_add(self.one_lap), Ordering::Release)",
        ".store(head.wrapping_add(self.one_lap), Ordering::Relaxed)"),
    Bug("a slot's stamp is loaded relaxed", BOUNDED, "slot.stamp.load(Ordering::Acquire)",
        "slot.stamp.load(Ordering::Relaxed)", nth=1),
    Bug("the only slot is unlocked relaxed", SINGLE, "self.state.fetch_and(!LOCKED, Ordering::Release)",
        "self.state.fetch_and(!LOCKED, Ordering::Relaxed)"),
    Bug("a slot is marked as written relaxed", UNBOUNDED, "slot.state.fetch_or(WRITE, Ordering::Release)",
        "slot.state.fetch_or(WRITE, Ordering::Relaxed)"),
    Bug("a written slot is awaited relaxed", UNBOUNDED, "self.state.load(Ordering::Acquire) & WRITE",
        "self.state.load(Ordering::Relaxed) & WRITE"),
]

INTERNAL = "src/internal.rs"
EPOCH = [
    Bug("the epoch goes on though a thread is pinned in an earlier one", INTERNAL,
        "if local_epoch.is_pinned() && local_epoch.unpinned() != global_epoch {", "if false {", is_found=False),
    Bug("a bag is dropped an epoch too early", INTERNAL, "global_epoch.wrapping_sub(self.epoch) >= 2",
        "global_epoch.wrapping_sub(self.epoch) >= 1", is_found=False),
    Bug("a bag is dropped at once", INTERNAL, "global_epoch.wrapping_sub(self.epoch) >= 2", "true",
        is_found=False),
    Bug("a pinned thread tells no epoch", INTERNAL, "let new_epoch = global_epoch.pinned();",
        "let new_epoch = Epoch::starting();", is_found=False),
    Bug("a thread is unpinned relaxed", INTERNAL, "self.epoch.store(Epoch::starting(), Ordering::Release)",
        "self.epoch.store(Epoch::starting(), Ordering::Relaxed)", is_found=False),
]

BYTES_FILE = "src/bytes.rs"
BYTES = [
    Bug("a shared buffer begins with one handle in place of two", BYTES_FILE, "ref_cnt: AtomicUsize::new(2)",
        "ref_cnt: AtomicUsize::new(1)"),
    Bug("a clone counts no handle", BYTES_FILE, "(*shared).ref_cnt.fetch_add(1, Ordering::Relaxed)",
        "(*shared).ref_cnt.load(Ordering::Relaxed)"),
    Bug("the loser of two first clones drops the buffer", BYTES_FILE, "mem::forget(*shared);", "drop(*shared);"),
    Bug("a handle is dropped relaxed", BYTES_FILE, "(*ptr).ref_cnt.fetch_sub(1, Ordering::Release)",
        "(*ptr).ref_cnt.fetch_sub(1, Ordering::Relaxed)", is_found=False),
    Bug("a buffer is shared relaxed", BYTES_FILE, "shared as _, Ordering::AcqRel, Ordering::Acquire",
        "shared as _, Ordering::Relaxed, Ordering::Relaxed", is_found=False),
]

SLOT, STACK = "src/page/slot.rs", "src/page/stack.rs"
SLAB = [
    Bug("a slot goes onto the free list relaxed", STACK, ".compare_exchange(next, new_head, Ordering::Release",
        ".compare_exchange(next, new_head, Ordering::Relaxed"),
    Bug("the free list is taken relaxed", STACK, "Ordering::Acquire", "Ordering::Relaxed"),
    Bug("the last guard of a removed slot doesn't remove it", SLOT,
        "let dropping = refs.value == 1 && state == State::Marked;", "let dropping = false;"),
    Bug("a slot is removed with a guard left", SLOT, "refs.value == 1 && state == State::Marked",
        "refs.value >= 1 && state == State::Marked"),
    Bug("a guard of a slot's earlier value is given", SLOT, "if gen != current_gen || state != Lifecycle::PRESENT {",
        "if state != Lifecycle::PRESENT {"),
]

ONESHOT, SEMAPHORE, NOTIFY = "src/sync/oneshot.rs", "src/sync/batch_semaphore.rs", "src/sync/notify.rs"
WATCH = "src/sync/watch.rs"
TOKIO = [
    Bug("oneshot: the receiver doesn't look again once its waker is there", ONESHOT,
        "state = State::set_rx_task(&self.state);", "State::set_rx_task(&self.state);",
        tests=["sync::tests::loom_oneshot"]),
    Bug("oneshot: a value is sent relaxed", ONESHOT, "Ordering::AcqRel,\n                Ordering::Acquire",
        "Ordering::Relaxed,\n                Ordering::Relaxed", tests=["sync::tests::loom_oneshot"]),
    Bug("semaphore: permits of a dropped waiter are lost", SEMAPHORE, "if acquired_permits > 0 {",
        "if acquired_permits > usize::MAX - 1 {", is_found=False, tests=["sync::tests::loom_semaphore_batch"]),
    Bug("semaphore: a waiter takes the lock after the count was changed", SEMAPHORE,
        "lock = Some(self.waiters.lock());", "lock = None;", tests=["sync::tests::loom_semaphore_batch"]),
    Bug("notify: a notification that comes first is lost", NOTIFY, "set_state(curr, NOTIFIED), SeqCst, SeqCst);\n\n"
        "                match res {\n                    Ok(_) => return None",
        "set_state(curr, EMPTY), SeqCst, SeqCst);\n\n"
        "                match res {\n                    Ok(_) => return None", tests=["sync::tests::loom_notify"]),
    Bug("watch: a new value doesn't raise the version", WATCH, "self.shared.state.increment_version();", "",
        tests=["sync::tests::loom_watch", "sync::watch::tests"]),
]

BUGS = {"concurrent-queue": QUEUE, "crossbeam-epoch": EPOCH, "bytes": BYTES, "sharded-slab": SLAB, "tokio": TOKIO}
