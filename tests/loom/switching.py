"""Each way in which a crate's tests for Loom come to run over pct, in an empty folder without a registry."""

import pathlib
from collections.abc import Callable, Iterator

TEST = """
#[test]
fn counts_both() {
    loom::model(|| {
        let n = loom::sync::Arc::new(loom::sync::atomic::AtomicUsize::new(0));
        let other = n.clone();
        let add = |n: &loom::sync::atomic::AtomicUsize| { let v = n.load(SeqCst); n.store(v + 1, SeqCst) };
        let adder = loom::thread::spawn(move || add(&other));
        add(&n);
        adder.join().unwrap();
        assert_eq!(n.load(SeqCst), 2);
    });
}
"""
SAID = "assertion `left == right` failed"
RENAMED = 'loom = { package = "pct-loom", path = "LOOM" }\n'
# By what is switched: the lines of the manifest, and the words behind cargo.
WAYS = {
    "a renamed dependency": (RENAMED, []),
    "a patch of 0.5 in the manifest": ('loom = "0.5.2"\n[patch.crates-io]\nloom = { path = "LOOM/0.5" }\n', []),
    "a patch of 0.7 in the manifest": ('loom = "0.7"\n[patch.crates-io]\nloom = { path = "LOOM/0.7" }\n', []),
    "a patch of 0.5 by --config": ('loom = { version = "0.5", features = ["checkpoint", "futures"] }\n',
                                   ["--config", 'patch.crates-io.loom.path="LOOM/0.5"']),
    "a patch of 0.7 by --config": ('loom = { version = "0.7", features = ["checkpoint", "futures"] }\n',
                                   ["--config", 'patch.crates-io.loom.path="LOOM/0.7"']),
}
Cargo = Callable[[pathlib.Path, list[str]], str]


def checks(room: pathlib.Path, loom: pathlib.Path, cargo: Cargo) -> Iterator[tuple[str, bool]]:
    """The lost update is found by each."""
    (room / "none").mkdir()
    (room / ".cargo").mkdir()
    (room / ".cargo" / "config.toml").write_text(
        f'[source.crates-io]\nreplace-with = "none"\n[source.none]\ndirectory = "{room / "none"}"\n', encoding="utf-8")
    for number, (name, (lines, words)) in enumerate(WAYS.items()):
        user = room / f"user{number}"
        (user / "src").mkdir(parents=True)
        (user / "src" / "lib.rs").write_text(f"#![cfg(test)]\nuse std::sync::atomic::Ordering::SeqCst;{TEST}",
                                             encoding="utf-8")
        manifest = ('[package]\nname = "user"\nversion = "0.1.0"\nedition = "2021"\n[workspace]\n'
                    f'[dependencies]\n{lines}')
        (user / "Cargo.toml").write_text(manifest.replace("LOOM", str(loom)), encoding="utf-8")
        said = cargo(user, ["test", *(word.replace("LOOM", str(loom)) for word in words)])
        if SAID not in said:
            print(f"{name}:\n{said[-3000:]}")
        yield name, SAID in said and "the shortest: " in said
