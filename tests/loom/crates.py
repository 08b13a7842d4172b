"""Crates whose tests for Loom are run as they are, with the manifests that take the place of their own: no line of a
crate or of a test is changed. Dependencies of other tests are left out, and LOOM stands for the folder native/loom."""

import dataclasses
import pathlib
import shutil


@dataclasses.dataclass(frozen=True)
class Crate:
    """A crate: its folder among Debian's sources, its manifest, and how its tests are built."""
    name: str
    version: str
    manifest: str
    flag: str
    target: list[str]
    tests: int
    # Tests that are expected to fail, each with the reason.
    fails: dict[str, str] = dataclasses.field(default_factory=dict)


# Only the crate that is tested, and its own checks, are built as cargo builds tests.
PROFILE = "".join(f"[profile.dev.package.{name}]\nopt-level = 2\n" for name in ("pct", "pct-loom"))
PATCH = '[patch.crates-io]\nloom = { path = "LOOM/0.5" }\n'

TOKIO = Crate("tokio", "1.24.2", '''[dependencies]
bytes = { version = "1.0.0", optional = true }
memchr = { version = "2.2", optional = true }
num_cpus = { version = "1.8.0", optional = true }
pin-project-lite = "0.2.0"
tokio-macros = { version = "1.7.0", optional = true }
[dev-dependencies]
futures = { version = "0.3.0", features = ["async-await"] }
tokio-test = { path = "../tokio-test" }
[target."cfg(loom)".dev-dependencies]
loom = { version = "0.5.2", features = ["futures", "checkpoint"] }
[build-dependencies]
autocfg = "1.1"
[features]
full = ["fs", "io-util", "io-std", "macros", "rt", "rt-multi-thread", "sync", "time"]
fs = []
io-std = []
io-util = ["memchr", "bytes"]
macros = ["tokio-macros"]
net = []
parking_lot = []
process = []
rt = []
rt-multi-thread = ["num_cpus", "rt"]
signal = []
stats = []
sync = []
test-util = ["rt", "sync", "time"]
time = []
''' + PATCH, "loom", ["--lib", "--features", "full,test-util,fs"], 84)

SLAB = Crate("sharded-slab", "0.1.4", '''[dependencies]
lazy_static = "1"
[dev-dependencies]
slab = "0.4.2"
proptest = { path = "../proptest" }
loom = { version = "0.5", features = ["checkpoint"] }
[target."cfg(loom)".dependencies]
loom = { version = "0.5", features = ["checkpoint"], optional = true }
''' + PATCH, "loom", ["--lib"], 44)

UTILS = Crate("crossbeam-utils", "0.8.12", '''[dependencies]
cfg-if = "1"
loom = { version = "0.5", optional = true }
[features]
default = ["std"]
nightly = []
std = []
''', "crossbeam_loom", [], 0)

EPOCH = Crate("crossbeam-epoch", "0.9.13", '''[dependencies]
cfg-if = "1"
memoffset = "0.6"
crossbeam-utils = { version = "0.8.5", default-features = false, features = ["loom"] }
scopeguard = { version = "1.1", default-features = false }
loom-crate = { package = "loom", version = "0.5" }
[build-dependencies]
autocfg = "1"
[features]
alloc = []
default = ["std"]
loom = []
nightly = []
sanitize = []
std = ["alloc", "crossbeam-utils/std"]
''' + PATCH + 'crossbeam-utils = { path = "../crossbeam-utils" }\n', "crossbeam_loom",
              ["--test", "loom", "--features", "loom"], 2)

QUEUE = Crate("concurrent-queue", "2.0.0", '''[dependencies]
crossbeam-utils = { version = "0.8.11", default-features = false }
[target."cfg(loom)".dependencies]
loom = { package = "pct-loom", path = "LOOM" }
[features]
default = ["std"]
std = []
''', "loom", ["--test", "loom"], 1)

BYTES = Crate("bytes", "1.2.1", '''[features]
default = ["std"]
std = []
[target."cfg(loom)".dev-dependencies]
loom = "0.5"
''' + PATCH, "loom", ["--lib"], 2)

TESTED = (QUEUE, EPOCH, BYTES, SLAB, TOKIO)

# What stands for crates of other tests' dependencies: tokio's loom tests take two macros of tokio-test, and proptest's
# tests of sharded-slab aren't run.
STAND_INS = {
    "tokio-test": ("0.4.2", """
#[macro_export]
macro_rules! assert_ok { ($it:expr) => { match $it { Ok(it) => it, Err(it) => panic!("Err({:?})", it) } }; }
#[macro_export]
macro_rules! assert_err { ($it:expr) => { match $it { Err(it) => it, Ok(it) => panic!("Ok({:?})", it) } }; }
"""),
    "proptest": ("1.0.0", """
pub mod prelude { pub use crate::proptest; }
#[macro_export]
macro_rules! proptest { ($($any:tt)*) => {}; }
"""),
}


def written(room: pathlib.Path, sources: pathlib.Path, loom: pathlib.Path) -> None:
    """Copies of the crates with their manifests, and the stand-ins."""
    for crate in (*TESTED, UTILS):
        profile = PROFILE if crate.tests else ""
        shutil.copytree(sources / f"{crate.name}-{crate.version}", room / crate.name)
        head = f'[package]\nname = "{crate.name}"\nversion = "{crate.version}"\nedition = "2018"\nautobenches = false\n'
        text = f"{head}autoexamples = false\n[workspace]\n{crate.manifest}{profile}".replace("LOOM", str(loom))
        (room / crate.name / "Cargo.toml").write_text(text, encoding="utf-8")
    for name, (version, text) in STAND_INS.items():
        (room / name / "src").mkdir(parents=True)
        (room / name / "src" / "lib.rs").write_text(text, encoding="utf-8")
        manifest = f'[package]\nname = "{name}"\nversion = "{version}"\nedition = "2021"\n[workspace]\n'
        (room / name / "Cargo.toml").write_text(manifest, encoding="utf-8")
