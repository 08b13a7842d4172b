"""Debian's sources of crates: fetched into a folder of the check's own, which cargo takes for its registry."""

import pathlib
import subprocess

PACKAGES = ("tokio sharded-slab crossbeam-epoch crossbeam-utils concurrent-queue bytes pin-project-lite libc cfg-if "
            "lazy-static memoffset scopeguard autocfg tokio-macros memchr num-cpus futures-util futures-core "
            "futures-task futures-channel pin-utils slab futures-sink futures-io futures-macro syn quote proc-macro2 "
            "unicode-ident futures futures-executor").split()


def fetched(room: pathlib.Path) -> pathlib.Path | None:
    """The folder of the sources; none where they can't be had."""
    debs, root = room / "debs", room / "debian"
    debs.mkdir()
    words = ["apt-get", "download", *(f"librust-{name}-dev" for name in PACKAGES)]
    done = subprocess.run(words, cwd=debs, capture_output=True, text=True, check=False)
    if done.returncode:
        print(done.stderr[-2000:])
        return None
    for package in sorted(debs.glob("*.deb")):
        subprocess.run(["dpkg", "-x", package, root], check=True)
    return root / "usr" / "share" / "cargo" / "registry"


def as_registry(sources: pathlib.Path, room: pathlib.Path) -> None:
    """Cargo takes the folder for its registry in all folders below `room`."""
    (room / ".cargo").mkdir(exist_ok=True)
    (room / ".cargo" / "config.toml").write_text(
        f'[source.crates-io]\nreplace-with = "debian"\n[source.debian]\ndirectory = "{sources}"\n'
        "[net]\noffline = true\n", encoding="utf-8")
