//! Finds the core's library, `libpct.a`: in PCT_LIB_DIR, in the repository, where pct is installed,
//! by pkg-config.

use std::path::{Path, PathBuf};
use std::process::Command;
use std::{env, fs};

const LIBRARY: &str = "libpct.a";

fn main() {
    println!("cargo:rerun-if-env-changed=PCT_LIB_DIR");
    println!("cargo:rerun-if-env-changed=PKG_CONFIG_PATH");
    let Some(folder) = folder_of_library() else {
        eprintln!(
            "pct: no {LIBRARY}: neither in PCT_LIB_DIR, nor in ../../lib or ../../../lib from this \
             crate, nor by pkg-config. \
             ./build in pct's repository makes it"
        );
        std::process::exit(1);
    };
    println!("cargo:rerun-if-changed={}", folder.join(LIBRARY).display());
    println!("cargo:rustc-link-search=native={}", folder.display());
    println!("cargo:rustc-link-lib=static:-bundle=pct");
}

/// What is named by hand is taken or nothing is, so that a wrong name is seen.
fn folder_of_library() -> Option<PathBuf> {
    if let Some(named) = env::var_os("PCT_LIB_DIR") {
        return has_library(Path::new(&named));
    }
    let own = PathBuf::from(env::var_os("CARGO_MANIFEST_DIR")?);
    ["../../lib", "../../../lib"]
        .iter()
        .find_map(|folder| has_library(&own.join(folder)))
        .or_else(by_pkg_config)
}

fn has_library(folder: &Path) -> Option<PathBuf> {
    folder.join(LIBRARY).is_file().then(|| fs::canonicalize(folder).ok()).flatten()
}

fn by_pkg_config() -> Option<PathBuf> {
    let told = Command::new("pkg-config").args(["--variable=libdir", "pct"]).output().ok()?;
    has_library(Path::new(String::from_utf8(told.stdout).ok()?.trim()))
}
