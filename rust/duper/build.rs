//! Finds the archive `libduper.a` and tells cargo how to link it.
//!
//! It is looked for in the folder that `DUPER_LIB_DIR` names, then in
//! `target/staticlib` of the repository root, two levels up. If it is in
//! neither, `tools/archive` of the repository makes it.

use std::env;
use std::path::{Path, PathBuf};
use std::process::Command;

const ARCHIVE: &str = "libduper.a";

fn main() {
    println!("cargo:rerun-if-changed=build.rs");
    println!("cargo:rerun-if-env-changed=DUPER_LIB_DIR");

    let package = PathBuf::from(env::var_os("CARGO_MANIFEST_DIR").unwrap_or_default());
    let root = package.join("..").join("..");
    let root = root.canonicalize().unwrap_or(root);
    let made = root.join("target").join("staticlib");
    let named = env::var_os("DUPER_LIB_DIR").map(|dir| package.join(dir));

    let folder = match named {
        Some(dir) if holds_archive(&dir) => dir,
        other => {
            if let Some(dir) = other {
                tell(&format!("no {ARCHIVE} in DUPER_LIB_DIR, {}", dir.display()));
            }
            if !holds_archive(&made) {
                make_archive(&root);
            }
            made
        }
    };
    if !holds_archive(&folder) {
        // No error yet: `cargo check` needs no archive, and linking says what
        // is missing.
        tell(&format!("{} is still missing in {}", ARCHIVE, folder.display()));
    }
    println!("cargo:rerun-if-changed={}", folder.join(ARCHIVE).display());
    println!("cargo:rustc-link-search=native={}", folder.display());
    println!("cargo:rustc-link-lib=static=duper");
}

fn holds_archive(folder: &Path) -> bool {
    folder.join(ARCHIVE).is_file()
}

fn make_archive(root: &Path) {
    let tool = root.join("tools").join("archive");
    tell(&format!("{ARCHIVE} is missing; running {}", tool.display()));
    match Command::new(&tool).status() {
        Ok(status) if status.success() => {}
        Ok(status) => tell(&format!("{} ended with {status}", tool.display())),
        Err(error) => tell(&format!("{} could not be run: {error}", tool.display())),
    }
}

/// A line on stderr. Cargo keeps that to itself unless the build fails, so it
/// is given as a warning too.
fn tell(line: &str) {
    eprintln!("duper: {line}");
    println!("cargo:warning={line}");
}
