//! Finds the archive of libh3whole: in the folder that `H3WHOLE_LIB_DIR` names, from the folder in
//! which cargo runs, else in the repository that this crate is part of, else where pkg-config says
//! that it is installed.

use std::env;
use std::fs;
use std::os::unix::process::parent_id;
use std::path::{Path, PathBuf};
use std::process::{exit, Command};

const ARCHIVE: &str = "libh3whole.a";
/// Where tools/library puts the archive, below the repository's top.
const BUILT: &str = "lib";

fn main() {
    println!("cargo:rerun-if-env-changed=H3WHOLE_LIB_DIR");
    println!("cargo:rerun-if-changed=build.rs");
    let folder = folder().unwrap_or_else(|| {
        eprintln!(
            "h3whole: there is no {ARCHIVE}: run tools/library, or set H3WHOLE_LIB_DIR to \
             the folder that has it"
        );
        exit(1)
    });
    println!("cargo:rerun-if-changed={}", folder.join(ARCHIVE).display());
    println!("cargo:rustc-link-search=native={}", folder.display());
    println!("cargo:rustc-link-lib=static=h3whole");
}

fn folder() -> Option<PathBuf> {
    match env::var_os("H3WHOLE_LIB_DIR") {
        Some(given) => with_archive(from_cargo(PathBuf::from(given))),
        None => with_archive(Path::new(env!("CARGO_MANIFEST_DIR")).join("..").join(BUILT))
            .or_else(installed),
    }
}

/// A path from the folder in which cargo runs. This program runs in the folder of this crate, and
/// cargo is its parent; where the system does not say where that is, the shell's variable does.
fn from_cargo(path: PathBuf) -> PathBuf {
    let folder = fs::read_link(format!("/proc/{}/cwd", parent_id()))
        .ok()
        .or_else(|| env::var_os("PWD").map(PathBuf::from));
    folder.unwrap_or_default().join(path)
}

fn with_archive(folder: PathBuf) -> Option<PathBuf> {
    Some(folder).filter(|folder| folder.join(ARCHIVE).is_file())
}

fn installed() -> Option<PathBuf> {
    let said = Command::new("pkg-config")
        .args(["--variable=libdir", "h3whole"])
        .output()
        .ok()?;
    let folder = String::from_utf8(said.stdout).ok()?;
    with_archive(PathBuf::from(folder.trim())).filter(|_| said.status.success())
}
