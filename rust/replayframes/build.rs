//! Links the proved archive: the one that a variable names, or else the repository's. That one is written by `archive` in
//! the repository's root, which does nothing where it is newer than every crate, and else proves, for minutes.
use std::env;
use std::fs;
use std::path::{Path, PathBuf};
use std::process::{exit, Command};

/// The variable that names another archive than the repository's.
const VARIABLE: &str = "REPLAYFRAMES_ARCHIVE";

/// A folder that cargo names.
fn folder(variable: &str) -> PathBuf {
    PathBuf::from(env::var_os(variable).expect("cargo names the folder"))
}

/// Has this script run again once a file, or one of a folder, has changed.
fn watch(file: &Path) {
    println!("cargo:rerun-if-changed={}", file.display());
}

/// Says what is wrong and what to do, and ends the build.
fn refuse(fault: &str) -> ! {
    eprintln!("no archive to link: {fault}");
    eprintln!("make that right, or name an archive by its absolute path in {VARIABLE}");
    exit(1);
}

/// The folders of the crates' files. What `rt` makes of a crate lies beside them, in `out`, and changes with every check.
fn parts(crates: &Path) -> Vec<PathBuf> {
    let folders = fs::read_dir(crates).into_iter().flatten().flatten();
    let parts = folders.flat_map(|folder| ["src", "specs", "proofs"].map(|part| folder.path().join(part)));
    parts.filter(|part| part.is_dir()).collect()
}

/// The repository's archive, as its crates are now.
fn of_repository(root: &Path) -> PathBuf {
    parts(&root.join("crates")).iter().for_each(|part| watch(part));
    watch(&root.join("crates.txt"));
    let script = root.join("archive");
    match Command::new(&script).status() {
        Ok(status) if status.success() => root.join("target/libreplayframes.a"),
        Ok(status) => refuse(&format!("{} ended with {status}", script.display())),
        Err(error) => refuse(&format!("{}: {error}", script.display())),
    }
}

/// The archive to link.
fn archive() -> PathBuf {
    println!("cargo:rerun-if-env-changed={VARIABLE}");
    match env::var_os(VARIABLE) {
        Some(path) => PathBuf::from(path),
        None => of_repository(&folder("CARGO_MANIFEST_DIR").join("../..")),
    }
}

fn main() {
    let archive = archive();
    watch(&archive);
    // A copy of it in a folder of its own, so that no other file of that name is taken.
    let out = folder("OUT_DIR");
    if let Err(error) = fs::copy(&archive, out.join("libreplayframes.a")) {
        refuse(&format!("{}: {error}", archive.display()));
    }
    println!("cargo:rustc-link-search=native={}", out.display());
    println!("cargo:rustc-link-lib=static=replayframes");
}
