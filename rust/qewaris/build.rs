//! Finds the archive `libqewaris.a`, or has it made, and sees that it has the layout that this crate knows.
//!
//! `QEWARIS_LIB_DIR` names a folder that has the archive; then nothing else is needed, and nothing is written beside the build's
//! own folder. Without that variable `packaging/archive` makes it in the repository, from proofs that it checks first, unless
//! it is there and newer than all that it is made of.

use std::env;
use std::fs;
use std::path::{Path, PathBuf};
use std::process::{exit, Command};
use std::time::SystemTime;

/// The function that an archive with this crate's layout has.
const LAYOUT: &str = "qewaris_layout_2";

fn main() {
    println!("cargo:rerun-if-env-changed=QEWARIS_LIB_DIR");
    if env::var("CARGO_CFG_TARGET_ARCH").as_deref() != Ok("x86_64") {
        stop("the library is for x86-64 only.");
    }
    let archive = match env::var_os("QEWARIS_LIB_DIR") {
        Some(folder) => given(Path::new(&folder)),
        None => made(),
    };
    let out = PathBuf::from(env::var_os("OUT_DIR").expect("cargo names the build's folder"));
    keep(&archive, &out);
    println!("cargo:rustc-link-search=native={}", out.display());
    println!("cargo:rustc-link-lib=static=qewaris");
}

/// The archive in the folder that the caller named.
fn given(folder: &Path) -> PathBuf {
    let archive = folder.join("libqewaris.a");
    println!("cargo:rerun-if-changed={}", archive.display());
    if !archive.is_file() {
        stop(&format!("QEWARIS_LIB_DIR is set, but there is no {}.", archive.display()));
    }
    archive
}

/// The archive that `rt` makes in the repository. What is watched is what it is made of, and not what `rt` keeps beside that.
fn made() -> PathBuf {
    let root = root();
    let sources = sources(&root);
    for source in &sources {
        println!("cargo:rerun-if-changed={}", source.display());
    }
    let archive = root.join("target/staticlib/libqewaris.a");
    if sources.iter().filter_map(|source| newest(source)).max() >= changed(&archive) {
        make(&root);
    }
    archive
}

/// What the archive is made of: the list of the crates, and of each its code, its definitions and its proofs.
fn sources(root: &Path) -> Vec<PathBuf> {
    let crates = fs::read_dir(root.join("crates")).into_iter().flatten().flatten();
    let parts = crates.flat_map(|each| ["src", "specs", "proofs"].map(|part| each.path().join(part)));
    let mut found: Vec<_> = parts.filter(|part| part.is_dir()).collect();
    found.sort();
    found.push(root.join("crates.txt"));
    found
}

/// The repository that this package stands in.
fn root() -> PathBuf {
    let package = PathBuf::from(env::var_os("CARGO_MANIFEST_DIR").expect("cargo names the package's folder"));
    match package.ancestors().nth(2) {
        Some(root) if root.join("crates.txt").is_file() => root.to_path_buf(),
        _ => stop(
            "this package stands outside its repository, and so cannot make libqewaris.a. Set QEWARIS_LIB_DIR to a folder that has it.",
        ),
    }
}

/// When a file was changed; never, where there is none.
fn changed(path: &Path) -> Option<SystemTime> {
    path.metadata().and_then(|about| about.modified()).ok()
}

/// When a file, or the last one in a folder, was changed.
fn newest(path: &Path) -> Option<SystemTime> {
    let entries = fs::read_dir(path).into_iter().flatten().flatten();
    let within = entries.filter_map(|entry| newest(&entry.path())).max();
    within.max(changed(path))
}

fn make(root: &Path) {
    match Command::new(root.join("packaging/archive")).output() {
        Ok(done) if done.status.success() => {}
        Ok(done) => stop(&format!(
            "`packaging/archive` failed:\n{}{}",
            String::from_utf8_lossy(&done.stdout),
            String::from_utf8_lossy(&done.stderr)
        )),
        Err(error) => stop(&format!(
            "`packaging/archive`, which makes libqewaris.a, cannot be run ({error}). Set QEWARIS_LIB_DIR to a folder that has it."
        )),
    }
}

/// Copies the archive into the build's folder, if its structs are those that this crate has.
fn keep(archive: &Path, out: &Path) {
    let bytes = match fs::read(archive) {
        Ok(bytes) => bytes,
        Err(error) => stop(&format!("{} cannot be read: {error}.", archive.display())),
    };
    if !symbols(&bytes).is_some_and(|names| names.split(|byte| *byte == 0).any(|name| name == LAYOUT.as_bytes())) {
        stop(&format!(
            "{} has another layout than version {} of this crate: it has no {LAYOUT}. Take the archive of this version.",
            archive.display(),
            env!("CARGO_PKG_VERSION")
        ));
    }
    if let Err(error) = fs::write(out.join("libqewaris.a"), bytes) {
        stop(&format!("the archive cannot be copied: {error}."));
    }
}

/// The names in an archive's table of symbols, each with a byte 0 behind it. The table is the archive's first member: its header of
/// 60 bytes, the count of symbols, four bytes for each, and then the names.
fn symbols(archive: &[u8]) -> Option<&[u8]> {
    let member = archive.strip_prefix(b"!<arch>\n/ ")?;
    let size = std::str::from_utf8(member.get(46..56)?).ok()?.trim_end().parse().ok()?;
    let table = member.get(58..)?.get(..size)?;
    let count = u32::from_be_bytes(table.get(..4)?.try_into().ok()?);
    table.get(4 + 4 * usize::try_from(count).ok()?..)
}

fn stop(message: &str) -> ! {
    eprintln!("qewaris: {message}");
    exit(1)
}
