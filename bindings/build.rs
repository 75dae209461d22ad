//! Finds the archive of the proved library and links it. Where it is missing, or older than the
//! sources that it is proved from, `bindings/archive` proves and writes it first.

use std::path::{Path, PathBuf};
use std::process::{exit, Command};
use std::time::SystemTime;
use std::{env, fs, io};

fn main() {
    let top = top();
    let folder = top.join("target/staticlib");
    let archive = folder.join("libfilm.a");
    let sources = ["crates", "crates.txt", "bindings/archive"].map(|source| top.join(source));
    if !is_fresh(&archive, &sources) {
        prove(&top);
    }
    let crates = folders(&sources[0])
        .into_iter()
        .flat_map(|one| folders(&one));
    let watched = crates.filter(|folder| !is_made(folder));
    for watched in watched.chain(sources.into_iter().skip(1)).chain([archive]) {
        println!("cargo:rerun-if-changed={}", watched.display());
    }
    println!("cargo:rustc-link-search=native={}", folder.display());
    println!("cargo:rustc-link-lib=static=film");
}

/// The top of the tree: the folder above this package's.
fn top() -> PathBuf {
    let package = env::var_os("CARGO_MANIFEST_DIR").expect("cargo sets CARGO_MANIFEST_DIR");
    let top = Path::new(&package).parent().expect("a folder above");
    if !top.join("crates.txt").is_file() {
        fail("bindings/ must lie at the top of Film's tree, beside crates/ and crates.txt");
    }
    top.to_path_buf()
}

/// Whether the archive is there and no source is newer.
fn is_fresh(archive: &Path, sources: &[PathBuf]) -> bool {
    let Ok(made) = fs::metadata(archive).and_then(|data| data.modified()) else {
        return false;
    };
    sources
        .iter()
        .all(|source| newest(source).is_ok_and(|changed| changed <= made))
}

/// The latest change of a source file, or of those below a folder. Proofs count as sources: the
/// archive stands for what was proved.
fn newest(path: &Path) -> io::Result<SystemTime> {
    if !path.is_dir() {
        return fs::metadata(path)?.modified();
    }
    let mut latest = SystemTime::UNIX_EPOCH;
    for entry in fs::read_dir(path)? {
        let path = entry?.path();
        if (path.is_dir() && !is_made(&path)) || is_source(&path) {
            latest = latest.max(newest(&path)?);
        }
    }
    Ok(latest)
}

/// The folders in a folder.
fn folders(path: &Path) -> Vec<PathBuf> {
    let entries = fs::read_dir(path).into_iter().flatten().flatten();
    entries
        .map(|entry| entry.path())
        .filter(|path| path.is_dir())
        .collect()
}

/// Whether a crate's folder is the one that `rt` makes.
fn is_made(path: &Path) -> bool {
    path.file_name().is_some_and(|name| name == "out")
}

fn is_source(path: &Path) -> bool {
    path.extension()
        .is_some_and(|kind| kind == "rt" || kind == "antt")
}

/// Proves the library and writes its archive.
fn prove(top: &Path) {
    match Command::new(top.join("bindings/archive")).output() {
        Ok(output) if output.status.success() => {}
        Ok(output) => {
            eprint!("{}", String::from_utf8_lossy(&output.stderr));
            fail(
                "target/staticlib/libfilm.a is missing or older than its sources, and \
                 bindings/archive, which makes it, failed",
            );
        }
        Err(error) => fail(&format!("bindings/archive could not be started: {error}")),
    }
}

fn fail(message: &str) -> ! {
    eprintln!("film: {message}");
    exit(1)
}
