//! Links the proved library. The archive is what `bash .ci/prove archive` writes at the project's root;
//! the environment variable `SPARDIMPLE_ARCHIVE` may name another. Writes the manual page from the
//! command's own description, and tells the command what it is built from.

#![warn(clippy::all, clippy::pedantic)]

#[allow(dead_code)] // the page needs the description, and not what reads the words by it
#[path = "src/command/cli.rs"]
mod cli;
#[path = "src/command/fields.rs"]
mod fields;
#[path = "src/command/manual.rs"]
mod manual;
#[allow(dead_code)] // the page needs the whole table only
#[path = "src/refusals.rs"]
mod refusals;

use sha2::{Digest, Sha256};
use std::env;
use std::fs;
use std::path::{Path, PathBuf};
use std::process::{self, Command};

fn main() {
    println!("cargo:rerun-if-env-changed=SPARDIMPLE_ARCHIVE");
    let archive = archive();
    println!("cargo:rerun-if-changed={}", archive.display());
    if !archive.is_file() {
        stop(&format!(
            "{} is missing: `bash .ci/prove archive` at the project's root writes it",
            archive.display()
        ));
    }
    match (archive.parent(), library_name(&archive)) {
        (Some(folder), Some(name)) => {
            println!("cargo:rustc-link-search=native={}", folder.display());
            println!("cargo:rustc-link-lib=static={name}");
        }
        _ => stop(&format!("{} is not named libNAME.a", archive.display())),
    }
    write_manual();
    tell_origin(&archive);
}

/// Tells the command the archive's digest, and the commit that its own sources are of. Where there is
/// no history the commit is unknown.
fn tell_origin(archive: &Path) {
    let bytes = fs::read(archive).unwrap_or_else(|error| stop(&format!("the archive: {error}")));
    let digest = Sha256::digest(bytes);
    println!("cargo:rustc-env=SPARDIMPLE_ARCHIVE_SHA256={digest:x}");
    let changed = git(&[
        "status",
        "--porcelain",
        "--",
        ".",
        "../crates",
        "../crates.txt",
    ]);
    let commit = match (git(&["rev-parse", "HEAD"]), changed) {
        (Some(commit), Some(none)) if none.is_empty() => commit,
        (Some(commit), _) => format!("{commit} with changes"),
        (None, _) => "unknown".to_owned(),
    };
    println!("cargo:rustc-env=SPARDIMPLE_COMMIT={commit}");
    println!("cargo:rerun-if-changed=src");
    if let Some(history) = git(&["rev-parse", "--git-path", "logs/HEAD"]) {
        println!("cargo:rerun-if-changed={history}");
    }
}

/// What git says about the project, if it says anything.
fn git(words: &[&str]) -> Option<String> {
    let said = Command::new("git").args(words).output().ok()?;
    let said = said.status.success().then_some(said.stdout)?;
    Some(String::from_utf8(said).ok()?.trim().to_owned())
}

/// Writes the manual page, where the command takes it from.
fn write_manual() {
    for source in [
        "build.rs",
        "src/command/cli.rs",
        "src/command/fields.rs",
        "src/command/manual.rs",
        "src/refusals.rs",
    ] {
        println!("cargo:rerun-if-changed={source}");
    }
    let folder = env::var_os("OUT_DIR").map(PathBuf::from);
    let page = folder.map(|folder| folder.join("spardimple.1"));
    let written = page.map(|page| fs::write(page, manual::page()));
    match written {
        Some(Ok(())) => {}
        Some(Err(error)) => stop(&format!("the manual page: {error}")),
        None => stop("cargo gives no OUT_DIR"),
    }
}

/// The archive to link, as an absolute path where the project gives it.
fn archive() -> PathBuf {
    if let Some(named) = env::var_os("SPARDIMPLE_ARCHIVE") {
        return PathBuf::from(named);
    }
    match env::var_os("CARGO_MANIFEST_DIR") {
        Some(package) => Path::new(&package).join("../target/staticlib/libspardimple.a"),
        None => stop("cargo gives no CARGO_MANIFEST_DIR"),
    }
}

/// What the linker calls the archive: `NAME` of `libNAME.a`.
fn library_name(archive: &Path) -> Option<String> {
    let file = archive.file_name()?.to_str()?;
    let name = file.strip_prefix("lib")?.strip_suffix(".a")?;
    Some(name.to_owned())
}

/// Ends the build with a sentence on standard error.
fn stop(why: &str) -> ! {
    eprintln!("{why}");
    process::exit(1)
}
