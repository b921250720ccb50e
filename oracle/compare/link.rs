//! Links the port's static libraries, which `tools/staticlib` writes to
//! `target/staticlib` of the repository. Part of the build scripts of the comparisons.

use std::path::Path;
use std::process::{self, Command};

/// Links the archives of these names, or ends the build with the reason.
pub fn link_all(repository: &Path, libraries: &[&str]) {
    for library in libraries {
        if let Err(reason) = link(repository, library) {
            eprintln!("{reason}");
            process::exit(1);
        }
    }
}

/// Links one archive. An archive that is there is taken as it is; one that is not is
/// made first.
fn link(repository: &Path, library: &str) -> Result<(), String> {
    let folder = repository.join("target/staticlib");
    let archive = folder.join(format!("lib{library}.a"));
    println!("cargo::rerun-if-changed={}", archive.display());
    if !archive.exists() {
        make(repository, library)?;
    }
    if !archive.exists() {
        return Err(format!("{} is not there", archive.display()));
    }
    println!("cargo::rustc-link-search=native={}", folder.display());
    println!("cargo::rustc-link-lib=static={library}");
    Ok(())
}

/// Runs `tools/staticlib`. What it prints is part of what cargo shows on a failure.
fn make(repository: &Path, library: &str) -> Result<(), String> {
    let mut script = Command::new(repository.join("tools/staticlib"));
    match script.arg(library).status() {
        Ok(status) if status.success() => Ok(()),
        Ok(status) => Err(format!(
            "lib{library}.a is missing and `tools/staticlib {library}` failed ({status})"
        )),
        Err(error) => Err(format!(
            "lib{library}.a is missing and `tools/staticlib` can't be started ({error})"
        )),
    }
}
