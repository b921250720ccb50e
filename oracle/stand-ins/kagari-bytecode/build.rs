//! Lays out `flow.rs` so that its blocks can be read from outside.
//!
//! `Block` keeps `initialized` and `live` private to the module `flow`, and only a
//! child of that module may read them. So this script writes to `OUT_DIR`:
//!
//! - `verifier.rs`: the declaration of `flow`, which `src/verifier.rs` includes;
//! - `flow.rs`: the carried text, unchanged, and one line after it that declares
//!   the child `readout`;
//! - `flow/solver.rs`: the carried text, unchanged;
//! - `flow/readout.rs`: a copy of `src/verifier/readout.rs`.
//!
//! The code that runs is the carried code as published, without `cfg(test)`.

use std::path::{Path, PathBuf};
use std::{env, fs};

fn main() {
    let package = Path::new(env!("CARGO_MANIFEST_DIR"));
    let carried = package.join("../../vendor/kagari-bytecode/src/verifier");
    let out = PathBuf::from(env::var_os("OUT_DIR").expect("cargo sets OUT_DIR"));

    let flow = read(&carried.join("flow.rs"));
    let solver = read(&carried.join("flow/solver.rs"));
    let readout = read(&package.join("src/verifier/readout.rs"));

    write(&out.join("verifier.rs"), "mod flow;\n");
    write(&out.join("flow.rs"), &format!("{flow}mod readout;\n"));
    write(&out.join("flow/solver.rs"), &solver);
    write(&out.join("flow/readout.rs"), &readout);
}

/// Reads a source file and has this script run again when it changes.
fn read(path: &Path) -> String {
    println!("cargo::rerun-if-changed={}", path.display());
    fs::read_to_string(path).unwrap_or_else(|error| panic!("{}: {error}", path.display()))
}

fn write(path: &Path, text: &str) {
    let folder = path.parent().expect("a file of OUT_DIR has a folder");
    fs::create_dir_all(folder)
        .and_then(|()| fs::write(path, text))
        .unwrap_or_else(|error| panic!("{}: {error}", path.display()));
}
