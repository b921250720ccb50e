//! The files that a host reads: the sheets, the page on refusals, the C header, and what the pages name.

mod crates;
mod header;
#[allow(dead_code)]
#[path = "../../../oracle/compare/src/reader.rs"]
mod reader;
mod refusals;
mod runs;
mod sheets;
mod statements;
#[path = "../../examples/text/mod.rs"]
mod text;

use std::fs;
use std::path::PathBuf;
use std::process::Command;

/// A file or folder of the repository.
fn path(name: &str) -> PathBuf {
    PathBuf::from(env!("CARGO_MANIFEST_DIR"))
        .join("..")
        .join(name)
}

/// A file of the repository as text.
fn read(name: &str) -> String {
    fs::read_to_string(path(name)).unwrap_or_else(|error| panic!("{name}: {error}"))
}

/// What bash prints, run in the repository.
fn bash(arguments: &[&str]) -> String {
    let mut bash = Command::new("bash");
    bash.args(arguments).current_dir(path("."));
    let output = bash.output().expect("bash starts");
    assert!(output.status.success(), "bash {arguments:?}");
    String::from_utf8(output.stdout).expect("text")
}

/// The bytes of a sheet in hexadecimal.
#[track_caller]
fn bytes(text: &str) -> Vec<u8> {
    text::sheet(text).expect("hexadecimal")
}
