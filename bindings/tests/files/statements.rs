//! `docs/PROVED.md` and the other pages: what they name is there.

use crate::{path, read};
use std::collections::BTreeSet;
use std::fs;
use std::path::Path;

/// The text of all files below a folder of each crate.
fn sources(folders: &[&str]) -> String {
    let mut text = String::new();
    for entry in fs::read_dir(path("crates")).expect("crates") {
        let krate = entry.expect("a crate").path();
        for folder in folders {
            gather(&krate.join(folder), &mut text);
        }
    }
    text
}

fn gather(folder: &Path, text: &mut String) {
    let Ok(entries) = fs::read_dir(folder) else {
        return;
    };
    for entry in entries {
        let file = entry.expect("an entry").path();
        if file.is_dir() {
            gather(&file, text);
        } else {
            text.push_str(&fs::read_to_string(&file).expect("text"));
            text.push('\n');
        }
    }
}

/// The words of a text: what a name is made of, here and in antt.
fn words(text: &str) -> BTreeSet<&str> {
    text.split(|c: char| !(c.is_alphanumeric() || "_-′".contains(c)))
        .collect()
}

/// What stands between backquotes.
fn quoted(text: &str) -> impl Iterator<Item = &str> {
    text.split('`').skip(1).step_by(2)
}

/// The cells of a row of a table.
fn cells(line: &str) -> Vec<&str> {
    match line.strip_prefix('|') {
        Some(row) => row.trim_end_matches('|').split('|').collect(),
        None => vec![],
    }
}

#[test]
fn each_statement_that_is_named_stands_in_a_crate() {
    let sources = sources(&["src", "specs", "proofs"]);
    let known = words(&sources);
    let page = read("docs/PROVED.md");
    let mut seen = 0;
    for line in page.lines().filter(|line| !line.contains("oracle/")) {
        let Some(statement) = cells(line).get(1).copied() else {
            continue;
        };
        for name in quoted(statement) {
            let last = name.rsplit("::").next().expect("a part");
            assert!(known.contains(last), "{name}, in: {line}");
            seen += 1;
        }
    }
    assert!(seen > 300, "{seen} names");
}

#[test]
fn each_edit_that_is_named_is_there() {
    let page = read("docs/PROVED.md");
    let mut seen = 0;
    for line in page.lines() {
        for name in cells(line).get(2).into_iter().flat_map(|cell| quoted(cell)) {
            let (krate, label) = name.split_once('/').expect("CRATE/EDIT");
            let edit = path(&format!("crates/{krate}/must-fail/{label}.edit"));
            assert!(edit.is_file(), "{name}");
            seen += 1;
        }
    }
    assert!(seen > 30, "{seen} edits");
}

#[test]
fn each_file_that_is_named_is_there() {
    let names_a_file = |word: &&str| word.starts_with("crates/") && !word.contains("NAME");
    for page in [
        "PROVED",
        "TRUST",
        "DECISIONS",
        "ARCHITECTURE",
        "DIFFERENCES",
    ] {
        let text = read(&format!("docs/{page}.md"));
        let is_end = |c: char| c.is_whitespace() || "`,;|()".contains(c);
        for name in text.split(is_end).filter(names_a_file) {
            let name = name.trim_end_matches(['.', ':']);
            if !name.contains(['*', '<']) && !name.contains("CRATE") {
                assert!(path(name).exists(), "{page}.md: {name}");
            }
        }
    }
}
