//! `crates.txt`: its headings, what each crate stands on, and which definitions the contract of the exported call rests on.

use crate::{path, read};
use std::collections::BTreeSet;
use std::fs;
use std::path::Path;

/// A heading of `crates.txt` with its crates, or one of `docs/ARCHITECTURE.md` with those of its table.
type Heading = (String, Vec<String>);

/// What `crates.txt` says of a crate: its name, and the crates that it stands on.
struct Listed {
    name: String,
    stands_on: Vec<String>,
}

/// The crate that a line `NAME: ..` or `NAME staticlib: ..` lists.
fn name_in(line: &str) -> Option<&str> {
    let name = line.split_once(':')?.0.split_whitespace().next()?;
    name.chars()
        .all(|c| c.is_alphanumeric() || c == '_')
        .then_some(name)
}

fn listed() -> Vec<Listed> {
    let text = read("crates.txt");
    let lines = text.lines().filter(|line| !line.starts_with('#'));
    lines
        .filter_map(|line| Some((name_in(line)?, line.split_once(':')?.1)))
        .map(|(name, rest)| Listed {
            name: name.to_string(),
            stands_on: rest.split_whitespace().map(str::to_string).collect(),
        })
        .collect()
}

fn headings(page: &str, heading: &str, name_in: impl Fn(&str) -> Option<&str>) -> Vec<Heading> {
    let mut all: Vec<Heading> = vec![];
    for line in read(page).lines() {
        if let Some(title) = line.strip_prefix(heading) {
            all.push((title.trim_end_matches('─').trim().to_string(), vec![]));
        } else if let (Some(name), Some((_, names))) = (name_in(line), all.last_mut()) {
            names.push(name.to_string());
        }
    }
    all.retain(|(_, names)| !names.is_empty());
    all
}

#[test]
fn architecture_has_the_headings_and_crates_of_crates_txt() {
    let in_list = headings("crates.txt", "# ── ", name_in);
    let in_page = headings("docs/ARCHITECTURE.md", "## ", |line| {
        line.strip_prefix("| `")?
            .split_once("` | ")
            .map(|(name, _)| name)
    });
    let titles: Vec<_> = in_list.iter().map(|(title, _)| title.as_str()).collect();
    assert_eq!(
        titles,
        [
            "meaning", "sheet", "store", "graph", "rounds", "points", "call", "hosts"
        ]
    );
    // the table of letters has no crate
    assert_eq!(in_list, in_page[..in_list.len()]);
    assert_eq!(
        in_list.iter().map(|(_, names)| names.len()).sum::<usize>(),
        listed().len()
    );
}

/// The text of all files of Rattle and antt below a folder, and of the edits there, whose new lines must compile too.
fn code_below(folder: &Path, text: &mut String) {
    for entry in fs::read_dir(folder).into_iter().flatten() {
        let file = entry.expect("an entry").path();
        if file.is_dir() {
            code_below(&file, text);
        } else if file
            .extension()
            .is_some_and(|end| end == "rt" || end == "antt" || end == "edit")
        {
            text.push_str(&fs::read_to_string(&file).expect("text"));
        }
    }
}

#[test]
fn a_crate_lists_only_crates_that_its_files_name() {
    let all = listed();
    for krate in &all {
        let mut text = String::new();
        for part in ["src", "specs", "proofs", "must-fail"] {
            code_below(&path("crates").join(&krate.name).join(part), &mut text);
        }
        for name in &krate.stands_on {
            let named = [
                format!("Rattle.{name}."),
                format!("use {name}::"),
                format!("{name}::"),
            ];
            let is_named = named.iter().any(|way| text.contains(way));
            // what a program's `main` is proved to do names the refusals, which no file of it does
            let is_asked =
                name == "format" && ["flowlist", "replay"].contains(&krate.name.as_str());
            assert!(is_named || is_asked, "{} lists {name}", krate.name);
        }
    }
}

#[test]
fn what_the_call_answers_is_defined_without_the_engine() {
    let engine = [
        "leaders",
        "rooms",
        "edges",
        "blocks",
        "graph",
        "order",
        "transfer",
        "solver",
        "propagate",
        "fixed_points",
    ];
    let all = listed();
    let outcome = all
        .iter()
        .find(|krate| krate.name == "outcome")
        .expect("outcome");
    let mut below = vec![outcome];
    while let Some(krate) = below.pop() {
        assert!(
            !engine.contains(&krate.name.as_str()),
            "outcome stands on {}",
            krate.name
        );
        below.extend(
            all.iter()
                .filter(|other| krate.stands_on.contains(&other.name)),
        );
    }
}

/// The file of definitions that a `use` line names, below `crates`: `Rattle.CRATE.specs.FILE..`.
/// Types that the code declares (`declared`) have no such file.
fn file_of(line: &str) -> Option<String> {
    let (krate, rest) = line.strip_prefix("use Rattle.")?.split_once(".specs.")?;
    let file = rest.split(['.', ' ']).next()?;
    let name = format!("{krate}/specs/{file}.antt");
    path("crates").join(&name).is_file().then_some(name)
}

#[test]
fn the_page_on_trust_lists_the_definitions_behind_the_contract() {
    let mut reading = vec!["flow_c/specs/Exports.antt".to_string()];
    let mut files = BTreeSet::new();
    let mut lines = 0;
    while let Some(file) = reading.pop() {
        if files.contains(&file) {
            continue;
        }
        let text = read(&format!("crates/{file}"));
        lines += text.lines().count();
        reading.extend(text.lines().filter_map(file_of));
        files.insert(file);
    }
    let page = read("docs/TRUST.md");
    let mut named = BTreeSet::new();
    for row in page.lines().filter(|line| line.starts_with("| `")) {
        let (krate, rest) = row[3..].split_once("` | ").expect("a crate");
        let (list, _) = rest.split_once(" |").expect("its files");
        named.extend(
            list.split(", ")
                .map(|file| format!("{krate}/specs/{file}.antt")),
        );
    }
    assert_eq!(files, named);
    assert!(files.len() <= 47, "{} files", files.len());
    assert!(lines <= 2700, "{lines} lines");
}
