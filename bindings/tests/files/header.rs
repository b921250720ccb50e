//! `include/kagari_flow.h`: the constants are the rows of the table, the limits those of this
//! crate, and the version is that of this crate and of the changelog.

use crate::read;
use kagari_flow::{Limits, Number, VERSION};

/// The constants of the header, with their numbers.
fn constants() -> Vec<(String, u32)> {
    let header = read("include/kagari_flow.h");
    let lines = header.lines();
    lines
        .filter_map(|line| line.trim().strip_prefix("KAGARI_FLOW_")?.split_once(" = "))
        .map(|(name, number)| {
            let number = number.trim_end_matches(',').parse();
            (name.to_owned(), number.expect("a number"))
        })
        .collect()
}

#[test]
fn the_constants_are_the_rows_of_the_table() {
    let rows = Number::ALL.iter().map(|&row| {
        let name = row.name().replace(' ', "_").to_uppercase();
        (name, row as u32)
    });
    let accepted = ("ACCEPTED".to_owned(), 0);
    let expected: Vec<(String, u32)> = [accepted].into_iter().chain(rows).collect();
    assert_eq!(constants(), expected);
}

#[test]
fn header_and_crate_have_the_same_limits() {
    let header = read("include/kagari_flow.h");
    let Limits { work, state, facts } = Limits::MOST;
    for (name, limit) in [("WORK", work), ("STATE", state), ("FACTS", facts)] {
        assert!(header.contains(&format!("#define KAGARI_FLOW_MOST_{name} {limit}\n")));
    }
}

#[test]
fn header_crate_and_changelog_have_one_version() {
    let header = read("include/kagari_flow.h");
    assert!(header.contains(&format!("#define KAGARI_FLOW_VERSION {VERSION}\n")));
    let changes = read("CHANGELOG.md");
    let newest = changes.lines().find(|line| line.starts_with("## "));
    assert_eq!(newest, Some(format!("## Version {VERSION}").as_str()));
}
