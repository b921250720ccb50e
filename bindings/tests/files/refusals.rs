//! `docs/REFUSALS.md`: each number has its section, and each sheet there gives what its
//! comments say.

use crate::reader;
use crate::runs::{Run, runs};
use crate::{bash, bytes, read};
use kagari_flow::{Budget, Number};
use kagari_oracle as oracle;

/// A section on a number: its heading without `## `, and what follows.
struct Section {
    heading: String,
    text: String,
}

/// The sections on numbers.
fn sections() -> Vec<Section> {
    let page = read("docs/REFUSALS.md");
    page.split("\n## ")
        .filter(|section| section.starts_with(|first: char| first.is_ascii_digit()))
        .map(|section| {
            let (heading, text) = section.split_once('\n').expect("a section has a text");
            Section {
                heading: heading.into(),
                text: text.into(),
            }
        })
        .collect()
}

impl Section {
    /// The one sheet of the section, with its comments: a block `hex` has it, a block `sh`
    /// prints it.
    fn sheet(&self) -> (Vec<u8>, Vec<Run>) {
        let mut fences = self.text.split("```");
        let (_, Some(block), Some(_), None) =
            (fences.next(), fences.next(), fences.next(), fences.next())
        else {
            panic!("{}: not one block", self.heading)
        };
        let bytes = match block.split_once('\n') {
            Some(("hex", text)) => bytes(text),
            Some(("sh", text)) => bytes(&bash(&["-c", text])),
            _ => panic!("{}: a block of another kind", self.heading),
        };
        (bytes, runs(block))
    }
}

#[test]
fn every_number_has_its_section() {
    let headings: Vec<String> = sections().into_iter().map(|it| it.heading).collect();
    let rows = Number::ALL.iter();
    let expected: Vec<String> = rows.map(|&row| format!("{} {row}", row as u32)).collect();
    assert_eq!(headings, expected);
}

/// The first comment is about the section's number; further ones may show how to pass.
#[test]
fn every_sheet_gives_what_it_says() {
    for section in sections() {
        let (sheet, runs) = section.sheet();
        let refused = format!("refused: {},", section.heading);
        assert!(runs[0].answer.starts_with(&refused), "{refused}");
        for run in runs {
            let answer = run.answer.as_str();
            assert!(answer.starts_with(&refused) || answer.starts_with("accepted: "));
            assert_eq!(run.found(&sheet), answer, "{}", section.heading);
        }
    }
}

/// The number by the plain reader and the oracle, which know no lent memory; 0 if neither
/// refuses.
fn number(sheet: &[u8], budget: Budget) -> u32 {
    let Budget { work, retained } = budget;
    match reader::read(sheet) {
        Err(refused) => refused.number,
        Ok(read) => {
            let answer = oracle::verify(&read.script, oracle::Budget { work, retained });
            answer.result.err().unwrap_or(0)
        }
    }
}

#[test]
fn the_reader_and_the_oracle_say_the_same() {
    for section in sections() {
        let (sheet, runs) = section.sheet();
        for run in runs.iter().filter(|run| run.lent.is_none()) {
            let number = number(&sheet, run.budget);
            let says = match number {
                0 => "accepted: ".to_owned(),
                number => format!("refused: {number} "),
            };
            assert!(run.answer.starts_with(&says), "{}", section.heading);
        }
    }
}

/// The length that a sheet needs at least to be over the state limit with sets of so many
/// words: 6 bytes a slot, 4 a block.
fn over_the_state_limit(words: usize) -> Option<usize> {
    let slots = (64 * words).saturating_sub(63);
    let blocks = (67_108_864 - 16 * words) / (32 * words + 264) + 1;
    (blocks <= 65_536).then_some(16 + 4 + 6 * slots + 4 * blocks)
}

/// A function record and two parameters; nothing behind them is looked at.
#[test]
fn the_sheet_of_17_is_the_shortest() {
    let section = sections().pop().expect("a section");
    assert_eq!(section.heading, "17 parameter twice");
    let (sheet, _) = section.sheet();
    assert_eq!(sheet.len(), 16 + 4 + 2 * 4);
    for end in 0..sheet.len() {
        assert_eq!(number(&sheet[..end], Budget::default()), 1);
    }
}

#[test]
fn the_sheet_of_11_is_the_shortest() {
    let shortest = (0..=1_024).filter_map(over_the_state_limit).min();
    let (sheet, _) = sections()[10].sheet();
    assert_eq!(Some(sheet.len()), shortest);
}
