//! Checks one sheet: reads it in hexadecimal, prints the answer, the blocks, the slots that
//! each await saves, and their load. The budget is zero, and the limits are the highest,
//! unless they are given. Slots that are given are parameters beside those that the sheet
//! names.
//!
//!     check FILE [WORK RETAINED [MOST_WORK MOST_STATE MOST_FACTS [SLOT ..]]]
//!
//! Ends with 0 if the script is accepted, 1 if it is refused, 2 if it can't be read.

mod text;

use kagari_flow::{
    Accepted, Block, Budget, Limits, slot_words, verify, verify_with, verify_within,
};
use std::env;
use std::fs;
use std::io::{self, Write};
use std::process::ExitCode;

const USAGE: &str = "usage: check FILE [WORK RETAINED [MOST_WORK MOST_STATE MOST_FACTS [SLOT ..]]]";

fn main() -> ExitCode {
    let arguments: Vec<String> = env::args().skip(1).collect();
    match run(&arguments) {
        Ok(true) => ExitCode::SUCCESS,
        Ok(false) => ExitCode::FAILURE,
        Err(reason) => {
            eprintln!("check: {reason}");
            ExitCode::from(2)
        }
    }
}

/// Whether the script is accepted, or why it can't be read.
fn run(arguments: &[String]) -> Result<bool, String> {
    let Some((file, numbers)) = arguments.split_first() else {
        return Err(USAGE.into());
    };
    let numbers: Result<Vec<u64>, String> = numbers.iter().map(|digits| number(digits)).collect();
    let numbers = numbers?;
    let (budget, limits, slots) = match numbers[..] {
        [] => (Budget::default(), None, &[][..]),
        [work, retained] => (Budget { work, retained }, None, &[][..]),
        [
            work,
            retained,
            most_work,
            most_state,
            most_facts,
            ref slots @ ..,
        ] => {
            let limits = Limits {
                work: most_work,
                state: most_state,
                facts: most_facts,
            };
            (Budget { work, retained }, Some(limits), slots)
        }
        _ => return Err(USAGE.into()),
    };
    let text = fs::read_to_string(file).map_err(|error| format!("{file}: {error}"))?;
    let sheet = text::sheet(&text).map_err(|error| format!("{file}: {error}"))?;

    let result = match limits {
        None => verify(&sheet, budget),
        Some(limits) if slots.is_empty() => verify_within(&sheet, budget, limits),
        Some(limits) => verify_with(&sheet, &added(&sheet, slots)?, budget, limits),
    };
    let mut lines = vec![text::answer(&result)];
    if let Ok(accepted) = &result {
        lines.extend(facts(accepted));
        let load = accepted.load(&sheet).map_err(|number| number.to_string())?;
        lines.push(format!("load {load}"));
    }
    let written = writeln!(io::stdout(), "{}", lines.join("\n"));
    written.map_err(|error| format!("standard output: {error}"))?;
    Ok(result.is_ok())
}

fn number(digits: &str) -> Result<u64, String> {
    let number = digits.parse();
    number.map_err(|error| format!("{digits}: {error}"))
}

/// The words of a set of these slots. How many the script has is the number at byte 8 of its
/// sheet; one with more than 65,536 is refused whatever the set is.
fn added(sheet: &[u8], slots: &[u64]) -> Result<Vec<u64>, String> {
    let count = sheet.get(8..).and_then(<[u8]>::first_chunk);
    let count = count.map_or(0, |&bytes| u32::from_le_bytes(bytes).min(65_536));
    let slots = slots.iter().map(|&slot| match u32::try_from(slot) {
        Ok(slot) if slot < count => Ok(slot),
        _ => Err(format!("{slot}: there is no such slot")),
    });
    let slots: Vec<u32> = slots.collect::<Result<_, _>>()?;
    Ok(slot_words(count, slots))
}

/// A line for each block, then one for each await.
fn facts(accepted: &Accepted<'_>) -> Vec<String> {
    let blocks = accepted.blocks().iter().enumerate();
    let blocks = blocks.map(|(number, block)| format!("block {number}: {}", describe(block)));
    let awaits = accepted.awaits().map(|point| {
        let slots = list(point.slots.iter());
        format!("await {}: saves {slots}", point.instruction)
    });
    blocks.chain(awaits).collect()
}

fn describe(block: &Block) -> String {
    let instructions = block.instructions();
    format!(
        "instructions {} to {}, {}, next {}",
        instructions.start,
        instructions.end - 1,
        if block.is_reachable() {
            "reached"
        } else {
            "not reached"
        },
        list(block.successors().iter().copied())
    )
}

/// The numbers with blanks between them, or `none`.
fn list(numbers: impl Iterator<Item = u32>) -> String {
    let words: Vec<String> = numbers.map(|number| number.to_string()).collect();
    if words.is_empty() {
        "none".into()
    } else {
        words.join(" ")
    }
}
