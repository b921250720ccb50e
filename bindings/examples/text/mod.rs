//! Sheets and answers as text, for the example and the tests.

use kagari_flow::{Accepted, Refusal};

/// The bytes of a sheet in hexadecimal: pairs of digits, with blanks and comments from `#`
/// to the end of the line between them.
pub fn sheet(text: &str) -> Result<Vec<u8>, String> {
    let lines = text.lines();
    lines
        .flat_map(|line| {
            line.split('#')
                .next()
                .unwrap_or_default()
                .split_whitespace()
        })
        .flat_map(|word| word.as_bytes().chunks(2))
        .map(byte)
        .collect()
}

fn byte(pair: &[u8]) -> Result<u8, String> {
    let digit = |&digit| char::from(digit).to_digit(16);
    let digits: Option<Vec<u32>> = pair.iter().map(digit).collect();
    match digits.as_deref() {
        Some(&[high, low]) => Ok((16 * high + low) as u8),
        _ => Err("it is not in hexadecimal".into()),
    }
}

/// The answer on one line.
pub fn answer(result: &Result<Accepted<'_>, Refusal>) -> String {
    let (outcome, budget) = match result {
        Ok(accepted) => {
            let (function, blocks) = (accepted.function(), accepted.blocks().len());
            let awaits = accepted.awaits().len();
            (
                format!("accepted: function {function}, blocks {blocks}, awaits {awaits}"),
                accepted.budget(),
            )
        }
        Err(refusal) => {
            let (row, function) = (refusal.number, refusal.function);
            (
                format!("refused: {} {row}, function {function}", row as u32),
                refusal.budget,
            )
        }
    };
    format!(
        "{outcome}, work {}, retained {}",
        budget.work, budget.retained
    )
}
