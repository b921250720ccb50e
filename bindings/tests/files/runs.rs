//! The comments of a sheet that say what comes out, as
//!
//! ```text
//! # from work 0, retained 0: refused: 6 no code, function 7, work 0, retained 0
//! # with scratch 3, sets 0, blocks 1, from work 0, retained 0: refused: 10 ..
//! ```

use crate::text;
use kagari_flow::{Block, Budget, Buffers, Sizes, verify, verify_in};

/// One such comment.
pub struct Run {
    /// The lengths of the lent memory; enough of it if they are not given.
    pub lent: Option<Sizes>,
    /// The budget that is handed in.
    pub budget: Budget,
    /// The answer on one line.
    pub answer: String,
}

impl Run {
    /// The answer of the check.
    pub fn found(&self, sheet: &[u8]) -> String {
        let Some(lent) = self.lent else {
            return text::answer(&verify(sheet, self.budget));
        };
        let mut buffers = Buffers {
            blocks: &mut vec![Block::default(); lent.blocks],
            sets: &mut vec![0; lent.sets],
            scratch: &mut vec![0; lent.scratch],
        };
        text::answer(&verify_in(sheet, self.budget, &mut buffers))
    }
}

/// What the comments of a text say; at least one of them does.
#[track_caller]
pub fn runs(text: &str) -> Vec<Run> {
    let runs: Vec<Run> = text.lines().filter_map(run).collect();
    assert!(!runs.is_empty(), "no comment says what comes out");
    runs
}

fn run(line: &str) -> Option<Run> {
    let (given, answer) = line.strip_prefix("# ")?.split_once(": ")?;
    let given: Option<Vec<(&str, u64)>> = given.split(", ").map(named).collect();
    let (lent, work, retained) = match given?[..] {
        [("work", work), ("retained", retained)] => (None, work, retained),
        [
            ("scratch", scratch),
            ("sets", sets),
            ("blocks", blocks),
            ("work", work),
            ("retained", retained),
        ] => {
            let [blocks, sets, scratch] = [blocks, sets, scratch].map(|length| length as usize);
            let lent = Sizes {
                blocks,
                sets,
                scratch,
            };
            (Some(lent), work, retained)
        }
        _ => return None,
    };
    Some(Run {
        lent,
        budget: Budget { work, retained },
        answer: answer.into(),
    })
}

/// A number and the word before it.
fn named(part: &str) -> Option<(&str, u64)> {
    let (words, number) = part.rsplit_once(' ')?;
    Some((words.rsplit(' ').next()?, number.parse().ok()?))
}
