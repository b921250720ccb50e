//! The comparison of the port's flow check with the Rust: the same answer, and the same
//! contents of every lent buffer, on sheets that are drawn from seeds.

pub mod added;
pub mod answers;
pub mod expected;
pub mod flow_c;
pub mod generate;
pub mod lent;
pub mod limits;
pub mod load;
pub mod plan;
pub mod report;
pub mod sets;
mod shrink;

use compare::random::Random;
use expected::Known;
use flow_c::Answer;
use generate::{Family, any_family};
use lent::Lent;
use plan::Plan;
use report::{Failure, Report};
use std::fmt::Display;

/// Compares `count` sheets of all families. Sheet `i` depends on the seed and on `i`
/// alone. `progress` is told the report so far after each sheet.
pub fn run(seed: u64, count: u64, progress: impl FnMut(&Report)) -> Report {
    run_from(seed, 0, count, progress)
}

/// The same, beginning with sheet `first`.
pub fn run_from(seed: u64, first: u64, count: u64, mut progress: impl FnMut(&Report)) -> Report {
    let mut comparison = Comparison::default();
    for index in first..first + count {
        let mut random = nth(seed, index);
        let family = any_family(&mut random);
        comparison.draw(
            &family,
            &mut random,
            format_args!("seed {seed}, sheet {index}"),
        );
        progress(&comparison.report);
        if comparison.report.failure.is_some() {
            break;
        }
    }
    comparison.report
}

/// Compares `count` sheets of one family.
pub fn run_family(family: &Family, seed: u64, count: u64) -> Report {
    let mut comparison = Comparison::default();
    for index in 0..count {
        let mut random = nth(seed, index);
        let found = format_args!("{}, seed {seed}, sheet {index}", family.name);
        comparison.draw(family, &mut random, found);
        if comparison.report.failure.is_some() {
            break;
        }
    }
    comparison.report
}

/// The random numbers of one sheet.
fn nth(seed: u64, index: u64) -> Random {
    let start = Random::new(seed).bits().wrapping_add(index);
    Random::new(Random::new(start).bits())
}

/// A comparison: memory to lend, and what was found so far.
#[derive(Default)]
pub struct Comparison {
    lent: Lent,
    /// What was found so far.
    pub report: Report,
}

impl Comparison {
    /// Draws a sheet and its calls, and compares them.
    pub fn draw(&mut self, family: &Family, random: &mut Random, found: impl Display) {
        let sheet = (family.draw)(random);
        let known = Known::new(&sheet);
        let plans = (family.plans)(random, &known);
        self.compare(&sheet, &known, &plans, found);
    }

    /// Compares the calls of one sheet, up to the first mismatch. After one, nothing
    /// more is compared. A call without limits is made once more within some; of every
    /// second sheet, the first or the last such call also with slots added to the parameters.
    pub fn compare(&mut self, sheet: &[u8], known: &Known, plans: &[Plan], found: impl Display) {
        if self.report.failure.is_some() {
            return;
        }
        self.report.sheets += 1;
        let mut called = Vec::new();
        for &plan in plans {
            let Some(answer) = self.call(sheet, known, plan, &found) else {
                return;
            };
            if plan.limits.is_some() || plan.added.is_some() {
                continue;
            }
            let within = plan.within(known, &answer);
            if self.call(sheet, known, within, &found).is_none() {
                return;
            }
            called.push((plan, answer));
        }
        let (Some(first), Some(last)) = (called.first(), called.last()) else {
            return;
        };
        let mut random = Random::new(last.0.garbage);
        if random.once_in(2) {
            let (plan, answer) = random.pick(&[first, last]);
            self.call(sheet, known, plan.with(known, answer), &found);
        }
    }

    /// Makes a call and counts its answer, or notes its mismatch.
    fn call(
        &mut self,
        sheet: &[u8],
        known: &Known,
        plan: Plan,
        found: &impl Display,
    ) -> Option<Answer> {
        match self.lent.check(sheet, known, &plan) {
            Ok(answer) => {
                self.report.count(&plan, answer.number, sheet.len());
                Some(answer)
            }
            Err(mismatch) => {
                let (small, plan, mismatch) =
                    shrink::shrink(&mut self.lent, sheet, plan, *mismatch);
                self.report.failure = Some(Box::new(Failure {
                    found: found.to_string(),
                    length: sheet.len(),
                    sheet: small,
                    plan,
                    mismatch,
                }));
                None
            }
        }
    }
}
