//! What a comparison found.

use crate::expected::Known;
use crate::lent::Mismatch;
use crate::plan::Plan;
use compare::hex::hex;
use std::fmt::{self, Display, Formatter};

/// The numbers that an answer can have are below this: 0 and the refusals 1 to 15 and 17.
pub const NUMBERS: usize = 18;

/// The numbers that an answer can have, with the names that document 01 and request 2 give
/// them. None has the number 16.
pub const NAMES: [(u32, &str); 17] = [
    (0, "accepted"),
    (1, "short sheet"),
    (2, "wrong kind"),
    (3, "bad body"),
    (4, "left over"),
    (5, "too many"),
    (6, "no code"),
    (7, "no such slot"),
    (8, "no such target"),
    (9, "open end"),
    (10, "no room"),
    (11, "state limit"),
    (12, "work limit"),
    (13, "unfilled slot"),
    (14, "host over await"),
    (15, "facts limit"),
    (17, "parameter twice"),
];

/// The name of a number.
///
/// # Panics
///
/// If no answer has it.
pub fn name(number: u32) -> &'static str {
    let found = NAMES.iter().find(|&&(named, _)| named == number);
    found
        .unwrap_or_else(|| panic!("no answer has the number {number}"))
        .1
}

/// Size classes: a sheet is in the first whose bytes it does not reach.
const SIZES: [(usize, &str); 5] = [
    (64, "< 64 B"),
    (256, "< 256 B"),
    (4_096, "< 4 KiB"),
    (65_536, "< 64 KiB"),
    (usize::MAX, "larger"),
];

/// How many calls gave what, and the first that gave something else than expected.
#[derive(Debug, Clone, Default)]
pub struct Report {
    /// The sheets that were tried.
    pub sheets: u64,
    /// The calls that were made with them, without limits or added slots.
    pub calls: u64,
    /// These by the number of their answer and the size of their sheet.
    table: [[u64; SIZES.len()]; NUMBERS],
    /// The calls within limits by the number of their answer.
    within: [u64; NUMBERS],
    /// The calls with added slots by the number of their answer.
    with: [u64; NUMBERS],
    /// The first mismatch, made small.
    pub failure: Option<Box<Failure>>,
}

/// A call that did not leave what was expected.
#[derive(Debug, Clone)]
pub struct Failure {
    /// Where it came up.
    pub found: String,
    /// The length of the sheet with which it came up.
    pub length: usize,
    /// The smallest sheet that was found to fail.
    pub sheet: Vec<u8>,
    /// What the call was made with.
    pub plan: Plan,
    /// What differs.
    pub mismatch: Mismatch,
}

impl Report {
    /// Counts a call.
    pub fn count(&mut self, plan: &Plan, number: u32, sheet_length: usize) {
        if plan.added.is_some() {
            self.with[number as usize] += 1;
            return;
        }
        if plan.limits.is_some() {
            self.within[number as usize] += 1;
            return;
        }
        let below = |&(bytes, _): &(usize, _)| sheet_length < bytes;
        let size = SIZES.iter().position(below).expect("a size class");
        self.table[number as usize][size] += 1;
        self.calls += 1;
    }

    /// How many calls without limits or added slots were answered with this number.
    pub fn times(&self, number: u32) -> u64 {
        self.table[number as usize].iter().sum()
    }

    /// How many calls within limits were answered with this number.
    pub fn times_within(&self, number: u32) -> u64 {
        self.within[number as usize]
    }

    /// How many calls within limits were made.
    pub fn calls_within(&self) -> u64 {
        self.within.iter().sum()
    }

    /// How many calls with added slots were answered with this number.
    pub fn times_with(&self, number: u32) -> u64 {
        self.with[number as usize]
    }

    /// How many calls with added slots were made.
    pub fn calls_with(&self) -> u64 {
        self.with.iter().sum()
    }

    /// Fails with the first mismatch, or if one of the numbers came up less often than
    /// `least` without limits.
    ///
    /// # Panics
    ///
    /// If so.
    #[track_caller]
    pub fn hold(&self, numbers: impl IntoIterator<Item = u32>, least: u64) {
        self.hold_by(Self::times, numbers, least);
    }

    /// The same of the calls within limits.
    ///
    /// # Panics
    ///
    /// If so.
    #[track_caller]
    pub fn hold_within(&self, numbers: impl IntoIterator<Item = u32>, least: u64) {
        self.hold_by(Self::times_within, numbers, least);
    }

    /// The same of the calls with added slots.
    ///
    /// # Panics
    ///
    /// If so.
    #[track_caller]
    pub fn hold_with(&self, numbers: impl IntoIterator<Item = u32>, least: u64) {
        self.hold_by(Self::times_with, numbers, least);
    }

    #[track_caller]
    fn hold_by(
        &self,
        times: impl Fn(&Self, u32) -> u64,
        numbers: impl IntoIterator<Item = u32>,
        least: u64,
    ) {
        if let Some(failure) = &self.failure {
            panic!("{failure}");
        }
        for number in numbers {
            let times = times(self, number);
            assert!(times >= least, "{number} came up {times} times\n{self}");
        }
    }
}

impl Display for Report {
    fn fmt(&self, f: &mut Formatter) -> fmt::Result {
        let heads = SIZES.iter().map(|(_, name)| format!("{name:>10}"));
        let heads: String = heads.collect();
        let forms = ["all", "within", "with"].map(|form| format!("{form:>11}"));
        writeln!(f, "{:<19}{heads}{}", "answer", forms.concat())?;
        for (number, name) in NAMES {
            let row = &self.table[number as usize];
            let cells: String = row.iter().map(|calls| format!("{calls:>10}")).collect();
            let forms = [
                self.times(number),
                self.times_within(number),
                self.times_with(number),
            ];
            let forms = forms.map(|calls| format!("{calls:>11}")).concat();
            writeln!(f, "{number:>2} {name:<16}{cells}{forms}")?;
        }
        let (sheets, calls) = (self.sheets, self.calls);
        let (within, with) = (self.calls_within(), self.calls_with());
        write!(
            f,
            "{sheets} sheets, {calls} calls, {within} calls within limits, {with} calls with \
             added slots"
        )
    }
}

impl Display for Failure {
    fn fmt(&self, f: &mut Formatter) -> fmt::Result {
        writeln!(
            f,
            "mismatch: {}, a sheet of {} bytes",
            self.found, self.length
        )?;
        writeln!(f, "smallest failing sheet, {} bytes:", self.sheet.len())?;
        writeln!(f, "{}", hex(&self.sheet))?;
        writeln!(f, "called with {:?}", self.plan)?;
        if let Some(added) = self.plan.added {
            let words = added.words(&Known::new(&self.sheet));
            writeln!(f, "added words {words:x?}")?;
        }
        write!(f, "{}", self.mismatch)
    }
}
