//! Refusals.

use crate::Budget;
use std::error::Error;
use std::fmt;

/// A script was refused.
#[derive(Debug, Clone, Copy, PartialEq, Eq)]
pub struct Refusal {
    /// The row of the refusal table.
    pub number: Number,
    /// The function's id; 0 if the function record itself is refused with 1, 2 or 3.
    pub function: u32,
    /// The budget: as given after 1 to 9 and 17, and after 10 if scratch is shorter than
    /// four words an instruction, or an added set than it has to be; else as charged, with
    /// the sum that crossed a limit.
    pub budget: Budget,
}

impl fmt::Display for Refusal {
    fn fmt(&self, f: &mut fmt::Formatter<'_>) -> fmt::Result {
        let Self {
            number, function, ..
        } = *self;
        write!(
            f,
            "refusal {} of function {function}: {number}",
            number as u32
        )
    }
}

impl Error for Refusal {}

/// The rows of the refusal table; none has the number 16. `docs/REFUSALS.md` says what to
/// do about each.
#[derive(Debug, Clone, Copy, PartialEq, Eq, Hash)]
#[non_exhaustive]
#[repr(u32)]
pub enum Number {
    /// The sheet ends inside a record, or a record's length is below 2.
    ShortSheet = 1,
    /// A record is of another kind than is due at its place.
    WrongKind,
    /// A record's length, type, physical byte or module slot does not fit.
    BadBody,
    /// Bytes follow the last record.
    LeftOver,
    /// Slots or instructions are above 65,536.
    TooMany,
    /// There is no instruction.
    NoCode,
    /// A slot number, or a bit of an added set, is at or above the slot count.
    NoSuchSlot,
    /// A target is at or above the instruction count.
    NoSuchTarget,
    /// The last instruction lets control run past the end.
    OpenEnd,
    /// A lent slice or an added set is too short.
    NoRoom,
    /// Blocks times slots is too much for the check's state: it would take more than
    /// 67,108,864 bytes, or than a lower [`Limits::state`](crate::Limits::state).
    StateLimit,
    /// The check would take more than 100,000,000 steps, or than a lower
    /// [`Limits::work`](crate::Limits::work).
    WorkLimit,
    /// Some path reads a slot that is no parameter and was not written before.
    UnfilledSlot,
    /// A host handle would be saved over an await.
    HostOverAwait,
    /// The await facts would retain more than 67,108,864 bytes, or than a lower
    /// [`Limits::facts`](crate::Limits::facts).
    FactsLimit,
    /// The parameter record names a slot twice.
    ParameterTwice = 17,
}

impl Number {
    /// All rows, by their numbers.
    pub const ALL: &[Self] = &[
        Self::ShortSheet,
        Self::WrongKind,
        Self::BadBody,
        Self::LeftOver,
        Self::TooMany,
        Self::NoCode,
        Self::NoSuchSlot,
        Self::NoSuchTarget,
        Self::OpenEnd,
        Self::NoRoom,
        Self::StateLimit,
        Self::WorkLimit,
        Self::UnfilledSlot,
        Self::HostOverAwait,
        Self::FactsLimit,
        Self::ParameterTwice,
    ];

    /// What the table calls it.
    pub const fn name(self) -> &'static str {
        match self {
            Self::ShortSheet => "short sheet",
            Self::WrongKind => "wrong kind",
            Self::BadBody => "bad body",
            Self::LeftOver => "left over",
            Self::TooMany => "too many",
            Self::NoCode => "no code",
            Self::NoSuchSlot => "no such slot",
            Self::NoSuchTarget => "no such target",
            Self::OpenEnd => "open end",
            Self::NoRoom => "no room",
            Self::StateLimit => "state limit",
            Self::WorkLimit => "work limit",
            Self::UnfilledSlot => "unfilled slot",
            Self::HostOverAwait => "host over await",
            Self::FactsLimit => "facts limit",
            Self::ParameterTwice => "parameter twice",
        }
    }

    /// The row of a number that the library answered, which is never another.
    pub(crate) fn from_table(number: u32) -> Self {
        let mut rows = Self::ALL.iter().copied();
        rows.find(|&row| row as u32 == number)
            .unwrap_or_else(|| unreachable!("the refusal table has no row {number}"))
    }
}

impl fmt::Display for Number {
    fn fmt(&self, f: &mut fmt::Formatter<'_>) -> fmt::Result {
        f.write_str(self.name())
    }
}

#[cfg(test)]
mod tests {
    use super::*;

    #[test]
    fn the_rows_are_numbered_1_to_15_and_17() {
        let expected = || (1..=15).chain([17]);
        let numbers = Number::ALL.iter().map(|&row| row as u32);
        assert!(numbers.eq(expected()));
        assert!(expected().all(|number| Number::from_table(number) as u32 == number));
    }

    #[test]
    #[should_panic(expected = "the refusal table has no row 16")]
    fn no_row_has_the_number_16() {
        Number::from_table(16);
    }

    #[test]
    fn a_refusal_says_number_function_and_words() {
        let refusal = Refusal {
            number: Number::HostOverAwait,
            function: 7,
            budget: Budget::default(),
        };
        assert_eq!(
            refusal.to_string(),
            "refusal 14 of function 7: host over await"
        );
    }
}
