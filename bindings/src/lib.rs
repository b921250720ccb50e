//! The check of a route script for hosts in Rust: kagari's bytecode flow verifier,
//! rewritten in Rattle and proved, behind safe functions.
//!
//! A script comes in as a *sheet*, a string of bytes. [`verify`] answers with the
//! script's blocks and the slots that each await saves, or with one [`Refusal`]. Any
//! bytes may be handed in.
//!
//! ```
//! use kagari_flow::{Budget, verify};
//!
//! let sheet = [
//!     // function 7: 2 slots, 2 instructions
//!     0x0E, 0, 0, 1, 7, 0, 0, 0, 2, 0, 0, 0, 2, 0, 0, 0,
//!     // parameter: slot 0
//!     6, 0, 1, 1, 0, 0, 0, 0,
//!     // two slots: i32, no type
//!     4, 0, 2, 1, 3, 0,
//!     4, 0, 2, 1, 3, 0,
//!     // 0 Await: waits on slot 0, writes slot 1
//!     0x0A, 0, 1, 0, 1, 0, 0, 0, 0, 0, 0, 0,
//!     // 1 Return: slot 1
//!     6, 0, 0x28, 0, 1, 0, 0, 0,
//! ];
//! let accepted = verify(&sheet, Budget::default())?;
//! assert_eq!(accepted.function(), 7);
//! for point in accepted.awaits() {
//!     assert_eq!(point.instruction, 0);
//!     assert!(point.slots.iter().eq([0]));
//! }
//! assert_eq!(accepted.load(&sheet), Ok(1));
//! # Ok::<(), kagari_flow::Refusal>(())
//! ```
//!
//! [`verify`] allocates what the sheet needs. A host that reuses its memory, or has only
//! so much of it, lends it to [`verify_in`]:
//!
//! ```
//! use kagari_flow::{Block, Budget, Buffers, Number, Sizes, verify_in};
//!
//! // Enough for any script with at most 64 slots, 100 instructions and 10 awaits.
//! const SIZES: Sizes = Sizes::for_counts(64, 100, 10);
//! let mut buffers = Buffers {
//!     blocks: &mut [Block::default(); SIZES.blocks],
//!     sets: &mut [0; SIZES.sets],
//!     scratch: &mut [0; SIZES.scratch],
//! };
//! for sheet in [&[][..], &[2, 0], &[2, 0, 0]] {
//!     let refusal = verify_in(sheet, Budget::default(), &mut buffers).unwrap_err();
//!     assert_eq!(refusal.number, Number::ShortSheet);
//!     assert_eq!(refusal.number.to_string(), "short sheet");
//! }
//! ```
//!
//! A host on a small machine lowers the [`Limits`] of the check, with [`verify_within`] or,
//! in lent memory, [`verify_within_in`]. One that fills slots before the script runs says so
//! with [`verify_with`] or [`verify_with_in`]: they are parameters beside those that the
//! sheet names.

#![deny(unsafe_code)]
#![warn(missing_docs)]

mod accepted;
mod block;
mod budget;
mod limits;
mod raw;
mod refusal;
mod sizes;
mod slots;

pub use accepted::{Accepted, Await};
pub use block::Block;
pub use budget::Budget;
pub use limits::Limits;
pub use refusal::{Number, Refusal};
pub use sizes::Sizes;
pub use slots::{Slots, slot_words};

use raw::Answer;

/// The version of the interface, as in `kagari_flow.h`: it grows with a release that adds a
/// call or a refusal, or changes an answer.
pub const VERSION: u32 = 4;

/// Memory that is lent to [`verify_in`], [`verify_within_in`] or [`verify_with_in`], each
/// part of any length. What it holds on entry does not matter. After a refusal all of it is
/// zero; after an acceptance `scratch` is, and so is what lies past the answer in `blocks`
/// and `sets`.
#[derive(Debug)]
pub struct Buffers<'m> {
    /// The block list.
    pub blocks: &'m mut [Block],
    /// The sets of the blocks, then those of the awaits.
    pub sets: &'m mut [u64],
    /// Room to work in.
    pub scratch: &'m mut [u64],
}

/// Judges a sheet from a budget, in memory of its own.
///
/// It never answers [`Number::NoRoom`]. What it allocates is what [`Sizes::of`] says:
/// little for most sheets, some 640 MB for 65,536 awaits over 65,536 slots. A host that
/// can't spare that asks [`Sizes::of`] first, or lends what it has to [`verify_in`].
///
/// # Errors
///
/// If the script is refused.
pub fn verify(sheet: &[u8], budget: Budget) -> Result<Accepted<'static>, Refusal> {
    in_own_memory(sheet, |buffers| {
        verify_in(sheet, budget, buffers).map(Accepted::into_owned)
    })
}

/// Judges a sheet from a budget, in lent memory. The answer lies in that memory.
///
/// # Errors
///
/// If the script is refused; with [`Number::NoRoom`] if a lent slice is too short.
pub fn verify_in<'m>(
    sheet: &[u8],
    budget: Budget,
    buffers: &'m mut Buffers<'_>,
) -> Result<Accepted<'m>, Refusal> {
    let answer = raw::call(sheet, budget, buffers);
    result(&answer, sheet, buffers)
}

/// Judges a sheet as [`verify`] does, within limits: the refusals 11, 12 and 15 are judged by
/// them. [`verify`] is this with [`Limits::MOST`].
///
/// A script that is accepted is accepted with the same answer under any limits of which none
/// is lower, from the same budget. Work that is above its limit on entry is refused, and
/// stays as given; retained bytes above theirs are refused only where an await adds to them.
///
/// The library gives the limits back as they were given, whatever it answers. The caller
/// has them still, so they are no part of the result.
///
/// ```
/// use kagari_flow::{Budget, Limits, Number, verify_within};
///
/// let sheet = [
///     // function 7: no slots, 1 instruction
///     0x0E, 0, 0, 1, 7, 0, 0, 0, 0, 0, 0, 0, 1, 0, 0, 0,
///     // no parameters
///     2, 0, 1, 1,
///     // 0 Unreachable
///     2, 0, 0x29, 0,
/// ];
/// let mut limits = Limits {
///     work: 14,
///     ..Limits::default()
/// };
/// let accepted = verify_within(&sheet, Budget::default(), limits)?;
/// assert_eq!(accepted.budget().work, 14);
///
/// limits.work = 13;
/// let refusal = verify_within(&sheet, Budget::default(), limits).unwrap_err();
/// assert_eq!(refusal.number, Number::WorkLimit);
/// # Ok::<(), kagari_flow::Refusal>(())
/// ```
///
/// # Errors
///
/// If the script is refused; never with [`Number::NoRoom`].
pub fn verify_within(
    sheet: &[u8],
    budget: Budget,
    limits: Limits,
) -> Result<Accepted<'static>, Refusal> {
    in_own_memory(sheet, |buffers| {
        verify_within_in(sheet, budget, limits, buffers).map(Accepted::into_owned)
    })
}

/// Judges a sheet within limits, as [`verify_within`] does, in lent memory, as [`verify_in`]
/// does.
///
/// # Errors
///
/// If the script is refused; with [`Number::NoRoom`] if a lent slice is too short.
pub fn verify_within_in<'m>(
    sheet: &[u8],
    budget: Budget,
    limits: Limits,
    buffers: &'m mut Buffers<'_>,
) -> Result<Accepted<'m>, Refusal> {
    let within = raw::call_within(sheet, budget, limits, buffers);
    debug_assert_eq!(within.limits, limits, "limits come back as given");
    result(&within.answer, sheet, buffers)
}

/// Judges a sheet as [`verify_within`] does, with the slots of a set as parameters beside
/// those that it names.
///
/// The set has as many words as the script's slots take, 64 a word; slot s is bit s % 64 of
/// word s / 64. [`slot_words`] makes it of slot numbers. Further words are not looked at. It
/// may be of any slots, also of more than a parameter record can name, which are 16,383, and
/// of those that the sheet names too.
///
/// With a set of no slots this is [`verify_within`]. What is charged depends on which slots
/// are parameters, not on where they are named. A script that is accepted is not refused
/// with [`Number::UnfilledSlot`] if more slots are added, though it may be charged otherwise.
///
/// ```
/// use kagari_flow::{Budget, Limits, Number, slot_words, verify_with};
///
/// let sheet = [
///     // function 7: 2 slots, 1 instruction
///     0x0E, 0, 0, 1, 7, 0, 0, 0, 2, 0, 0, 0, 1, 0, 0, 0,
///     // no parameters
///     2, 0, 1, 1,
///     // two slots: i32, no type
///     4, 0, 2, 1, 3, 0,
///     4, 0, 2, 1, 3, 0,
///     // 0 Return: slot 1
///     6, 0, 0x28, 0, 1, 0, 0, 0,
/// ];
/// let judge = |added: &[u64]| verify_with(&sheet, added, Budget::default(), Limits::MOST);
/// let refusal = judge(&slot_words(2, [0])).unwrap_err();
/// assert_eq!(refusal.number, Number::UnfilledSlot);
///
/// let accepted = judge(&slot_words(2, [1]))?;
/// assert!(accepted.initialized(0).contains(1));
/// # Ok::<(), kagari_flow::Refusal>(())
/// ```
///
/// # Errors
///
/// If the script is refused. If it passes the sheet checks, with [`Number::NoRoom`] if the
/// set has too few words, else with [`Number::NoSuchSlot`] if one of its bits is at or above
/// the slot count; both with the budget as given.
pub fn verify_with(
    sheet: &[u8],
    added: &[u64],
    budget: Budget,
    limits: Limits,
) -> Result<Accepted<'static>, Refusal> {
    in_own_memory(sheet, |buffers| {
        verify_with_in(sheet, added, budget, limits, buffers).map(Accepted::into_owned)
    })
}

/// Judges a sheet with added parameters, as [`verify_with`] does, in lent memory, as
/// [`verify_in`] does.
///
/// # Errors
///
/// If the script is refused; with [`Number::NoRoom`] if a lent slice or the set is too short.
pub fn verify_with_in<'m>(
    sheet: &[u8],
    added: &[u64],
    budget: Budget,
    limits: Limits,
    buffers: &'m mut Buffers<'_>,
) -> Result<Accepted<'m>, Refusal> {
    let with = raw::call_with(sheet, added, budget, limits, buffers);
    debug_assert_eq!(with.limits, limits, "limits come back as given");
    result(&with.answer, sheet, buffers)
}

/// Makes a call with memory that is long enough for the sheet.
fn in_own_memory<T>(sheet: &[u8], call: impl FnOnce(&mut Buffers<'_>) -> T) -> T {
    let sizes = Sizes::of(sheet);
    call(&mut Buffers {
        blocks: &mut vec![Block::default(); sizes.blocks],
        sets: &mut vec![0; sizes.sets],
        scratch: &mut vec![0; sizes.scratch],
    })
}

/// The result that the library left in its answer and in lent memory.
fn result<'m>(
    answer: &Answer,
    sheet: &[u8],
    buffers: &'m Buffers<'_>,
) -> Result<Accepted<'m>, Refusal> {
    match answer.number {
        0 => Ok(Accepted::new(answer, sizes::slot_count(sheet), buffers)),
        number => Err(Refusal {
            number: Number::from_table(number),
            function: answer.function,
            budget: answer.budget,
        }),
    }
}
