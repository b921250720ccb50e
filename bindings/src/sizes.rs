//! How long lent memory must be. Nothing here is proved: a mistake could only give
//! refusal 10, or lend more than is needed.

use crate::Limits;

/// The most slots, and the most instructions; a sheet with more is refused.
const MOST: u32 = 65_536;

/// The most bytes of state; a script that needs more is refused. Under a lower limit fewer
/// blocks are left, so that lengths by this one are always enough.
const STATE_LIMIT: usize = Limits::MOST_STATE as usize;

/// The kind of an await instruction.
const AWAIT: u16 = 1;

/// Lengths of lent memory, in records and words. They are enough whatever the
/// [`Limits`] are, and whatever slots are added to the parameters.
#[derive(Debug, Clone, Copy, PartialEq, Eq, Default)]
pub struct Sizes {
    /// Block records.
    pub blocks: usize,
    /// Words of sets.
    pub sets: usize,
    /// Words of scratch.
    pub scratch: usize,
}

impl Sizes {
    /// No room at all: enough for the refusals 1 to 9 and 17 of a sheet.
    pub const NONE: Self = Self {
        blocks: 0,
        sets: 0,
        scratch: 0,
    };

    /// Enough for this sheet, whatever its bytes are.
    ///
    /// If the sheet is too short for the counts that it begins with, this is
    /// [`Sizes::NONE`]. So all three together are at most `2 * bytes * (w + 3) + 4 * w`,
    /// where w is the words of a set of slots.
    pub fn of(sheet: &[u8]) -> Self {
        let Some(counts) = Counts::of(sheet) else {
            return Self::NONE;
        };
        // A script with more blocks than this is refused before its room is looked at.
        let w = counts.words();
        let most_blocks = (STATE_LIMIT - 16 * w) / (32 * w + 264);
        counts.sizes(most_blocks.min(counts.instructions as usize))
    }

    /// Enough for every sheet with at most so many slots, instructions and await
    /// instructions, reached or not. The blocks are at most the instructions.
    pub const fn for_counts(slots: u32, instructions: u32, awaits: u32) -> Self {
        let instructions = least(instructions, MOST);
        let counts = Counts {
            slots: least(slots, MOST),
            instructions,
            awaits: least(awaits, instructions),
        };
        counts.sizes(instructions as usize)
    }
}

/// The slot count of a sheet that passes the sheet checks.
pub(crate) fn slot_count(sheet: &[u8]) -> u32 {
    match function_record(&mut &*sheet) {
        Some([_, slots, _]) => slots,
        None => 0,
    }
}

/// The counts that decide how much room is needed.
#[derive(Clone, Copy)]
struct Counts {
    slots: u32,
    instructions: u32,
    awaits: u32,
}

impl Counts {
    /// Walks the heads of a sheet's records. `None` if one of them is not there, or the
    /// counts are too large; such a sheet gets one of 1 to 9 and 17.
    fn of(sheet: &[u8]) -> Option<Self> {
        let mut left = sheet;
        let [_, slots, instructions] = function_record(&mut left)?;
        if slots > MOST || instructions > MOST {
            return None;
        }
        // The parameters, then the slots.
        for _ in 0..=slots {
            record(&mut left)?;
        }
        let mut awaits = 0;
        for _ in 0..instructions {
            let (kind, _) = record(&mut left)?;
            awaits += u32::from(kind == AWAIT);
        }
        Some(Self {
            slots,
            instructions,
            awaits,
        })
    }

    /// The words of a set of slots.
    const fn words(self) -> usize {
        (self.slots as usize).div_ceil(64)
    }

    /// The sizes with so many blocks.
    const fn sizes(self, blocks: usize) -> Sizes {
        let w = self.words();
        Sizes {
            blocks,
            sets: blocks * 2 * w + self.awaits as usize * (1 + w),
            scratch: 4 * self.instructions as usize + blocks * (4 * w + 16) + 4 * w,
        }
    }
}

/// Takes the function record off the bytes: id, slot count, instruction count.
fn function_record(left: &mut &[u8]) -> Option<[u32; 3]> {
    let (_, body) = record(left)?;
    match *body.as_chunks().0 {
        [id, slots, instructions] => Some([id, slots, instructions].map(u32::from_le_bytes)),
        _ => None,
    }
}

/// Takes one record off the bytes: its kind and its body.
fn record<'a>(left: &mut &'a [u8]) -> Option<(u16, &'a [u8])> {
    let (&length, rest) = left.split_first_chunk()?;
    let (record, rest) = rest.split_at_checked(u16::from_le_bytes(length).into())?;
    let (&kind, body) = record.split_first_chunk()?;
    *left = rest;
    Some((u16::from_le_bytes(kind), body))
}

const fn least(a: u32, b: u32) -> u32 {
    if a < b { a } else { b }
}

#[cfg(test)]
mod tests {
    use super::*;

    /// A sheet's beginning: the function record with these counts.
    fn function(slots: u32, instructions: u32) -> Vec<u8> {
        let counts = [7, slots, instructions].map(u32::to_le_bytes);
        [&[14, 0, 0, 1], counts.as_flattened()].concat()
    }

    /// A sheet with so many slots and instructions of this record.
    fn sheet(slots: u32, instructions: u32, record: &[u8]) -> Vec<u8> {
        let mut sheet = function(slots, instructions);
        sheet.extend([2, 0, 1, 1]);
        sheet.extend([4, 0, 2, 1, 3, 0].repeat(slots as usize));
        sheet.extend(record.repeat(instructions as usize));
        sheet
    }

    const AWAIT_0: [u8; 12] = [10, 0, 1, 0, 0, 0, 0, 0, 0, 0, 0, 0];
    const UNREACHABLE: [u8; 4] = [2, 0, 41, 0];

    #[test]
    fn by_the_formulas() {
        let sizes = Sizes {
            blocks: 3,
            sets: 3 * 2 * 2 + 3 * (1 + 2),
            scratch: 4 * 3 + 3 * (4 * 2 + 16) + 4 * 2,
        };
        assert_eq!(Sizes::of(&sheet(65, 3, &AWAIT_0)), sizes);
        assert_eq!(Sizes::for_counts(65, 3, 3), sizes);
        assert_eq!(Sizes::for_counts(65, 3, u32::MAX), sizes);
    }

    #[test]
    fn a_record_too_few_needs_no_room() {
        let whole = sheet(2, 3, &UNREACHABLE);
        assert_ne!(Sizes::of(&whole), Sizes::NONE);
        for end in 0..whole.len() {
            assert_eq!(Sizes::of(&whole[..end]), Sizes::NONE);
        }
    }

    #[test]
    fn large_counts_alone_need_no_room() {
        for counts in [65_535, 65_536, 65_537, u32::MAX] {
            assert_eq!(Sizes::of(&function(counts, 1)), Sizes::NONE);
            assert_eq!(Sizes::of(&function(1, counts)), Sizes::NONE);
        }
        assert_eq!(Sizes::of(&sheet(65_537, 1, &UNREACHABLE)), Sizes::NONE);
        assert_eq!(Sizes::of(&sheet(1, 65_537, &UNREACHABLE)), Sizes::NONE);
    }

    /// Case n's figures: with 1,024 words a set, 2,031 blocks pass and 2,032 do not.
    #[test]
    fn blocks_end_at_the_state_limit() {
        let sizes = |n| Sizes::of(&sheet(65_536, n, &UNREACHABLE));
        assert_eq!(sizes(2_030).blocks, 2_030);
        assert_eq!(sizes(2_032).blocks, 2_031);
        assert_eq!(sizes(65_536).blocks, 2_031);
    }

    /// The dearest bytes: awaits without a body. The sheet check refuses them, but the
    /// first look counts them.
    #[test]
    fn no_bytes_ask_for_more_than_the_bound() {
        for slots in [0, 1, 64, 65, 4_096, 65_536] {
            for instructions in [1, 2, 2_031, 65_536] {
                let sheet = sheet(slots, instructions, &[2, 0, 1, 0]);
                let Sizes {
                    blocks,
                    sets,
                    scratch,
                } = Sizes::of(&sheet);
                let w = (slots as usize).div_ceil(64);
                assert!(blocks + sets + scratch <= 2 * sheet.len() * (w + 3) + 4 * w);
            }
        }
    }

    #[test]
    fn more_counts_need_no_less() {
        let ladder = [0, 1, 63, 64, 65, 4_096, 65_535, 65_536, u32::MAX];
        for pair in ladder.windows(2) {
            for other in ladder {
                let no_less = |few: Sizes, many: Sizes| {
                    few.blocks <= many.blocks
                        && few.sets <= many.sets
                        && few.scratch <= many.scratch
                };
                let [few, many] = [pair[0], pair[1]];
                assert!(no_less(
                    Sizes::for_counts(few, other, other),
                    Sizes::for_counts(many, other, other)
                ));
                assert!(no_less(
                    Sizes::for_counts(other, few, other),
                    Sizes::for_counts(other, many, other)
                ));
                assert!(no_less(
                    Sizes::for_counts(other, other, few),
                    Sizes::for_counts(other, other, many)
                ));
            }
        }
    }
}
