//! The exported functions of the port, from the static library `flow_c`; see
//! include/kagari_flow.h.

#![allow(unsafe_code)]

use crate::{Block, Budget, Buffers, Limits};

// The library is for x86-64, and the header fixes how the records lie.
const _: () = assert!(usize::BITS == 64);
const _: () = assert!(size_of::<Budget>() == 16 && align_of::<Budget>() == 8);
const _: () = assert!(size_of::<Limits>() == 24 && align_of::<Limits>() == 8);
const _: () = assert!(size_of::<Block>() == 24 && align_of::<Block>() == 4);
const _: () = assert!(size_of::<Answer>() == 40 && align_of::<Answer>() == 8);
const _: () = assert!(size_of::<AnswerWithin>() == 64 && align_of::<AnswerWithin>() == 8);
const _: () = assert!(size_of::<Load>() == 16 && align_of::<Load>() == 8);

/// What the library answers. After a refusal `blocks` and `awaits` are 0.
#[repr(C)]
pub(crate) struct Answer {
    pub(crate) number: u32,
    pub(crate) function: u32,
    pub(crate) blocks: u64,
    pub(crate) awaits: u64,
    pub(crate) budget: Budget,
}

/// What the library answers within limits, which come back as they were given.
#[repr(C)]
pub(crate) struct AnswerWithin {
    pub(crate) answer: Answer,
    pub(crate) limits: Limits,
}

/// A load as the library answers it. After a refusal it is 0.
#[repr(C)]
pub(crate) struct Load {
    pub(crate) number: u32,
    /// The function's id, which an answer has already.
    _function: u32,
    pub(crate) load: u64,
}

unsafe extern "C" {
    fn kagari_flow_verify(
        sheet: *const u8,
        sheet_len: usize,
        budget: Budget,
        blocks: *mut Block,
        blocks_len: usize,
        sets: *mut u64,
        sets_len: usize,
        scratch: *mut u64,
        scratch_len: usize,
    ) -> Answer;

    fn kagari_flow_verify_within(
        sheet: *const u8,
        sheet_len: usize,
        budget: Budget,
        limits: Limits,
        blocks: *mut Block,
        blocks_len: usize,
        sets: *mut u64,
        sets_len: usize,
        scratch: *mut u64,
        scratch_len: usize,
    ) -> AnswerWithin;

    fn kagari_flow_verify_with(
        sheet: *const u8,
        sheet_len: usize,
        added: *const u64,
        added_len: usize,
        budget: Budget,
        limits: Limits,
        blocks: *mut Block,
        blocks_len: usize,
        sets: *mut u64,
        sets_len: usize,
        scratch: *mut u64,
        scratch_len: usize,
    ) -> AnswerWithin;

    fn kagari_flow_load(
        sheet: *const u8,
        sheet_len: usize,
        sets: *const u64,
        sets_len: usize,
        blocks: u64,
        awaits: u64,
    ) -> Load;
}

/// Calls the library.
pub(crate) fn call(sheet: &[u8], budget: Budget, buffers: &mut Buffers<'_>) -> Answer {
    // SAFETY: each pointer and length are those of a slice that lives through the call, so
    // they are non-null, aligned and at most `isize::MAX` bytes. The three that are written
    // to are lent mutably, so no two overlap. Any bits are a `Block` and a `u64`.
    unsafe {
        kagari_flow_verify(
            sheet.as_ptr(),
            sheet.len(),
            budget,
            buffers.blocks.as_mut_ptr(),
            buffers.blocks.len(),
            buffers.sets.as_mut_ptr(),
            buffers.sets.len(),
            buffers.scratch.as_mut_ptr(),
            buffers.scratch.len(),
        )
    }
}

/// Calls the library with limits.
pub(crate) fn call_within(
    sheet: &[u8],
    budget: Budget,
    limits: Limits,
    buffers: &mut Buffers<'_>,
) -> AnswerWithin {
    // SAFETY: as in `call`.
    unsafe {
        kagari_flow_verify_within(
            sheet.as_ptr(),
            sheet.len(),
            budget,
            limits,
            buffers.blocks.as_mut_ptr(),
            buffers.blocks.len(),
            buffers.sets.as_mut_ptr(),
            buffers.sets.len(),
            buffers.scratch.as_mut_ptr(),
            buffers.scratch.len(),
        )
    }
}

/// Calls the library with limits and with slots that are added to the parameters.
pub(crate) fn call_with(
    sheet: &[u8],
    added: &[u64],
    budget: Budget,
    limits: Limits,
    buffers: &mut Buffers<'_>,
) -> AnswerWithin {
    // SAFETY: as in `call`; `added` is one more slice that is only read.
    unsafe {
        kagari_flow_verify_with(
            sheet.as_ptr(),
            sheet.len(),
            added.as_ptr(),
            added.len(),
            budget,
            limits,
            buffers.blocks.as_mut_ptr(),
            buffers.blocks.len(),
            buffers.sets.as_mut_ptr(),
            buffers.sets.len(),
            buffers.scratch.as_mut_ptr(),
            buffers.scratch.len(),
        )
    }
}

/// Calls the library for the load of an answer.
pub(crate) fn load(sheet: &[u8], sets: &[u64], blocks: usize, awaits: usize) -> Load {
    // SAFETY: each pointer and length are those of a slice that lives through the call, so
    // they are non-null, aligned and at most `isize::MAX` bytes. Neither is written to.
    unsafe {
        kagari_flow_load(
            sheet.as_ptr(),
            sheet.len(),
            sets.as_ptr(),
            sets.len(),
            blocks as u64,
            awaits as u64,
        )
    }
}

#[cfg(test)]
mod tests {
    use super::*;
    use crate::Sizes;
    use kagari_oracle::cases::*;
    use kagari_oracle::sheet;
    use std::collections::BTreeSet;

    /// Limits that are lower than those of today, the same and higher.
    const LADDER: [u64; 9] = [
        0,
        2,
        31,
        311,
        67_108_864,
        67_108_865,
        100_000_000,
        100_000_001,
        u64::MAX,
    ];

    /// The numbers that some sheets get, with lent memory of some sizes and within limits of
    /// the ladder, after these came back as given.
    fn numbers(
        sheets: &[Vec<u8>],
        call: impl Fn(&[u8], Limits, &mut Buffers<'_>) -> AnswerWithin,
    ) -> BTreeSet<u32> {
        let enough = Sizes::for_counts(64, 64, 64);
        let early = Sizes {
            scratch: 7,
            ..enough
        };
        let late = Sizes {
            blocks: 0,
            ..enough
        };
        let mut numbers = BTreeSet::new();
        for limits in ladder() {
            for sheet in sheets {
                for sizes in [enough, early, late, Sizes::NONE] {
                    let mut buffers = Buffers {
                        blocks: &mut vec![Block::default(); sizes.blocks],
                        sets: &mut vec![0; sizes.sets],
                        scratch: &mut vec![0; sizes.scratch],
                    };
                    let within = call(sheet, limits, &mut buffers);
                    assert_eq!(within.limits, limits);
                    numbers.insert(within.answer.number);
                }
            }
        }
        numbers
    }

    /// Each three limits of the ladder.
    fn ladder() -> impl Iterator<Item = Limits> {
        let pairs = LADDER.into_iter().flat_map(|a| LADDER.map(|b| (a, b)));
        pairs.flat_map(|(work, state)| LADDER.map(|facts| Limits { work, state, facts }))
    }

    #[test]
    fn limits_come_back_as_given_on_every_outcome() {
        let scripts = [case_a(), case_d(), case_e(), case_g(), case_j(), case_l()];
        let sheets = [scripts.map(|script| sheet(&script)).to_vec(), vec![vec![]]].concat();
        let found = numbers(&sheets, |sheet, limits, buffers| {
            call_within(sheet, Budget::default(), limits, buffers)
        });
        let expected = [0, 1, 6, 7, 9, 10, 11, 12, 13, 14, 15];
        assert_eq!(found, BTreeSet::from(expected));
    }

    #[test]
    fn limits_come_back_as_given_with_added_slots() {
        let scripts = [case_a(), case_d(), case_e(), case_g()];
        let sheets = scripts.map(|script| sheet(&script));
        let with = |added: &[u64]| {
            numbers(&sheets, |sheet, limits, buffers| {
                call_with(sheet, added, Budget::default(), limits, buffers)
            })
        };
        // No slot, slot 0, a bit that is none, no words.
        let expected = [0, 6, 10, 11, 12, 13, 14, 15];
        assert_eq!(with(&[0]), BTreeSet::from(expected));
        let expected = [0, 6, 10, 11, 12, 14, 15];
        assert_eq!(with(&[1]), BTreeSet::from(expected));
        assert_eq!(with(&[1 << 2]), BTreeSet::from([6, 7, 10]));
        assert_eq!(with(&[]), BTreeSet::from([6, 10]));
    }
}
