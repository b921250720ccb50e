//! The flow check of the port, from the static library `flow_c`.

use crate::limits::Limits;
use kagari_oracle::Budget;

/// One record of the block list.
#[repr(C)]
#[derive(Debug, Clone, Copy, PartialEq, Eq, Default)]
pub struct Block {
    /// Its first instruction.
    pub start: u32,
    /// The instruction after its last.
    pub end: u32,
    /// 1 if a path from instruction 0 reaches it, else 0.
    pub reachable: u32,
    /// How many of the two successors are used.
    pub successor_count: u32,
    /// The first successor, a block number; 0 if unused.
    pub successor_0: u32,
    /// The second successor; 0 if unused.
    pub successor_1: u32,
}

/// What the call answers.
#[repr(C)]
#[derive(Debug, Clone, Copy, PartialEq, Eq, Default)]
pub struct Answer {
    /// 0 if the script is accepted, or the number of its refusal, 1 to 15 or 17.
    pub number: u32,
    /// The function's id.
    pub function: u32,
    /// The number of blocks; 0 after a refusal.
    pub blocks: u64,
    /// The number of reachable awaits; 0 after a refusal.
    pub awaits: u64,
    /// The work of the budget afterwards.
    pub work: u64,
    /// The retained bytes of the budget afterwards.
    pub retained: u64,
}

/// What the call answers within limits.
#[repr(C)]
#[derive(Debug, Clone, Copy, PartialEq, Eq)]
pub struct AnswerWithin {
    /// The answer.
    pub answer: Answer,
    /// The limits, as given.
    pub limits: Limits,
}

/// What the call for the load answers.
#[repr(C)]
#[derive(Debug, Clone, Copy, PartialEq, Eq, Default)]
pub struct Load {
    /// 0, or the number of a refusal, 1 to 10.
    pub number: u32,
    /// The function's id.
    pub function: u32,
    /// The load; 0 after a refusal.
    pub load: u64,
}

/// A budget as the library takes it.
#[repr(C)]
struct BudgetC {
    work: u64,
    retained: u64,
}

impl From<Budget> for BudgetC {
    fn from(budget: Budget) -> Self {
        let Budget { work, retained } = budget;
        Self { work, retained }
    }
}

// A slice is passed as its pointer and its length.
unsafe extern "C" {
    fn kagari_flow_verify(
        sheet: *const u8,
        sheet_len: usize,
        budget: BudgetC,
        blocks: *mut Block,
        blocks_len: usize,
        sets: *mut u64,
        sets_len: usize,
        scratch: *mut u64,
        scratch_len: usize,
    ) -> Answer;

    fn kagari_flow_verify_within(
        sheet: *const u8,
        sheet_len: usize,
        budget: BudgetC,
        limits: Limits,
        blocks: *mut Block,
        blocks_len: usize,
        sets: *mut u64,
        sets_len: usize,
        scratch: *mut u64,
        scratch_len: usize,
    ) -> AnswerWithin;

    fn kagari_flow_verify_with(
        sheet: *const u8,
        sheet_len: usize,
        added: *const u64,
        added_len: usize,
        budget: BudgetC,
        limits: Limits,
        blocks: *mut Block,
        blocks_len: usize,
        sets: *mut u64,
        sets_len: usize,
        scratch: *mut u64,
        scratch_len: usize,
    ) -> AnswerWithin;

    fn kagari_flow_load(
        sheet: *const u8,
        sheet_len: usize,
        sets: *const u64,
        sets_len: usize,
        blocks: u64,
        awaits: u64,
    ) -> Load;
}

/// Checks a sheet from a budget, with these lent buffers.
pub fn verify(
    sheet: &[u8],
    budget: Budget,
    blocks: &mut [Block],
    sets: &mut [u64],
    scratch: &mut [u64],
) -> Answer {
    // SAFETY: each pointer and length are those of a slice that lives through the
    // call; the slices that are written to are lent exclusively, so none overlaps
    // another. Their elements are plain integers, for which every bit pattern is one.
    unsafe {
        kagari_flow_verify(
            sheet.as_ptr(),
            sheet.len(),
            budget.into(),
            blocks.as_mut_ptr(),
            blocks.len(),
            sets.as_mut_ptr(),
            sets.len(),
            scratch.as_mut_ptr(),
            scratch.len(),
        )
    }
}

/// Checks a sheet from a budget and within limits, with these lent buffers.
pub fn verify_within(
    sheet: &[u8],
    budget: Budget,
    limits: Limits,
    blocks: &mut [Block],
    sets: &mut [u64],
    scratch: &mut [u64],
) -> AnswerWithin {
    // SAFETY: as in `verify`.
    unsafe {
        kagari_flow_verify_within(
            sheet.as_ptr(),
            sheet.len(),
            budget.into(),
            limits,
            blocks.as_mut_ptr(),
            blocks.len(),
            sets.as_mut_ptr(),
            sets.len(),
            scratch.as_mut_ptr(),
            scratch.len(),
        )
    }
}

/// Checks a sheet from a budget and within limits, with a set of slots as parameters beside
/// its own, with these lent buffers.
pub fn verify_with(
    sheet: &[u8],
    added: &[u64],
    budget: Budget,
    limits: Limits,
    blocks: &mut [Block],
    sets: &mut [u64],
    scratch: &mut [u64],
) -> AnswerWithin {
    // SAFETY: as in `verify`; `added` is one more slice that is only read.
    unsafe {
        kagari_flow_verify_with(
            sheet.as_ptr(),
            sheet.len(),
            added.as_ptr(),
            added.len(),
            budget.into(),
            limits,
            blocks.as_mut_ptr(),
            blocks.len(),
            sets.as_mut_ptr(),
            sets.len(),
            scratch.as_mut_ptr(),
            scratch.len(),
        )
    }
}

/// The load of an answer with so many blocks and awaits, whose sets are these words.
pub fn load(sheet: &[u8], sets: &[u64], blocks: u64, awaits: u64) -> Load {
    // SAFETY: each pointer and length are those of a slice that lives through the call,
    // and none is written to.
    unsafe {
        kagari_flow_load(
            sheet.as_ptr(),
            sheet.len(),
            sets.as_ptr(),
            sets.len(),
            blocks,
            awaits,
        )
    }
}
