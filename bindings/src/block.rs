//! A record of the block list.

use std::ops::Range;

/// One block: instructions that are entered only at the first and left only at the last.
#[repr(C)]
#[derive(Debug, Clone, Copy, PartialEq, Eq, Default)]
pub struct Block {
    start: u32,
    end: u32,
    reachable: u32,
    successor_count: u32,
    successors: [u32; 2],
}

impl Block {
    /// The numbers of its instructions.
    pub fn instructions(&self) -> Range<u32> {
        self.start..self.end
    }

    /// Whether a path from instruction 0 reaches it.
    pub fn is_reachable(&self) -> bool {
        self.reachable != 0
    }

    /// The numbers of the blocks that may come next. A branch whose targets are equal has
    /// that block twice.
    pub fn successors(&self) -> &[u32] {
        let count = (self.successor_count as usize).min(self.successors.len());
        &self.successors[..count]
    }
}
