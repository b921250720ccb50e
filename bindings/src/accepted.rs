//! The answer on a script that is accepted.

use crate::raw::{self, Answer};
use crate::slots::words;
use crate::{Block, Budget, Buffers, Number, Slots};
use std::borrow::Cow;

/// A script was accepted: its blocks, their sets, and what each await saves.
///
/// It lies in the memory that was lent for it; [`Accepted::into_owned`] copies it.
#[derive(Debug, Clone, PartialEq, Eq)]
pub struct Accepted<'m> {
    function: u32,
    budget: Budget,
    slots: u32,
    blocks: Cow<'m, [Block]>,
    /// Per block two rows; then per await its instruction and a row.
    sets: Cow<'m, [u64]>,
}

impl<'m> Accepted<'m> {
    /// The answer that the library left in lent memory, over so many slots.
    pub(crate) fn new(answer: &Answer, slots: u32, buffers: &'m Buffers<'_>) -> Self {
        let blocks = answer.blocks as usize;
        let words = words(slots);
        let sets = blocks * 2 * words + answer.awaits as usize * (1 + words);
        Self {
            function: answer.function,
            budget: answer.budget,
            slots,
            blocks: Cow::Borrowed(&buffers.blocks[..blocks]),
            sets: Cow::Borrowed(&buffers.sets[..sets]),
        }
    }

    /// The same answer in memory of its own.
    pub fn into_owned(self) -> Accepted<'static> {
        Accepted {
            blocks: Cow::Owned(self.blocks.into_owned()),
            sets: Cow::Owned(self.sets.into_owned()),
            ..self
        }
    }

    /// The function's id.
    pub fn function(&self) -> u32 {
        self.function
    }

    /// The budget with what this script was charged.
    pub fn budget(&self) -> Budget {
        self.budget
    }

    /// The blocks, by their first instructions.
    pub fn blocks(&self) -> &[Block] {
        &self.blocks
    }

    /// The slots that are filled at a block's exit, whatever path leads there. Of a block
    /// that no path reaches these are all slots.
    ///
    /// # Panics
    ///
    /// If there is no such block.
    pub fn initialized(&self, block: usize) -> Slots<'_> {
        self.rows(block)[0]
    }

    /// The slots that are live at a block's entry: some path from there reads them before
    /// it writes them. Of a block that no path reaches there are none.
    ///
    /// # Panics
    ///
    /// If there is no such block.
    pub fn live(&self, block: usize) -> Slots<'_> {
        self.rows(block)[1]
    }

    /// The awaits that a path reaches, by their instructions.
    pub fn awaits(&self) -> impl ExactSizeIterator<Item = Await<'_>> {
        let words = words(self.slots);
        let facts = &self.sets[self.blocks.len() * 2 * words..];
        facts.chunks_exact(1 + words).map(|fact| Await {
            instruction: fact[0] as u32,
            slots: self.slots_in(&fact[1..]),
        })
    }

    /// The load: over all awaits, how many of the saved slots hold something. A never or a
    /// unit slot (physical 0 or 1) is saved, but weighs nothing.
    ///
    /// `sheet` is the sheet that was judged: it says of which kind each slot is.
    ///
    /// # Errors
    ///
    /// Never with that sheet. Of another one, its number if it fails a sheet check, or
    /// [`Number::NoRoom`] if it has more slots than this answer has room for.
    pub fn load(&self, sheet: &[u8]) -> Result<u64, Number> {
        let answer = raw::load(sheet, &self.sets, self.blocks.len(), self.awaits().len());
        match answer.number {
            0 => Ok(answer.load),
            number => Err(Number::from_table(number)),
        }
    }

    /// A block's two sets.
    fn rows(&self, block: usize) -> [Slots<'_>; 2] {
        assert!(block < self.blocks.len(), "there is no block {block}");
        let words = words(self.slots);
        let rows = &self.sets[block * 2 * words..][..2 * words];
        let (initialized, live) = rows.split_at(words);
        [self.slots_in(initialized), self.slots_in(live)]
    }

    fn slots_in<'a>(&self, words: &'a [u64]) -> Slots<'a> {
        Slots::new(words, self.slots)
    }
}

/// An await that a path reaches.
#[derive(Debug, Clone, Copy, PartialEq, Eq)]
pub struct Await<'a> {
    /// Its number.
    pub instruction: u32,
    /// The slots that are saved there: the least set with which every path that begins at
    /// the await reads only what was saved or written since.
    pub slots: Slots<'a>,
}
