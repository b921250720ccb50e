//! Slots that a call is handed as parameters beside the sheet's own: a set that is told by
//! what a sheet has, so that it can be told again for a smaller sheet.

use crate::expected::Known;
use crate::sets;
use compare::random::Random;

/// The words for a sheet that does not pass the sheet checks, and so has no slots.
const LENT_ANYWAY: usize = 9;

/// Which slots are added.
#[derive(Debug, Clone, Copy, PartialEq, Eq)]
pub enum Which {
    /// None of them.
    None,
    /// All slots.
    All,
    /// Those that the script lacks: with them no read is unfilled.
    Missing,
    /// The same but one.
    MissingButOne,
    /// Each slot once in so many.
    OnceIn(u32),
}

/// A bit that is no slot.
#[derive(Debug, Clone, Copy, PartialEq, Eq)]
pub enum Stray {
    /// There is none.
    None,
    /// The first: the bit at the slot count.
    First,
    /// The last bit of the words that a set of the script's slots takes.
    Last,
}

/// The slots that are added, and how they lie in memory.
#[derive(Debug, Clone, Copy, PartialEq, Eq)]
pub struct Added {
    /// Which slots.
    pub which: Which,
    /// A bit beside them. If a set of the script's slots has no room for one, the first lies
    /// behind it, and the last is a slot.
    pub stray: Stray,
    /// How many words are handed in beside those that a set takes, or how many fewer. What
    /// is behind is garbage.
    pub more: isize,
    /// The seed of what is drawn.
    pub seed: u64,
}

impl Added {
    /// No slot, in as many words as a set takes.
    pub const NONE: Self = Self {
        which: Which::None,
        stray: Stray::None,
        more: 0,
        seed: 0,
    };

    /// Any slots; now and then a stray bit, or a word too few.
    pub fn any(random: &mut Random) -> Self {
        let which = match random.number(0..=9) {
            0 => Which::None,
            1..=2 => Which::All,
            3..=5 => Which::Missing,
            6 => Which::MissingButOne,
            _ => Which::OnceIn(random.pick(&[2, 3, 8, 64])),
        };
        let stray = match random.number(0..=19) {
            0 => Stray::First,
            1 => Stray::Last,
            _ => Stray::None,
        };
        let more = match random.number(0..=19) {
            0 => -1,
            1 => -isize::MAX,
            2..=7 => random.number(1..=3) as isize,
            _ => 0,
        };
        Self {
            which,
            stray,
            more,
            seed: random.bits(),
        }
    }

    /// The words for a sheet.
    pub fn words(self, known: &Known) -> Vec<u64> {
        let mut random = Random::new(self.seed);
        let Ok(passed) = &known.read else {
            let length = LENT_ANYWAY.saturating_add_signed(self.more);
            return (0..length).map(|_| random.bits()).collect();
        };
        let count = passed.slots;
        let mut words = match self.which {
            Which::None => sets::set(count, []),
            Which::All => sets::set(count, 0..count),
            Which::Missing => passed.missing(),
            Which::MissingButOne => without_one(&mut random, passed.missing()),
            Which::OnceIn(times) => sets::set(count, (0..count).filter(|_| random.once_in(times))),
        };
        let stray = match self.stray {
            Stray::None => None,
            Stray::First => Some(count),
            Stray::Last => (64 * words.len()).checked_sub(1),
        };
        let length = words.len().saturating_add_signed(self.more);
        words.resize_with(length, || random.bits());
        if let Some(stray) = stray
            && let Some(word) = words.get_mut(stray / 64)
        {
            *word |= 1 << (stray % 64);
        }
        words
    }
}

/// A set without one of its slots, if it has any.
fn without_one(random: &mut Random, set: Vec<u64>) -> Vec<u64> {
    let slots: Vec<usize> = sets::slots(&set).collect();
    if slots.is_empty() {
        return set;
    }
    let left_out = random.pick(&slots);
    let mut set = set;
    set[left_out / 64] ^= 1 << (left_out % 64);
    set
}
