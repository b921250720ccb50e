//! Sets of slots: what an answer has, and what a call is handed.

use std::fmt;

/// The words of a set of slots, of which there are so many.
pub(crate) fn words(slots: u32) -> usize {
    (slots as usize).div_ceil(64)
}

/// A set of slots.
#[derive(Clone, Copy, PartialEq, Eq)]
pub struct Slots<'a> {
    words: &'a [u64],
    count: u32,
}

impl<'a> Slots<'a> {
    /// The set in these words, over so many slots.
    pub(crate) fn new(words: &'a [u64], count: u32) -> Self {
        Self { words, count }
    }

    /// Whether a slot of the script is in the set.
    pub fn contains(self, slot: u32) -> bool {
        slot < self.count && self.words[slot as usize / 64] >> (slot % 64) & 1 == 1
    }

    /// The slots in the set, ascending.
    pub fn iter(self) -> impl Iterator<Item = u32> + 'a {
        (0..self.count).filter(move |&slot| self.contains(slot))
    }

    /// The set as it lies in memory: slot s is bit s % 64 of word s / 64. The first set of
    /// a block that no path reaches has bits above the script's slots too.
    pub fn words(self) -> &'a [u64] {
        self.words
    }
}

impl fmt::Debug for Slots<'_> {
    fn fmt(&self, f: &mut fmt::Formatter<'_>) -> fmt::Result {
        f.debug_set().entries(self.iter()).finish()
    }
}

/// The words of a set of these slots, over so many slots: what [`verify_with`] takes, and
/// what [`Slots::words`] gives. A slot may be named twice.
///
/// ```
/// use kagari_flow::slot_words;
///
/// assert_eq!(slot_words(70, [1, 64, 69]), [0b10, 0b10_0001]);
/// ```
///
/// # Panics
///
/// If one of them is at or above the count.
///
/// [`verify_with`]: crate::verify_with
pub fn slot_words(count: u32, slots: impl IntoIterator<Item = u32>) -> Vec<u64> {
    let mut set = vec![0; words(count)];
    for slot in slots {
        assert!(slot < count, "there is no slot {slot}");
        set[slot as usize / 64] |= 1 << (slot % 64);
    }
    set
}

#[cfg(test)]
mod tests {
    use super::*;

    #[test]
    fn the_slots_of_the_words_are_those_given() {
        let counts = [1, 2, 63, 64, 65, 127, 128, 129, 4_096, 65_536];
        for count in counts {
            let last = count - 1;
            for given in [vec![], vec![0], vec![last], vec![last, 0, last / 2, 0]] {
                let words = slot_words(count, given.clone());
                assert_eq!(words.len(), (count as usize).div_ceil(64));
                let set = Slots::new(&words, count);
                let mut sorted = given;
                sorted.sort_unstable();
                sorted.dedup();
                assert!(set.iter().eq(sorted));
            }
            let all = slot_words(count, 0..count);
            let ones: u32 = all.iter().map(|word| word.count_ones()).sum();
            assert_eq!(ones, count);
            assert!(Slots::new(&all, count).iter().eq(0..count));
        }
        assert_eq!(slot_words(0, []), []);
    }

    #[test]
    #[should_panic(expected = "there is no slot 10")]
    fn no_such_slot() {
        slot_words(10, [9, 10]);
    }
}
