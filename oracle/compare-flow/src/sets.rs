//! Sets of slots as words: slot s is bit s % 64 of word s / 64.

/// The words of a set of slots, of which there are so many.
pub fn words(slots: usize) -> usize {
    slots.div_ceil(64)
}

/// The set of these slots, over so many slots.
pub fn set(count: usize, slots: impl IntoIterator<Item = usize>) -> Vec<u64> {
    let mut set = vec![0; words(count)];
    for slot in slots {
        set[slot / 64] |= 1 << (slot % 64);
    }
    set
}

/// The slots of a set, ascending.
pub fn slots(set: &[u64]) -> impl Iterator<Item = usize> {
    set.iter().enumerate().flat_map(|(place, &word)| {
        let bits = (0..64).filter(move |bit| word >> bit & 1 == 1);
        bits.map(move |bit| 64 * place + bit)
    })
}
