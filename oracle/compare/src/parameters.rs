//! Lists of parameters, in which a slot may be named twice.

use kagari_oracle::cases::{plain, return_absent};
use kagari_oracle::{Script, sheet};
use std::collections::BTreeSet;

/// The most parameters that a record holds.
pub const MOST: u32 = 16_383;

/// The most slots.
pub const MOST_SLOTS: u32 = 65_536;

/// Lengths of lists: all up to 80, some more, and the longest. The port compares up to 32
/// parameters pair by pair, and looks more of them up in a map.
pub fn lengths() -> impl Iterator<Item = u32> {
    (0..=80).chain([127, 128, 129, 1_000, MOST - 1, MOST])
}

/// Pairs of places in a list: neighbours at each end and in the middle, an end and the
/// middle, and both ends.
pub fn pairs(length: u32) -> BTreeSet<[usize; 2]> {
    let Some(last) = (length as usize).checked_sub(1) else {
        return BTreeSet::new();
    };
    let middle = last / 2;
    let pairs = [
        [0, 1],
        [0, middle],
        [0, last],
        [middle, middle + 1],
        [middle, last],
        [last.saturating_sub(1), last],
    ];
    let are_two = |&[one, other]: &[usize; 2]| one < other && other <= last;
    pairs.into_iter().filter(are_two).collect()
}

/// A list in which the second place has what the first has.
pub fn twice(parameters: &[u32], [one, other]: [usize; 2]) -> Vec<u32> {
    let mut parameters = parameters.to_vec();
    parameters[other] = parameters[one];
    parameters
}

/// The sheet of a script that returns at once, with so many slots and these parameters.
pub fn sheet_of(slots: u32, parameters: &[u32]) -> Vec<u8> {
    sheet(&Script {
        id: 7,
        slots: vec![plain(); slots as usize],
        parameters: parameters.to_vec(),
        code: vec![return_absent()],
    })
}
