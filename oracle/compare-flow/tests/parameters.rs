//! Lists of parameters through the call: a slot named twice at each end and in the middle
//! of lists of all lengths is 17, whatever is lent; the same lists without it are judged.

use compare::parameters::{MOST, MOST_SLOTS, lengths, pairs, sheet_of, twice};
use compare::random::Random;
use compare_flow::expected::{Known, Lengths};
use compare_flow::flow_c::{Answer, Block};
use compare_flow::lent::called;
use kagari_oracle::{ABSENT, Budget};

const EMPTY: Lengths = Lengths {
    blocks: 0,
    sets: 0,
    scratch: 0,
};

const SOME: Lengths = Lengths {
    blocks: 3,
    sets: 5,
    scratch: 7,
};

/// A budget of which nothing is spent, and one with which any charge would be refused.
const BUDGETS: [Budget; 2] = [
    Budget {
        work: 5,
        retained: 3,
    },
    Budget {
        work: u64::MAX,
        retained: u64::MAX,
    },
];

/// Holds a call to a refusal: the id, the budget as given, and zeros in all that is lent.
#[track_caller]
fn refused(sheet: &[u8], given: Budget, lengths: Lengths, number: u32) {
    let outcome = called(sheet, given, lengths);
    let expected = Answer {
        number,
        function: 7,
        blocks: 0,
        awaits: 0,
        work: given.work,
        retained: given.retained,
    };
    assert_eq!(outcome.answer, expected);
    assert!(outcome.blocks == vec![Block::default(); lengths.blocks]);
    assert!(outcome.sets == vec![0; lengths.sets]);
    assert!(outcome.scratch == vec![0; lengths.scratch]);
}

/// Lists of one length over so many slots.
fn lists(length: u32, slots: u32) {
    let list = Random::new(slots.into()).distinct(length, slots);
    let sheet = sheet_of(slots, &list);
    let known = Known::new(&sheet);
    let needs = known.read.as_ref().expect("it passes").needs;
    let outcome = called(&sheet, BUDGETS[0], needs);
    assert_eq!(outcome.answer.number, 0, "{length} of {slots} slots");
    assert!(outcome == known.expected(BUDGETS[0], needs));
    // Nothing is lent: the early 10.
    refused(&sheet, BUDGETS[0], EMPTY, 10);

    for places in pairs(length) {
        let sheet = sheet_of(slots, &twice(&list, places));
        for lengths in [EMPTY, SOME, needs] {
            for given in BUDGETS {
                refused(&sheet, given, lengths, 17);
            }
        }
    }
}

#[test]
fn of_all_lengths() {
    for length in lengths() {
        lists(length, length);
        lists(length, length + 70);
    }
}

#[test]
fn over_the_most_slots() {
    for length in [2, 31, 32, 33, 34, 80, MOST] {
        lists(length, MOST_SLOTS);
    }
}

/// Each pair of places of lists around the length from which a map is kept.
#[test]
fn every_pair_of_places() {
    for length in 2..=40 {
        let list = Random::new(length.into()).distinct(length, 65);
        for other in 1..length as usize {
            for one in 0..other {
                let sheet = sheet_of(65, &twice(&list, [one, other]));
                refused(&sheet, BUDGETS[0], EMPTY, 17);
            }
        }
    }
}

/// Each slot, named twice at the ends of a short list and of a long one.
#[test]
fn every_slot() {
    const SLOTS: u32 = 4_200;
    for slot in 0..SLOTS {
        // All others are of other words.
        let others = (64..).step_by(64).map(|more| (slot + more) % SLOTS);
        for length in [4, 40] {
            let mut list: Vec<u32> = others.clone().take(length - 1).collect();
            list.insert(0, slot);
            let sheet = sheet_of(SLOTS, &list);
            // Not 17.
            refused(&sheet, BUDGETS[0], EMPTY, 10);
            list[length - 1] = slot;
            let sheet = sheet_of(SLOTS, &list);
            refused(&sheet, BUDGETS[0], EMPTY, 17);
        }
    }
}

/// The same bit of every word of a map: no two words are taken for one.
#[test]
fn every_word() {
    for bit in [0, 1, 31, 32, 62, 63] {
        let list: Vec<u32> = (0..1_024).map(|word| 64 * word + bit).collect();
        refused(&sheet_of(MOST_SLOTS, &list), BUDGETS[0], EMPTY, 10);
        for again in [0, 1, 62, 63, 64, 511, 512, 1_023] {
            let sheet = sheet_of(MOST_SLOTS, &[&list[..], &[list[again]]].concat());
            refused(&sheet, BUDGETS[0], EMPTY, 17);
        }
    }
}

/// 7 wins over 17, also of a slot that is none and named twice.
#[test]
fn no_such_slot_comes_first() {
    for length in [2, 3, 32, 33, 40, 1_000] {
        let list: Vec<u32> = (0..length).collect();
        for places in pairs(length) {
            for beyond in [length, length + 1, MOST_SLOTS, ABSENT - 1, ABSENT] {
                let mut both = twice(&list, places);
                both.insert(both.len() / 2, beyond);
                refused(&sheet_of(length, &both), BUDGETS[0], EMPTY, 7);
                let mut none = list.clone();
                for place in places {
                    none[place] = beyond;
                }
                refused(&sheet_of(length, &none), BUDGETS[0], EMPTY, 7);
            }
        }
    }
}
