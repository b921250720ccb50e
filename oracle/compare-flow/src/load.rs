//! The load of an answer, counted plainly: slot by slot, over all await sets.

use crate::expected::{Known, NO_ROOM, Passed};
use crate::flow_c::Load;
use crate::sets::slots;

/// What must come out of the call for the load, with any words and any numbers.
pub fn expected(known: &Known, sets: &[u64], blocks: u64, awaits: u64) -> Load {
    let passed = match &known.read {
        Ok(passed) => passed,
        Err(refused) => return refusal(refused.number, refused.id),
    };
    let words = passed.slots.div_ceil(64) as u128;
    let first = u128::from(blocks) * 2 * words;
    let needed = first + u128::from(awaits) * (1 + words);
    if (sets.len() as u128) < needed {
        return refusal(NO_ROOM, passed.id);
    }
    let facts = sets[first as usize..].chunks(1 + words as usize);
    let saved = facts.take(awaits as usize).map(|fact| &fact[1..]);
    Load {
        number: 0,
        function: passed.id,
        load: saved.map(|set| weight(passed, set)).sum(),
    }
}

/// What a set weighs: each slot 1, but never (physical 0) and unit (1) slots nothing.
pub fn weight(passed: &Passed, set: &[u64]) -> u64 {
    let slots = slots(set).take_while(|&slot| slot < passed.slots);
    slots.filter(|&slot| passed.physical[slot] > 1).count() as u64
}

fn refusal(number: u32, function: u32) -> Load {
    Load {
        number,
        function,
        load: 0,
    }
}
