//! Scripts whose targets are any instructions: loops with several entries, much that
//! nothing reaches.

use super::writer::{Filled, Manner, Writer};
use compare::random::Random;
use kagari_oracle::Script;

/// A script of up to some hundreds of instructions. Parameters fill most of what is
/// read.
pub fn script(random: &mut Random) -> Script {
    let slots = random.pick(&[0, 1, 2, 3, 5, 8, 20, 63, 64, 65, 130]);
    let longest = random.pick(&[3, 6, 15, 15, 40, 120]);
    let count = random.number(1..=longest);
    of_length(random, count, slots)
}

/// A script of so many instructions over so many slots.
pub fn of_length(random: &mut Random, count: u32, slots: u32) -> Script {
    let manner = Manner {
        slots,
        hosts: random.pick(&[0, 0, 0, 20]),
        parameters: random.pick(&[0, 1, 1, 2]),
        awaits: random.pick(&[0, 0, 6]),
        careless: random.pick(&[0, 0, 0, 100]),
        list: 3,
    };
    let plain = random.pick(&[0, 1, 3]);
    let near = random.pick(&[2, 8, count]);

    let mut writer = Writer::new(random, manner);
    // Only what is filled everywhere counts: the parameters, and what the first
    // instruction writes.
    let mut everywhere = writer.filled_by_parameters();
    while writer.here() < count {
        let place = writer.here();
        let last = place + 1 == count;
        if !last && writer.random.number(0..=plain) > 0 {
            let mut after = everywhere.clone();
            writer.plain(&mut after);
            if place == 0 {
                everywhere = after;
            }
        } else {
            ending(&mut writer, &everywhere, count, near);
        }
    }
    writer.script()
}

/// Writes an instruction that ends a block, with targets near it or anywhere.
fn ending(writer: &mut Writer, filled: &Filled, count: u32, near: u32) {
    let place = writer.here();
    let mut target = || {
        let low = place.saturating_sub(near);
        let high = (place + near).min(count - 1);
        let next = (place + 1).min(count - 1);
        match writer.random.number(0..=5) {
            0 | 1 => next,
            2 => writer.random.number(0..=count - 1),
            _ => writer.random.number(low..=high),
        }
    };
    let targets = [target(), target()];
    match writer.random.number(0..=9) {
        0 => writer.leave(filled),
        1..=3 => {
            let place = writer.jump();
            writer.aim(place, targets);
        }
        _ => {
            let place = writer.branch(filled);
            writer.aim(place, targets);
        }
    }
}
