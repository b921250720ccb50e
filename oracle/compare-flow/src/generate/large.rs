//! Large scripts: up to 65,536 instructions or slots, around the state limit and above
//! the work limit.

use super::graphs;
use super::shapes::{self, SHAPES, Shape};
use crate::expected::{MOST_BYTES, MOST_WORK};
use compare::random::Random;
use kagari_oracle::cases::{branch, case_n, jump, plain, return_absent};
use kagari_oracle::{Instruction, Script};

/// The most slots, and the most instructions.
const MOST: u32 = 65_536;

/// Words with which some number of blocks comes nearest to the state limit: within 24
/// bytes below it (361, 529) and 8 above it (29, 327). No number meets it exactly.
pub const TIGHT_WIDTHS: [u32; 10] = [29, 49, 125, 143, 209, 327, 361, 419, 529, 1_024];

/// A script of thousands of instructions, often of as many as there may be.
pub fn script(random: &mut Random) -> Script {
    let count = random.pick(&[4_096, 20_000, MOST - 1, MOST, MOST]);
    let slots = random.pick(&[8, 63, 64, 65, 1_000]);
    match random.number(0..=7) {
        0..=3 => {
            let (_, shape) = random.pick(&SHAPES);
            shapes::script(shape, count, slots)
        }
        4 => ladder(count, slots),
        5 => jumps(random, count, slots),
        6 => shapes::script(Shape::Straight, count, MOST),
        _ => graphs::of_length(random, count, slots),
    }
}

/// The most blocks of so many words that are not above the state limit.
pub fn most_blocks(words: u32) -> u32 {
    let words = u64::from(words);
    ((MOST_BYTES - 16 * words) / (32 * words + 264)) as u32
}

/// A script at the state limit, or one block above it.
pub fn around_state_limit(random: &mut Random) -> Script {
    let words = random.pick(&TIGHT_WIDTHS);
    let blocks = most_blocks(words) + random.pick(&[0, 1, 1, 2]);
    let slots = 64 * words - random.pick(&[0, 1, 63]);
    jumps(random, blocks.min(MOST), slots)
}

/// A script that is refused with 12 from a budget of zero.
pub fn above_work_limit(random: &mut Random) -> Script {
    if random.once_in(2) {
        // Each await is charged the slot count, and half the instructions are awaits.
        let count = random.pick(&[8_192, 20_000, MOST]);
        let slots = (2 * MOST_WORK) as u32 / count + random.number(0..=100);
        return shapes::script(Shape::Awaits, count, slots);
    }
    slow(random.number(1_900..=2_000), MOST)
}

/// As many blocks as instructions, each a jump.
fn jumps(random: &mut Random, count: u32, slots: u32) -> Script {
    let mut script = Script {
        slots: vec![plain(); slots as usize],
        ..case_n(count)
    };
    if random.once_in(2) {
        // Some jumps go elsewhere, so that some code is not reached.
        for _ in 0..random.number(1..=9) {
            let place = random.below(script.code.len());
            script.code[place] = jump(random.number(0..=count - 1));
        }
    }
    script
}

/// Each instruction branches to the next with both targets.
fn ladder(count: u32, slots: u32) -> Script {
    let mut code: Vec<Instruction> = (1..count).map(|next| branch(0, next, next)).collect();
    code.push(return_absent());
    Script {
        id: 7,
        slots: vec![plain(); slots as usize],
        parameters: vec![0],
        code,
    }
}

/// Blocks that are visited again and again: each but the last reads a slot of its own,
/// and branches on or some blocks back.
fn slow(count: u32, slots: u32) -> Script {
    let mut code: Vec<Instruction> = (1..count)
        .map(|next| branch(next % slots, next, next.saturating_sub(40)))
        .collect();
    code.push(return_absent());
    Script {
        id: 7,
        slots: vec![plain(); slots as usize],
        parameters: (0..count).collect(),
        code,
    }
}
