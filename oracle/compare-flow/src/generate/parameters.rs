//! Scripts with lists of parameters of any length. In every second list a slot is named
//! twice.

use compare::damage::repeat;
use compare::parameters::{MOST, MOST_SLOTS};
use compare::random::Random;
use kagari_oracle::cases::{await_value, plain, return_absent, return_value};
use kagari_oracle::{ABSENT, Instruction, Script};

/// A script that reads parameters over an await.
pub fn script(random: &mut Random) -> Script {
    let length = length(random);
    let more = random.pick(&[0, 0, 1, 2, 63, 64, 65, 200]);
    let slots = if random.once_in(100) {
        MOST_SLOTS
    } else {
        length + more
    };
    let mut parameters = random.distinct(length, slots);
    let code = code(random, &parameters, slots);
    if length > 1 && random.once_in(2) {
        parameters.pop();
        for _ in 0..random.pick(&[1, 1, 1, 3]) {
            repeat(random, &mut parameters);
        }
        parameters.truncate(MOST as usize);
    }
    if length > 0 && random.once_in(20) {
        // A slot that is none comes before a slot named twice.
        let place = random.below(parameters.len());
        parameters[place] = random.pick(&[slots, slots + 1, MOST_SLOTS, ABSENT]);
    }
    Script {
        id: random.bits() as u32,
        slots: vec![plain(); slots as usize],
        parameters,
        code,
    }
}

/// Most lists are short; the others are around the lengths at which the port's check
/// might change its way, or as long as can be.
fn length(random: &mut Random) -> u32 {
    match random.number(0..=39) {
        0..=15 => random.number(0..=6),
        16..=25 => random.number(0..=40),
        26..=32 => random.pick(&[31, 32, 33, 34, 63, 64, 65]),
        33..=37 => random.number(60..=300),
        38 => random.number(300..=3_000),
        _ => random.pick(&[MOST - 1, MOST]),
    }
}

/// Reads some parameters, and now and then any slot.
fn code(random: &mut Random, parameters: &[u32], slots: u32) -> Vec<Instruction> {
    if parameters.is_empty() {
        return vec![return_absent()];
    }
    let mut read = || random.pick(parameters);
    let call = Instruction::new(13, [ABSENT, ABSENT, read(), read(), read()]);
    let (value, last) = (read(), read());
    let [written, any] = [(); 2].map(|()| random.number(0..=slots - 1));
    let last = if random.once_in(4) { any } else { last };
    vec![call, await_value(written, value), return_value(last)]
}
