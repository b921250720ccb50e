//! Random scripts that pass the sheet checks.

use crate::random::Random;
use kagari_oracle::{ABSENT, Field, Instruction, KINDS, Script, SlotType, Type, pattern};

/// The kinds that may stand last.
const CLOSING: [u16; 5] = [12, 38, 39, 40, 41];

/// The kinds that can do without slots.
const WITHOUT_SLOTS: [u16; 5] = [12, 13, 38, 40, 41];

/// A script with up to some hundreds of slots, parameters and instructions.
pub fn script(random: &mut Random) -> Script {
    let mut slots = size(random, 0);
    let count = size(random, 1);
    let parameters = if slots == 0 { 0 } else { size(random, 0) };
    // No slot may be named twice: a list that is too long gets more slots, or is cut.
    if parameters > slots && random.once_in(2) {
        slots = parameters;
    }
    let kinds = (1..=count).map(|place| kind(random, slots, place == count));
    let kinds: Vec<u16> = kinds.collect();
    Script {
        id: random.bits() as u32,
        slots: (0..slots).map(|_| slot_type(random)).collect(),
        parameters: different(random, parameters.min(slots), slots),
        code: kinds
            .into_iter()
            .map(|kind| instruction(random, kind, slots, count))
            .collect(),
    }
}

/// An instruction of a kind that fits so many slots and instructions.
pub fn instruction(random: &mut Random, kind: u16, slots: u32, count: u32) -> Instruction {
    let mut fields = Vec::new();
    for field in pattern(kind).expect("a kind of the table") {
        match field {
            Field::Output | Field::Input => fields.push(slot(random, slots)),
            Field::OptionalOutput | Field::OptionalInput => {
                let absent = slots == 0 || random.once_in(3);
                fields.push(if absent { ABSENT } else { slot(random, slots) });
            }
            Field::Target => fields.push(random.number(0..=count - 1)),
            Field::ModuleSlot => {
                let highest = random.pick(&[3, 65_535]);
                fields.push(highest - random.number(0..=3));
            }
            Field::Rest => {
                let items = if slots == 0 { 0 } else { list_length(random) };
                fields.extend((0..items).map(|_| slot(random, slots)));
            }
        }
    }
    Instruction { kind, fields }
}

/// A type that is so many tuples deep on one way down.
pub fn nested(random: &mut Random, tuples: u32) -> Type {
    if tuples == 0 {
        return random.pick(&[|| Type::Other, || Type::Host, || Type::Reference])();
    }
    let count = random.number(1..=3);
    let deep = random.number(0..=count - 1);
    let items = (0..count).map(|place| {
        if place == deep {
            nested(random, tuples - 1)
        } else if tuples > 1 && random.once_in(3) {
            Type::Tuple(vec![])
        } else {
            nested(random, 0)
        }
    });
    Type::Tuple(items.collect())
}

fn size(random: &mut Random, least: u32) -> u32 {
    let most = match random.number(0..=9) {
        0 => least,
        1..=5 => 5,
        6..=8 => 70,
        _ => 400,
    };
    random.number(least..=most)
}

fn list_length(random: &mut Random) -> u32 {
    if random.once_in(100) {
        random.number(0..=400)
    } else {
        random.number(0..=5)
    }
}

fn kind(random: &mut Random, slots: u32, last: bool) -> u16 {
    loop {
        let kind = if last {
            random.pick(&CLOSING)
        } else {
            random.number(1..=KINDS.into()) as u16
        };
        if slots > 0 || WITHOUT_SLOTS.contains(&kind) {
            return kind;
        }
    }
}

/// So many different slots below the count, often with the highest.
fn different(random: &mut Random, many: u32, slots: u32) -> Vec<u32> {
    let mut found = random.distinct(many, slots);
    if !found.is_empty() && random.once_in(2) && !found.contains(&(slots - 1)) {
        let place = random.below(found.len());
        found[place] = slots - 1;
    }
    found
}

/// A slot below the count, often the highest.
fn slot(random: &mut Random, slots: u32) -> u32 {
    if random.once_in(4) {
        slots - 1
    } else {
        random.number(0..=slots - 1)
    }
}

fn slot_type(random: &mut Random) -> SlotType {
    SlotType {
        physical: random.number(0..=12) as u8,
        ty: any_type(random),
    }
}

/// A type of any form.
pub fn any_type(random: &mut Random) -> Type {
    match random.number(0..=9) {
        0..=4 => Type::Absent,
        5..=6 => nested(random, 0),
        7 => Type::Tuple(vec![]),
        8 => nested(random, 2),
        _ => {
            let tuples = random.number(1..=16);
            nested(random, tuples)
        }
    }
}
