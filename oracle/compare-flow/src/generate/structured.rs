//! Scripts with structure: branches that meet again, loops inside loops, loops with two
//! entries, code that nothing reaches.

use super::writer::{Filled, Manner, Writer};
use compare::damage::repeat;
use compare::random::Random;
use kagari_oracle::Script;
use kagari_oracle::cases::plain;

/// A script of up to some hundreds of instructions.
pub fn script(random: &mut Random) -> Script {
    let slots = few_or_border(random);
    let manner = Manner {
        slots,
        hosts: random.pick(&[0, 0, 0, 10]),
        parameters: random.pick(&[0, 1, 2, 2, 4]),
        awaits: random.pick(&[0, 0, 10]),
        careless: random.pick(&[0, 0, 0, 40, 200]),
        list: 4,
    };
    let length = random.pick(&[3, 8, 8, 20, 20, 60, 200]);
    write(random, manner, length)
}

/// A script with many awaits and some host slots.
pub fn awaits(random: &mut Random) -> Script {
    let slots = few_or_border(random).max(1);
    let manner = Manner {
        slots,
        hosts: random.pick(&[0, 0, 4, 10, 30]),
        parameters: random.pick(&[1, 1, 2]),
        awaits: random.pick(&[1, 2, 4]),
        careless: random.pick(&[0, 0, 60]),
        list: 3,
    };
    let length = random.pick(&[3, 8, 8, 20, 40]);
    write(random, manner, length)
}

/// A script with hundreds of slots, or a thousand.
pub fn wide(random: &mut Random) -> Script {
    let slots = random.pick(&[191, 192, 193, 256, 257, 500, 999, 1_000, 1_001, 1_024]);
    let manner = Manner {
        slots,
        hosts: random.pick(&[0, 0, 200]),
        parameters: random.pick(&[1, 2, 10]),
        awaits: random.pick(&[0, 5]),
        careless: random.pick(&[0, 0, 100]),
        list: random.pick(&[4, 40]),
    };
    let length = random.pick(&[8, 20, 60, 150]);
    write(random, manner, length)
}

/// A script with lists of up to 16,000 items, and as many parameters, for which it gets
/// slots enough.
pub fn long_lists(random: &mut Random) -> Script {
    let slots = random.pick(&[1, 5, 64, 200]);
    let manner = Manner {
        slots,
        hosts: 0,
        parameters: 1,
        awaits: 0,
        careless: random.pick(&[0, 0, 20_000]),
        list: random.pick(&[100, 1_000]),
    };
    let mut script = write(random, manner, 8);
    if random.once_in(2) {
        let most = random.pick(&[100, 1_000, 16_383]);
        let many = random.number(0..=most);
        let slots = slots.max(many);
        script.slots.resize(slots as usize, plain());
        script.parameters = random.distinct(many, slots);
        if random.once_in(8) && many > 0 && many < most {
            repeat(random, &mut script.parameters);
        }
    }
    script
}

/// Slot counts, most of them small, the others beside the borders of words.
fn few_or_border(random: &mut Random) -> u32 {
    if random.once_in(3) {
        random.pick(&[62, 63, 64, 65, 66, 127, 128, 129])
    } else {
        random.number(0..=9)
    }
}

/// A script of about so many instructions.
fn write(random: &mut Random, manner: Manner, length: u32) -> Script {
    let mut writer = Writer::new(random, manner);
    let mut filled = writer.filled_by_parameters();
    while writer.here() < length {
        statement(&mut writer, &mut filled, 3, length);
    }
    end(&mut writer, &filled);
    writer.script()
}

/// The last instruction: it leaves, or goes back.
fn end(writer: &mut Writer, filled: &Filled) {
    match writer.random.number(0..=9) {
        0 => {
            let place = writer.jump();
            let target = writer.random.pick(&[0, place]);
            writer.aim(place, [target; 2]);
        }
        1 => {
            let place = writer.branch(filled);
            let targets = [0, writer.random.pick(&[0, place])];
            writer.aim(place, targets);
        }
        _ => writer.leave(filled),
    }
}

/// Some statements inside one another at most `depth` deep. Past `length` instructions
/// only short ones follow, so that the script ends.
fn statements(writer: &mut Writer, filled: &mut Filled, depth: u32, length: u32) {
    for _ in 0..writer.random.number(1..=3) {
        statement(writer, filled, depth, length);
    }
}

fn statement(writer: &mut Writer, filled: &mut Filled, depth: u32, length: u32) {
    let simple = depth == 0 || writer.here() >= length;
    let kind = writer.random.number(0..=if simple { 3 } else { 12 });
    match kind {
        0..=2 => straight(writer, filled),
        3 => self_loop(writer, filled),
        4 | 5 => if_else(writer, filled, depth - 1, length),
        6 => if_only(writer, filled, depth - 1, length),
        7 => while_loop(writer, filled, depth - 1, length),
        8 => do_while(writer, filled, depth - 1, length),
        9 => two_entries(writer, filled, depth - 1, length),
        10 => dead_code(writer, filled, depth - 1, length),
        11 => early_end(writer, filled),
        _ => chain(writer, filled),
    }
}

fn straight(writer: &mut Writer, filled: &mut Filled) {
    for _ in 0..writer.random.number(1..=4) {
        writer.plain(filled);
    }
}

/// A branch to itself or on; or one whose targets are equal.
fn self_loop(writer: &mut Writer, filled: &mut Filled) {
    let place = writer.branch(filled);
    let next = writer.here();
    let targets = writer
        .random
        .pick(&[[place, next], [next, place], [next, next]]);
    writer.aim(place, targets);
}

/// Aims a branch, either target first.
fn aim_any(writer: &mut Writer, place: u32, one: u32, other: u32) {
    let targets = writer.random.pick(&[[one, other], [other, one]]);
    writer.aim(place, targets);
}

fn if_else(writer: &mut Writer, filled: &mut Filled, depth: u32, length: u32) {
    let branch = writer.branch(filled);
    let then = writer.here();
    let mut other = filled.clone();
    statements(writer, filled, depth, length);
    let over = writer.jump();
    let otherwise = writer.here();
    statements(writer, &mut other, depth, length);
    let after = writer.here();
    aim_any(writer, branch, then, otherwise);
    writer.aim(over, [after; 2]);
    *filled = filled.met(&other);
}

fn if_only(writer: &mut Writer, filled: &mut Filled, depth: u32, length: u32) {
    let branch = writer.branch(filled);
    let then = writer.here();
    statements(writer, &mut filled.clone(), depth, length);
    let after = writer.here();
    aim_any(writer, branch, then, after);
}

fn while_loop(writer: &mut Writer, filled: &mut Filled, depth: u32, length: u32) {
    let head = writer.branch(filled);
    let body = writer.here();
    statements(writer, &mut filled.clone(), depth, length);
    let back = writer.jump();
    let after = writer.here();
    aim_any(writer, head, body, after);
    writer.aim(back, [head; 2]);
}

fn do_while(writer: &mut Writer, filled: &mut Filled, depth: u32, length: u32) {
    let start = writer.here();
    statements(writer, filled, depth, length);
    let back = writer.branch(filled);
    let after = writer.here();
    aim_any(writer, back, start, after);
}

/// A loop that is entered at its start and in its middle.
fn two_entries(writer: &mut Writer, filled: &mut Filled, depth: u32, length: u32) {
    let branch = writer.branch(filled);
    let first = writer.here();
    statements(writer, &mut filled.clone(), depth, length);
    let second = writer.here();
    statements(writer, filled, depth, length);
    let back = writer.branch(filled);
    let after = writer.here();
    aim_any(writer, branch, first, second);
    aim_any(writer, back, first, after);
}

/// Code that is jumped over, or that follows a loop without an end. What is read there
/// need not be filled.
fn dead_code(writer: &mut Writer, filled: &mut Filled, depth: u32, length: u32) {
    let over = writer.jump();
    let mut all = writer.all_filled();
    statements(writer, &mut all, depth, length);
    if writer.random.once_in(3) {
        writer.leave(&all);
    }
    let after = writer.here();
    // The code behind is dead too if the jump goes back.
    if writer.random.once_in(8) {
        let target = writer.random.number(0..=over);
        writer.aim(over, [target; 2]);
        *filled = writer.all_filled();
    } else {
        writer.aim(over, [after; 2]);
    }
}

/// A branch to an end of the script, or on.
fn early_end(writer: &mut Writer, filled: &mut Filled) {
    let branch = writer.branch(filled);
    let end = writer.here();
    writer.leave(filled);
    let after = writer.here();
    aim_any(writer, branch, end, after);
}

/// Branches one after the other to one place, so that it has many predecessors.
fn chain(writer: &mut Writer, filled: &mut Filled) {
    let mut branches = Vec::new();
    for _ in 0..writer.random.number(2..=6) {
        branches.push(writer.branch(filled));
    }
    let after = writer.here();
    for branch in branches {
        aim_any(writer, branch, branch + 1, after);
    }
}
