//! Scripts of any length in four shapes, all accepted where no limit is met. They are
//! the large sheets of the comparison and the sheets that times are measured on.

use kagari_oracle::cases::{
    await_value, branch, jump, load_const, move_value, plain, return_value,
};
use kagari_oracle::{ABSENT, Instruction, Script};

/// What the code is like.
#[derive(Debug, Clone, Copy, PartialEq, Eq)]
pub enum Shape {
    /// One block.
    Straight,
    /// Branches that meet again.
    Branchy,
    /// Loops three deep, and one around them all.
    Loops,
    /// Every second instruction is an await.
    Awaits,
}

/// All shapes, by name.
pub const SHAPES: [(&str, Shape); 4] = [
    ("straight", Shape::Straight),
    ("branchy", Shape::Branchy),
    ("loops", Shape::Loops),
    ("awaits", Shape::Awaits),
];

/// The parameters are the first slots.
const PARAMETERS: u32 = 4;

/// From how many units ago a slot is read again.
const FAR: u32 = 16;

/// A script of exactly so many instructions.
///
/// # Panics
///
/// If there are fewer than 8 slots or fewer than 2 instructions.
pub fn script(shape: Shape, count: u32, slots: u32) -> Script {
    of_units(|_| shape, count, slots)
}

/// A script of exactly so many instructions that has a branch in one of `every` units,
/// so that the number of its edges can be chosen.
///
/// # Panics
///
/// As [`script`] does.
pub fn sparse(every: u32, count: u32, slots: u32) -> Script {
    let shape = |number: u32| {
        if number.is_multiple_of(every) {
            Shape::Branchy
        } else {
            Shape::Straight
        }
    };
    of_units(shape, count, slots)
}

fn of_units(shape: impl Fn(u32) -> Shape, count: u32, slots: u32) -> Script {
    assert!(slots >= 2 * PARAMETERS && count >= 2);
    let mut code = Vec::with_capacity(count as usize);
    let temps = slots - PARAMETERS;
    for number in 0.. {
        let unit = Unit {
            base: code.len() as u32,
            number,
            temps,
        };
        let instructions = unit.instructions(shape(number));
        // The last two instructions close the script.
        if code.len() + instructions.len() + 2 > count as usize {
            break;
        }
        code.extend(instructions);
    }
    while code.len() as u32 + 2 < count {
        code.push(load_const(PARAMETERS));
    }
    code.push(match shape(0) {
        Shape::Loops => branch(0, 0, count - 1),
        _ => load_const(PARAMETERS),
    });
    code.push(return_value(0));
    Script {
        id: 7,
        slots: vec![plain(); slots as usize],
        parameters: (0..PARAMETERS).collect(),
        code,
    }
}

/// A stretch of code that is repeated, each time over other slots.
struct Unit {
    base: u32,
    number: u32,
    temps: u32,
}

impl Unit {
    fn instructions(&self, shape: Shape) -> Vec<Instruction> {
        match shape {
            Shape::Straight => self.straight(),
            Shape::Branchy => self.branchy(),
            Shape::Loops => self.loops(),
            Shape::Awaits => self.awaits(),
        }
    }

    fn straight(&self) -> Vec<Instruction> {
        let [a, b, c, d] = self.slots();
        vec![
            load_const(a),
            binary(b, a, self.before()),
            call(c, &[a, b, self.long_before()]),
            move_value(d, c),
        ]
    }

    fn branchy(&self) -> Vec<Instruction> {
        let [a, b, c, _] = self.slots();
        let at = self.base;
        vec![
            binary(a, self.before(), self.long_before()),
            branch(0, at + 2, at + 4),
            move_value(b, a),
            jump(at + 5),
            load_const(b),
            binary(c, b, a),
        ]
    }

    fn loops(&self) -> Vec<Instruction> {
        let [a, b, c, d] = self.slots();
        let at = self.base;
        vec![
            move_value(a, self.before()),
            binary(b, a, self.long_before()),
            move_value(c, b),
            predicate_branch(c, 1, at + 2, at + 4),
            binary(a, a, c),
            branch(a, at + 1, at + 6),
            predicate_branch(a, ABSENT, at, at + 7),
            move_value(d, a),
        ]
    }

    fn awaits(&self) -> Vec<Instruction> {
        let [a, b, c, d] = self.slots();
        vec![
            await_value(a, self.before()),
            binary(b, a, self.long_before()),
            await_value(c, b),
            move_value(d, c),
        ]
    }

    /// The slots that this unit writes. Each unit surely writes its first.
    fn slots(&self) -> [u32; 4] {
        let slot = |place| PARAMETERS + (4 * self.number + place) % self.temps;
        [slot(0), slot(1), slot(2), slot(3)]
    }

    /// What the unit before surely wrote, or a parameter.
    fn before(&self) -> u32 {
        self.first_of(1)
    }

    /// The same of an earlier unit, so that slots stay live for long.
    fn long_before(&self) -> u32 {
        self.first_of(FAR)
    }

    fn first_of(&self, ago: u32) -> u32 {
        match self.number.checked_sub(ago) {
            Some(number) => Unit { number, ..*self }.slots()[0],
            None => self.number % PARAMETERS,
        }
    }
}

fn binary(dst: u32, lhs: u32, rhs: u32) -> Instruction {
    Instruction::new(10, [dst, lhs, rhs])
}

fn predicate_branch(lhs: u32, rhs: u32, then_target: u32, else_target: u32) -> Instruction {
    Instruction::new(12, [lhs, rhs, then_target, else_target])
}

/// A call of a function that is no slot.
fn call(dst: u32, args: &[u32]) -> Instruction {
    Instruction::new(13, [&[dst, ABSENT], args].concat())
}
