//! The scripts of document 01, "Sheets to try", by their letters, and what they are
//! built from.

use crate::script::{ABSENT, Instruction, Script, SlotType, Type};

/// A slot without a handle: i32, no semantic type.
pub fn plain() -> SlotType {
    SlotType {
        physical: 3,
        ty: Type::Absent,
    }
}

/// A slot that is a host handle, no semantic type.
pub fn host() -> SlotType {
    SlotType {
        physical: 10,
        ty: Type::Absent,
    }
}

/// Kind 1, `Await`.
pub fn await_value(dst: u32, value: u32) -> Instruction {
    Instruction::new(1, [dst, value])
}

/// Kind 5, `LoadConst`.
pub fn load_const(dst: u32) -> Instruction {
    Instruction::new(5, [dst])
}

/// Kind 8, `Move`.
pub fn move_value(dst: u32, src: u32) -> Instruction {
    Instruction::new(8, [dst, src])
}

/// Kind 38, `Jump`.
pub fn jump(target: u32) -> Instruction {
    Instruction::new(38, [target])
}

/// Kind 39, `Branch`.
pub fn branch(cond: u32, then_target: u32, else_target: u32) -> Instruction {
    Instruction::new(39, [cond, then_target, else_target])
}

/// Kind 40, `Return` of a slot.
pub fn return_value(value: u32) -> Instruction {
    Instruction::new(40, [value])
}

/// Kind 40, `Return` of nothing.
pub fn return_absent() -> Instruction {
    Instruction::new(40, [ABSENT])
}

/// A script with id 7, as the sheet that document 01 prints.
pub fn script<const S: usize, const P: usize, const N: usize>(
    slots: [SlotType; S],
    parameters: [u32; P],
    code: [Instruction; N],
) -> Script {
    Script {
        id: 7,
        slots: slots.into(),
        parameters: parameters.into(),
        code: code.into(),
    }
}

/// a: no instruction.
pub fn case_a() -> Script {
    script([], [], [])
}

/// b, also m: no slots, `Return` absent.
pub fn case_b() -> Script {
    script([], [], [return_absent()])
}

/// c: a slot is filled and returned.
pub fn case_c() -> Script {
    script([plain()], [], [load_const(0), return_value(0)])
}

/// The bytes that document 01 prints for case d with id 7.
#[rustfmt::skip]
pub const CASE_D_SHEET: [u8; 56] = [
    0x0E, 0x00, 0x00, 0x01, 0x07, 0x00, 0x00, 0x00, 0x02, 0x00, 0x00, 0x00, 0x02, 0x00, 0x00, 0x00,
    0x06, 0x00, 0x01, 0x01, 0x00, 0x00, 0x00, 0x00,
    0x04, 0x00, 0x02, 0x01, 0x03, 0x00,
    0x04, 0x00, 0x02, 0x01, 0x03, 0x00,
    0x0A, 0x00, 0x01, 0x00, 0x01, 0x00, 0x00, 0x00, 0x00, 0x00, 0x00, 0x00,
    0x06, 0x00, 0x28, 0x00, 0x01, 0x00, 0x00, 0x00,
];

/// d, also o: an await over a parameter.
pub fn case_d() -> Script {
    script(
        [plain(), plain()],
        [0],
        [await_value(1, 0), return_value(1)],
    )
}

/// e: c without its first instruction.
pub fn case_e() -> Script {
    script([plain()], [], [return_value(0)])
}

/// f: an await that writes the slot it reads.
pub fn case_f() -> Script {
    script([plain()], [0], [await_value(0, 0), return_value(0)])
}

/// g: d with slot 0 a host handle.
pub fn case_g() -> Script {
    script([host(), plain()], [0], [await_value(1, 0), return_value(1)])
}

/// h: slot 1 is filled on one of two ways to its read.
pub fn case_h() -> Script {
    script(
        [plain(), plain()],
        [0],
        [
            branch(0, 1, 3),
            load_const(1),
            jump(4),
            jump(4),
            return_value(1),
        ],
    )
}

/// The second h: slot 1 is filled on both ways.
pub fn case_h_filled() -> Script {
    let mut script = case_h();
    script.code[3] = load_const(1);
    script
}

/// i: an unreachable block.
pub fn case_i() -> Script {
    script([plain()], [], [return_absent(), return_value(0)])
}

/// j: `Move` is the last instruction.
pub fn case_j() -> Script {
    script([plain(), plain()], [0], [move_value(1, 0)])
}

/// k: two instructions, the first a jump to `target`.
pub fn case_k(target: u32) -> Script {
    script([], [], [jump(target), return_absent()])
}

/// l: slot 10 of 10.
pub fn case_l() -> Script {
    Script {
        slots: vec![plain(); 10],
        ..script([], [], [load_const(10), return_value(10)])
    }
}

/// n: 65,536 slots and `blocks` blocks of one instruction each, every one a jump to
/// the next and the last a return.
pub fn case_n(blocks: u32) -> Script {
    let mut code: Vec<Instruction> = (1..blocks).map(jump).collect();
    code.push(return_absent());
    Script {
        slots: vec![plain(); 65_536],
        code,
        ..script([], [], [])
    }
}
