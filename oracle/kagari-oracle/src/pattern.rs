//! The fields of each body: document 01, "Bodies, as kind numbers".

/// The number of instruction kinds; the kinds are 1 to this.
pub const KINDS: u16 = 41;

/// What one field of a body is.
#[derive(Debug, Clone, Copy, PartialEq, Eq)]
pub enum Field {
    /// D: the slot that the instruction writes.
    Output,
    /// D?: such a slot, or absent.
    OptionalOutput,
    /// S: a slot that the instruction reads.
    Input,
    /// S?: such a slot, or absent or a constant.
    OptionalInput,
    /// T: the number of an instruction.
    Target,
    /// M: a slot of the module, at most 65,535.
    ModuleSlot,
    /// L: all the remaining fields, each a slot that the instruction reads.
    Rest,
}

/// The fields of a kind's body, or `None` if there is no such kind. [`Field::Rest`]
/// only stands last.
pub fn pattern(kind: u16) -> Option<&'static [Field]> {
    use Field::{Input, ModuleSlot, OptionalInput, OptionalOutput, Output, Rest, Target};
    let fields: &'static [Field] = match kind {
        1 | 2 | 8 | 9 | 15 | 21 | 22 | 24 | 25 | 28 | 29 | 30 => &[Output, Input],
        3 => &[Output, Input, OptionalInput],
        4 => &[Output, OptionalInput],
        5 => &[Output],
        6 => &[Output, ModuleSlot],
        7 => &[ModuleSlot, Input],
        10 | 17 | 32 => &[Output, Input, Input],
        11 | 16 => &[Output, OptionalInput, OptionalInput],
        12 => &[OptionalInput, OptionalInput, Target, Target],
        13 => &[OptionalOutput, OptionalInput, Rest],
        14 | 18 | 19 | 20 | 26 | 27 => &[Output, Rest],
        23 | 31 => &[Input, Input],
        33 => &[Input, Input, Input],
        34 | 37 => &[Output, Input, Rest],
        35 => &[Input, Input, Rest],
        36 => &[OptionalOutput, Input, Input, Rest],
        38 => &[Target],
        39 => &[Input, Target, Target],
        40 => &[OptionalInput],
        41 => &[],
        _ => return None,
    };
    Some(fields)
}
