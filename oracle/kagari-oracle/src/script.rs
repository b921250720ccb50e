//! A script, decoded: the parts that a sheet of document 01 gives.

/// In a field that may be absent, the value that says so: no slot, or a constant.
pub const ABSENT: u32 = u32::MAX;

/// A function as a sheet gives it. The sheet's slot count is the length of `slots`,
/// its instruction count the length of `code`.
#[derive(Debug, Clone, PartialEq, Eq, Default)]
pub struct Script {
    /// The number of the function.
    pub id: u32,
    /// The types of the slots, by slot number.
    pub slots: Vec<SlotType>,
    /// The parameter slots. The source takes repeats too; in a sheet they are refused.
    pub parameters: Vec<u32>,
    /// The instructions.
    pub code: Vec<Instruction>,
}

/// What a sheet says of one slot.
#[derive(Debug, Clone, PartialEq, Eq)]
pub struct SlotType {
    /// The physical byte, 0 to 12, in the order of `physical` in presentation.rs.
    pub physical: u8,
    /// The semantic type.
    pub ty: Type,
}

/// The semantic type of a slot.
#[derive(Debug, Clone, PartialEq, Eq)]
pub enum Type {
    /// The slot has no semantic type. A sheet allows this for a whole type only, not
    /// for an item of a tuple.
    Absent,
    /// A type that is none of the others.
    Other,
    /// A host type.
    Host,
    /// A reference.
    Reference,
    /// A tuple of types.
    Tuple(Vec<Type>),
}

/// One instruction: its kind, 1 to 41, and the fields of its body, in the order of
/// [`pattern()`](crate::pattern()).
#[derive(Debug, Clone, PartialEq, Eq)]
pub struct Instruction {
    /// The place of the variant in `BytecodeInstruction`, counted from 1.
    pub kind: u16,
    /// The fields, [`ABSENT`] where one is absent.
    pub fields: Vec<u32>,
}

impl Instruction {
    /// An instruction of a kind and its fields.
    pub fn new(kind: u16, fields: impl Into<Vec<u32>>) -> Self {
        Self {
            kind,
            fields: fields.into(),
        }
    }
}
