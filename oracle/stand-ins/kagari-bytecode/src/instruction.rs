//! Stand-ins after the source's instruction.rs: names, variants and field names are
//! the source's, in its order. Fields that neither `flow.rs` nor `operands.rs` looks
//! at have the type [`Unread`], whatever their type in the source.

#[rustfmt::skip]
#[path = "../../../vendor/kagari-bytecode/src/instruction/operands.rs"]
mod operands;

/// The type of every field that the carried files do not look at.
#[derive(Debug, Clone, Copy, PartialEq, Eq)]
pub struct Unread;

#[derive(Debug, Clone, Copy, PartialEq, Eq, Hash)]
pub struct Slot(u32);

impl Slot {
    pub fn new(index: usize) -> Self {
        Self(u32::try_from(index).expect("slot ID overflow"))
    }

    pub fn index(self) -> usize {
        self.0 as usize
    }
}

#[derive(Debug, Clone, Copy, PartialEq, Eq, Hash)]
pub struct ModuleSlot(u16);

impl ModuleSlot {
    pub fn new(index: usize) -> Self {
        Self(index as u16)
    }

    pub fn index(self) -> usize {
        self.0 as usize
    }
}

#[derive(Debug, Clone, Copy, PartialEq, Eq, Hash)]
pub struct JumpTarget(u32);

impl JumpTarget {
    pub fn new(index: usize) -> Self {
        Self(index as u32)
    }

    pub fn index(self) -> usize {
        self.0 as usize
    }
}

#[derive(Debug, Clone, Copy, PartialEq, Eq)]
pub enum ScalarOperand {
    Slot(Slot),
    Constant { constant: Unread, ty: Unread },
}

impl ScalarOperand {
    pub fn slot(self) -> Option<Slot> {
        match self {
            Self::Slot(slot) => Some(slot),
            Self::Constant { .. } => None,
        }
    }

    pub fn rewrite_slot(&mut self, rewrite: &mut impl FnMut(Slot) -> Slot) {
        if let Self::Slot(slot) = self {
            *slot = rewrite(*slot);
        }
    }
}

#[derive(Debug, Clone, PartialEq, Eq)]
pub enum CallTarget {
    Shared {
        module: Unread,
        target: Unread,
        contract: Unread,
    },
    ModuleFunction {
        module: Unread,
        function: Unread,
    },
    Function(Unread),
    InterfaceMethod {
        module: Unread,
        contract: Unread,
    },
    Native(Unread),
    Slot(Slot),
    ClosureRegister {
        register: Slot,
        params: Unread,
        return_type: Unread,
    },
    RuntimePrimitive(Unread),
    RuntimeHelper(Unread),
}

#[derive(Debug, Clone, PartialEq)]
pub enum BytecodeInstruction {
    Await {
        dst: Slot,
        value: Slot,
        future: Unread,
    },
    Convert {
        dst: Slot,
        src: Slot,
        conversion: Unread,
    },
    Numeric {
        dst: Slot,
        operation: Unread,
        lhs: Slot,
        rhs: Option<Slot>,
    },
    Iter {
        dst: Slot,
        value: Option<Slot>,
        ty: Unread,
        op: Unread,
    },
    LoadConst {
        dst: Slot,
        constant: Unread,
    },
    LoadModule {
        dst: Slot,
        slot: ModuleSlot,
    },
    StoreModule {
        slot: ModuleSlot,
        src: Slot,
    },
    Move {
        dst: Slot,
        src: Slot,
    },
    Unary {
        dst: Slot,
        op: Unread,
        operand: Slot,
    },
    Binary {
        dst: Slot,
        op: Unread,
        lhs: Slot,
        rhs: Slot,
    },
    BinaryOperands {
        dst: Slot,
        op: Unread,
        lhs: ScalarOperand,
        rhs: ScalarOperand,
    },
    PredicateBranch {
        op: Unread,
        lhs: ScalarOperand,
        rhs: ScalarOperand,
        negated: Unread,
        then_target: JumpTarget,
        else_target: JumpTarget,
    },
    Call {
        dst: Option<Slot>,
        callee: CallTarget,
        args: Vec<Slot>,
    },
    MakeTuple {
        dst: Slot,
        elements: Vec<Slot>,
    },
    RangeBound {
        dst: Slot,
        value: Slot,
        range: Unread,
        bound: Unread,
        upper: Unread,
    },
    MakeRange {
        dst: Slot,
        start: Option<Slot>,
        end: Option<Slot>,
        ty: Unread,
    },
    RepeatArray {
        element: Unread,
        dst: Slot,
        value: Slot,
        count: Slot,
    },
    MakeArray {
        element: Unread,
        dst: Slot,
        elements: Vec<Slot>,
    },
    MakeFuture {
        dst: Slot,
        function: Unread,
        arguments: Vec<Slot>,
        future: Unread,
    },
    MakeClosure {
        dst: Slot,
        function: Unread,
        captures: Vec<Slot>,
    },
    MakeCell {
        dst: Slot,
        value: Slot,
    },
    ReadCell {
        dst: Slot,
        cell: Slot,
    },
    WriteCell {
        cell: Slot,
        value: Slot,
    },
    UpcastInterface {
        dst: Slot,
        value: Slot,
        source: Unread,
        target: Unread,
    },
    MakeInterface {
        dst: Slot,
        value: Slot,
        target: Unread,
    },
    MakeStruct {
        dst: Slot,
        structure: Unread,
        arguments: Unread,
        fields: Vec<Slot>,
    },
    MakeEnum {
        dst: Slot,
        enumeration: Unread,
        arguments: Unread,
        variant: Unread,
        fields: Vec<Slot>,
    },
    TestEnumVariant {
        dst: Slot,
        value: Slot,
        enumeration: Unread,
        arguments: Unread,
        variant: Unread,
    },
    ReadEnumPayload {
        dst: Slot,
        value: Slot,
        enumeration: Unread,
        arguments: Unread,
        variant: Unread,
        index: Unread,
    },
    ReadAggregateField {
        dst: Slot,
        base: Slot,
        field: Unread,
    },
    WriteAggregateField {
        base: Slot,
        field: Unread,
        value: Slot,
    },
    ReadAggregateIndex {
        dst: Slot,
        base: Slot,
        index: Slot,
    },
    WriteAggregateIndex {
        base: Slot,
        index: Slot,
        value: Slot,
    },
    ReadPath {
        dst: Slot,
        root_or_view: Slot,
        path: Unread,
        dynamic_args: Vec<Slot>,
    },
    SetPath {
        root_or_view: Slot,
        path: Unread,
        dynamic_args: Vec<Slot>,
        value: Slot,
    },
    ModifyPath {
        dst: Option<Slot>,
        root_or_view: Slot,
        path: Unread,
        dynamic_args: Vec<Slot>,
        op: Unread,
        value: Slot,
    },
    MakePathView {
        dst: Slot,
        root_or_view: Slot,
        path: Unread,
        dynamic_args: Vec<Slot>,
    },
    Jump {
        target: JumpTarget,
    },
    Branch {
        cond: Slot,
        then_target: JumpTarget,
        else_target: JumpTarget,
    },
    Return(Option<Slot>),
    Unreachable,
}
