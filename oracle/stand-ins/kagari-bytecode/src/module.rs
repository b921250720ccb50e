//! Stand-ins after the source's module.rs: the fields that `flow.rs` and
//! `availability.rs` read, under their names.

use crate::instruction::{BytecodeInstruction, Slot};
use kagari_abi::representation::ValueType;
use kagari_types::ty::Ty;
use std::collections::BTreeMap;

/// The number of a function (in the source a type of `kagari_contract`).
#[derive(Debug, Clone, Copy, PartialEq, Eq, Default)]
pub struct FunctionRef(pub u32);

#[derive(Debug, Clone, Default)]
pub struct BytecodeFunction {
    pub id: FunctionRef,
    pub metadata: FunctionMetadata,
    pub instructions: Vec<BytecodeInstruction>,
}

#[derive(Debug, Clone, Default)]
pub struct FunctionMetadata {
    pub semantic: BytecodeSemanticSlots,
    pub slots: Vec<ValueType>,
    pub parameter_slots: Vec<Slot>,
    pub effects: EffectSet,
    pub debug: BytecodeDebugMetadata,
}

#[derive(Debug, Clone, Default)]
pub struct BytecodeSemanticSlots {
    pub params: BTreeMap<usize, Ty>,
    pub slots: BTreeMap<usize, Ty>,
}

/// In the source a type of `kagari_contract` with thirteen effects.
#[derive(Debug, Clone, Default)]
pub struct EffectSet {
    pub may_suspend: bool,
}

#[derive(Debug, Clone, Default)]
pub struct BytecodeDebugMetadata {
    pub local_live_ranges: Vec<LocalLiveRange>,
}

#[derive(Debug, Clone)]
pub struct LocalLiveRange {
    pub slot: Slot,
    /// First instruction offset where the initialized binding is visible.
    pub start: usize,
    /// Exclusive end offset.
    pub end: usize,
}
