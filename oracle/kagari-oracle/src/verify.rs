//! The run of the source's `verify` over a script.

use crate::instruction::instruction;
use crate::script::{Script, Type};
use kagari_abi::representation::ValueType;
use kagari_bytecode::instruction::Slot;
use kagari_bytecode::module::{
    BytecodeFunction, BytecodeSemanticSlots, FunctionMetadata, FunctionRef,
};
use kagari_bytecode::verifier::{self, BytecodeVerificationError as Error, Facts};
use kagari_types::ty::Ty;

// Budgets are u64 here and usize in the source.
const _: () = assert!(usize::BITS == 64);

/// `FlowBudget` without its cancellation token.
#[derive(Debug, Clone, Copy, PartialEq, Eq, Default)]
pub struct Budget {
    /// The work charged so far.
    pub work: u64,
    /// The bytes of await facts retained so far.
    pub retained: u64,
}

/// All that the source's `verify` answers.
#[derive(Debug, Clone, PartialEq, Eq)]
pub struct Answer {
    /// Blocks and await facts, or the number of the refusal, 11 to 15.
    pub result: Result<Facts, u32>,
    /// The budget afterwards.
    pub budget: Budget,
}

/// Judges a script from a budget.
///
/// # Panics
///
/// As [`function`] does, and where the source panics: on scripts that refusals 6 to 9
/// of document 01 turn away before.
pub fn verify(script: &Script, budget: Budget) -> Answer {
    verify_function(&function(script), budget)
}

/// Judges a function that [`function`] built; a measurement times this part alone.
///
/// # Panics
///
/// Where the source panics, see [`verify`].
pub fn verify_function(function: &BytecodeFunction, budget: Budget) -> Answer {
    let outcome = verifier::verify(function, budget.work as usize, budget.retained as usize);
    Answer {
        result: outcome.result.map_err(|error| number(&error)),
        budget: Budget {
            work: outcome.work as u64,
            retained: outcome.retained_bytes as u64,
        },
    }
}

/// The function of the source that a script stands for: without debug ranges, and
/// without the effect `may_suspend`, which would open the stored-reference gate.
///
/// # Panics
///
/// If an instruction is none (see [`instruction`]), a physical byte is above 12, or
/// an item of a tuple is absent.
pub fn function(script: &Script) -> BytecodeFunction {
    let slots = script.slots.iter();
    let parameters = script.parameters.iter();
    let code = script.code.iter();
    BytecodeFunction {
        id: FunctionRef(script.id),
        metadata: FunctionMetadata {
            slots: slots.clone().map(|slot| physical(slot.physical)).collect(),
            semantic: BytecodeSemanticSlots {
                slots: slots
                    .enumerate()
                    .filter_map(|(index, slot)| Some((index, semantic(&slot.ty)?)))
                    .collect(),
                ..Default::default()
            },
            parameter_slots: parameters.map(|&slot| Slot::new(slot as usize)).collect(),
            ..Default::default()
        },
        instructions: code
            .map(|item| instruction(item.kind, &item.fields))
            .collect(),
    }
}

/// The representation of a physical byte: the order of `physical` in presentation.rs.
fn physical(byte: u8) -> ValueType {
    use ValueType::*;
    const ORDER: [ValueType; 13] = [
        Never, Unit, Bool, I32, I64, U64, F32, F64, Str, HeapObject, HostHandle, Generic, Char,
    ];
    ORDER[usize::from(byte)]
}

fn semantic(ty: &Type) -> Option<Ty> {
    match ty {
        Type::Absent => None,
        Type::Other => Some(Ty::Other),
        Type::Host => Some(Ty::Host(())),
        Type::Reference => Some(Ty::Reference {}),
        Type::Tuple(items) => {
            let item = |ty| semantic(ty).expect("an item of a tuple is not absent");
            Some(Ty::Tuple(items.iter().map(item).collect()))
        }
    }
}

/// The number of a refusal, by its reason: document 01, "Refusal table".
fn number(error: &Error) -> u32 {
    let Error::InvalidOperation { reason, .. } = error else {
        unreachable!("the token is never cancelled")
    };
    match *reason {
        "executable flow analysis state limit" => 11,
        "executable flow analysis work limit" => 12,
        "uninitialized executable slot" => 13,
        "host capability live across await" => 14,
        "async suspension facts size limit" => 15,
        other => unreachable!("flow.rs has no reason {other:?} without may_suspend"),
    }
}
