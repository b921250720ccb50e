//! The carried files of `kagari_bytecode`, with stand-ins for what they lean on.
//!
//! `availability`, `suspension`, `instruction::operands` and `verifier::flow` are
//! the files under `vendor/`, byte for byte. `instruction`, `module` and `verifier`
//! stand in for the source's modules of these names and hold as much of them as the
//! carried files use.

pub mod instruction;
pub mod module;
pub mod verifier;

#[rustfmt::skip]
#[path = "../../../vendor/kagari-bytecode/src/availability.rs"]
mod availability;

// `ProgramSuspensions` belongs to callers in the source that are not carried over.
#[allow(dead_code)]
#[rustfmt::skip]
#[path = "../../../vendor/kagari-bytecode/src/suspension.rs"]
pub mod suspension;
