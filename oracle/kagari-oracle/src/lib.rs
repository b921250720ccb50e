//! The Rust of kagari's bytecode flow verifier, as the reference for its port.
//!
//! A [`Script`] is what a sheet of document 01 says, decoded. [`verify`] hands it to
//! the source's `verify` from a given [`Budget`] and returns all that it answers:
//! blocks, sets, await facts, the number of a refusal and the budget afterwards.
//! [`slot_inputs`], [`slot_output`] and [`targets`] ask the source about a single
//! instruction, [`pattern()`] gives the fields of its body, and [`sheet()`] lays a
//! script out as bytes.
//!
//! ```
//! use kagari_oracle::{Budget, cases, verify};
//!
//! let answer = verify(&cases::case_d(), Budget::default());
//! let facts = answer.result.expect("accepted");
//! assert_eq!((facts.blocks.len(), facts.awaits.len()), (1, 1));
//! assert_eq!(answer.budget.work, 32);
//! ```
//!
//! The sheet checks (refusals 1 to 9 and 17) and 10 are the port's own: no Rust stands
//! behind them, and none of the functions here makes them.

#![warn(missing_docs)]

pub mod cases;
mod instruction;
mod pattern;
mod script;
mod sheet;
mod verify;

pub use instruction::{instruction, slot_inputs, slot_output, targets};
pub use pattern::{Field, KINDS, pattern};
pub use script::{ABSENT, Instruction, Script, SlotType, Type};
pub use sheet::sheet;
pub use verify::{Answer, Budget, function, verify, verify_function};

pub use kagari_bytecode::module::BytecodeFunction;
pub use kagari_bytecode::verifier::{AwaitFacts, BlockFacts, Facts};
