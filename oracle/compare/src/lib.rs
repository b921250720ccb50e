//! The port's operand functions, and what the comparisons share: the plain reader of
//! sheets, and the inputs. The comparisons themselves are the tests of this crate and
//! of `compare-sheet`.

pub mod damage;
pub mod hex;
pub mod operands_c;
pub mod parameters;
pub mod random;
pub mod reader;
pub mod scripts;
pub mod sheets;
