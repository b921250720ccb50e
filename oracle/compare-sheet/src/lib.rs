//! The port's sheet check. Its comparison with the plain reader is the test of this
//! crate.

pub mod sheet_c;
