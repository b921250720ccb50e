//! The operand functions of the port, from the static library `operands_c`.
//!
//! A body is the fields of an instruction as little-endian u32. The answer is `None`
//! if there is no such kind, the body does not fit the kind's pattern, `k` is not
//! below the count, or the instruction has no output.

/// What the library answers where there is nothing to answer.
const NONE: u64 = u64::MAX;

// A slice is passed as its pointer and its length.
unsafe extern "C" {
    fn kagari_input_count(kind: u64, body: *const u8, len: usize) -> u64;
    fn kagari_input(kind: u64, body: *const u8, len: usize, k: u64) -> u64;
    fn kagari_output(kind: u64, body: *const u8, len: usize) -> u64;
    fn kagari_target_count(kind: u64, body: *const u8, len: usize) -> u64;
    fn kagari_target(kind: u64, body: *const u8, len: usize, k: u64) -> u64;
}

/// The number of slots that the instruction reads.
pub fn input_count(kind: u64, body: &[u8]) -> Option<u64> {
    // SAFETY: the pointer and the length are those of a slice that lives through the
    // call, and the function only reads it; so in the four functions below.
    some(unsafe { kagari_input_count(kind, body.as_ptr(), body.len()) })
}

/// The slot that the instruction reads at place `k`.
pub fn input(kind: u64, body: &[u8], k: u64) -> Option<u64> {
    // SAFETY: as in `input_count`.
    some(unsafe { kagari_input(kind, body.as_ptr(), body.len(), k) })
}

/// The slot that the instruction writes.
pub fn output(kind: u64, body: &[u8]) -> Option<u64> {
    // SAFETY: as in `input_count`.
    some(unsafe { kagari_output(kind, body.as_ptr(), body.len()) })
}

/// The number of the instruction's targets.
pub fn target_count(kind: u64, body: &[u8]) -> Option<u64> {
    // SAFETY: as in `input_count`.
    some(unsafe { kagari_target_count(kind, body.as_ptr(), body.len()) })
}

/// The target at place `k`.
pub fn target(kind: u64, body: &[u8], k: u64) -> Option<u64> {
    // SAFETY: as in `input_count`.
    some(unsafe { kagari_target(kind, body.as_ptr(), body.len(), k) })
}

fn some(answer: u64) -> Option<u64> {
    (answer != NONE).then_some(answer)
}
