//! The sheet check of the port, from the static library `sheet_c`.

/// What the check answers.
#[repr(C)]
#[derive(Debug, Clone, Copy, PartialEq, Eq, Default)]
pub struct SheetFacts {
    /// 0 if the sheet passes, or the number of its refusal, 1 to 9 or 17. After a refusal
    /// all but this and the id is 0.
    pub number: u64,
    /// The function's id.
    pub id: u64,
    /// The slot count.
    pub slots: u64,
    /// The instruction count.
    pub count: u64,
    /// The offset of the first parameter number.
    pub params_at: u64,
    /// The number of parameters.
    pub params: u64,
    /// The offset of the first slot record.
    pub slots_at: u64,
    /// The offset of the first instruction record.
    pub code_at: u64,
    /// The number of await instructions, reached or not.
    pub awaits: u64,
}

// A slice is passed as its pointer and its length.
unsafe extern "C" {
    fn kagari_sheet_check(sheet: *const u8, len: usize) -> SheetFacts;
}

/// Checks a sheet.
pub fn check(sheet: &[u8]) -> SheetFacts {
    // SAFETY: the pointer and the length are those of a slice that lives through the
    // call, and the function only reads it.
    unsafe { kagari_sheet_check(sheet.as_ptr(), sheet.len()) }
}
