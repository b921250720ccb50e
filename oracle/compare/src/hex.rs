//! Sheets in hexadecimal, for failures.

/// The longest sheet that is shown whole.
const SHOWN: usize = 2_000;

/// A sheet in hexadecimal; of a long one, its first bytes.
pub fn hex(sheet: &[u8]) -> String {
    let shown = &sheet[..sheet.len().min(SHOWN)];
    let bytes: Vec<String> = shown.iter().map(|byte| format!("{byte:02X}")).collect();
    let more = if shown.len() < sheet.len() {
        format!(" .. ({} bytes)", sheet.len())
    } else {
        String::new()
    };
    bytes.join(" ") + &more
}
