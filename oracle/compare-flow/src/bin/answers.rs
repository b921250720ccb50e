//! Writes what the program `replay` is run on, `crates/replay/stdin` and `stdout`.

use compare_flow::answers::texts;
use std::path::Path;
use std::{fs, io};

fn main() -> io::Result<()> {
    let folder = Path::new(env!("CARGO_MANIFEST_DIR")).join("../../crates/replay");
    for (name, text) in ["stdin", "stdout"].iter().zip(texts()) {
        fs::write(folder.join(name), &text)?;
        println!("crates/replay/{name}: {} lines", text.lines().count());
    }
    Ok(())
}
