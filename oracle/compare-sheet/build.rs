//! Links the port's sheet check.

#[path = "../compare/link.rs"]
mod link;

use std::path::Path;

fn main() {
    let repository = Path::new(env!("CARGO_MANIFEST_DIR")).join("../..");
    link::link_all(&repository, &["sheet_c"]);
}
