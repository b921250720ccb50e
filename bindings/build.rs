//! Links the port's check of a script.

#[path = "../oracle/compare/link.rs"]
mod link;

use std::path::Path;

fn main() {
    let repository = Path::new(env!("CARGO_MANIFEST_DIR")).join("..");
    link::link_all(&repository, &["flow_c"]);
}
