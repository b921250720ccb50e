//! Links the port's flow check.

#[path = "../compare/link.rs"]
mod link;

use std::path::Path;

fn main() {
    let repository = Path::new(env!("CARGO_MANIFEST_DIR")).join("../..");
    link::link_all(&repository, &["flow_c"]);
}
