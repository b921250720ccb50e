//! Links the port's operand functions.

mod link;

use std::path::Path;

fn main() {
    let repository = Path::new(env!("CARGO_MANIFEST_DIR")).join("../..");
    link::link_all(&repository, &["operands_c"]);
}
