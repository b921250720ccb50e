//! The carried files are those of the source, and their records have the sizes that
//! document 01 counts with.

mod sha256;

use kagari_bytecode::suspension::AwaitLiveness;
use kagari_bytecode::verifier::BLOCK_BYTES;
use std::collections::BTreeSet;
use std::fs;
use std::path::{Path, PathBuf};

fn vendor() -> PathBuf {
    Path::new(env!("CARGO_MANIFEST_DIR")).join("../vendor")
}

/// The files under a folder, as paths from `root`.
fn files(root: &Path, folder: &Path) -> BTreeSet<String> {
    let mut found = BTreeSet::new();
    for entry in fs::read_dir(folder).expect("a folder of vendor") {
        let path = entry.expect("an entry of vendor").path();
        if path.is_dir() {
            found.extend(files(root, &path));
        } else {
            let name = path.strip_prefix(root).expect("a path below vendor");
            found.insert(name.to_str().expect("a plain name").to_owned());
        }
    }
    found
}

/// Every file under vendor is listed in SHA256SUMS and has the sum listed there.
#[test]
fn carried_files_are_unchanged() {
    let vendor = vendor();
    let list = fs::read_to_string(vendor.join("SHA256SUMS")).expect("SHA256SUMS");
    let mut listed = BTreeSet::from(["SHA256SUMS".to_owned()]);
    for line in list.lines() {
        let (sum, name) = line.split_once("  ").expect("a sum and a name");
        let bytes = fs::read(vendor.join(name)).expect(name);
        assert_eq!(sha256::hex(&bytes), sum, "{name}");
        listed.insert(name.to_owned());
    }
    assert_eq!(listed.len(), 6);
    assert_eq!(files(&vendor, &vendor), listed);
}

#[test]
fn sizes_of_the_records() {
    assert_eq!(BLOCK_BYTES, 168);
    assert_eq!(size_of::<AwaitLiveness>(), 24);
}
