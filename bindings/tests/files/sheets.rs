//! `sheets/`: each file is, byte for byte, the sheet of a script of the oracle, and gives
//! what its comments say.

use crate::runs::runs;
use crate::{bash, bytes, path, read, text};
use kagari_flow::{Budget, verify};
use kagari_oracle::cases::*;
use kagari_oracle::{ABSENT, Instruction, Script, SlotType, Type, sheet};
use std::collections::BTreeSet;
use std::fs;

/// The files and the scripts that they are.
fn files() -> Vec<(&'static str, Script)> {
    vec![
        ("a.hex", case_a()),
        ("b.hex", case_b()),
        ("c.hex", case_c()),
        ("d.hex", case_d()),
        ("e.hex", case_e()),
        ("f.hex", case_f()),
        ("g.hex", case_g()),
        ("h_refused.hex", case_h()),
        ("h_passed.hex", case_h_filled()),
        ("i.hex", case_i()),
        ("j.hex", case_j()),
        ("k_refused.hex", case_k(2)),
        ("k_passed.hex", case_k(1)),
        ("l.hex", case_l()),
        ("m.hex", case_b()),
        ("o.hex", case_d()),
        ("route.hex", route()),
        ("twice.hex", twice()),
        ("empty_slots.hex", empty_slots()),
    ]
}

/// A lot is weighed until the scales are content, then waits for a lane.
fn route() -> Script {
    let slot = |physical, ty| SlotType { physical, ty };
    script(
        [slot(9, Type::Other), plain(), plain(), slot(10, Type::Host)],
        [0],
        [
            Instruction::new(13, [3, ABSENT]),
            Instruction::new(13, [1, ABSENT, 3, 0]),
            await_value(1, 1),
            branch(1, 4, 0),
            await_value(2, 0),
            Instruction::new(13, [ABSENT, ABSENT, 0, 1, 2]),
            return_absent(),
        ],
    )
}

/// Case d with its parameter named twice.
fn twice() -> Script {
    Script {
        parameters: vec![0, 0],
        ..case_d()
    }
}

/// A never, a unit and an i32 slot are saved; only the last weighs.
fn empty_slots() -> Script {
    let slot = |physical| SlotType {
        physical,
        ty: Type::Absent,
    };
    script(
        [slot(0), slot(1), slot(3)],
        [0, 1, 2],
        [
            await_value(2, 2),
            Instruction::new(14, [2, 0, 1]),
            return_value(2),
        ],
    )
}

#[test]
fn every_file_is_its_script() {
    for (name, script) in files() {
        let text = read(&format!("sheets/{name}"));
        assert_eq!(bytes(&text), sheet(&script), "{name}");
    }
}

#[test]
fn every_file_gives_what_it_says() {
    for (name, _) in files() {
        let text = read(&format!("sheets/{name}"));
        for run in runs(&text) {
            assert_eq!(run.found(&bytes(&text)), run.answer, "{name}");
        }
    }
}

#[test]
fn case_d_is_the_sheet_of_the_document() {
    assert_eq!(bytes(&read("sheets/d.hex")), CASE_D_SHEET);
}

#[test]
fn case_n_is_made_by_its_rule() {
    let rule = read("sheets/n.sh");
    for blocks in [2_031, 2_032] {
        let made = bytes(&bash(&["sheets/n.sh", &blocks.to_string()]));
        assert!(made == sheet(&case_n(blocks)), "{blocks} blocks");
        let answer = text::answer(&verify(&made, Budget::default()));
        let says = format!("# {blocks} blocks, from work 0, retained 0: {answer}");
        assert!(rule.lines().any(|line| line == says), "{says}");
    }
}

#[test]
fn no_other_sheets_are_there() {
    let entries = fs::read_dir(path("sheets")).expect("the folder of the sheets");
    let found: BTreeSet<String> = entries
        .map(|entry| entry.expect("an entry").file_name())
        .map(|name| name.into_string().expect("a plain name"))
        .filter(|name| name.ends_with(".hex"))
        .collect();
    let known: BTreeSet<String> = files().into_iter().map(|(name, _)| name.into()).collect();
    assert_eq!(found, known);
}
