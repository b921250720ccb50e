//! What the source's flow module does alone, without the earlier verifiers that turn
//! away what refusals 6 to 9 of document 01 name, and what it does where request 2 gives
//! refusal 17.

use kagari_oracle::cases::*;
use kagari_oracle::{Budget, Facts, Instruction, Script, function, verify, verify_function};
use std::cell::Cell;
use std::panic;
use std::sync::Once;

thread_local! {
    static PANIC_IS_EXPECTED: Cell<bool> = const { Cell::new(false) };
}

/// Does the module panic on this script? An expected panic prints nothing.
fn panics(script: &Script) -> bool {
    static QUIET: Once = Once::new();
    QUIET.call_once(|| {
        let usual = panic::take_hook();
        panic::set_hook(Box::new(move |info| {
            if !PANIC_IS_EXPECTED.get() {
                usual(info);
            }
        }));
    });
    let function = function(script);
    PANIC_IS_EXPECTED.set(true);
    let outcome = panic::catch_unwind(|| verify_function(&function, Budget::default()));
    PANIC_IS_EXPECTED.set(false);
    outcome.is_err()
}

#[track_caller]
fn accepted(script: &Script) -> Facts {
    verify(script, Budget::default()).result.expect("accepted")
}

/// Start, end, successors and reachability of each block.
fn blocks(facts: &Facts) -> Vec<(usize, usize, &[usize], bool)> {
    let blocks = facts.blocks.iter();
    blocks
        .map(|block| {
            (
                block.start,
                block.end,
                &block.successors[..],
                block.reachable,
            )
        })
        .collect()
}

/// Refusal 6.
#[test]
fn no_code_panics() {
    assert!(panics(&case_a()));
}

/// Refusal 7: a slot at or above the count works as a slot within the last word.
#[test]
fn undeclared_slot_in_the_last_word_is_accepted() {
    let facts = accepted(&script([plain()], [], [load_const(1), return_value(1)]));
    assert_eq!(facts.blocks[0].initialized, [0b10]);
    accepted(&case_l());
    accepted(&script([plain()], [63], [return_value(63)]));
    let unfilled = script([plain()], [], [return_value(1)]);
    assert_eq!(verify(&unfilled, Budget::default()).result, Err(13));
}

/// Refusal 7: past the last word the module panics, also in unreachable code.
#[test]
fn slot_past_the_last_word_panics() {
    assert!(panics(&script([], [], [return_value(0)])));
    assert!(panics(&script([], [], [load_const(0), return_absent()])));
    assert!(panics(&script([], [0], [return_absent()])));
    assert!(panics(&script([plain()], [], [return_value(64)])));
    assert!(panics(&script([plain()], [64], [return_absent()])));
    assert!(panics(&script(
        [plain()],
        [],
        [return_absent(), return_value(64)]
    )));
}

/// Refusal 8: target N adds an empty block whose successors are those of the last
/// instruction.
#[test]
fn target_n_adds_an_empty_block() {
    let facts = accepted(&case_k(2));
    let expected: [(_, _, &[usize], _); 3] =
        [(0, 1, &[2], true), (1, 2, &[], false), (2, 2, &[], true)];
    assert_eq!(blocks(&facts), expected);

    let facts = accepted(&script([], [], [jump(1)]));
    let expected: [(_, _, &[usize], _); 2] = [(0, 1, &[1], true), (1, 1, &[1], true)];
    assert_eq!(blocks(&facts), expected);

    let facts = accepted(&script([plain()], [0], [branch(0, 0, 1)]));
    let expected: [(_, _, &[usize], _); 2] = [(0, 1, &[0, 1], true), (1, 1, &[0, 1], true)];
    assert_eq!(blocks(&facts), expected);

    accepted(&case_k(1));
}

/// Refusal 8.
#[test]
fn target_past_n_panics() {
    assert!(panics(&case_k(3)));
    assert!(panics(&script([], [], [jump(2)])));
    assert!(panics(&script([], [], [return_absent(), jump(3)])));
}

/// Refusal 9: an open end panics, also where it is unreachable.
#[test]
fn open_end_panics() {
    assert!(panics(&case_j()));
    let unreachable = [return_absent(), move_value(1, 0)];
    assert!(panics(&script([plain(), plain()], [0], unreachable)));
}

/// Refusals 8 and 9 together: an open end is accepted if some target is N. The empty
/// block at N then follows itself.
#[test]
fn open_end_is_accepted_with_target_n() {
    let code = [branch(0, 1, 2), move_value(1, 0)];
    let facts = accepted(&script([plain(), plain()], [0], code));
    let expected: [(_, _, &[usize], _); 3] = [
        (0, 1, &[1, 2], true),
        (1, 2, &[2], true),
        (2, 2, &[2], true),
    ];
    assert_eq!(blocks(&facts), expected);
}

/// Refusal 17: a parameter named twice is as one that is named once.
#[test]
fn parameter_named_twice_is_accepted() {
    let with = |script: Script, parameters: &[u32]| {
        let parameters = parameters.to_vec();
        verify(
            &Script {
                parameters,
                ..script
            },
            Budget::default(),
        )
    };
    // The smallest such script.
    let smallest = || script([plain()], [], [Instruction::new(41, [])]);
    let answer = with(smallest(), &[0, 0]);
    assert!(answer.result.is_ok());
    assert_eq!(answer.budget.work, 20);
    assert_eq!(answer, with(smallest(), &[0]));
    assert_eq!(with(case_d(), &[0, 0]), with(case_d(), &[0]));
    assert_eq!(with(case_g(), &[0, 1, 0]), with(case_g(), &[1, 0]));
}
