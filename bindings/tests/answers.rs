//! The answers of the bindings are the oracle's, decoded.

#[allow(dead_code)]
#[path = "../../oracle/compare/src/random.rs"]
mod random;
#[allow(dead_code)]
#[path = "../../oracle/compare/src/scripts.rs"]
mod scripts;

use kagari_flow::{Accepted, Await, Block, Budget, Number, Slots, verify};
use kagari_oracle::cases::*;
use kagari_oracle::{self as oracle, AwaitFacts, BlockFacts, Facts, Script, sheet};
use random::Random;

fn oracle_budget(budget: Budget) -> oracle::Budget {
    let Budget { work, retained } = budget;
    oracle::Budget { work, retained }
}

/// Holds the answer on a script to the oracle's; whether it is accepted.
#[track_caller]
fn compare(script: &Script, budget: Budget) -> bool {
    let expected = oracle::verify(script, oracle_budget(budget));
    let found = verify(&sheet(script), budget);
    match (&found, &expected.result) {
        (Ok(accepted), Ok(facts)) => {
            assert_eq!(accepted.function(), script.id);
            assert_eq!(oracle_budget(accepted.budget()), expected.budget);
            compare_facts(accepted, facts);
            assert_eq!(accepted.load(&sheet(script)), Ok(load(facts, script)));
        }
        (Err(refusal), Err(number)) => {
            assert_eq!(refusal.number as u32, *number);
            assert_eq!(refusal.function, script.id);
            assert_eq!(oracle_budget(refusal.budget), expected.budget);
        }
        _ => panic!("{found:?} is not {expected:?}"),
    }
    found.is_ok()
}

fn compare_facts(accepted: &Accepted<'_>, facts: &Facts) {
    assert_eq!(accepted.blocks().len(), facts.blocks.len());
    for (number, expected) in facts.blocks.iter().enumerate() {
        compare_block(&accepted.blocks()[number], expected);
        assert_eq!(accepted.initialized(number).words(), expected.initialized);
        assert_eq!(accepted.live(number).words(), expected.live);
    }
    assert_eq!(accepted.awaits().len(), facts.awaits.len());
    for (found, expected) in accepted.awaits().zip(&facts.awaits) {
        compare_await(&found, expected);
    }
}

/// The saved slots that are neither never nor unit, counted over the Rust's facts.
fn load(facts: &Facts, script: &Script) -> u64 {
    let mut load = 0;
    for point in &facts.awaits {
        for (place, slot) in script.slots.iter().enumerate() {
            let saved = point.live[place / 64] >> (place % 64) & 1 == 1;
            load += u64::from(saved && slot.physical > 1);
        }
    }
    load
}

fn compare_block(found: &Block, expected: &BlockFacts) {
    let instructions = expected.start as u32..expected.end as u32;
    assert_eq!(found.instructions(), instructions);
    assert_eq!(found.is_reachable(), expected.reachable);
    let successors = found.successors().iter().map(|&block| block as usize);
    assert!(successors.eq(expected.successors.iter().copied()));
}

fn compare_await(found: &Await<'_>, expected: &AwaitFacts) {
    assert_eq!(found.instruction as usize, expected.instruction);
    assert_eq!(found.slots.words(), &expected.live[..]);
}

#[test]
fn on_the_cases_of_the_document() {
    let cases = [
        (case_b(), true),
        (case_c(), true),
        (case_d(), true),
        (case_e(), false),
        (case_f(), true),
        (case_g(), false),
        (case_h(), false),
        (case_h_filled(), true),
        (case_i(), true),
        (case_k(1), true),
        (case_n(2_031), true),
        (case_n(2_032), false),
    ];
    for (script, accepted) in cases {
        assert_eq!(compare(&script, Budget::default()), accepted);
    }
}

#[test]
fn on_random_scripts() {
    let mut random = Random::new(1);
    for _ in 0..2_000 {
        let mut script = scripts::script(&mut random);
        compare(&script, Budget::default());
        // With every slot a parameter, only host handles are in the way.
        script.parameters = (0..script.slots.len() as u32).collect();
        compare(&script, Budget::default());
        script.slots.fill(plain());
        assert!(compare(&script, Budget::default()));
    }
}

#[test]
fn from_budgets_near_the_limits() {
    for work in [99_999_968, 99_999_969, 100_000_001, u64::MAX] {
        for retained in [67_108_832, 67_108_833, u64::MAX] {
            compare(&case_b(), Budget { work, retained });
            compare(&case_d(), Budget { work, retained });
        }
    }
}

/// The budget of one answer serves as the next one's.
#[test]
fn several_scripts_share_a_budget() {
    let sheet = sheet(&case_d());
    let first = verify(&sheet, Budget::default()).expect("accepted");
    let second = verify(&sheet, first.budget()).expect("accepted");
    let both = Budget {
        work: 64,
        retained: 64,
    };
    assert_eq!(second.budget(), both);
}

#[test]
fn a_set_of_two_words() {
    let script = Script {
        slots: vec![plain(); 70],
        ..script([], [3, 64, 69], [await_value(0, 64), return_value(69)])
    };
    let accepted = verify(&sheet(&script), Budget::default()).expect("accepted");
    let point = accepted.awaits().next().expect("an await");
    assert!(point.slots.iter().eq([64, 69]));
    assert_eq!(point.slots.words(), [0, 0b10_0001]);
    let holds = [3, 63, 64, 65, 69, 70, 127, 128, u32::MAX].map(|slot| point.slots.contains(slot));
    let expected = [false, false, true, false, true, false, false, false, false];
    assert_eq!(holds, expected);
    assert_eq!(format!("{:?}", point.slots), "{64, 69}");
}

/// The words of an unreachable block have bits above the slots; its set has not.
#[test]
fn an_unreachable_block_has_all_slots() {
    let accepted = verify(&sheet(&case_i()), Budget::default()).expect("accepted");
    let slots: Slots<'_> = accepted.initialized(1);
    assert_eq!(slots.words(), [u64::MAX]);
    assert!(slots.iter().eq([0]));
    assert!(!slots.contains(1));
    assert_eq!(accepted.live(1).iter().count(), 0);
}

#[test]
#[should_panic(expected = "there is no block 1")]
fn no_such_block() {
    let accepted = verify(&sheet(&case_b()), Budget::default()).expect("accepted");
    accepted.live(1);
}

/// The first look at a sheet takes any bytes, and the answer is never refusal 10.
#[test]
fn on_bytes_of_any_kind() {
    let mut random = Random::new(2);
    for _ in 0..20_000 {
        let mut bytes = sheet(&scripts::script(&mut random));
        if random.once_in(3) {
            bytes.truncate(1 + random.below(400));
        }
        for _ in 0..random.below(8) {
            let place = random.below(bytes.len());
            bytes[place] = random.pick(&[0, 1, 2, 41, 255, place as u8]);
        }
        if let Err(refusal) = verify(&bytes, Budget::default()) {
            assert_ne!(refusal.number, Number::NoRoom);
        }
    }
}

/// The load of an answer by another sheet than its own.
#[test]
fn a_load_by_another_sheet() {
    let accepted = verify(&sheet(&case_d()), Budget::default()).expect("accepted");
    assert_eq!(accepted.load(&sheet(&case_d())), Ok(1));
    assert_eq!(accepted.load(&[]), Err(Number::ShortSheet));
    assert_eq!(accepted.load(&sheet(&case_j())), Err(Number::OpenEnd));
    // More words a set than the answer has.
    assert_eq!(accepted.load(&sheet(&case_n(2_031))), Err(Number::NoRoom));
}
