//! The load of an answer against a plain count: on the Rust's own answers, and with any
//! words and any numbers. Every call of the comparison holds its load to that count too.

use compare::random::Random;
use compare_flow::expected::{Known, NO_ROOM, Outcome, Passed};
use compare_flow::flow_c::{Load, load};
use compare_flow::generate::family;
use compare_flow::load::expected;
use kagari_oracle::cases::*;
use kagari_oracle::{Budget, Instruction, Script, SlotType, Type, sheet};

const SEED: u64 = 20_260_704;

fn is(function: u32, load: u64) -> Load {
    Load {
        number: 0,
        function,
        load,
    }
}

fn refused(number: u32, function: u32) -> Load {
    Load {
        number,
        function,
        load: 0,
    }
}

/// A sheet, and the Rust's answer on it if it is accepted.
fn accepted(sheet: &[u8]) -> Option<(Passed, Outcome)> {
    let known = Known::new(sheet);
    let lengths = known.read.as_ref().ok()?.needs;
    let outcome = known.expected(Budget::default(), lengths);
    let passed = known.read.ok()?;
    (outcome.answer.number == 0).then_some((passed, outcome))
}

/// The load of the Rust's answer, from the port.
fn load_of(sheet: &[u8], outcome: &Outcome) -> Load {
    let answer = outcome.answer;
    load(sheet, &outcome.sets, answer.blocks, answer.awaits)
}

/// How many slots the Rust's answer saves, and how many of them are neither never nor unit.
fn saved(passed: &Passed, outcome: &Outcome) -> (u64, u64) {
    let words = passed.slots.div_ceil(64);
    let facts = &outcome.sets[outcome.answer.blocks as usize * 2 * words..];
    let (mut all, mut full) = (0, 0);
    for fact in facts.chunks(1 + words).take(outcome.answer.awaits as usize) {
        for slot in 0..passed.slots {
            let bit = fact[1 + slot / 64] >> (slot % 64) & 1;
            all += bit;
            full += bit * u64::from(!matches!(passed.physical[slot], 0 | 1));
        }
    }
    (all, full)
}

#[test]
fn on_the_answers_of_the_rust() {
    let mut random = Random::new(SEED);
    let (mut answers, mut empty) = (0, 0);
    for name in ["small", "structured", "graphs", "awaits", "wide", "any"] {
        for _ in 0..3_000 {
            let sheet = (family(name).draw)(&mut random);
            let Some((passed, outcome)) = accepted(&sheet) else {
                continue;
            };
            let (all, full) = saved(&passed, &outcome);
            assert_eq!(load_of(&sheet, &outcome), is(passed.id, full), "{name}");
            answers += 1;
            empty += u32::from(full < all);
        }
    }
    println!("{answers} answers, {empty} of them save a never or a unit slot");
    assert!(answers > 3_000 && empty > 300);
}

/// Words of any kind, as many as are asked for or a few more or less.
#[test]
fn with_any_words_and_numbers() {
    let mut random = Random::new(SEED);
    let mut loads = 0;
    for name in [
        "small",
        "structured",
        "awaits",
        "wide",
        "spoiled",
        "damaged",
    ] {
        for _ in 0..3_000 {
            let sheet = (family(name).draw)(&mut random);
            let known = Known::new(&sheet);
            let words = known.read.as_ref().map_or(1, |p| p.slots.div_ceil(64)) as u32;
            let blocks = random.number(0..=4);
            let awaits = random.number(0..=6);
            let needed = blocks * 2 * words + awaits * (1 + words);
            let length = (needed + random.number(0..=3)).saturating_sub(random.number(0..=1));
            let ones = random.once_in(3);
            let word = |random: &mut Random| if ones { u64::MAX } else { random.bits() };
            let sets: Vec<u64> = (0..length).map(|_| word(&mut random)).collect();
            let (blocks, awaits) = (blocks.into(), awaits.into());
            let found = load(&sheet, &sets, blocks, awaits);
            assert_eq!(found, expected(&known, &sets, blocks, awaits), "{name}");
            loads += u32::from(found.number == 0);
        }
    }
    assert!(loads > 3_000);
}

/// What each of the physical bytes weighs, saved alone.
#[test]
fn of_each_physical_byte() {
    for physical in (0..=12).filter(|&physical| physical != 10) {
        let ty = Type::Absent;
        let slots = [SlotType { physical, ty }, plain()];
        let code = [await_value(1, 0), return_value(0)];
        let sheet = sheet(&script(slots, [0], code));
        let (_, outcome) = accepted(&sheet).expect("accepted");
        let weight = u64::from(physical > 1);
        assert_eq!(load_of(&sheet, &outcome), is(7, weight), "{physical}");
    }
}

#[test]
fn of_a_never_and_a_unit_slot_beside_another() {
    let slot = |physical| SlotType {
        physical,
        ty: Type::Absent,
    };
    let sheet = sheet(&script(
        [slot(0), slot(1), slot(3)],
        [0, 1, 2],
        [
            await_value(2, 2),
            Instruction::new(14, [2, 0, 1]),
            return_value(2),
        ],
    ));
    let (passed, outcome) = accepted(&sheet).expect("accepted");
    assert_eq!(saved(&passed, &outcome), (3, 1));
    assert_eq!(load_of(&sheet, &outcome), is(7, 1));
}

#[test]
fn bits_that_are_no_slots_weigh_nothing() {
    let sheet = sheet(&case_d());
    let ones = [u64::MAX; 16];
    for awaits in 0..=6 {
        assert_eq!(load(&sheet, &ones, 1, awaits), is(7, 2 * awaits));
    }
    let sheet = sheet_of_slots(130);
    assert_eq!(load(&sheet, &[u64::MAX; 8], 0, 2), is(7, 260));
}

/// A sheet with so many plain slots.
fn sheet_of_slots(slots: usize) -> Vec<u8> {
    sheet(&Script {
        id: 7,
        slots: vec![plain(); slots],
        parameters: vec![],
        code: vec![return_absent()],
    })
}

#[test]
fn short_sets_are_refused() {
    for slots in [0, 1, 64, 65, 130] {
        let sheet = sheet_of_slots(slots);
        let words = slots.div_ceil(64);
        for (blocks, awaits) in [(0, 0), (1, 0), (0, 1), (1, 1), (3, 2)] {
            let needed = blocks * 2 * words + awaits * (1 + words);
            let sets = vec![0; needed + 1];
            for length in 0..=needed + 1 {
                let due = if length < needed {
                    refused(NO_ROOM, 7)
                } else {
                    is(7, 0)
                };
                let found = load(&sheet, &sets[..length], blocks as u64, awaits as u64);
                assert_eq!(found, due);
            }
        }
    }
}

/// Numbers whose products fit no word.
#[test]
fn huge_numbers_are_refused() {
    let sets = [u64::MAX; 64];
    let huge = [
        65,
        1 << 32,
        1 << 62,
        1 << 63,
        (1 << 63) + 1,
        u64::MAX - 1,
        u64::MAX,
    ];
    for slots in [1, 64, 65, 128, 65_536] {
        let sheet = sheet_of_slots(slots);
        for number in huge {
            for (blocks, awaits) in [
                (number, 0),
                (0, number),
                (number, 1),
                (1, number),
                (number, number),
            ] {
                assert_eq!(load(&sheet, &sets, blocks, awaits), refused(NO_ROOM, 7));
            }
        }
    }
    // Sets without words take none, however many blocks there are.
    let sheet = sheet_of_slots(0);
    for number in huge {
        assert_eq!(load(&sheet, &sets, number, 64), is(7, 0));
        assert_eq!(load(&sheet, &sets, 0, number), refused(NO_ROOM, 7));
    }
}

#[test]
fn a_bad_sheet_is_refused_with_its_number() {
    let sets = [u64::MAX; 16];
    let whole = sheet(&case_d());
    for end in 0..whole.len() {
        let known = Known::new(&whole[..end]);
        let found = load(&whole[..end], &sets, 1, 1);
        assert_eq!(found, expected(&known, &sets, 1, 1));
        assert_eq!((found.number, found.load), (1, 0));
    }
    for (script, number) in [(case_a(), 6), (case_j(), 9), (case_k(2), 8)] {
        // Whatever the sets are: the sheet is looked at first.
        assert_eq!(load(&sheet(&script), &[], 1, 1), refused(number, 7));
        assert_eq!(load(&sheet(&script), &sets, 1, 1), refused(number, 7));
    }
}
