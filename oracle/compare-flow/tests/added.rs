//! The flow check of the port with slots added to the parameters: against the Rust with both
//! as its parameters, against the call over the sheet that names both, against the call
//! without a set, and against itself with more slots. Each call has garbage in its buffers,
//! canaries beside them and beside the set, which must be left as it was, and its limits
//! compared with those that come back.

use compare::parameters::{MOST, MOST_SLOTS, sheet_of};
use compare::random::Random;
use compare::reader;
use compare_flow::Comparison;
use compare_flow::added::{Added, Stray, Which};
use compare_flow::expected::{
    Known, Lengths, MOST_WORK, NO_ROOM, NO_SUCH_SLOT, Outcome, Passed, STATE_LIMIT, WORK_LIMIT,
};
use compare_flow::flow_c::{Block, verify_with};
use compare_flow::generate::{FAMILIES, Family, family};
use compare_flow::lent::{called_with, called_within};
use compare_flow::limits::Limits;
use compare_flow::plan::{Length, Plan};
use compare_flow::report::Report;
use compare_flow::sets::{set, slots, words};
use kagari_oracle::cases::*;
use kagari_oracle::{Budget, Instruction, Script, sheet};

const SEED: u64 = 20_261_120;

const TODAYS: Limits = Limits::TODAYS;

const NONE: Limits = Limits {
    work: 0,
    state: 0,
    facts: 0,
};

const ZERO: Budget = Budget {
    work: 0,
    retained: 0,
};

/// Above every limit.
const SPENT: Budget = Budget {
    work: u64::MAX,
    retained: u64::MAX,
};

const UNFILLED: u32 = 13;

fn budget(work: u64, retained: u64) -> Budget {
    Budget { work, retained }
}

/// Sets of each kind.
const EACH: [Which; 7] = [
    Which::None,
    Which::All,
    Which::Missing,
    Which::MissingButOne,
    Which::OnceIn(2),
    Which::OnceIn(8),
    Which::OnceIn(64),
];

fn added(which: Which, seed: u64) -> Added {
    Added {
        which,
        seed,
        ..Added::NONE
    }
}

/// A sheet of a family; every second one that passes the sheet checks is left some of its
/// parameters, or none, so that it lacks what they were.
fn drawn(family: &Family, random: &mut Random) -> Vec<u8> {
    let sheet = (family.draw)(random);
    match reader::read(&sheet) {
        Ok(read) if random.once_in(2) => {
            let left_out = random.pick(&[1, 2, 4]);
            let parameters = read.script.parameters.iter().copied();
            let left = parameters.filter(|_| !random.once_in(left_out));
            sheet_with(&read.script, left.collect())
        }
        _ => sheet,
    }
}

/// The sheet of a script with these parameters.
fn sheet_with(script: &Script, parameters: Vec<u32>) -> Vec<u8> {
    sheet(&Script {
        parameters,
        ..script.clone()
    })
}

/// So many sheets of some families, with their random numbers.
fn each_sheet(
    families: &[(&str, u64)],
    mut each: impl FnMut(&mut Random, &Family, &[u8], &Known, u64),
) {
    for &(name, count) in families {
        let family = family(name);
        for seed in 0..count {
            let mut random = Random::new(SEED + seed);
            let sheet = drawn(&family, &mut random);
            each(&mut random, &family, &sheet, &Known::new(&sheet), seed);
        }
    }
}

fn passed(known: &Known) -> &Passed {
    known.read.as_ref().expect("it passes")
}

/// Compares calls over sheets of some families, so many sheets of each, as `choose` plans
/// them.
fn compare(
    families: &[(&str, u64)],
    choose: impl Fn(&mut Random, &Known, &Family) -> Vec<Plan>,
) -> Report {
    let mut comparison = Comparison::default();
    each_sheet(families, |random, family, sheet, known, seed| {
        let plans = choose(random, known, family);
        let found = format_args!("{}, seed {seed}", family.name);
        comparison.compare(sheet, known, &plans, found);
    });
    println!("{}", comparison.report);
    comparison.report
}

/// Families whose sheets pass the sheet checks.
const PASSING: [(&str, u64); 7] = [
    ("small", 400),
    ("structured", 400),
    ("graphs", 300),
    ("awaits", 400),
    ("wide", 60),
    ("any", 300),
    ("long lists", 6),
];

// Against the Rust.

/// Sets of each kind, in the calls that the families plan.
#[test]
fn sets_of_each_kind() {
    let report = compare(&PASSING, |random, known, family| {
        let plans = (family.plans)(random, known);
        let plans = plans
            .into_iter()
            .flat_map(|plan| EACH.map(|which| (plan, which)));
        plans
            .map(|(plan, which)| Plan {
                added: Some(Added {
                    more: random.pick(&[0, 0, 1, 5]),
                    ..added(which, random.bits())
                }),
                garbage: random.bits(),
                ..plan
            })
            .collect()
    });
    report.hold_with([0, 10, 12], 5_000);
    report.hold_with([13, 14, 15], 500);
}

/// From zero and with enough room, so that each call gives the script's own answer.
#[test]
fn with_enough_of_all() {
    let report = compare(&PASSING, |random, _, _| {
        EACH.map(|which| Plan {
            added: Some(added(which, random.bits())),
            garbage: random.bits(),
            ..Plan::plain()
        })
        .to_vec()
    });
    report.hold_with([0, 13], 2_000);
    report.hold_with([14], 200);
    let judged: u64 = [0, 12, 13, 14]
        .map(|number| report.times_with(number))
        .iter()
        .sum();
    assert_eq!(judged, report.calls_with());
}

/// Limits near what the run with the set comes to.
#[test]
fn within_limits() {
    let report = compare(&PASSING, |random, known, _| {
        let plan = |random: &mut Random, which| {
            let plain = Plan {
                added: Some(added(which, random.bits())),
                garbage: random.bits(),
                ..Plan::plain()
            };
            let words = plain.added.map(|added| added.words(known)).expect("a set");
            let lengths = plain.lengths(known);
            let outcome = known.expected_with(&words, plain.budget, TODAYS, lengths);
            plain.within(known, &outcome.answer)
        };
        EACH.map(|which| plan(random, which)).to_vec()
    });
    report.hold_with([0, 11, 12, 13], 500);
    report.hold_with([14, 15], 100);
}

/// Every limit of work, from none to one above the run's last sum, of small sheets.
#[test]
fn every_work_limit() {
    let families = [("small", 60), ("structured", 15), ("awaits", 15)];
    let report = compare(&families, |random, known, _| {
        let passed = passed(known);
        if passed.count > 20 {
            return vec![];
        }
        let which = random.pick(&EACH);
        let added = added(which, random.bits());
        let all = passed.with(&added.words(known)).source(ZERO).budget.work;
        let plan = |limit| Plan {
            limits: Some(Limits {
                work: limit,
                ..TODAYS
            }),
            added: Some(added),
            garbage: limit,
            ..Plan::plain()
        };
        (0..=all + 1).map(plan).collect()
    });
    report.hold_with([12], 5_000);
    report.hold_with([0, 13], 20);
}

/// One record or word short of each need, with sets of each kind.
#[test]
fn rooms() {
    let short: [fn(&mut Plan); 6] = [
        |plan| plan.blocks = Length::Needed(-1),
        |plan| plan.sets = Length::Needed(-1),
        |plan| plan.scratch = Length::Needed(-1),
        |plan| plan.scratch = Length::Early(0),
        |plan| plan.scratch = Length::Early(-1),
        |plan| [plan.blocks, plan.sets, plan.scratch] = [Length::Exactly(0); 3],
    ];
    let report = compare(&PASSING, |random, _, _| {
        let plan = |random: &mut Random, shorten: fn(&mut Plan)| {
            let which = random.pick(&EACH);
            let mut plan = Plan {
                budget: budget(random.pick(&[0, 5, MOST_WORK - 3]), 3),
                added: Some(added(which, random.bits())),
                garbage: random.bits(),
                ..Plan::plain()
            };
            shorten(&mut plan);
            plan
        };
        short.map(|shorten| plan(random, shorten)).to_vec()
    });
    // Sets of no words are never short.
    report.hold_with([10], 5_000);
    report.hold_with([12], 1_000);
}

/// Too few words, bits that are no slots and too little scratch, one by one and together.
#[test]
fn faulty_sets() {
    let families = [
        ("small", 200),
        ("structured", 200),
        ("wide", 40),
        ("any", 200),
    ];
    let report = compare(&families, |random, _, _| {
        let mut plans = vec![];
        for which in [Which::None, Which::All, Which::OnceIn(2)] {
            for stray in [Stray::None, Stray::First, Stray::Last] {
                for more in [0, -1, 1, -isize::MAX] {
                    for scratch in [Length::Needed(0), Length::Early(-1)] {
                        plans.push(Plan {
                            budget: random.pick(&[ZERO, SPENT, budget(5, 3)]),
                            limits: random.pick(&[None, Some(NONE)]),
                            added: Some(Added {
                                which,
                                stray,
                                more,
                                seed: random.bits(),
                            }),
                            scratch,
                            garbage: random.bits(),
                            ..Plan::plain()
                        });
                    }
                }
            }
        }
        plans
    });
    report.hold_with([7, 10, 12], 2_000);
    report.hold_with([0, 13], 200);
}

/// Sheets that do not pass the sheet checks: their number, whatever is added and lent.
#[test]
fn refused_sheets() {
    let families = [
        ("damaged", 5_000),
        ("spoiled", 2_500),
        ("noise", 1_000),
        ("parameters", 400),
    ];
    let report = compare(&families, |random, known, _| {
        if known.read.is_ok() {
            return vec![];
        }
        let length = |random: &mut Random| Length::Exactly(random.number(0..=20) as usize);
        let plan = Plan {
            budget: budget(random.bits(), random.bits()),
            limits: random.pick(&[None, Some(NONE)]),
            added: Some(Added::any(random)),
            blocks: length(random),
            sets: length(random),
            scratch: length(random),
            garbage: random.bits(),
        };
        vec![plan]
    });
    report.hold_with((1..=9).chain([17]), 20);
    let judged: u64 = (10..=15).chain([0]).map(|n| report.times_with(n)).sum();
    assert_eq!(judged, 0);
}

// Against other calls.

/// Calls a function with calls over sheets of all families: what they are made with, and
/// limits, today's or lower.
fn each_call(
    count: impl Fn(&Family) -> u64,
    mut each: impl FnMut(&mut Random, &[u8], &Known, Budget, Limits, Lengths),
) {
    for family in FAMILIES {
        for seed in 0..count(&family) {
            let mut random = Random::new(SEED ^ seed);
            let sheet = drawn(&family, &mut random);
            let known = Known::new(&sheet);
            for plan in (family.plans)(&mut random, &known) {
                let lengths = plan.lengths(&known);
                let mut limits = TODAYS;
                if random.once_in(2) {
                    let answer = known.expected(plan.budget, lengths).answer;
                    limits = plan.within(&known, &answer).limits.expect("limits");
                }
                each(&mut random, &sheet, &known, plan.budget, limits, lengths);
            }
        }
    }
}

/// So many sheets of a family; of large ones few.
fn some(family: &Family) -> u64 {
    match family.name {
        "work limit" => 1,
        "large" => 2,
        "state limit" => 6,
        "long lists" | "parameters" => 30,
        _ => 400,
    }
}

/// With zeros it is the call within limits, and so it is with what the sheet names itself.
#[test]
fn no_slot_that_is_not_a_parameter() {
    let mut calls = [0; 18];
    each_call(some, |random, sheet, known, given, limits, lengths| {
        let mut set = match &known.read {
            Ok(passed) if random.once_in(2) => passed.parameters.clone(),
            Ok(passed) => vec![0; words(passed.slots)],
            Err(_) => vec![0; random.number(0..=9) as usize],
        };
        let more = random.pick(&[0, 0, 1, 7]);
        set.extend((0..more).map(|_| random.bits()));
        let with = called_with(sheet, &set, given, limits, lengths);
        let within = called_within(sheet, given, limits, lengths);
        assert!(with == within, "{:?}", within.answer);
        calls[within.answer.number as usize] += 1;
    });
    println!("{calls:?}");
    let numbers = (0..=15).chain([17]);
    assert!(numbers.into_iter().all(|n| calls[n] > 0), "{calls:?}");
}

/// The sheet that names both the own and the added slots gets the same answer and leaves the
/// same words, within the same limits and with the same buffers. In which order they are
/// named does not matter.
#[test]
fn the_sheet_that_names_them_all() {
    let mut calls = [0; 18];
    let mut both = 0;
    each_call(some, |random, sheet, known, given, limits, lengths| {
        let Ok(passed) = &known.read else {
            return;
        };
        let added = added(random.pick(&EACH), random.bits()).words(known);
        let union = passed.with(&added).parameters;
        let mut union: Vec<u32> = slots(&union).map(|slot| slot as u32).collect();
        if union.len() > MOST as usize {
            return;
        }
        let script = reader::read(sheet).expect("it passes").script;
        both += usize::from(union.len() < script.parameters.len() + slots(&added).count());
        if random.once_in(2) {
            for place in 1..union.len() {
                union.swap(place, random.below(place + 1));
            }
        }
        let with = called_with(sheet, &added, given, limits, lengths);
        let within = called_within(&sheet_with(&script, union), given, limits, lengths);
        assert!(with == within, "{:?} {:?}", with.answer, within.answer);
        calls[with.answer.number as usize] += 1;
    });
    println!("{calls:?}, a slot in both {both} times");
    assert!((10..=15).chain([0]).all(|n| calls[n] > 0), "{calls:?}");
    assert!(both > 1_000, "{both}");
}

/// As many as a record can name, over as many slots as there can be.
#[test]
fn as_many_as_a_record_can_name() {
    let mut random = Random::new(SEED);
    let list = random.distinct(MOST, MOST_SLOTS);
    let named = |list: &[u32]| set(MOST_SLOTS as usize, list.iter().map(|&slot| slot as usize));
    for own in [0, 1, 8_000, MOST as usize - 1, MOST as usize] {
        // The last slot of the list is read.
        let read = list[list.len() - 1];
        let script = Script {
            code: vec![move_value(0, read), return_value(read)],
            ..case_n(1)
        };
        let whole = sheet_with(&script, list.clone());
        let needs = passed(&Known::new(&whole)).needs;
        let within = called_within(&whole, ZERO, TODAYS, needs);
        assert_eq!(within.answer.number, 0);
        let part = sheet_with(&script, list[..own].to_vec());
        let with = called_with(&part, &named(&list[own..]), ZERO, TODAYS, needs);
        assert!(with == within, "{own} named");
        // The one that is read left out.
        if own < list.len() {
            let set = named(&list[own..list.len() - 1]);
            let with = called_with(&part, &set, ZERO, TODAYS, needs);
            assert_eq!(with.answer.number, UNFILLED, "{own} named");
        }
    }
}

/// Words behind the set are not looked at, whatever they are.
#[test]
fn words_behind_the_set() {
    each_sheet(&PASSING, |random, _, sheet, known, _| {
        let needs = passed(known).needs;
        let set = added(random.pick(&EACH), random.bits()).words(known);
        let outcome = called_with(sheet, &set, ZERO, TODAYS, needs);
        for behind in [0, 1, u64::MAX, random.bits()] {
            for more in [1, 2, 9] {
                let longer = [&set[..], &vec![behind; more]].concat();
                let found = called_with(sheet, &longer, ZERO, TODAYS, needs);
                assert!(found == outcome, "{:?}", outcome.answer);
            }
        }
    });
}

// What is refused.

/// Holds a call to a refusal: its number and budget, and zeros in all that is lent.
#[track_caller]
fn refused(
    sheet: &[u8],
    added: &[u64],
    given: Budget,
    limits: Limits,
    lengths: Lengths,
    number: u32,
    after: Budget,
) {
    let outcome = called_with(sheet, added, given, limits, lengths);
    let answer = outcome.answer;
    assert_eq!((answer.number, answer.function), (number, 7));
    assert_eq!((answer.blocks, answer.awaits), (0, 0));
    assert_eq!(budget(answer.work, answer.retained), after);
    assert!(outcome.blocks == vec![Block::default(); lengths.blocks]);
    assert!(outcome.sets == vec![0; lengths.sets]);
    assert!(outcome.scratch == vec![0; lengths.scratch]);
}

/// The same of a refusal that charges nothing, from several budgets and within several
/// limits.
#[track_caller]
fn refused_uncharged(sheet: &[u8], added: &[u64], lengths: Lengths, number: u32) {
    for given in [ZERO, budget(5, 3), SPENT] {
        for limits in [TODAYS, NONE] {
            refused(sheet, added, given, limits, lengths, number, given);
        }
    }
}

fn lengths(blocks: usize, sets: usize, scratch: usize) -> Lengths {
    Lengths {
        blocks,
        sets,
        scratch,
    }
}

/// Slot counts beside the borders of words.
const COUNTS: [u32; 16] = [
    1, 2, 10, 62, 63, 64, 65, 66, 127, 128, 129, 130, 4_095, 4_096, 65_535, MOST_SLOTS,
];

/// Every length below that of a set, whatever its words are, is 10; the scratch does not
/// matter then.
#[test]
fn too_few_words() {
    for count in COUNTS {
        let sheet = sheet_of(count, &[]);
        let needs = passed(&Known::new(&sheet)).needs;
        let needed = words(count as usize);
        let few = [0, 1, needed / 2, needed - 1];
        for length in few.into_iter().filter(|&length| length < needed) {
            for word in [0, u64::MAX] {
                let added = vec![word; length];
                for lengths in [needs, lengths(0, 0, 4), lengths(0, 0, 3), lengths(0, 0, 0)] {
                    refused_uncharged(&sheet, &added, lengths, NO_ROOM);
                }
            }
        }
        let outcome = called_with(&sheet, &vec![0; needed], ZERO, TODAYS, needs);
        assert_eq!(outcome.answer.number, 0, "{count} slots");
    }
    // A set of no slots has no words.
    let sheet = sheet_of(0, &[]);
    for added in [&[][..], &[0], &[u64::MAX; 3]] {
        let outcome = called_with(&sheet, added, ZERO, TODAYS, lengths(1, 0, 20));
        assert_eq!(outcome.answer.number, 0);
    }
}

/// Every bit from the slot count to the end of its word is 7, alone and beside all slots,
/// before anything is charged and with as little room as the early 10 lets pass; with less
/// it is 10. Every bit below is a slot, and every bit behind is not looked at.
#[test]
fn bits_that_are_no_slots() {
    for count in COUNTS {
        let sheet = sheet_of(count, &[0]);
        let needs = passed(&Known::new(&sheet)).needs;
        let count = count as usize;
        let needed = words(count);
        let number = |added: &[u64]| {
            let outcome = called_with(&sheet, added, ZERO, TODAYS, needs);
            outcome.answer.number
        };
        let all = set(count, 0..count);
        for bit in count..64 * needed {
            let alone = set(64 * needed, [bit]);
            let beside = set(64 * needed, (0..count).chain([bit]));
            refused_uncharged(&sheet, &alone, needs, NO_SUCH_SLOT);
            refused_uncharged(&sheet, &beside, lengths(0, 0, 4), NO_SUCH_SLOT);
            refused_uncharged(&sheet, &beside, lengths(1, needs.sets, 3), NO_ROOM);
            refused_uncharged(&sheet, &alone, lengths(0, 0, 0), NO_ROOM);
        }
        for bit in [0, 1, count / 2, count - 1] {
            let bit = bit.min(count - 1);
            assert_eq!(number(&set(count, [bit])), 0, "bit {bit} of {count}");
        }
        for bit in [0, 1, 63] {
            assert_eq!(number(&[&all[..], &[1 << bit]].concat()), 0);
        }
        assert_eq!(number(&all), 0);
    }
}

/// 1 to 9 and 17 come before a set that is short, and before one that has a stray bit.
#[test]
fn the_sheet_checks_come_first() {
    let d = sheet(&case_d());
    let twice = sheet_with(&case_d(), vec![0, 0]);
    let left_over = [&d[..], &[0]].concat();
    let sheets = [
        (sheet(&case_a()), 6),
        (sheet(&case_j()), 9),
        (sheet(&case_k(2)), 8),
        (sheet(&case_l()), 7),
        (d[..d.len() - 1].to_vec(), 1),
        (left_over, 4),
        (twice, 17),
    ];
    for (sheet, number) in sheets {
        for added in [&[][..], &[0], &[1], &[1 << 10], &[u64::MAX; 2]] {
            for lengths in [lengths(0, 0, 0), lengths(8, 40, 400)] {
                refused_uncharged(&sheet, added, lengths, number);
            }
        }
    }
}

/// Too few words and too little scratch are 10; then a stray bit is 7; then come the charges
/// and 12, then 11, then the later 10.
#[test]
fn order_of_refusals() {
    let d = sheet(&case_d());
    let given = budget(5, 3);
    let run = |added: &[u64], work, state, lengths, number, after| {
        let limits = Limits {
            work,
            state,
            facts: 0,
        };
        refused(&d, added, given, limits, lengths, number, budget(after, 3));
    };
    let (stray, slot) = ([1 << 2], [0b10]);
    for short in [lengths(1, 4, 31), lengths(1, 3, 32), lengths(0, 4, 32)] {
        run(&[], 4, 311, short, NO_ROOM, 5);
        run(&stray, 4, 311, short, NO_SUCH_SLOT, 5);
        run(&slot, 4, 311, short, WORK_LIMIT, 5);
        run(&slot, 5, 311, short, WORK_LIMIT, 6);
        run(&slot, 6, 311, short, WORK_LIMIT, 7);
        run(&slot, 7, 311, short, STATE_LIMIT, 7);
        run(&slot, 7, 312, short, NO_ROOM, 7);
    }
    let early = lengths(1, 4, 7);
    for added in [&[][..], &stray, &slot] {
        run(added, 4, 311, early, NO_ROOM, 5);
    }
}

// Scripts whose answer is known.

/// A script of 65,536 slots that awaits, and then reads them all. A list in a record has at
/// most 16,382.
fn reads_all() -> Script {
    let all: Vec<u32> = (0..MOST_SLOTS).collect();
    let mut code = vec![await_value(0, 0)];
    for part in all.chunks(16_382) {
        code.push(Instruction::new(14, [&[0], part].concat()));
    }
    code.push(return_absent());
    Script { code, ..case_n(1) }
}

/// With all slots it is accepted, and its await saves them all. Without any of them it is
/// not, wherever the others are named.
#[test]
fn all_the_slots_that_there_can_be() {
    let script = reads_all();
    let count = MOST_SLOTS as usize;
    let all = set(count, 0..count);
    let places = [
        0, 1, 63, 64, 16_382, 16_383, 16_384, 32_768, 40_000, 65_471, 65_472, 65_535,
    ];
    for named in [0, 1, MOST] {
        let sheet = sheet_with(&script, (0..named).collect());
        let known = Known::new(&sheet);
        let needs = passed(&known).needs;
        for added in [all.clone(), set(count, named as usize..count)] {
            let outcome = called_with(&sheet, &added, ZERO, TODAYS, needs);
            let answer = outcome.answer;
            assert_eq!((answer.number, answer.blocks, answer.awaits), (0, 1, 1));
            let ones = [u64::MAX; 1_024];
            let sets = [&ones[..], &ones, &[0], &ones].concat();
            assert!(outcome.sets == sets);
            assert!(outcome == known.expected_with(&added, ZERO, TODAYS, needs));
        }
        for place in places.into_iter().filter(|&place| place >= named as usize) {
            let mut but_one = all.clone();
            but_one[place / 64] ^= 1 << (place % 64);
            let outcome = called_with(&sheet, &but_one, ZERO, TODAYS, needs);
            assert_eq!(outcome.answer.number, UNFILLED, "without {place}");
            assert!(outcome == known.expected_with(&but_one, ZERO, TODAYS, needs));
        }
    }
}

/// Many blocks over as many slots: each has all of them at its exit.
#[test]
fn all_slots_in_every_block() {
    let sheet = sheet(&case_n(60));
    let known = Known::new(&sheet);
    let needs = passed(&known).needs;
    let all = set(MOST_SLOTS as usize, 0..MOST_SLOTS as usize);
    let outcome = called_with(&sheet, &all, ZERO, TODAYS, needs);
    assert_eq!((outcome.answer.number, outcome.answer.blocks), (0, 60));
    for rows in outcome.sets.chunks(2 * 1_024) {
        assert!(rows[..1_024].iter().all(|&word| word == u64::MAX));
        assert!(rows[1_024..].iter().all(|&word| word == 0));
    }
    assert!(outcome == known.expected_with(&all, ZERO, TODAYS, needs));
}

/// With the slots that a script lacks it gets no 13, and with all of them but one it does,
/// if no host handle is in its way.
#[test]
fn the_slots_that_are_missing() {
    let (mut filled, mut unfilled) = (0, 0);
    each_sheet(&PASSING, |_, _, sheet, _, _| {
        let mut script = reader::read(sheet).expect("it passes").script;
        script.slots.fill(plain());
        let sheet = &kagari_oracle::sheet(&script);
        let known = Known::new(sheet);
        let passed = passed(&known);
        let number = |added: &[u64]| {
            let outcome = called_with(sheet, added, ZERO, TODAYS, passed.needs);
            outcome.answer.number
        };
        let missing = passed.missing();
        assert_eq!(number(&missing), 0);
        filled += 1;
        for slot in slots(&missing).take(5) {
            let mut but_one = missing.clone();
            but_one[slot / 64] ^= 1 << (slot % 64);
            assert_eq!(number(&but_one), UNFILLED);
            unfilled += 1;
        }
    });
    println!("{filled} filled, {unfilled} not");
    assert!(filled > 1_500 && unfilled > 1_500, "{filled}, {unfilled}");
}

/// The parts of an answer's sets: per block what is filled and what is live, per await its
/// instruction and what it saves.
fn rows(outcome: &Outcome, count: usize) -> (Vec<&[u64]>, Vec<&[u64]>, &[u64]) {
    let w = words(count);
    let (of_blocks, facts) = outcome
        .sets
        .split_at(outcome.answer.blocks as usize * 2 * w);
    let row = |place: usize| move |rows: usize| &of_blocks[(2 * rows + place) * w..][..w];
    let blocks = 0..outcome.answer.blocks as usize;
    let filled = blocks.clone().map(row(0)).collect();
    let live = blocks.map(row(1)).collect();
    (filled, live, facts)
}

/// A set that grows slot by slot: once a script is accepted it is never 13, nor anything but
/// accepted and 12. What is filled grows with the set; blocks, what is live and what awaits
/// save stay.
#[test]
fn growing_sets() {
    let mut accepted = [0; 18];
    let families = [
        ("small", 200),
        ("structured", 200),
        ("graphs", 150),
        ("awaits", 200),
        ("wide", 25),
        ("any", 150),
    ];
    each_sheet(&families, |random, _, sheet, known, _| {
        let passed = passed(known);
        let count = passed.slots;
        let missing: Vec<usize> = slots(&passed.missing()).collect();
        // Those that are missing first, in any order, as often as not.
        let mut order = random.distinct(count as u32, count as u32);
        if random.once_in(2) {
            order.sort_by_key(|&slot| !missing.contains(&(slot as usize)));
        }
        let mut added = vec![0; words(count)];
        let mut last: Option<Outcome> = None;
        let step = 1 + count / 12;
        for slots in order.chunks(step) {
            let outcome = called_with(sheet, &added, ZERO, TODAYS, passed.needs);
            if let Some(last) = &last {
                accepted[outcome.answer.number as usize] += 1;
                assert!(matches!(outcome.answer.number, 0 | WORK_LIMIT));
                if outcome.answer.number == 0 {
                    grown(last, &outcome, count);
                }
            }
            if outcome.answer.number == 0 {
                last = Some(outcome);
            }
            for &slot in slots {
                added[slot as usize / 64] |= 1 << (slot % 64);
            }
        }
    });
    println!("{accepted:?}");
    assert!(accepted[0] > 2_000, "{accepted:?}");
}

/// Holds an acceptance to one with fewer slots.
#[track_caller]
fn grown(fewer: &Outcome, more: &Outcome, count: usize) {
    assert!(fewer.blocks == more.blocks);
    assert_eq!(fewer.answer.awaits, more.answer.awaits);
    assert_eq!(fewer.answer.retained, more.answer.retained);
    let (filled, live, facts) = rows(fewer, count);
    let (filled_more, live_more, facts_more) = rows(more, count);
    assert!(live == live_more && facts == facts_more);
    for (row, row_more) in filled.iter().zip(&filled_more) {
        assert!(
            row.iter()
                .zip(*row_more)
                .all(|(word, more)| word & !more == 0)
        );
    }
}

// Document 01's cases.

/// Buffers that are long enough for all cases but n.
const ENOUGH: Lengths = Lengths {
    blocks: 8,
    sets: 40,
    scratch: 400,
};

/// Holds a call from zero to a number and a budget.
#[track_caller]
fn gives(script: &Script, added: u64, number: u32, work: u64, retained: u64) -> Vec<u64> {
    let outcome = called_with(&sheet(script), &[added], ZERO, TODAYS, ENOUGH);
    let answer = outcome.answer;
    assert_eq!((answer.number, answer.function), (number, 7));
    assert_eq!((answer.work, answer.retained), (work, retained));
    outcome.sets
}

/// Case e lacks slot 0, case h slot 1. The backward pass of the last block comes to what
/// the refusals are charged.
#[test]
fn cases_that_lack_a_slot() {
    gives(&case_e(), 0, UNFILLED, 21, 0);
    let sets = gives(&case_e(), 1, 0, 23, 0);
    assert_eq!(sets[..3], [1, 1, 0]);
    for added in [0b00, 0b01] {
        gives(&case_h(), added, UNFILLED, 111, 0);
    }
    for added in [0b10, 0b11] {
        let sets = gives(&case_h(), added, 0, 113, 0);
        assert_eq!(sets[..9], [3, 3, 3, 0, 3, 2, 3, 2, 0]);
    }
}

/// Cases that lack none: a set of any slots changes what is filled, and nothing else.
#[test]
fn cases_that_lack_none() {
    for (added, filled) in [(0b00, 0b11), (0b01, 0b11), (0b10, 0b11)] {
        let sets = gives(&case_d(), added, 0, 32, 32);
        assert_eq!(sets[..4], [filled, 1, 0, 1]);
    }
    for added in 0..=1 {
        assert_eq!(gives(&case_c(), added, 0, 27, 0)[..2], [1, 0]);
        assert_eq!(gives(&case_f(), added, 0, 31, 32)[..4], [1, 1, 0, 1]);
        // The unreachable block has all bits.
        let sets = gives(&case_i(), added, 0, 28, 0);
        assert_eq!(sets[..4], [added, 0, u64::MAX, 0]);
    }
    // The handle is saved whoever filled it.
    for added in 0..=3 {
        gives(&case_g(), added, 14, 32, 0);
        let parameterless = Script {
            parameters: vec![],
            ..case_g()
        };
        let (number, work) = if added & 1 == 1 {
            (14, 32)
        } else {
            (UNFILLED, 24)
        };
        gives(&parameterless, added, number, work, 0);
    }
}

/// Slices that are empty in Rust have pointers that are not null.
#[test]
fn empty_slices() {
    let call = |sheet: &[u8], added: &[u64], scratch: &mut [u64]| {
        let with = verify_with(sheet, added, ZERO, NONE, &mut [], &mut [], scratch);
        assert_eq!(with.limits, NONE);
        (with.answer.number, with.answer.work)
    };
    let (b, c) = (sheet(&case_b()), sheet(&case_c()));
    assert_eq!(call(&[], &[], &mut []), (1, 0));
    assert_eq!(call(&b, &[], &mut []), (10, 0));
    assert_eq!(call(&b, &[], &mut [1; 20]), (12, 1));
    assert_eq!(call(&c, &[], &mut [1; 20]), (10, 0));
    assert_eq!(call(&c, &[0], &mut [1; 20]), (12, 1));
    assert_eq!(call(&c, &[2], &mut [1; 20]), (7, 0));
}
