//! The flow check of the port against the Rust: answers, and all lent memory. Seeds are
//! fixed, so every run makes the same calls.

use compare::random::Random;
use compare::sheets;
use compare_flow::expected::{Known, Lengths, MOST_BYTES, MOST_WORK};
use compare_flow::flow_c::{Answer, Block, verify};
use compare_flow::generate::large::{TIGHT_WIDTHS, most_blocks};
use compare_flow::generate::{every_small, family};
use compare_flow::lent::called;
use compare_flow::plan::{Plan, every_cut, plans};
use compare_flow::report::Report;
use compare_flow::{Comparison, run, run_family};
use kagari_oracle::cases::*;
use kagari_oracle::{Budget, Script, SlotType, Type, sheet};

const SEED: u64 = 20_250_301;

/// The numbers of the sheet checks.
const SHEET_CHECKS: [u32; 10] = [1, 2, 3, 4, 5, 6, 7, 8, 9, 17];

/// Numbers that most families of scripts give.
const FLOW: [u32; 4] = [0, 10, 12, 13];

/// Compares sheets of one family.
fn family_of(name: &str, count: u64) -> Report {
    shown(name, run_family(&family(name), SEED, count))
}

/// Shows a report where a test's output is shown.
fn shown(name: &str, report: Report) -> Report {
    println!("{name}\n{report}");
    report
}

// Random sheets.

/// All families together, each as often as in the differential run.
#[test]
fn all_families() {
    let report = shown("all families", run(SEED, 25_000, |_| {}));
    report.hold(0..=10, 200);
    report.hold(12..=15, 200);
    report.hold([17], 200);
    // A sheet for 11 is large.
    report.hold([11], 40);
    // Each call is made once more, within limits.
    assert_eq!(report.calls_within(), report.calls);
    report.hold_within(0..=15, 200);
    report.hold_within([17], 200);
    // A call of every second sheet, about, is made with added slots.
    assert!(report.calls_with() > report.sheets / 3);
    report.hold_with(0..=15, 40);
    report.hold_with([17], 40);
}

#[test]
fn small() {
    let report = family_of("small", 20_000);
    report.hold(FLOW, 1_000);
    report.hold([14, 15], 100);
}

#[test]
fn structured() {
    let report = family_of("structured", 20_000);
    report.hold(FLOW, 1_000);
    report.hold([14, 15], 100);
}

#[test]
fn graphs() {
    let report = family_of("graphs", 25_000);
    report.hold(FLOW, 1_000);
    report.hold([14, 15], 20);
}

#[test]
fn awaits() {
    let report = family_of("awaits", 25_000);
    report.hold(FLOW, 1_000);
    report.hold([14, 15], 1_000);
    report.hold_within([0, 10, 11, 12, 13, 14, 15], 500);
}

#[test]
fn wide() {
    let report = family_of("wide", 4_000);
    report.hold([0, 10, 12, 13, 15], 100);
}

#[test]
fn long_lists() {
    let report = family_of("long lists", 400);
    report.hold([0, 10, 12], 50);
}

#[test]
fn parameters() {
    let report = family_of("parameters", 4_000);
    report.hold([0, 10, 12, 17], 500);
    report.hold([7, 13], 100);
}

#[test]
fn any() {
    let report = family_of("any", 15_000);
    report.hold(FLOW, 200);
}

#[test]
fn spoiled() {
    let report = family_of("spoiled", 30_000);
    report.hold([2, 3, 6, 7, 8, 9, 17], 1_000);
}

#[test]
fn damaged() {
    let report = family_of("damaged", 40_000);
    report.hold(SHEET_CHECKS, 10);
    report.hold([1, 2, 3, 4, 7, 8], 500);
}

#[test]
fn noise() {
    let report = family_of("noise", 10_000);
    report.hold([1, 2, 3], 500);
}

// Large sheets.

#[test]
fn state_limit() {
    let report = family_of("state limit", 100);
    report.hold([10, 11], 50);
    report.hold([12], 20);
}

#[test]
fn work_limit() {
    let report = family_of("work limit", 4);
    assert_eq!(report.times(12), report.calls);
    report.hold([12], 4);
}

#[test]
fn large() {
    let report = family_of("large", 24);
    report.hold([0], 10);
}

// Sheets that are all tried.

/// All scripts of up to three instructions from a few kinds.
fn every_script(slots: u32) -> Report {
    let mut comparison = Comparison::default();
    let mut garbage = Random::new(SEED);
    every_small(slots, 3, &mut |script| {
        let sheet = sheet(script);
        let plan = Plan {
            garbage: garbage.bits(),
            ..Plan::plain()
        };
        let known = Known::new(&sheet);
        comparison.compare(&sheet, &known, &[plan], "every small script");
    });
    shown("every small script", comparison.report)
}

#[test]
fn every_script_without_slots() {
    let report = every_script(0);
    report.hold([0], 30);
    assert_eq!(report.sheets, 2 + 3 * 3 + 4 * 4 * 4);
}

#[test]
fn every_script_over_one_slot() {
    every_script(1).hold([0, 13, 14], 300);
}

#[test]
fn every_script_over_two_slots() {
    let report = every_script(2);
    report.hold([0, 13, 14], 5_000);
    assert!(report.sheets > 200_000);
}

/// A slot of every physical byte and of several types at every place among plain ones,
/// saved over an await.
#[test]
fn every_place_of_a_host_slot() {
    let nested = Type::Tuple(vec![Type::Other, Type::Tuple(vec![Type::Reference])]);
    let types = [
        (Type::Absent, false),
        (Type::Other, false),
        (Type::Host, true),
        (Type::Reference, true),
        (Type::Tuple(vec![]), false),
        (Type::Tuple(vec![Type::Other]), false),
        (nested, true),
    ];
    let mut comparison = Comparison::default();
    let mut hosts = 0;
    for slots in [2, 63, 64, 65, 128, 129] {
        for place in 0..slots {
            for (physical, (ty, inline_host)) in
                (0..=12).flat_map(|p| types.iter().map(move |t| (p, t)))
            {
                let other = u32::from(place == 0);
                let mut script = Script {
                    id: 7,
                    slots: vec![plain(); slots as usize],
                    parameters: vec![place],
                    code: vec![await_value(other, place), return_value(place)],
                };
                script.slots[place as usize] = SlotType {
                    physical,
                    ty: ty.clone(),
                };
                hosts += u64::from(*inline_host || physical == 10);
                let sheet = sheet(&script);
                let known = Known::new(&sheet);
                let found = format_args!("slot {place} of {slots}");
                comparison.compare(&sheet, &known, &[Plan::plain()], found);
            }
        }
    }
    let report = shown("every place of a host slot", comparison.report);
    report.hold([0, 14], 10_000);
    assert_eq!(report.times(14), hosts);
    assert_eq!(report.times(0), report.calls - hosts);
}

/// Small scripts from every budget with which the work limit is met, charge by charge.
#[test]
fn every_budget() {
    let mut comparison = Comparison::default();
    for (name, most) in [("small", 300), ("structured", 150), ("awaits", 150)] {
        let family = family(name);
        let mut tried = 0;
        for seed in 0.. {
            let mut random = Random::new(seed);
            let sheet = (family.draw)(&mut random);
            let known = Known::new(&sheet);
            let passed = known.read.as_ref().expect("it passes");
            if passed.count > 20 {
                continue;
            }
            let plans = every_cut(&mut random, passed);
            comparison.compare(&sheet, &known, &plans, format_args!("{name}, seed {seed}"));
            tried += 1;
            if tried == most {
                break;
            }
        }
    }
    shown("every budget", comparison.report).hold([0, 12, 13], 100);
}

/// One in some of the sheets on which sheet checks are compared.
fn sheet_checks(families: &[(&str, sheets::Family)]) -> Report {
    const ONE_IN: u64 = 9;
    let mut comparison = Comparison::default();
    let mut place = 0;
    for (name, family) in families {
        family(&mut |sheet, description| {
            place += 1;
            if place % ONE_IN == 0 && sheet.len() < 100_000 {
                let known = Known::new(sheet);
                let plans = plans(&mut Random::new(place), &known, 1);
                let found = format_args!("{name}: {description}");
                comparison.compare(sheet, &known, &plans, found);
            }
        });
    }
    shown("sheet checks", comparison.report)
}

#[test]
fn sheet_checks_first_half() {
    sheet_checks(&sheets::FAMILIES[..8]).hold([1, 2, 3, 5, 6, 7, 8, 17], 300);
}

#[test]
fn sheet_checks_second_half() {
    sheet_checks(&sheets::FAMILIES[8..]).hold(SHEET_CHECKS, 300);
}

// Document 01, "Sheets to try", through the call.

fn budget(work: u64, retained: u64) -> Budget {
    Budget { work, retained }
}

/// Buffers that are long enough for all cases but n.
const ENOUGH: Lengths = Lengths {
    blocks: 8,
    sets: 40,
    scratch: 400,
};

#[track_caller]
fn refused(script: &Script, given: Budget, lengths: Lengths, number: u32, after: Budget) {
    let outcome = called(&sheet(script), given, lengths);
    let expected = Answer {
        number,
        function: 7,
        blocks: 0,
        awaits: 0,
        work: after.work,
        retained: after.retained,
    };
    assert_eq!(outcome.answer, expected);
    assert_eq!(outcome.blocks, vec![Block::default(); lengths.blocks]);
    assert!(
        outcome
            .sets
            .iter()
            .chain(&outcome.scratch)
            .all(|&word| word == 0)
    );
}

/// The blocks and the words of the sets of a script that is accepted.
#[track_caller]
fn accepted(script: &Script, given: Budget, awaits: u64, after: Budget) -> (Vec<Block>, Vec<u64>) {
    let outcome = called(&sheet(script), given, ENOUGH);
    let answer = outcome.answer;
    let blocks = answer.blocks as usize;
    let expected = Answer {
        number: 0,
        function: 7,
        blocks: answer.blocks,
        awaits,
        work: after.work,
        retained: after.retained,
    };
    assert_eq!(answer, expected);
    let words = script.slots.len().div_ceil(64);
    let used = blocks * 2 * words + awaits as usize * (1 + words);
    assert!(outcome.scratch.iter().all(|&word| word == 0));
    assert!(outcome.sets[used..].iter().all(|&word| word == 0));
    assert!(
        outcome.blocks[blocks..]
            .iter()
            .all(|&block| block == Block::default())
    );
    (
        outcome.blocks[..blocks].to_vec(),
        outcome.sets[..used].to_vec(),
    )
}

const ZERO: Budget = Budget {
    work: 0,
    retained: 0,
};

fn block(start: u32, end: u32, reachable: u32, successors: &[u32]) -> Block {
    let successor = |place| successors.get(place).copied().unwrap_or(0);
    Block {
        start,
        end,
        reachable,
        successor_count: successors.len() as u32,
        successor_0: successor(0),
        successor_1: successor(1),
    }
}

#[test]
fn cases_that_the_sheet_checks_refuse() {
    let given = budget(3, 4);
    refused(&case_a(), given, ENOUGH, 6, given);
    refused(&case_j(), given, ENOUGH, 9, given);
    refused(&case_k(2), given, ENOUGH, 8, given);
    refused(&case_l(), given, ENOUGH, 7, given);
    let (blocks, _) = accepted(&case_k(1), ZERO, 0, budget(30, 0));
    assert_eq!(blocks, [block(0, 1, 1, &[1]), block(1, 2, 1, &[])]);
}

#[test]
fn cases_b_to_d() {
    let (blocks, sets) = accepted(&case_b(), ZERO, 0, budget(14, 0));
    assert_eq!((blocks, sets), (vec![block(0, 1, 1, &[])], vec![]));
    let (blocks, sets) = accepted(&case_c(), ZERO, 0, budget(27, 0));
    assert_eq!((blocks, sets), (vec![block(0, 2, 1, &[])], vec![1, 0]));
    let (blocks, sets) = accepted(&case_d(), ZERO, 1, budget(32, 32));
    assert_eq!(blocks, [block(0, 2, 1, &[])]);
    assert_eq!(sets, [0b11, 0b01, 0, 0b01]);
    assert_eq!(sheet(&case_d()), CASE_D_SHEET);
}

#[test]
fn cases_e_to_g() {
    refused(&case_e(), ZERO, ENOUGH, 13, budget(21, 0));
    let (_, sets) = accepted(&case_f(), ZERO, 1, budget(31, 32));
    assert_eq!(sets, [1, 1, 0, 1]);
    refused(&case_g(), ZERO, ENOUGH, 14, budget(32, 0));
}

#[test]
fn cases_h_and_i() {
    refused(&case_h(), ZERO, ENOUGH, 13, budget(111, 0));
    let (blocks, _) = accepted(&case_h_filled(), ZERO, 0, budget(112, 0));
    let expected = [
        block(0, 1, 1, &[1, 2]),
        block(1, 3, 1, &[3]),
        block(3, 4, 1, &[3]),
        block(4, 5, 1, &[]),
    ];
    assert_eq!(blocks, expected);
    let (blocks, sets) = accepted(&case_i(), ZERO, 0, budget(28, 0));
    assert_eq!(blocks, [block(0, 1, 1, &[]), block(1, 2, 0, &[])]);
    assert_eq!(sets, [0, 0, u64::MAX, 0]);
}

#[test]
fn cases_m_and_o() {
    accepted(&case_b(), budget(99_999_986, 0), 0, budget(MOST_WORK, 0));
    let one_more = budget(99_999_987, 0);
    refused(&case_b(), one_more, ENOUGH, 12, budget(MOST_WORK + 1, 0));
    let last = budget(0, 67_108_832);
    accepted(&case_d(), last, 1, budget(32, MOST_BYTES));
    let one_more = budget(0, 67_108_833);
    refused(&case_d(), one_more, ENOUGH, 15, budget(32, MOST_BYTES + 1));
}

#[test]
fn case_n_at_the_state_limit() {
    let above = case_n(2_032);
    let early = Lengths {
        scratch: 4 * 2_032,
        ..Lengths::default()
    };
    refused(&above, ZERO, early, 11, budget(2_032, 0));

    let below = sheet(&case_n(2_031));
    let known = Known::new(&below);
    let plan = Plan::plain();
    let outcome = called(&below, ZERO, plan.lengths(&known));
    let answer = outcome.answer;
    assert_eq!((answer.number, answer.blocks), (0, 2_031));
    assert_eq!((answer.work, answer.retained), (16_670_428, 0));
    assert!(outcome.sets.iter().all(|&word| word == 0));
}

// Readings of open points, through the call.

/// A budget above its limit on entry; sums that saturate.
#[test]
fn budgets_above_their_limits() {
    let work = |work| budget(work, 0);
    refused(&case_b(), work(MOST_WORK), ENOUGH, 12, work(MOST_WORK + 1));
    for above in [MOST_WORK + 1, u64::MAX] {
        refused(&case_b(), work(above), ENOUGH, 12, work(above));
    }
    let most = budget(0, u64::MAX);
    accepted(&case_b(), most, 0, budget(14, u64::MAX));
    refused(&case_d(), most, ENOUGH, 15, budget(32, u64::MAX));
}

/// A charge comes before the read check and before 14.
#[test]
fn work_before_faults() {
    let left = |work| budget(MOST_WORK - work, 0);
    let over = budget(MOST_WORK + 1, 0);
    refused(&case_e(), left(20), ENOUGH, 12, over);
    refused(&case_e(), left(21), ENOUGH, 13, left(0));
    refused(&case_g(), left(31), ENOUGH, 12, over);
    refused(&case_g(), left(32), ENOUGH, 14, left(0));
}

/// A block of lower start decides first; in one block 13 before its awaits, and these
/// from the back.
#[test]
fn order_of_faults() {
    let number = |script: &Script, retained| {
        let outcome = called(&sheet(script), budget(0, retained), ENOUGH);
        outcome.answer.number
    };
    let code = [await_value(1, 0), jump(2), return_value(2)];
    let apart = script([host(), plain(), plain()], [0, 1], code);
    assert_eq!(number(&apart, 0), 14);
    let code = [await_value(1, 0), return_value(2)];
    let together = script([host(), plain(), plain()], [0, 1], code);
    assert_eq!(number(&together, 0), 13);

    let awaits = |first, second| {
        let code = [first, second, return_absent()];
        script([host(), plain()], [0, 1], code)
    };
    let plain_last = awaits(await_value(0, 0), await_value(1, 1));
    assert_eq!(number(&plain_last, MOST_BYTES), 15);
    let host_last = awaits(await_value(1, 1), await_value(0, 0));
    assert_eq!(number(&host_last, MOST_BYTES), 14);
}

/// Host slots by each kind of type.
#[test]
fn host_slots() {
    let number = |physical, ty| {
        let slot = SlotType { physical, ty };
        let code = [await_value(0, 0), return_absent()];
        let outcome = called(&sheet(&script([slot], [0], code)), ZERO, ENOUGH);
        outcome.answer.number
    };
    let tuple = Type::Tuple;
    let deep = |inner| (0..15).fold(tuple(vec![inner]), |ty, _| tuple(vec![Type::Other, ty]));
    for harmless in [Type::Absent, Type::Other, tuple(vec![]), deep(Type::Other)] {
        assert_eq!(number(10, harmless.clone()), 14);
        assert_eq!(number(9, harmless), 0);
    }
    for handle in [
        Type::Host,
        Type::Reference,
        tuple(vec![Type::Other, Type::Reference]),
        deep(Type::Host),
        deep(Type::Reference),
    ] {
        assert_eq!(number(3, handle), 14);
    }
}

/// Slices that are empty in Rust have pointers that are not null.
#[test]
fn empty_buffers() {
    let sheet = sheet(&case_b());
    let answer = verify(&sheet, ZERO, &mut [], &mut [], &mut []);
    assert_eq!((answer.number, answer.work), (10, 0));
    let answer = verify(&sheet, ZERO, &mut [], &mut [], &mut [1; 20]);
    assert_eq!((answer.number, answer.work), (10, 1));
    // Case b has no sets.
    let answer = verify(&sheet, ZERO, &mut [Block::default()], &mut [], &mut [1; 20]);
    assert_eq!((answer.number, answer.work), (0, 14));
    let answer = verify(&[], ZERO, &mut [], &mut [], &mut []);
    assert_eq!((answer.number, answer.function), (1, 0));
}

/// The most blocks of each width that the state limit allows, and one more.
#[test]
fn widths_at_the_state_limit() {
    assert_eq!(most_blocks(1_024), 2_031);
    for words in TIGHT_WIDTHS {
        let blocks = most_blocks(words);
        let with_blocks = |blocks| Script {
            slots: vec![plain(); 64 * words as usize],
            ..case_n(blocks)
        };
        let early = Lengths {
            scratch: 4 * (blocks as usize + 1),
            ..Lengths::default()
        };
        let (at, above) = (with_blocks(blocks), with_blocks(blocks + 1));
        refused(&at, ZERO, early, 10, budget(blocks.into(), 0));
        refused(&above, ZERO, early, 11, budget(u64::from(blocks) + 1, 0));
    }
}
