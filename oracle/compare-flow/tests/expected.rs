//! What the comparison expects, held to document 01 and to the source: the two tens, the
//! rooms, and the budget at each; what limits that are lowered do, and what slots that are
//! added to the parameters do. Nothing here calls the port.

use compare::random::Random;
use compare::scripts;
use compare_flow::added::{Added, Stray, Which};
use compare_flow::expected::*;
use compare_flow::generate::family;
use compare_flow::limits::Limits;
use compare_flow::sets;
use kagari_oracle::cases::*;
use kagari_oracle::{Budget, Instruction, Script, function, sheet, verify, verify_function};

fn budget(work: u64, retained: u64) -> Budget {
    Budget { work, retained }
}

fn lengths(blocks: usize, sets: usize, scratch: usize) -> Lengths {
    Lengths {
        blocks,
        sets,
        scratch,
    }
}

fn needs(script: &Script) -> Lengths {
    let known = Known::new(&sheet(script));
    known.read.expect("it passes the sheet checks").needs
}

/// The number and the budget of the answer; after a refusal the rest is zero.
fn outcome(script: &Script, given: Budget, lengths: Lengths) -> (u32, u64, u64) {
    let outcome = expected(&sheet(script), given, lengths);
    let answer = outcome.answer;
    assert_eq!(outcome.blocks.len(), lengths.blocks);
    assert_eq!(outcome.sets.len(), lengths.sets);
    assert_eq!(outcome.scratch, vec![0; lengths.scratch]);
    assert_eq!(answer.function, script.id);
    if answer.number != 0 {
        assert_eq!((answer.blocks, answer.awaits), (0, 0));
        assert!(
            outcome
                .blocks
                .iter()
                .all(|&block| block == Default::default())
        );
        assert!(outcome.sets.iter().all(|&word| word == 0));
    }
    (answer.number, answer.work, answer.retained)
}

/// Scratch 4 × N + B × (4 × w + 16) + 4 × w, B records, sets B × 2 × w + A × (1 + w).
#[test]
fn rooms() {
    assert_eq!(needs(&case_b()), lengths(1, 0, 4 + 16));
    assert_eq!(needs(&case_d()), lengths(1, 2 + 2, 8 + 20 + 4));
    assert_eq!(needs(&case_h()), lengths(4, 8, 20 + 4 * 20 + 4));
    assert_eq!(needs(&case_n(2_031)).sets, 2_031 * 2 * 1_024);
    // An await that nothing reaches counts too.
    let mut unreached = case_d();
    unreached.code.insert(0, return_absent());
    assert_eq!(needs(&unreached), lengths(2, 4 + 2, 12 + 2 * 20 + 4));
}

/// Below 4 × N words of scratch the budget is as given, and no limit is looked at.
#[test]
fn early_ten() {
    let given = budget(u64::MAX, u64::MAX);
    let short = lengths(9, 9, 7);
    assert_eq!(outcome(&case_d(), given, short), (10, u64::MAX, u64::MAX));
    let enough = lengths(9, 9, 8);
    assert_eq!(outcome(&case_d(), given, enough), (12, u64::MAX, u64::MAX));
}

/// The later 10 has the work raised by N, and 12 comes before it.
#[test]
fn later_ten() {
    let needs = needs(&case_d());
    let short = [
        lengths(0, needs.sets, needs.scratch),
        lengths(1, needs.sets - 1, needs.scratch),
        lengths(1, needs.sets, needs.scratch - 1),
        lengths(1, needs.sets, 8),
    ];
    for lengths in short {
        let run = |work| outcome(&case_d(), budget(work, 5), lengths);
        assert_eq!(run(0), (10, 2, 5));
        assert_eq!(run(MOST_WORK - 2), (10, MOST_WORK, 5));
        assert_eq!(run(MOST_WORK - 1), (12, MOST_WORK + 1, 5));
        assert_eq!(run(MOST_WORK), (12, MOST_WORK + 1, 5));
        assert_eq!(run(MOST_WORK + 1), (12, MOST_WORK + 1, 5));
        assert_eq!(run(u64::MAX), (12, u64::MAX, 5));
    }
    assert_eq!(outcome(&case_d(), budget(0, 0), needs), (0, 32, 32));
    // It comes before 13 and 14 too.
    assert_eq!(outcome(&case_e(), budget(0, 0), lengths(0, 9, 99)).0, 10);
    assert_eq!(outcome(&case_g(), budget(0, 0), lengths(0, 9, 99)).0, 10);
}

/// 11 comes between the two tens, and after the charges of the first loop.
#[test]
fn state_limit_between_the_tens() {
    let above = case_n(2_032);
    let run = |work, scratch| outcome(&above, budget(work, 0), lengths(0, 0, scratch));
    assert_eq!(run(0, 4 * 2_032 - 1), (10, 0, 0));
    assert_eq!(run(0, 4 * 2_032), (11, 2_032, 0));
    assert_eq!(run(MOST_WORK - 2_032, 4 * 2_032), (11, MOST_WORK, 0));
    assert_eq!(run(MOST_WORK - 2_031, 4 * 2_032), (12, MOST_WORK + 1, 0));
    let below = case_n(2_031);
    let short = lengths(0, 0, 4 * 2_031);
    assert_eq!(outcome(&below, budget(0, 0), short), (10, 2_031, 0));
}

/// Readings 8 and 9: rows of unreachable blocks, and awaits that nothing reaches.
#[test]
fn unreachable() {
    let script = case_i();
    let needs = needs(&script);
    let outcome = expected(&sheet(&script), budget(0, 0), needs);
    assert_eq!(outcome.sets, [0, 0, u64::MAX, 0]);

    let with_awaits = |awaits: usize| {
        let mut script = script.clone();
        let unreached = vec![await_value(0, 0); awaits];
        script.code.splice(1..1, unreached);
        script
    };
    // What the program `flowlist` lends.
    let flowlist = lengths(256, 1_024, 4_096);
    let run = |awaits| expected(&sheet(&with_awaits(awaits)), budget(0, 0), flowlist).answer;
    assert_eq!((run(510).number, run(510).awaits), (0, 0));
    assert_eq!((run(511).number, run(511).work), (10, 513));
}

/// The budget of the later 10 is the source's own: with so many slots that the source
/// stops at its state check, it answers 11 with what was charged by then.
#[test]
fn the_charges_before_the_state_check_are_the_sources() {
    // 48 × w + 264 bytes for a single block are then above the limit.
    const SLOTS: usize = 64 * 1_398_097;
    let mut slots = function(&script([plain()], [], [return_absent()]))
        .metadata
        .slots;
    slots.resize(SLOTS, slots[0]);
    let structured = family("structured");
    for seed in 0..2_000 {
        let mut random = Random::new(seed);
        let script = if seed % 2 == 0 {
            scripts::script(&mut random)
        } else {
            let read = compare::reader::read(&(structured.draw)(&mut random));
            read.expect("it passes").script
        };
        let count = script.code.len();
        let mut tall = function(&script);
        tall.metadata.slots = slots;
        let edge = MOST_WORK - count as u64;
        for work in [
            0,
            edge - 1,
            edge,
            edge + 1,
            MOST_WORK,
            MOST_WORK + 1,
            u64::MAX,
        ] {
            let given = budget(work, seed);
            let answer = verify_function(&tall, given);
            let charged = at_state_check(given, count, MOST_WORK);
            let number = if charged.is_some() { 11 } else { 12 };
            assert_eq!(answer.result, Err(number), "seed {seed}, work {work}");
            if let Some(charged) = charged {
                assert_eq!(answer.budget, charged, "seed {seed}, work {work}");
            }
        }
        slots = tall.metadata.slots;
    }
}

/// The count of blocks from document 01's leaders is the source's.
#[test]
fn as_many_blocks_as_leaders() {
    let mut accepted = 0;
    for name in ["small", "structured", "graphs", "awaits", "wide"] {
        let family = family(name);
        for seed in 0..2_000 {
            let sheet = (family.draw)(&mut Random::new(seed));
            let known = Known::new(&sheet);
            let passed = known.read.as_ref().expect("it passes");
            if let Ok(facts) = passed.source(budget(0, 0)).result {
                assert_eq!(facts.blocks.len(), passed.needs.blocks, "{name}, {seed}");
                accepted += 1;
            }
        }
    }
    assert!(accepted >= 5_000, "{accepted} were accepted");
}

/// `Jump` alone has one target, and equal targets give two edges.
#[test]
fn block_records() {
    let mut script = case_h_filled();
    script.code[0] = branch(0, 1, 1);
    script.code[2] = Instruction::new(12, [0, 1, 4, 3]);
    let outcome = expected(&sheet(&script), budget(0, 0), lengths(6, 20, 200));
    let successors: Vec<[u32; 4]> = outcome
        .blocks
        .iter()
        .map(|block| {
            [
                block.start,
                block.successor_count,
                block.successor_0,
                block.successor_1,
            ]
        })
        .collect();
    assert_eq!(outcome.answer.number, 0);
    let expected = [
        [0, 2, 1, 1],
        [1, 2, 3, 2],
        [3, 1, 3, 0],
        [4, 0, 0, 0],
        [0; 4],
        [0; 4],
    ];
    assert_eq!(successors, expected);
}

// Within limits.

fn passed(sheet: &[u8]) -> Passed {
    Known::new(sheet).read.expect("it passes the sheet checks")
}

/// The number and the budget of the answer within limits, with enough room.
fn outcome_within(script: &Script, given: Budget, limits: Limits) -> (u32, u64, u64) {
    let known = Known::new(&sheet(script));
    let outcome = known.expected_within(given, limits, lengths(8, 40, 400));
    let answer = outcome.answer;
    assert_eq!(answer.function, script.id);
    (answer.number, answer.work, answer.retained)
}

fn work_limit(work: u64) -> Limits {
    Limits {
        work,
        ..Limits::TODAYS
    }
}

fn state_limit(state: u64) -> Limits {
    Limits {
        state,
        ..Limits::TODAYS
    }
}

fn facts_limit(facts: u64) -> Limits {
    Limits {
        facts,
        ..Limits::TODAYS
    }
}

/// With today's limits, and with higher ones, it is what a call without limits must leave.
#[test]
fn todays_limits_and_higher_ones() {
    let higher = Limits {
        work: MOST_WORK + 1,
        state: MOST_BYTES + 1,
        facts: MOST_BYTES + 1,
    };
    let highest = Limits {
        work: u64::MAX,
        state: u64::MAX,
        facts: u64::MAX,
    };
    let mut numbers = [0; 18];
    for (name, count) in [
        ("small", 500),
        ("structured", 500),
        ("graphs", 300),
        ("awaits", 500),
        ("wide", 100),
        ("any", 300),
        ("damaged", 300),
        ("state limit", 20),
    ] {
        let family = family(name);
        for seed in 0..count {
            let mut random = Random::new(seed);
            let known = Known::new(&(family.draw)(&mut random));
            for plan in (family.plans)(&mut random, &known) {
                let lengths = plan.lengths(&known);
                let limits = random.pick(&[Limits::TODAYS, higher, highest]);
                let within = known.expected_within(plan.budget, limits, lengths);
                assert!(within == known.expected(plan.budget, lengths), "{name}");
                numbers[within.answer.number as usize] += 1;
            }
        }
    }
    let came_up = [0, 10, 11, 12, 13, 14, 15].map(|number| numbers[number] >= 10);
    assert_eq!(came_up, [true; 7], "{numbers:?}");
}

/// The sums of cases b and d, written down from the source: the index; the first loop; the
/// blocks' uses; in the solver the postorder and both directions; the points.
#[test]
fn sums_of_work() {
    let of_b = [0, 1, 2, 5, 6, 8, 9, 11, 12, 13, 14];
    let of_d = [0, 1, 2, 4, 6, 9, 10, 12, 16, 18, 22, 24, 26, 28, 30, 32];
    for (script, sums, retained) in [(case_b(), &of_b[..], 0), (case_d(), &of_d[..], 32)] {
        assert_eq!(passed(&sheet(&script)).sums(), sums);
        for limit in 0..=40 {
            let due = match sums.iter().find(|&&sum| sum > limit) {
                Some(&sum) => (12, sum, 0),
                None => (0, sums[sums.len() - 1], retained),
            };
            let run = |given| outcome_within(&script, budget(given, 0), work_limit(given + limit));
            for given in [0, 1, 1_000, MOST_WORK - 40] {
                let due = (due.0, given + due.1, due.2);
                assert_eq!(run(given), due, "limit {limit} from {given}");
            }
        }
    }
}

/// A limit at a sum of the run lets that charge pass; one below refuses with that sum.
#[test]
fn a_work_limit_at_each_sum() {
    for (name, count) in [("small", 60), ("structured", 40), ("awaits", 40)] {
        for seed in 0..count {
            let sheet = (family(name).draw)(&mut Random::new(seed));
            let passed = passed(&sheet);
            let run = |limit| passed.source_within(budget(0, 0), work_limit(limit));
            let whole = passed.source(budget(0, 0));
            let sums = passed.sums();
            assert_eq!(sums.last(), Some(&whole.budget.work));
            for pair in sums.windows(2) {
                for limit in [pair[0], pair[1] - 1] {
                    let answer = run(limit);
                    assert_eq!(answer.result, Err(WORK_LIMIT));
                    assert_eq!(answer.budget.work, pair[1]);
                }
            }
            for limit in [whole.budget.work, whole.budget.work + 1] {
                assert_eq!(run(limit), whole);
            }
        }
    }
}

/// The same for the bytes that awaits retain: they come at once, as much for each.
#[test]
fn a_facts_limit_at_each_sum() {
    let mut refused = 0;
    for seed in 0..300 {
        let sheet = (family("awaits").draw)(&mut Random::new(seed));
        let passed = passed(&sheet);
        let whole = passed.source(budget(0, 0));
        let run = |limit| passed.source_within(budget(0, 0), facts_limit(limit));
        for awaits in 1..=whole.budget.retained / passed.fact() {
            let sum = awaits * passed.fact();
            for limit in [sum - passed.fact(), sum - 1] {
                let answer = run(limit);
                assert_eq!(answer.result, Err(FACTS_LIMIT));
                assert_eq!(answer.budget.retained, sum);
                assert!(answer.budget.work <= whole.budget.work);
                refused += 1;
            }
        }
        for limit in [whole.budget.retained, whole.budget.retained + 1] {
            assert_eq!(run(limit), whole);
        }
    }
    assert!(refused >= 500, "{refused}");
}

/// Case d takes 1 × (32 + 264) + 16 bytes of state. 11 stands between the two tens.
#[test]
fn a_state_limit() {
    let run = |state| outcome_within(&case_d(), budget(5, 3), state_limit(state));
    assert_eq!(run(312), (0, 37, 35));
    for below in [0, 1, 311] {
        assert_eq!(run(below), (11, 7, 3));
    }
    assert_eq!(passed(&sheet(&case_n(2_031))).state(), 67_104_376);
    assert_eq!(passed(&sheet(&case_n(2_032))).state(), 67_137_408);

    let known = Known::new(&sheet(&case_d()));
    let number = |work, state, lengths| {
        let limits = Limits {
            state,
            ..work_limit(work)
        };
        let answer = known.expected_within(budget(5, 3), limits, lengths).answer;
        (answer.number, answer.work)
    };
    let (early, late) = (lengths(1, 4, 7), lengths(1, 4, 31));
    assert_eq!(number(0, 0, early), (10, 5));
    assert_eq!(number(4, 0, late), (12, 5));
    assert_eq!(number(6, 0, late), (12, 7));
    assert_eq!(number(7, 311, late), (11, 7));
    assert_eq!(number(7, 312, late), (10, 7));
}

/// Numbers above their limits on entry, up to where sums stop.
#[test]
fn budgets_above_lower_limits() {
    for above in [15, 16, MOST_WORK, MOST_WORK + 1, u64::MAX - 1, u64::MAX] {
        let run = |script: &Script| outcome_within(script, budget(above, 3), work_limit(14));
        assert_eq!(run(&case_b()), (12, above, 3));
        assert_eq!(run(&case_d()), (12, above, 3));
    }
    for above in [15, MOST_BYTES, MOST_BYTES + 1, u64::MAX - 32, u64::MAX] {
        let run = |script: &Script| outcome_within(script, budget(0, above), facts_limit(14));
        assert_eq!(run(&case_b()), (0, 14, above));
        assert_eq!(run(&case_d()), (15, 32, above.saturating_add(32)));
        assert_eq!(run(&case_g()), (14, 32, above));
    }
}

// With added slots.

/// The number and the work of the answer with a set, from work 5 and retained 3.
fn outcome_with(script: &Script, added: &[u64], limits: Limits, lengths: Lengths) -> (u32, u64) {
    let known = Known::new(&sheet(script));
    let answer = known
        .expected_with(added, budget(5, 3), limits, lengths)
        .answer;
    assert_eq!((answer.function, answer.retained), (script.id, 3));
    (answer.number, answer.work)
}

/// Too few words and too little scratch are 10, then a bit at or above the slot count is 7,
/// both with the budget as given; then the charges begin.
#[test]
fn between_the_tens() {
    let run = |added: &[u64], work, scratch| {
        outcome_with(&case_d(), added, work_limit(work), lengths(0, 0, scratch))
    };
    for (added, number) in [(&[][..], 10), (&[0b100], 7), (&[1 << 63], 7)] {
        for work in [0, 4, MOST_WORK] {
            assert_eq!(run(added, work, 8), (number, 5));
            assert_eq!(run(added, work, 7), (10, 5));
        }
    }
    for added in [&[0][..], &[0b10], &[0b11, 0], &[0, u64::MAX]] {
        assert_eq!(run(added, 4, 7), (10, 5));
        assert_eq!(run(added, 4, 8), (12, 5));
        assert_eq!(run(added, 6, 8), (12, 7));
        assert_eq!(run(added, 7, 8), (10, 7));
    }
    // The sheet checks come before all, and a set of no slots has no words.
    for added in [&[][..], &[u64::MAX]] {
        assert_eq!(
            outcome_with(&case_j(), added, Limits::TODAYS, lengths(0, 0, 0)),
            (9, 5)
        );
        assert_eq!(
            outcome_with(&case_b(), added, Limits::TODAYS, lengths(1, 0, 20)),
            (0, 19)
        );
    }
}

/// The Rust takes the parameters as a list: neither its order nor its repeats change what it
/// answers or charges. So it does not matter in which list it is handed a set.
#[test]
fn a_list_is_never_charged() {
    for name in ["small", "structured", "graphs", "awaits"] {
        for seed in 0..500 {
            let mut random = Random::new(seed);
            let sheet = (family(name).draw)(&mut random);
            let passed = passed(&sheet);
            let script = compare::reader::read(&sheet).expect("it passes").script;
            let count = script.slots.len();
            let added = sets::set(count, (0..count).filter(|_| random.once_in(3)));
            let both = passed.with(&added);
            let expected = both.source(budget(0, 0));

            // The own ones, then the added ones, some of them twice; and the other way round.
            let added = sets::slots(&added).map(|slot| slot as u32);
            let mut parameters: Vec<u32> = script.parameters.iter().copied().chain(added).collect();
            for _ in 0..2 {
                let named = Script {
                    parameters: parameters.clone(),
                    ..script.clone()
                };
                assert_eq!(verify(&named, budget(0, 0)), expected, "{name}, {seed}");
                parameters.reverse();
            }
            let union = parameters.iter().map(|&slot| slot as usize);
            assert_eq!(both.parameters, sets::set(count, union));
        }
    }
}

/// Bits that are no slots, and words behind, are left out.
#[test]
fn the_parameters_of_both() {
    let d = passed(&sheet(&case_d()));
    assert_eq!(d.parameters, [0b01]);
    for (added, both) in [(&[][..], 0b01), (&[0b10], 0b11), (&[u64::MAX; 3], 0b11)] {
        assert_eq!(d.with(added).parameters, [both]);
    }
    assert_eq!(passed(&sheet(&case_b())).with(&[u64::MAX]).parameters, []);
}

/// With no slot added, or only with such as are parameters, it is what a call within limits
/// must leave.
#[test]
fn no_slot_added() {
    for (name, count) in [
        ("small", 300),
        ("awaits", 300),
        ("wide", 50),
        ("damaged", 300),
    ] {
        let family = family(name);
        for seed in 0..count {
            let mut random = Random::new(seed);
            let known = Known::new(&(family.draw)(&mut random));
            let own = match &known.read {
                Ok(passed) => passed.parameters.clone(),
                Err(_) => vec![],
            };
            for plan in (family.plans)(&mut random, &known) {
                let lengths = plan.lengths(&known);
                let limits = random.pick(&[Limits::TODAYS, work_limit(99), facts_limit(0)]);
                let within = known.expected_within(plan.budget, limits, lengths);
                for added in [vec![0; own.len()], own.clone()] {
                    let with = known.expected_with(&added, plan.budget, limits, lengths);
                    assert!(with == within, "{name}, {seed}");
                }
            }
        }
    }
}

/// The slots that a script lacks, by hand, and by the Rust: with them there is no 13, and
/// without any of them there is.
#[test]
fn missing_slots() {
    let missing = |script: &Script| passed(&sheet(script)).missing();
    assert_eq!(missing(&case_b()), []);
    assert_eq!(missing(&case_d()), [0]);
    assert_eq!(missing(&case_e()), [0b1]);
    assert_eq!(missing(&case_h()), [0b10]);
    // What nothing reaches is not missed.
    assert_eq!(missing(&case_i()), [0]);

    let mut unfilled = 0;
    for name in ["small", "structured", "graphs"] {
        for seed in 0..500 {
            let sheet = (family(name).draw)(&mut Random::new(seed));
            let mut script = compare::reader::read(&sheet).expect("it passes").script;
            script.slots.fill(plain());
            script.parameters.clear();
            let passed = passed(&kagari_oracle::sheet(&script));
            let missing = passed.missing();
            let run = |added: &[u64]| passed.with(added).source(budget(0, 0)).result;
            assert!(run(&missing).is_ok(), "{name}, {seed}");
            for slot in sets::slots(&missing) {
                let mut but_one = missing.clone();
                but_one[slot / 64] ^= 1 << (slot % 64);
                assert_eq!(run(&but_one), Err(13), "{name}, {seed}");
                unfilled += 1;
            }
        }
    }
    assert!(unfilled > 1_000, "{unfilled}");
}

/// The words of a set as a plan tells it.
#[test]
fn sets_of_a_plan() {
    let script = Script {
        slots: vec![plain(); 70],
        ..case_h()
    };
    let known = Known::new(&sheet(&script));
    let words = |which, stray, more| {
        let added = Added {
            which,
            stray,
            more,
            seed: 1,
        };
        added.words(&known)
    };
    let plain = |which| words(which, Stray::None, 0);
    assert_eq!(plain(Which::None), [0, 0]);
    assert_eq!(plain(Which::All), [u64::MAX, (1 << 6) - 1]);
    assert_eq!(plain(Which::Missing), [0b10, 0]);
    assert_eq!(plain(Which::MissingButOne), [0, 0]);
    assert_eq!(plain(Which::OnceIn(1)), plain(Which::All));
    assert_eq!(words(Which::None, Stray::First, 0), [0, 1 << 6]);
    assert_eq!(words(Which::None, Stray::Last, 0), [0, 1 << 63]);
    assert_eq!(words(Which::All, Stray::Last, -1), [u64::MAX]);
    assert_eq!(words(Which::All, Stray::None, -9), []);
    assert_eq!(words(Which::None, Stray::None, 3)[..2], [0, 0]);
    assert_eq!(words(Which::None, Stray::None, 3).len(), 5);
}
