//! The flow check of the port within limits: against what the Rust's own runs say of them,
//! against the call without limits, and against itself within other limits. Each call has
//! garbage in its buffers, canaries beside them, and its limits compared with those that
//! come back.

use compare::random::Random;
use compare_flow::Comparison;
use compare_flow::expected::{
    FACTS_LIMIT, Known, Lengths, MOST_BYTES, MOST_WORK, Outcome, STATE_LIMIT, WORK_LIMIT,
};
use compare_flow::flow_c::{Block, verify_within};
use compare_flow::generate::{FAMILIES, Family, family};
use compare_flow::lent::{called, called_within};
use compare_flow::limits::Limits;
use compare_flow::plan::{Length, Plan};
use compare_flow::report::Report;
use kagari_oracle::cases::*;
use kagari_oracle::{Budget, Script, sheet};

const SEED: u64 = 20_261_119;

const TODAYS: Limits = Limits::TODAYS;

const HIGHER: Limits = Limits {
    work: MOST_WORK + 1,
    state: MOST_BYTES + 1,
    facts: MOST_BYTES + 1,
};

const HIGHEST: Limits = Limits {
    work: u64::MAX,
    state: u64::MAX,
    facts: u64::MAX,
};

const NONE: Limits = Limits {
    work: 0,
    state: 0,
    facts: 0,
};

const ZERO: Budget = Budget {
    work: 0,
    retained: 0,
};

fn budget(work: u64, retained: u64) -> Budget {
    Budget { work, retained }
}

fn work(work: u64) -> Limits {
    Limits { work, ..TODAYS }
}

fn state(state: u64) -> Limits {
    Limits { state, ..TODAYS }
}

fn facts(facts: u64) -> Limits {
    Limits { facts, ..TODAYS }
}

/// The numbers themselves, one below each and one above.
fn around(numbers: impl IntoIterator<Item = u64>) -> Vec<u64> {
    let near = |number: u64| [-1, 0, 1].map(|more| number.saturating_add_signed(more));
    numbers.into_iter().flat_map(near).collect()
}

/// A plan with limits and buffers exactly long enough, and one with others: longer, too
/// short by one in one of them, just long enough for the early 10, or empty.
fn plans(random: &mut Random, given: Budget, limits: Limits) -> [Plan; 2] {
    let exact = Plan {
        budget: given,
        limits: Some(limits),
        garbage: random.bits(),
        ..Plan::plain()
    };
    let mut other = Plan {
        garbage: random.bits(),
        ..exact
    };
    match random.number(0..=7) {
        0 => other.blocks = Length::Needed(-1),
        1 => other.sets = Length::Needed(-1),
        2 => other.scratch = Length::Needed(-1),
        3 => other.scratch = Length::Early(0),
        4 => other.scratch = Length::Early(-1),
        5 => [other.blocks, other.sets, other.scratch] = [Length::Exactly(0); 3],
        _ => [other.blocks, other.sets, other.scratch] = [Length::Needed(7); 3],
    }
    [exact, other]
}

/// Compares calls over sheets of some families, so many sheets of each, with the budgets
/// and limits that `choose` gives for a sheet that passes the sheet checks.
fn compare(
    families: &[(&str, u64)],
    choose: impl Fn(&mut Random, &Known) -> Vec<(Budget, Limits)>,
) -> Report {
    let mut comparison = Comparison::default();
    for &(name, count) in families {
        let family = family(name);
        for seed in 0..count {
            let mut random = Random::new(SEED + seed);
            let sheet = (family.draw)(&mut random);
            let known = Known::new(&sheet);
            let plans: Vec<Plan> = choose(&mut random, &known)
                .into_iter()
                .flat_map(|(given, limits)| plans(&mut random, given, limits))
                .collect();
            let found = format_args!("{name}, seed {seed}");
            comparison.compare(&sheet, &known, &plans, found);
        }
    }
    println!("{}", comparison.report);
    comparison.report
}

// Against the Rust.

/// Every limit of work, from none to one above the run's last sum, of small sheets.
#[test]
fn every_work_limit() {
    let families = [("small", 250), ("structured", 60), ("awaits", 60)];
    let report = compare(&families, |random, known| {
        let passed = known.read.as_ref().expect("it passes");
        if passed.count > 20 {
            return vec![];
        }
        let all = passed.source(ZERO).budget.work;
        let given = random.pick(&[0, 0, 5, MOST_WORK - 30, MOST_WORK / 2]);
        let limits = (0..=all + 1).map(|limit| (budget(given, 0), work(given + limit)));
        limits.collect()
    });
    report.hold_within([10, 12], 5_000);
    report.hold_within([0, 13], 100);
    report.hold_within([14], 5);
}

/// The same without the shifted run: the sums of a run from zero say where it ends.
#[test]
fn a_work_limit_stops_at_the_first_sum_above_it() {
    let mut refused = 0;
    for (name, count) in [("small", 250), ("structured", 60), ("awaits", 60)] {
        for seed in 0..count {
            let sheet = (family(name).draw)(&mut Random::new(SEED + seed));
            let known = Known::new(&sheet);
            let passed = known.read.as_ref().expect("it passes");
            if passed.count > 20 {
                continue;
            }
            let sums = passed.sums();
            let whole = called(&sheet, ZERO, passed.needs);
            for limit in 0..=sums[sums.len() - 1] + 1 {
                let outcome = called_within(&sheet, ZERO, work(limit), passed.needs);
                match sums.iter().find(|&&sum| sum > limit) {
                    Some(&sum) => {
                        assert_eq!(outcome.answer.number, WORK_LIMIT);
                        assert_eq!(outcome.answer.work, sum);
                        refused += 1;
                    }
                    None => assert!(outcome == whole),
                }
            }
        }
    }
    assert!(refused > 5_000, "{refused}");
}

/// The state that a script takes, and one byte below and above.
#[test]
fn state_limits() {
    let families = [
        ("small", 300),
        ("structured", 300),
        ("graphs", 300),
        ("awaits", 200),
        ("wide", 200),
        ("any", 200),
        ("state limit", 6),
    ];
    let report = compare(&families, |random, known| {
        let passed = known.read.as_ref().expect("it passes");
        let others = [0, 1, random.bits() % passed.state(), MOST_BYTES, u64::MAX];
        let limits = around([passed.state()]).into_iter().chain(others);
        let given = random.pick(&[ZERO, budget(5, 3), budget(MOST_WORK - 9, 3)]);
        limits.map(|limit| (given, state(limit))).collect()
    });
    report.hold_within([0, 10, 11, 12, 13], 500);
    report.hold_within([14], 50);
}

/// The sum of each await, and one byte below and above; no bytes at all; from several
/// retained bytes on entry, also above the limit and so high that sums stop.
#[test]
fn facts_limits() {
    let families = [("awaits", 500), ("structured", 100), ("wide", 50)];
    let report = compare(&families, |random, known| {
        let passed = known.read.as_ref().expect("it passes");
        let awaits = (passed.awaits as u64).min(9);
        let each = passed.fact();
        let lower = [0, 0, 3, 1_000].map(|given| given + random.bits() % 2);
        let higher = [MOST_BYTES - each, MOST_BYTES, u64::MAX - each, u64::MAX];
        let given = random.pick(&[lower, higher].concat());
        let sums = (0..=awaits).map(|awaits| given.saturating_add(awaits * each));
        let limits = around(sums).into_iter().chain([0, MOST_BYTES, u64::MAX]);
        limits
            .map(|limit| (budget(0, given), facts(limit)))
            .collect()
    });
    report.hold_within([0, 10, 14, 15], 500);
    report.hold_within([13], 100);
}

/// A facts limit below the sum of the n-th await that is charged is met there.
#[test]
fn a_facts_limit_stops_at_the_first_sum_above_it() {
    let mut refused = 0;
    for seed in 0..300 {
        let sheet = (family("awaits").draw)(&mut Random::new(SEED + seed));
        let known = Known::new(&sheet);
        let passed = known.read.as_ref().expect("it passes");
        let whole = called(&sheet, ZERO, passed.needs);
        for awaits in 1..=whole.answer.retained / passed.fact() {
            let sum = awaits * passed.fact();
            for limit in [sum - passed.fact(), sum - 1] {
                let outcome = called_within(&sheet, ZERO, facts(limit), passed.needs);
                assert_eq!(outcome.answer.number, FACTS_LIMIT);
                assert_eq!(outcome.answer.retained, sum);
                refused += 1;
            }
        }
        let last = whole.answer.retained;
        assert!(called_within(&sheet, ZERO, facts(last), passed.needs) == whole);
    }
    assert!(refused > 500, "{refused}");
}

/// Several limits at once, each near what the run comes to.
#[test]
fn all_three_limits() {
    let families = [("awaits", 1_000), ("structured", 500), ("wide", 100)];
    let report = compare(&families, |random, known| {
        let passed = known.read.as_ref().expect("it passes");
        let Budget { work, retained } = passed.source(ZERO).budget;
        let near = |random: &mut Random, number: u64| {
            let lower = random.bits() % (number + 1);
            random.pick(&[number, number, number + 1, lower, u64::MAX])
        };
        let limits = Limits {
            work: near(random, work),
            state: near(random, passed.state()),
            facts: near(random, retained),
        };
        vec![(ZERO, limits)]
    });
    report.hold_within([0, 11, 12, 15], 100);
}

/// Work above its limit on entry: 12 with the work as given, right after the early 10.
#[test]
fn work_above_its_limit_on_entry() {
    let families = [("small", 500), ("structured", 200), ("awaits", 200)];
    let report = compare(&families, |random, _| {
        let limit = random.pick(&[0, 1, 14, MOST_WORK - 1, MOST_WORK, MOST_WORK + 1]);
        let least = limit.min(MOST_WORK) + 1;
        let given = random.pick(&[least, least + 1, MOST_WORK + 1, u64::MAX - 1, u64::MAX]);
        let given = given.max(least);
        vec![(budget(given, random.bits()), work(limit))]
    });
    report.hold_within([12], 1_000);
    report.hold_within([10], 100);
    assert_eq!(
        report.times_within(10) + report.times_within(12),
        report.calls_within()
    );

    for above in [15, MOST_WORK, MOST_WORK + 1, u64::MAX] {
        let given = budget(above, 3);
        refused(&case_d(), given, work(14), ENOUGH, WORK_LIMIT, given);
    }
}

/// Sheets that do not pass the sheet checks, within limits of any kind.
#[test]
fn refused_sheets() {
    let families = [
        ("damaged", 6_000),
        ("spoiled", 3_000),
        ("noise", 1_000),
        ("parameters", 400),
    ];
    let report = compare(&families, |random, known| {
        if known.read.is_ok() {
            return vec![];
        }
        let limit = |random: &mut Random| {
            let any = random.bits() >> random.number(0..=63);
            random.pick(&[0, 1, any, MOST_WORK, u64::MAX])
        };
        let limits = Limits {
            work: limit(random),
            state: limit(random),
            facts: limit(random),
        };
        vec![(budget(random.bits(), random.bits()), limits)]
    });
    report.hold_within((1..=9).chain([17]), 20);
    let judged: u64 = (10..=15).chain([0]).map(|n| report.times_within(n)).sum();
    assert_eq!(judged, 0);
}

// Against the call without limits, and against itself.

/// Calls a function with calls over sheets of all families: what they are made with, and
/// what the call without limits leaves.
fn each_call(
    count: impl Fn(&Family) -> u64,
    mut each: impl FnMut(&[u8], &Known, Budget, Lengths, Outcome),
) {
    for family in FAMILIES {
        for seed in 0..count(&family) {
            let mut random = Random::new(SEED ^ seed);
            let sheet = (family.draw)(&mut random);
            let known = Known::new(&sheet);
            for plan in (family.plans)(&mut random, &known) {
                let lengths = plan.lengths(&known);
                let outcome = called(&sheet, plan.budget, lengths);
                each(&sheet, &known, plan.budget, lengths, outcome);
            }
        }
    }
}

/// So many sheets of a family; of large ones few.
fn some(family: &Family) -> u64 {
    match family.name {
        "work limit" => 1,
        "large" => 3,
        "state limit" => 10,
        "long lists" | "parameters" => 50,
        _ => 800,
    }
}

/// Today's limits, and all that are nowhere lower, change nothing.
#[test]
fn todays_limits_are_none() {
    let mut random = Random::new(SEED);
    let mut calls = [0; 18];
    each_call(some, |sheet, _, given, lengths, outcome| {
        let mixed = Limits {
            work: random.pick(&[MOST_WORK, MOST_WORK + 1, u64::MAX]),
            state: random.pick(&[MOST_BYTES, MOST_BYTES + 1, MOST_WORK, u64::MAX]),
            facts: random.pick(&[MOST_BYTES, MOST_BYTES + 1, MOST_WORK, u64::MAX]),
        };
        let limits = random.pick(&[TODAYS, HIGHER, HIGHEST, mixed]);
        let within = called_within(sheet, given, limits, lengths);
        assert!(within == outcome, "{:?}", outcome.answer);
        calls[outcome.answer.number as usize] += 1;
    });
    println!("{calls:?}");
    let numbers = (0..=15).chain([17]);
    assert!(numbers.into_iter().all(|n| calls[n] > 0), "{calls:?}");
}

/// Accepted within limits, then accepted within all that are nowhere lower, with the same
/// answer, block list and sets.
#[test]
fn higher_limits_accept_the_same() {
    let mut random = Random::new(SEED);
    let mut accepted = 0;
    each_call(some, |sheet, known, given, lengths, outcome| {
        let Ok(passed) = &known.read else {
            return;
        };
        let answer = outcome.answer;
        // Mostly enough, and now and then a little less.
        let near = |random: &mut Random, number: u64| {
            let less = u64::from(random.once_in(9));
            number.saturating_sub(less)
        };
        let mut limits = Limits {
            work: near(&mut random, answer.work),
            state: near(&mut random, passed.state()),
            facts: near(&mut random, answer.retained),
        };
        let mut lower = called_within(sheet, given, limits, lengths);
        for _ in 0..3 {
            for limit in [&mut limits.work, &mut limits.state, &mut limits.facts] {
                if random.once_in(2) {
                    let more = random.bits() >> random.number(0..=63);
                    *limit = limit.saturating_add(more);
                }
            }
            let higher = called_within(sheet, given, limits, lengths);
            if lower.answer.number == 0 {
                assert!(higher == lower, "{limits:?}");
                accepted += 1;
            }
            lower = higher;
        }
    });
    println!("{accepted} accepted");
    assert!(accepted > 5_000, "{accepted}");
}

// Document 01's cases.

/// Buffers that are long enough for all cases but n.
const ENOUGH: Lengths = Lengths {
    blocks: 8,
    sets: 40,
    scratch: 400,
};

/// Holds a call to a refusal: its number and budget, and zeros in all that is lent.
#[track_caller]
fn refused(
    script: &Script,
    given: Budget,
    limits: Limits,
    lengths: Lengths,
    number: u32,
    after: Budget,
) {
    let outcome = called_within(&sheet(script), given, limits, lengths);
    let answer = outcome.answer;
    assert_eq!((answer.number, answer.function), (number, 7));
    assert_eq!((answer.blocks, answer.awaits), (0, 0));
    assert_eq!(budget(answer.work, answer.retained), after);
    assert!(outcome.blocks == vec![Block::default(); lengths.blocks]);
    assert!(outcome.sets == vec![0; lengths.sets]);
    assert!(outcome.scratch == vec![0; lengths.scratch]);
}

/// Holds a call to what the call without limits leaves, an acceptance.
#[track_caller]
fn accepted(script: &Script, given: Budget, limits: Limits, lengths: Lengths) {
    let outcome = called_within(&sheet(script), given, limits, lengths);
    assert_eq!(outcome.answer.number, 0);
    assert!(outcome == called(&sheet(script), given, lengths));
}

/// Case d takes work 32, state 312 and retained 32.
#[test]
fn case_d_at_its_figures() {
    let least = Limits {
        work: 32,
        state: 312,
        facts: 32,
    };
    let d = case_d();
    accepted(&d, ZERO, least, ENOUGH);
    for (work, after) in [(31, 32), (15, 16), (1, 2), (0, 1)] {
        let limits = Limits { work, ..least };
        refused(&d, ZERO, limits, ENOUGH, WORK_LIMIT, budget(after, 0));
    }
    for state in [311, 1, 0] {
        let limits = Limits { state, ..least };
        refused(&d, ZERO, limits, ENOUGH, STATE_LIMIT, budget(2, 0));
    }
    for facts in [31, 1, 0] {
        let limits = Limits { facts, ..least };
        refused(&d, ZERO, limits, ENOUGH, FACTS_LIMIT, budget(32, 32));
    }
    refused(&d, ZERO, NONE, ENOUGH, WORK_LIMIT, budget(1, 0));
}

/// State and facts have limits of their own, though today's figures are equal.
#[test]
fn state_and_facts_are_told_apart() {
    let at = |state, facts| Limits {
        state,
        facts,
        ..TODAYS
    };
    let (b, d) = (case_b(), case_d());
    accepted(&d, ZERO, at(312, 32), ENOUGH);
    refused(&d, ZERO, at(32, 312), ENOUGH, STATE_LIMIT, budget(2, 0));
    accepted(&b, ZERO, at(264, 0), ENOUGH);
    refused(&b, ZERO, at(263, 264), ENOUGH, STATE_LIMIT, budget(1, 0));
}

/// Cases m, o and n: limits above today's count as today's.
#[test]
fn higher_limits_count_as_todays() {
    let (b, d, n) = (case_b(), case_d(), case_n(2_032));
    let early = Lengths {
        scratch: 4 * 2_032,
        ..Lengths::default()
    };
    for limits in [TODAYS, HIGHER, HIGHEST] {
        let (last, over) = (budget(99_999_986, 0), budget(99_999_987, 0));
        let after = budget(MOST_WORK + 1, 0);
        accepted(&b, last, limits, ENOUGH);
        refused(&b, over, limits, ENOUGH, WORK_LIMIT, after);
        let (last, over) = (budget(0, 67_108_832), budget(0, 67_108_833));
        let after = budget(32, MOST_BYTES + 1);
        accepted(&d, last, limits, ENOUGH);
        refused(&d, over, limits, ENOUGH, FACTS_LIMIT, after);
        let after = budget(2_032, 0);
        refused(&n, ZERO, limits, early, STATE_LIMIT, after);
    }
}

/// Case n with 2,031 blocks takes 67,104,376 bytes of state.
#[test]
fn case_n_at_its_state() {
    let early = Lengths {
        scratch: 4 * 2_031,
        ..Lengths::default()
    };
    let after = budget(2_031, 0);
    let n = case_n(2_031);
    refused(&n, ZERO, state(67_104_375), early, STATE_LIMIT, after);
    refused(&n, ZERO, state(67_104_376), early, 10, after);
}

/// Retained bytes above their limit on entry are no refusal by themselves.
#[test]
fn retained_above_its_limit_on_entry() {
    for above in [1, MOST_BYTES, MOST_BYTES + 1, u64::MAX - 1, u64::MAX] {
        let given = budget(0, above);
        accepted(&case_b(), given, facts(0), ENOUGH);
        refused(&case_e(), given, facts(0), ENOUGH, 13, budget(21, above));
        refused(&case_g(), given, facts(0), ENOUGH, 14, budget(32, above));
        let after = budget(32, above.saturating_add(32));
        refused(&case_d(), given, facts(0), ENOUGH, FACTS_LIMIT, after);
    }
}

/// 12 in the first charges, then 11, then the later 10; the early 10 before all.
#[test]
fn order_of_limits_and_rooms() {
    let d = case_d();
    let early = Lengths {
        scratch: 7,
        ..ENOUGH
    };
    refused(&d, budget(5, 3), NONE, early, 10, budget(5, 3));
    for short in [
        Lengths {
            scratch: 31,
            ..ENOUGH
        },
        Lengths { sets: 3, ..ENOUGH },
        Lengths {
            blocks: 0,
            ..ENOUGH
        },
    ] {
        let run = |work, state, number, after| {
            let limits = Limits {
                work,
                state,
                facts: 0,
            };
            refused(&d, budget(5, 3), limits, short, number, budget(after, 3));
        };
        run(4, 311, WORK_LIMIT, 5);
        run(5, 311, WORK_LIMIT, 6);
        run(6, 311, WORK_LIMIT, 7);
        run(7, 311, STATE_LIMIT, 7);
        run(7, 312, 10, 7);
    }
}

/// Slices that are empty in Rust have pointers that are not null.
#[test]
fn empty_buffers() {
    let call = |sheet: &[u8], scratch: &mut [u64]| {
        verify_within(sheet, ZERO, NONE, &mut [], &mut [], scratch)
    };
    let b = sheet(&case_b());
    let numbers = [
        call(&[], &mut []),
        call(&b, &mut []),
        call(&b, &mut [1; 20]),
    ];
    let numbers = numbers.map(|within| {
        assert_eq!(within.limits, NONE);
        (within.answer.number, within.answer.work)
    });
    assert_eq!(numbers, [(1, 0), (10, 0), (12, 1)]);
}
