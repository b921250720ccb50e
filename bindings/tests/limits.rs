//! The check within limits that the host lowers.

#[allow(dead_code)]
#[path = "../../oracle/compare/src/random.rs"]
mod random;
#[allow(dead_code)]
#[path = "../../oracle/compare/src/scripts.rs"]
mod scripts;

use kagari_flow::{
    Accepted, Block, Budget, Buffers, Limits, Number, Refusal, Sizes, verify, verify_within,
    verify_within_in,
};
use kagari_oracle::cases::*;
use kagari_oracle::{Script, sheet};
use random::Random;

const MOST: Limits = Limits::MOST;

/// The sums of work in case d's run from zero, in order.
const SUMS_OF_D: [u64; 16] = [0, 1, 2, 4, 6, 9, 10, 12, 16, 18, 22, 24, 26, 28, 30, 32];

fn work(work: u64) -> Limits {
    Limits { work, ..MOST }
}

fn state(state: u64) -> Limits {
    Limits { state, ..MOST }
}

fn facts(facts: u64) -> Limits {
    Limits { facts, ..MOST }
}

fn budget(work: u64, retained: u64) -> Budget {
    Budget { work, retained }
}

/// Judges a script within limits.
fn judge(script: &Script, given: Budget, limits: Limits) -> Result<Accepted<'static>, Refusal> {
    verify_within(&sheet(script), given, limits)
}

/// Holds the answer on a script to a refusal with this number and budget.
#[track_caller]
fn refused(script: &Script, given: Budget, limits: Limits, number: Number, after: Budget) {
    let expected = Refusal {
        number,
        function: 7,
        budget: after,
    };
    assert_eq!(judge(script, given, limits), Err(expected), "{limits:?}");
}

#[test]
fn the_default_is_what_a_call_without_limits_has() {
    let expected = Limits {
        work: 100_000_000,
        state: 67_108_864,
        facts: 67_108_864,
    };
    assert_eq!(Limits::default(), expected);
    assert_eq!(MOST, expected);
}

/// A limit at a sum lets it pass, and one below refuses with that sum.
#[test]
fn every_limit_of_work() {
    for limit in 0..=33 {
        match SUMS_OF_D.into_iter().find(|&sum| sum > limit) {
            Some(sum) => refused(
                &case_d(),
                budget(0, 0),
                work(limit),
                Number::WorkLimit,
                budget(sum, 0),
            ),
            None => {
                let accepted = judge(&case_d(), budget(0, 0), work(limit)).expect("accepted");
                assert_eq!(accepted.budget(), budget(32, 32));
            }
        }
    }
}

/// A block of one word a set takes 312 bytes. The refusal comes when each instruction has
/// been charged.
#[test]
fn a_limit_of_state() {
    assert!(judge(&case_d(), budget(0, 0), state(312)).is_ok());
    for limit in [0, 1, 311] {
        let after = budget(2, 0);
        refused(
            &case_d(),
            budget(0, 0),
            state(limit),
            Number::StateLimit,
            after,
        );
    }
}

/// An await over one word retains 32 bytes.
#[test]
fn a_limit_of_facts() {
    assert!(judge(&case_d(), budget(0, 0), facts(32)).is_ok());
    for limit in [0, 1, 31] {
        let after = budget(32, 32);
        refused(
            &case_d(),
            budget(0, 0),
            facts(limit),
            Number::FactsLimit,
            after,
        );
    }
    assert!(judge(&case_b(), budget(0, 0), facts(0)).is_ok());
}

#[test]
fn budgets_above_their_limits() {
    for given in [15, 100_000_001, u64::MAX] {
        let given = budget(given, 0);
        refused(&case_b(), given, work(14), Number::WorkLimit, given);
    }
    let accepted = judge(&case_b(), budget(0, u64::MAX), facts(14)).expect("accepted");
    assert_eq!(accepted.budget(), budget(14, u64::MAX));
    let given = budget(0, u64::MAX - 1);
    let after = budget(32, u64::MAX);
    refused(&case_d(), given, facts(14), Number::FactsLimit, after);
}

/// Limits that are as high as they count, or higher, change nothing.
#[test]
fn the_most_and_more_are_a_call_without_limits() {
    let more = [
        MOST,
        work(u64::MAX),
        state(u64::MAX),
        facts(u64::MAX),
        Limits {
            work: 100_000_001,
            state: 67_108_865,
            facts: 67_108_865,
        },
    ];
    let budgets = [
        budget(0, 0),
        budget(99_999_968, 67_108_833),
        budget(99_999_990, 0),
        budget(u64::MAX, u64::MAX),
    ];
    let mut random = Random::new(1);
    for _ in 0..2_000 {
        let mut bytes = sheet(&scripts::script(&mut random));
        if random.once_in(3) {
            let place = random.below(bytes.len());
            bytes[place] = random.pick(&[0, 1, 2, 41, 255]);
        }
        let given = random.pick(&budgets);
        let limits = random.pick(&more);
        assert_eq!(verify_within(&bytes, given, limits), verify(&bytes, given));
    }
    for limits in more {
        let after = budget(100_000_001, 0);
        refused(
            &case_b(),
            budget(99_999_987, 0),
            limits,
            Number::WorkLimit,
            after,
        );
        let after = budget(32, 67_108_865);
        refused(
            &case_d(),
            budget(0, 67_108_833),
            limits,
            Number::FactsLimit,
            after,
        );
    }
    for blocks in [2_031, 2_032] {
        let sheet = sheet(&case_n(blocks));
        let given = budget(0, 0);
        assert!(verify_within(&sheet, given, state(u64::MAX)) == verify(&sheet, given));
    }
}

/// Accepted within limits, then accepted with the same answer within higher ones. What an
/// accepted script is charged is what it needs at least.
#[test]
fn higher_limits_accept_the_same() {
    let mut random = Random::new(2);
    for _ in 0..2_000 {
        let mut script = scripts::script(&mut random);
        script.parameters = (0..script.slots.len() as u32).collect();
        script.slots.fill(plain());
        let accepted = judge(&script, budget(0, 0), MOST).expect("accepted");
        let (b, w) = (accepted.blocks().len(), script.slots.len().div_ceil(64));
        let least = Limits {
            work: accepted.budget().work,
            state: (b * (32 * w + 264) + 16 * w) as u64,
            facts: accepted.budget().retained,
        };
        let mut higher = least;
        for limit in [&mut higher.work, &mut higher.state, &mut higher.facts] {
            *limit += random.bits() >> random.number(1..=63);
        }
        for limits in [least, higher] {
            assert_eq!(judge(&script, budget(0, 0), limits).as_ref(), Ok(&accepted));
        }
        let number = |limits| {
            let refusal = judge(&script, budget(0, 0), limits).expect_err("refused");
            refusal.number
        };
        assert_eq!(number(work(least.work - 1)), Number::WorkLimit);
        assert_eq!(number(state(least.state - 1)), Number::StateLimit);
        if least.facts > 0 {
            assert_eq!(number(facts(least.facts - 1)), Number::FactsLimit);
        }
    }
}

/// In lent memory: the state limit comes between the two lacks of room, and after a refusal
/// all memory is zero.
#[test]
fn in_lent_memory() {
    let accepted = verify(&sheet(&case_d()), budget(5, 3)).expect("accepted");
    let judge = |limits, sizes: Sizes| {
        let mut blocks = vec![accepted.blocks()[0]; sizes.blocks];
        let mut sets = vec![9; sizes.sets];
        let mut scratch = vec![9; sizes.scratch];
        let mut buffers = Buffers {
            blocks: &mut blocks,
            sets: &mut sets,
            scratch: &mut scratch,
        };
        let result = verify_within_in(&sheet(&case_d()), budget(5, 3), limits, &mut buffers);
        let result = result.map(Accepted::into_owned);
        assert!(scratch.iter().all(|&word| word == 0));
        if result.is_err() {
            assert!(blocks.iter().all(|&block| block == Block::default()));
            assert!(sets.iter().all(|&word| word == 0));
        }
        result
    };
    let refused = |number, work| {
        Err(Refusal {
            number,
            function: 7,
            budget: budget(work, 3),
        })
    };
    let exact = Sizes {
        blocks: 1,
        sets: 4,
        scratch: 32,
    };
    let early = Sizes {
        scratch: 7,
        ..exact
    };
    let late = Sizes {
        scratch: 31,
        ..exact
    };
    assert_eq!(judge(work(37), exact).as_ref(), Ok(&accepted));
    assert_eq!(judge(work(36), exact), refused(Number::WorkLimit, 37));
    assert_eq!(judge(work(4), early), refused(Number::NoRoom, 5));
    assert_eq!(judge(work(4), late), refused(Number::WorkLimit, 5));
    assert_eq!(judge(work(6), late), refused(Number::WorkLimit, 7));
    assert_eq!(judge(state(311), early), refused(Number::NoRoom, 5));
    assert_eq!(judge(state(311), late), refused(Number::StateLimit, 7));
    assert_eq!(judge(state(312), late), refused(Number::NoRoom, 7));
}
