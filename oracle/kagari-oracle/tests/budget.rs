//! What a budget is on entry, and which limit is met first.

use kagari_oracle::cases::*;
use kagari_oracle::{Budget, Script, verify};

const WORK_LIMIT: u64 = 100_000_000;

/// The number of the refusal, 0 for an acceptance, and the budget afterwards.
fn run(script: &Script, work: u64, retained: u64) -> (u32, u64, u64) {
    let answer = verify(script, Budget { work, retained });
    let number = answer.result.err().unwrap_or(0);
    (number, answer.budget.work, answer.budget.retained)
}

/// `DebugAvailability::new` charges 0 before all else, which tests the limit.
#[test]
fn work_above_its_limit_on_entry() {
    let above = WORK_LIMIT + 1;
    assert_eq!(run(&case_b(), above, 0), (12, above, 0));
    assert_eq!(run(&case_b(), u64::MAX, 0), (12, u64::MAX, 0));
    assert_eq!(run(&case_b(), WORK_LIMIT, 0), (12, WORK_LIMIT + 1, 0));
}

/// Retained bytes are judged only where an await is charged; the sum saturates.
#[test]
fn retained_above_its_limit_on_entry() {
    assert_eq!(run(&case_b(), 0, u64::MAX), (0, 14, u64::MAX));
    assert_eq!(run(&case_d(), 0, u64::MAX), (15, 32, u64::MAX));
}

/// The leader charges come before the count of state bytes.
#[test]
fn work_limit_before_state_limit() {
    let script = case_n(2_032);
    assert_eq!(run(&script, WORK_LIMIT - 2_032, 0), (11, WORK_LIMIT, 0));
    assert_eq!(run(&script, WORK_LIMIT - 2_031, 0), (12, WORK_LIMIT + 1, 0));
}

/// The reading instruction is charged before its reads are checked.
#[test]
fn work_limit_before_unfilled_slot() {
    assert_eq!(run(&case_e(), WORK_LIMIT - 21, 0), (13, WORK_LIMIT, 0));
    assert_eq!(run(&case_e(), WORK_LIMIT - 20, 0), (12, WORK_LIMIT + 1, 0));
}

/// The slot count is charged before the host rule, the facts after it.
#[test]
fn work_limit_before_host_over_await() {
    assert_eq!(run(&case_g(), WORK_LIMIT - 32, 0), (14, WORK_LIMIT, 0));
    assert_eq!(run(&case_g(), WORK_LIMIT - 31, 0), (12, WORK_LIMIT + 1, 0));
}

/// At one await: work, then the host rule, then the facts.
#[test]
fn order_at_one_await() {
    assert_eq!(run(&case_g(), WORK_LIMIT - 31, u64::MAX).0, 12);
    assert_eq!(run(&case_g(), 0, u64::MAX), (14, 32, u64::MAX));
    assert_eq!(run(&case_d(), 0, u64::MAX).0, 15);
}
