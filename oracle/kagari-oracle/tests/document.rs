//! The figures of document 01, "Sheets to try". X and V are 0.

use kagari_oracle::cases::*;
use kagari_oracle::{Answer, Budget, Facts, Script, verify};

const WORK_LIMIT: u64 = 100_000_000;
const BYTES_LIMIT: u64 = 67_108_864;

fn from_zero(script: &Script) -> Answer {
    verify(script, Budget::default())
}

fn budget(work: u64, retained: u64) -> Budget {
    Budget { work, retained }
}

/// The facts of a script that is accepted from a zero budget and leaves this one.
#[track_caller]
fn accepted(script: &Script, after: Budget) -> Facts {
    let answer = from_zero(script);
    assert_eq!(answer.budget, after);
    answer.result.expect("accepted")
}

#[track_caller]
fn refused(answer: Answer, number: u32, after: Budget) {
    assert_eq!(answer.result.err(), Some(number));
    assert_eq!(answer.budget, after);
}

/// The saved set of each await, by its instruction.
fn saved(facts: &Facts) -> Vec<(usize, Vec<u64>)> {
    let awaits = facts.awaits.iter();
    awaits
        .map(|point| (point.instruction, point.live.to_vec()))
        .collect()
}

#[test]
fn case_b_no_slots() {
    let facts = accepted(&case_b(), budget(14, 0));
    assert_eq!(facts.blocks.len(), 1);
    let block = &facts.blocks[0];
    assert_eq!((block.start, block.end, block.reachable), (0, 1, true));
    assert!(block.initialized.is_empty() && block.live.is_empty());
    assert!(facts.awaits.is_empty());
}

#[test]
fn case_c_filled_then_read() {
    let facts = accepted(&case_c(), budget(27, 0));
    assert_eq!(facts.blocks[0].initialized, [1]);
    assert_eq!(facts.blocks[0].live, [0]);
}

#[test]
fn case_d_await_saves_what_it_reads() {
    let facts = accepted(&case_d(), budget(32, 32));
    assert_eq!(saved(&facts), [(0, vec![0b01])]);
    assert_eq!(facts.blocks.len(), 1);
    assert_eq!(facts.blocks[0].initialized, [0b11]);
    assert_eq!(facts.blocks[0].live, [0b01]);
}

#[test]
fn case_e_unfilled_read() {
    refused(from_zero(&case_e()), 13, budget(21, 0));
}

#[test]
fn case_f_await_reads_its_output() {
    let facts = accepted(&case_f(), budget(31, 32));
    assert_eq!(saved(&facts), [(0, vec![1])]);
}

#[test]
fn case_g_host_over_await() {
    refused(from_zero(&case_g()), 14, budget(32, 0));
}

#[test]
fn case_h_filled_on_one_way_only() {
    refused(from_zero(&case_h()), 13, budget(111, 0));
}

#[test]
fn case_h_filled_on_both_ways() {
    let facts = accepted(&case_h_filled(), budget(112, 0));
    let starts: Vec<usize> = facts.blocks.iter().map(|block| block.start).collect();
    assert_eq!(starts, [0, 1, 3, 4]);
    let successors: Vec<_> = facts
        .blocks
        .iter()
        .map(|block| &block.successors[..])
        .collect();
    assert_eq!(successors, [&[1, 2][..], &[3], &[3], &[]]);
    let predecessors: Vec<_> = facts
        .blocks
        .iter()
        .map(|block| &block.predecessors[..])
        .collect();
    assert_eq!(predecessors, [&[][..], &[0], &[0], &[1, 2]]);
}

/// The row of the unreachable block has ones above the slot count too; rows of
/// reachable blocks never do.
#[test]
fn case_i_unreachable_block() {
    let facts = accepted(&case_i(), budget(28, 0));
    let [first, second] = &facts.blocks[..] else {
        panic!("two blocks")
    };
    assert!(first.reachable && !second.reachable);
    assert_eq!(
        (&first.initialized[..], &first.live[..]),
        (&[0][..], &[0][..])
    );
    assert_eq!(
        (&second.initialized[..], &second.live[..]),
        (&[u64::MAX][..], &[0][..])
    );
}

#[test]
fn case_m_work_limit() {
    let passes = verify(&case_b(), budget(99_999_986, 0));
    assert!(passes.result.is_ok());
    assert_eq!(passes.budget, budget(WORK_LIMIT, 0));
    let one_more = verify(&case_b(), budget(99_999_987, 0));
    refused(one_more, 12, budget(WORK_LIMIT + 1, 0));
}

#[test]
fn case_n_state_limit() {
    let facts = accepted(&case_n(2_031), budget(16_670_428, 0));
    assert_eq!(facts.blocks.len(), 2_031);
    refused(from_zero(&case_n(2_032)), 11, budget(2_032, 0));
}

#[test]
fn case_o_facts_limit() {
    let passes = verify(&case_d(), budget(0, 67_108_832));
    assert!(passes.result.is_ok());
    assert_eq!(passes.budget, budget(32, BYTES_LIMIT));
    let one_more = verify(&case_d(), budget(0, 67_108_833));
    refused(one_more, 15, budget(32, BYTES_LIMIT + 1));
}
