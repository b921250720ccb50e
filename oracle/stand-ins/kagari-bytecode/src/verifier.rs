//! Stand-in after the source's verifier.rs: the error type, and a public way to run
//! `flow::verify` and read its result.

use crate::module::{BytecodeFunction, FunctionRef};
use crate::suspension::{AwaitLiveness, FlowBudget};
use kagari_common::cancellation::CancellationToken;
use std::mem;

// Declares the module `flow`; see build.rs.
include!(concat!(env!("OUT_DIR"), "/verifier.rs"));

/// The errors that `flow.rs` makes.
#[derive(Debug, Clone, PartialEq, Eq)]
pub enum BytecodeVerificationError {
    InvalidOperation {
        function: FunctionRef,
        reason: &'static str,
    },
    Cancelled,
}

/// The size of `flow::Block`, which enters the count of state bytes.
pub const BLOCK_BYTES: usize = mem::size_of::<flow::Block>();

/// What `flow::verify` answers, and the budget that it leaves.
#[derive(Debug, Clone, PartialEq, Eq)]
pub struct Outcome {
    pub result: Result<Facts, BytecodeVerificationError>,
    pub work: usize,
    pub retained_bytes: usize,
}

/// `flow::FlowResult` with every field public.
#[derive(Debug, Clone, PartialEq, Eq)]
pub struct Facts {
    pub blocks: Vec<BlockFacts>,
    pub awaits: Vec<AwaitFacts>,
}

/// `flow::Block` without `uses` and `defines`.
#[derive(Debug, Clone, PartialEq, Eq)]
pub struct BlockFacts {
    pub start: usize,
    pub end: usize,
    pub successors: Vec<usize>,
    pub predecessors: Vec<usize>,
    pub reachable: bool,
    pub initialized: Vec<u64>,
    pub live: Vec<u64>,
}

/// `AwaitLiveness` with every field public.
#[derive(Debug, Clone, PartialEq, Eq)]
pub struct AwaitFacts {
    pub instruction: usize,
    pub live: Box<[u64]>,
}

/// Runs the carried `flow::verify` from a budget of `work` and `retained_bytes`.
/// The sets are moved out of its result, not copied.
pub fn verify(function: &BytecodeFunction, work: usize, retained_bytes: usize) -> Outcome {
    let mut budget = FlowBudget::new(&CancellationToken);
    budget.work = work;
    budget.retained_bytes = retained_bytes;
    let result = flow::verify(function, &mut budget).map(read_out);
    Outcome {
        result,
        work: budget.work,
        retained_bytes: budget.retained_bytes,
    }
}

fn read_out(result: flow::FlowResult) -> Facts {
    let read_await = |point: AwaitLiveness| AwaitFacts {
        instruction: point.instruction,
        live: point.live,
    };
    Facts {
        blocks: result
            .blocks
            .into_iter()
            .map(flow::Block::read_out)
            .collect(),
        awaits: result.awaits.into_iter().map(read_await).collect(),
    }
}
