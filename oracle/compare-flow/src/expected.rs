//! What must come out of a call, from the Rust: the answer, and every lent buffer
//! whole.
//!
//! The sheet checks 1 to 9 and 17 are those of the plain reader, the judging is that of
//! kagari's own code. Between them and inside it stand the two tens of document 01:
//!
//! 1. the sheet checks, with the budget as given;
//! 2. the early 10, scratch below 4 × N words, with the budget as given;
//! 3. the source's first charges, 0 and then 1 an instruction, and its state limit;
//! 4. the later 10, any other lack of room, with the budget as charged by then;
//! 5. the rest of the source's run.
//!
//! Within limits that are lowered 3 and 5 are judged by them; `Passed::source_within` says
//! how the Rust, whose limits are constants, is asked for that.
//!
//! A set of slots that is added to the parameters is looked at between 2 and 3, and its
//! length in 2: fewer words than a set of the script's slots takes are the early 10, then a
//! bit at or above the slot count is 7, with the budget as given. The Rust is then run with
//! both its own and the added slots as parameters (`Passed::with`).

use crate::flow_c::{Answer, Block};
use crate::limits::Limits;
use crate::sets;
use compare::reader::{self, Refused};
use kagari_oracle::cases::plain;
use kagari_oracle::{
    BlockFacts, Budget, BytecodeFunction, Facts, Script, function, targets, verify_function,
};
use std::collections::BTreeSet;
use std::mem;

/// The number of the refusal "no such slot".
pub const NO_SUCH_SLOT: u32 = 7;
/// The number of the refusal "no room".
pub const NO_ROOM: u32 = 10;
/// The number of the refusal "state limit".
pub const STATE_LIMIT: u32 = 11;
/// The number of the refusal "work limit".
pub const WORK_LIMIT: u32 = 12;
/// The number of the refusal "facts limit".
pub const FACTS_LIMIT: u32 = 15;

/// The most work that is no refusal.
pub const MOST_WORK: u64 = 100_000_000;
/// The most retained bytes, and the most state bytes, that are no refusal.
pub const MOST_BYTES: u64 = 67_108_864;

/// The lengths of the three lent buffers: block records, and words.
#[derive(Debug, Clone, Copy, PartialEq, Eq, Default)]
pub struct Lengths {
    /// Records of the block list.
    pub blocks: usize,
    /// Words of the sets buffer.
    pub sets: usize,
    /// Words of scratch.
    pub scratch: usize,
}

impl Lengths {
    /// Whether no buffer is shorter than in `needs`.
    pub fn suffice(self, needs: Self) -> bool {
        self.blocks >= needs.blocks && self.sets >= needs.sets && self.scratch >= needs.scratch
    }
}

/// What a call leaves: its answer, and the lent buffers whole.
#[derive(Debug, Clone, PartialEq, Eq)]
pub struct Outcome {
    /// The answer.
    pub answer: Answer,
    /// The block list.
    pub blocks: Vec<Block>,
    /// The sets buffer.
    pub sets: Vec<u64>,
    /// Scratch.
    pub scratch: Vec<u64>,
}

/// A sheet that passes the sheet checks, decoded for the Rust.
#[derive(Clone)]
pub struct Passed {
    function: BytecodeFunction,
    /// The function's id.
    pub id: u32,
    /// The number of slots.
    pub slots: usize,
    /// The parameters, as a set of slots.
    pub parameters: Vec<u64>,
    /// The physical byte of each slot.
    pub physical: Vec<u8>,
    /// N, the number of instructions.
    pub count: usize,
    /// A, the number of await instructions, reached or not.
    pub awaits: usize,
    /// The lengths with which nothing is refused for lack of room.
    pub needs: Lengths,
}

/// A sheet, read. What is expected of a call over it depends on nothing else but the
/// call's budget and lengths.
pub struct Known {
    /// The sheet decoded, or its refusal.
    pub read: Result<Passed, Refused>,
}

/// What must come out of a call with this sheet, budget and buffers of these lengths,
/// whatever they held before.
pub fn expected(sheet: &[u8], given: Budget, lengths: Lengths) -> Outcome {
    Known::new(sheet).expected(given, lengths)
}

impl Known {
    /// Reads a sheet.
    pub fn new(sheet: &[u8]) -> Self {
        let read = reader::read(sheet);
        Self {
            read: read.map(|read| Passed::new(&read.script, read.awaits)),
        }
    }

    /// What must come out of a call over this sheet.
    pub fn expected(&self, given: Budget, lengths: Lengths) -> Outcome {
        match &self.read {
            Ok(passed) => passed.expected(given, lengths),
            Err(refused) => zeros(refused.number, refused.id, given, lengths),
        }
    }

    /// What must come out of a call over this sheet within limits.
    pub fn expected_within(&self, given: Budget, limits: Limits, lengths: Lengths) -> Outcome {
        match &self.read {
            Ok(passed) => passed.expected_within(given, limits.counted(), lengths),
            Err(refused) => zeros(refused.number, refused.id, given, lengths),
        }
    }

    /// What must come out of a call over this sheet within limits, with these slots as
    /// parameters beside its own.
    pub fn expected_with(
        &self,
        added: &[u64],
        given: Budget,
        limits: Limits,
        lengths: Lengths,
    ) -> Outcome {
        match &self.read {
            Ok(passed) => passed.expected_with(added, given, limits.counted(), lengths),
            Err(refused) => zeros(refused.number, refused.id, given, lengths),
        }
    }
}

impl Passed {
    fn new(script: &Script, awaits: usize) -> Self {
        let slots = script.slots.len();
        Self {
            function: function(script),
            id: script.id,
            slots,
            parameters: sets::set(slots, script.parameters.iter().map(|&slot| slot as usize)),
            physical: script.slots.iter().map(|slot| slot.physical).collect(),
            count: script.code.len(),
            awaits,
            needs: needs(
                script.code.len(),
                leaders(script),
                sets::words(slots),
                awaits,
            ),
        }
    }

    /// The same script with the slots of a set as parameters beside its own; bits that are
    /// no slots are left out. The list of parameters that the Rust gets names each slot
    /// once, ascending. A record of a sheet could not always hold it.
    pub fn with(&self, added: &[u64]) -> Self {
        let union = sets::slots(&self.parameters).chain(sets::slots(added));
        let parameters = sets::set(self.slots, union.filter(|&slot| slot < self.slots));
        let list = Script {
            parameters: sets::slots(&parameters).map(|slot| slot as u32).collect(),
            ..Script::default()
        };
        let mut with = self.clone();
        with.function.metadata.parameter_slots = function(&list).metadata.parameter_slots;
        with.parameters = parameters;
        with
    }

    /// The slots that are no parameters and that some path from instruction 0 reads before
    /// it writes them. They are the least set to add with which no read is unfilled.
    ///
    /// Those that are live at the entry of the first block, says the Rust of the same code
    /// over slots that are all plain and parameters, so that it finds no fault. None if that
    /// run meets a limit.
    pub fn missing(&self) -> Vec<u64> {
        let harmless = Script {
            slots: vec![plain(); self.slots],
            parameters: (0..self.slots as u32).collect(),
            ..Script::default()
        };
        let mut run = self.function.clone();
        run.metadata = function(&harmless).metadata;
        let mut missing = match verify_function(&run, Budget::default()).result {
            Ok(mut facts) => mem::take(&mut facts.blocks[0].live),
            Err(_) => vec![0; sets::words(self.slots)],
        };
        for (word, parameters) in missing.iter_mut().zip(&self.parameters) {
            *word &= !parameters;
        }
        missing
    }

    /// The words of scratch below which the early 10 is given.
    pub fn early_need(&self) -> usize {
        4 * self.count
    }

    /// Document 01, row 11: the bytes of state that the script takes.
    pub fn state(&self) -> u64 {
        let (blocks, words) = (self.needs.blocks, sets::words(self.slots));
        (blocks * (32 * words + 264) + 16 * words) as u64
    }

    /// The bytes that an await retains.
    pub fn fact(&self) -> u64 {
        8 * sets::words(self.slots) as u64 + 24
    }

    /// What the source's run answers, with no thought of buffers.
    pub fn source(&self, given: Budget) -> kagari_oracle::Answer {
        verify_function(&self.function, given)
    }

    /// The sums of work in the source's run from zero, ascending. The first charge is 0.
    /// From a budget that leaves as much as one sum, the run meets the limit at the next.
    pub fn sums(&self) -> Vec<u64> {
        let mut sums = vec![0];
        while let Some(sum) = self.next_sum(sums[sums.len() - 1]) {
            sums.push(sum);
        }
        sums
    }

    fn next_sum(&self, last: u64) -> Option<u64> {
        let given = Budget {
            work: MOST_WORK - last,
            retained: 0,
        };
        let answer = self.source(given);
        (answer.result == Err(WORK_LIMIT)).then(|| answer.budget.work - given.work)
    }

    fn expected(&self, given: Budget, lengths: Lengths) -> Outcome {
        if lengths.scratch < self.early_need() {
            return zeros(NO_ROOM, self.id, given, lengths);
        }
        let run = self.source(given);
        // The later 10 is due if the source's run came past its state check.
        let at_state_check = match run.result {
            Err(STATE_LIMIT) => None,
            _ => at_state_check(given, self.count, MOST_WORK),
        };
        if let Some(charged) = at_state_check
            && !lengths.suffice(self.needs)
        {
            return zeros(NO_ROOM, self.id, charged, lengths);
        }
        match run.result {
            Ok(facts) => accepted(&facts, self.id, run.budget, lengths),
            Err(number) => zeros(number, self.id, run.budget, lengths),
        }
    }

    /// What the source's run would answer with these limits of work and facts, none above
    /// today's, in the place of its own. Its state limit stays.
    ///
    /// All that the source does with a sum of work or of retained bytes is to add a charge
    /// to it and to compare it with a constant, and no charge depends on a sum. So a run
    /// with a limit that is lower by D goes, step by step, as the run from a number that is
    /// higher by D: a sum of the first is above the limit exactly if that of the second is
    /// above the constant. Both are charged the same, which is what the second has grown by.
    ///
    /// Sums stop at 2^64 - 1, and those of the second run would do so earlier. But what a
    /// number is on entry matters only up to one above its limit: the next charge refuses it.
    /// From there, a run ends before any sum is large.
    pub fn source_within(&self, given: Budget, limits: Limits) -> kagari_oracle::Answer {
        let raised = Budget {
            work: raised(given.work, limits.work, MOST_WORK),
            retained: raised(given.retained, limits.facts, MOST_BYTES),
        };
        let kagari_oracle::Answer { result, budget } = self.source(raised);
        let (work, retained) = (budget.work - raised.work, budget.retained - raised.retained);
        let budget = Budget {
            work: given.work.saturating_add(work),
            retained: given.retained.saturating_add(retained),
        };
        kagari_oracle::Answer { result, budget }
    }

    fn expected_within(&self, given: Budget, limits: Limits, lengths: Lengths) -> Outcome {
        if lengths.scratch < self.early_need() {
            return zeros(NO_ROOM, self.id, given, lengths);
        }
        if let Some(charged) = at_state_check(given, self.count, limits.work) {
            if self.state() > limits.state {
                return zeros(STATE_LIMIT, self.id, charged, lengths);
            }
            if !lengths.suffice(self.needs) {
                return zeros(NO_ROOM, self.id, charged, lengths);
            }
        }
        let run = self.source_within(given, limits);
        match run.result {
            Ok(facts) => accepted(&facts, self.id, run.budget, lengths),
            Err(number) => zeros(number, self.id, run.budget, lengths),
        }
    }

    fn expected_with(
        &self,
        added: &[u64],
        given: Budget,
        limits: Limits,
        lengths: Lengths,
    ) -> Outcome {
        let Some(added) = added.get(..sets::words(self.slots)) else {
            return zeros(NO_ROOM, self.id, given, lengths);
        };
        if lengths.scratch < self.early_need() {
            return zeros(NO_ROOM, self.id, given, lengths);
        }
        if sets::slots(added).any(|slot| slot >= self.slots) {
            return zeros(NO_SUCH_SLOT, self.id, given, lengths);
        }
        self.with(added).expected_within(given, limits, lengths)
    }
}

/// A number that is as far from the constant as the given one is from its limit. Given
/// above the limit, it is taken for one above it.
fn raised(given: u64, limit: u64, constant: u64) -> u64 {
    given.min(limit + 1) + (constant - limit)
}

/// The budget at the source's state check, or nothing if the run ends before it. By
/// then `DebugAvailability::new` has charged 0 and the first loop of `graph` 1 for each
/// instruction, so the work has grown by N unless a charge crossed the limit. There is
/// an instruction, so a budget above the limit on entry needs no case of its own.
pub fn at_state_check(given: Budget, count: usize, most_work: u64) -> Option<Budget> {
    let work = given.work.saturating_add(count as u64);
    (work <= most_work).then_some(Budget { work, ..given })
}

/// B: the number of leaders, which are 0, every target, and what follows kinds 12 and
/// 38 to 41.
fn leaders(script: &Script) -> usize {
    let mut leaders = BTreeSet::from([0]);
    for (place, instruction) in (0..).zip(&script.code) {
        if matches!(instruction.kind, 12 | 38..=41) {
            leaders.extend(targets(instruction.kind, &instruction.fields));
            leaders.insert(place + 1);
        }
    }
    // The last instruction is of these kinds, and nothing follows it.
    leaders.len() - 1
}

/// Document 01, "Refusal table": the words and records that a script needs.
fn needs(count: usize, blocks: usize, words: usize, awaits: usize) -> Lengths {
    Lengths {
        blocks,
        sets: blocks * 2 * words + awaits * (1 + words),
        scratch: 4 * count + blocks * (4 * words + 16) + 4 * words,
    }
}

/// After a refusal all lent memory is zero.
fn zeros(number: u32, id: u32, budget: Budget, lengths: Lengths) -> Outcome {
    Outcome {
        answer: Answer {
            number,
            function: id,
            blocks: 0,
            awaits: 0,
            work: budget.work,
            retained: budget.retained,
        },
        blocks: vec![Block::default(); lengths.blocks],
        sets: vec![0; lengths.sets],
        scratch: vec![0; lengths.scratch],
    }
}

/// After acceptance the block list and the sets stand first, and all else is zero.
fn accepted(facts: &Facts, id: u32, budget: Budget, lengths: Lengths) -> Outcome {
    let mut blocks: Vec<Block> = facts.blocks.iter().map(block).collect();
    let mut sets = Vec::with_capacity(lengths.sets);
    for block in &facts.blocks {
        sets.extend(&block.initialized);
        sets.extend(&block.live);
    }
    for point in &facts.awaits {
        sets.push(point.instruction as u64);
        sets.extend(&point.live);
    }
    assert!(blocks.len() <= lengths.blocks && sets.len() <= lengths.sets);
    blocks.resize(lengths.blocks, Block::default());
    sets.resize(lengths.sets, 0);
    Outcome {
        answer: Answer {
            number: 0,
            function: id,
            blocks: facts.blocks.len() as u64,
            awaits: facts.awaits.len() as u64,
            work: budget.work,
            retained: budget.retained,
        },
        blocks,
        sets,
        scratch: vec![0; lengths.scratch],
    }
}

fn block(facts: &BlockFacts) -> Block {
    let successor = |place| facts.successors.get(place).copied().unwrap_or(0) as u32;
    Block {
        start: facts.start as u32,
        end: facts.end as u32,
        reachable: facts.reachable.into(),
        successor_count: facts.successors.len() as u32,
        successor_0: successor(0),
        successor_1: successor(1),
    }
}
