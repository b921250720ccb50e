//! Buffers to lend. Before a call they are filled with garbage, and on both sides of
//! each lie canaries; after it they are compared whole.

use crate::expected::{Known, Lengths, Outcome};
use crate::flow_c::{self, Answer, AnswerWithin, Block, verify, verify_with, verify_within};
use crate::limits::Limits;
use crate::load;
use crate::plan::Plan;
use compare::random::Random;
use kagari_oracle::Budget;
use std::fmt::{self, Debug, Display, Formatter};
use std::iter;

/// How many canaries lie on each side of a buffer.
const CANARIES: usize = 16;

/// How many differences of one buffer are shown.
const SHOWN: usize = 4;

/// What lies behind a sheet: records that a reader which goes on would take.
const BEHIND: [u8; 16] = [2, 0, 41, 0, 2, 0, 41, 0, 2, 0, 41, 0, 2, 0, 41, 0];

/// A call that did not leave what was expected.
#[derive(Debug, Clone, PartialEq, Eq)]
pub struct Mismatch {
    /// The answer that was expected.
    pub expected: Answer,
    /// The answer that came.
    pub got: Answer,
    /// Where the lent memory differs, in words.
    pub places: Vec<String>,
}

impl Display for Mismatch {
    fn fmt(&self, f: &mut Formatter) -> fmt::Result {
        writeln!(f, "expected {:?}", self.expected)?;
        write!(f, "got      {:?}", self.got)?;
        self.places
            .iter()
            .try_for_each(|place| write!(f, "\n{place}"))
    }
}

/// Calls the port with buffers that are full of garbage, and gives all that it leaves.
pub fn called(sheet: &[u8], budget: Budget, lengths: Lengths) -> Outcome {
    with_garbage(lengths, |blocks, sets, scratch| {
        verify(sheet, budget, blocks, sets, scratch)
    })
}

/// The same within limits, which must come back as given.
///
/// # Panics
///
/// If they do not.
#[track_caller]
pub fn called_within(sheet: &[u8], budget: Budget, limits: Limits, lengths: Lengths) -> Outcome {
    let mut back = None;
    let outcome = with_garbage(lengths, |blocks, sets, scratch| {
        let within = verify_within(sheet, budget, limits, blocks, sets, scratch);
        back = Some(within.limits);
        within.answer
    });
    assert_eq!(back, Some(limits), "{:?}", outcome.answer);
    outcome
}

/// The same with a set of slots as parameters beside the sheet's own, which must be left as
/// it was.
///
/// # Panics
///
/// If it is not, or if the limits do not come back as given.
#[track_caller]
pub fn called_with(
    sheet: &[u8],
    added: &[u64],
    budget: Budget,
    limits: Limits,
    lengths: Lengths,
) -> Outcome {
    let mut set = Guarded::default();
    set.hold(added, u64::MAX);
    let mut back = None;
    let outcome = with_garbage(lengths, |blocks, sets, scratch| {
        let with = verify_with(sheet, set.held(), budget, limits, blocks, sets, scratch);
        back = Some(with.limits);
        with.answer
    });
    assert_eq!(back, Some(limits), "{:?}", outcome.answer);
    assert!(set.is_guarded() && set.held() == added, "{added:x?}");
    outcome
}

/// All that a call leaves in buffers that are full of garbage.
fn with_garbage(
    lengths: Lengths,
    call: impl FnOnce(&mut [Block], &mut [u64], &mut [u64]) -> Answer,
) -> Outcome {
    let garbage = Block {
        start: 1,
        end: 2,
        reachable: 3,
        successor_count: 4,
        successor_0: 5,
        successor_1: 6,
    };
    let mut blocks = vec![garbage; lengths.blocks];
    let mut sets = vec![u64::MAX; lengths.sets];
    let mut scratch = vec![u64::MAX; lengths.scratch];
    Outcome {
        answer: call(&mut blocks, &mut sets, &mut scratch),
        blocks,
        sets,
        scratch,
    }
}

/// The memory for calls, one after the other.
#[derive(Default)]
pub struct Lent {
    sheet: Vec<u8>,
    added: Guarded<u64>,
    blocks: Guarded<Block>,
    sets: Guarded<u64>,
    scratch: Guarded<u64>,
}

impl Lent {
    /// Calls the port as planned and compares all that it leaves with what is expected.
    pub fn check(
        &mut self,
        sheet: &[u8],
        known: &Known,
        plan: &Plan,
    ) -> Result<Answer, Box<Mismatch>> {
        let lengths = plan.lengths(known);
        let added = plan.added.map(|added| added.words(known));
        let added = added.as_deref();
        self.lay(sheet, added.unwrap_or_default(), lengths, plan.garbage);
        let (got, expected, beside) = match (added, plan.limits) {
            (None, None) => {
                let got = self.call(sheet, plan);
                let expected = known.expected(plan.budget, lengths);
                let load = self.load(sheet, known, &expected);
                (got, expected, load)
            }
            (None, Some(limits)) => {
                let got = self.call_within(sheet, plan, limits);
                let expected = known.expected_within(plan.budget, limits, lengths);
                (got.answer, expected, not_as_given(limits, got.limits))
            }
            (Some(added), limits) => {
                let limits = limits.unwrap_or(Limits::TODAYS);
                let got = self.call_with(sheet, plan, limits);
                let expected = known.expected_with(added, plan.budget, limits, lengths);
                (got.answer, expected, not_as_given(limits, got.limits))
            }
        };
        let outside = self.outside(sheet, added.unwrap_or_default(), plan.garbage);
        if got == expected.answer
            && self.holds(&expected)
            && outside.is_empty()
            && beside.is_empty()
        {
            return Ok(got);
        }
        Err(Box::new(Mismatch {
            expected: expected.answer,
            got,
            places: [self.differences(&expected), outside, beside].concat(),
        }))
    }

    /// How the load of the Rust's answer differs from a plain count, if it does.
    fn load(&self, sheet: &[u8], known: &Known, rust: &Outcome) -> Vec<String> {
        let Answer { blocks, awaits, .. } = rust.answer;
        let expected = load::expected(known, &rust.sets, blocks, awaits);
        let got = flow_c::load(sheet, &rust.sets, blocks, awaits);
        let differs = got != expected;
        let text = || format!("load: expected {expected:?}, got {got:?}");
        differs.then(text).into_iter().collect()
    }

    /// Lays out the memory for a call. `garbage` is the seed of what the buffers hold
    /// before, and of where the sheet lies.
    fn lay(&mut self, sheet: &[u8], added: &[u64], lengths: Lengths, garbage: u64) {
        let mut random = Random::new(garbage);
        self.sheet.clear();
        self.sheet.extend(iter::repeat_n(0xA5, offset(garbage)));
        self.sheet.extend(sheet);
        self.sheet.extend(BEHIND);

        let word = Garbage::new(&mut random);
        self.sets.lay(lengths.sets, || word.word(&mut random));
        self.scratch.lay(lengths.scratch, || word.word(&mut random));
        self.blocks.lay(lengths.blocks, || word.block(&mut random));
        self.added.hold(added, word.word(&mut random));
    }

    fn call(&mut self, sheet: &[u8], plan: &Plan) -> Answer {
        verify(
            &self.sheet[offset(plan.garbage)..][..sheet.len()],
            plan.budget,
            self.blocks.lent(),
            self.sets.lent(),
            self.scratch.lent(),
        )
    }

    fn call_within(&mut self, sheet: &[u8], plan: &Plan, limits: Limits) -> AnswerWithin {
        verify_within(
            &self.sheet[offset(plan.garbage)..][..sheet.len()],
            plan.budget,
            limits,
            self.blocks.lent(),
            self.sets.lent(),
            self.scratch.lent(),
        )
    }

    fn call_with(&mut self, sheet: &[u8], plan: &Plan, limits: Limits) -> AnswerWithin {
        verify_with(
            &self.sheet[offset(plan.garbage)..][..sheet.len()],
            self.added.held(),
            plan.budget,
            limits,
            self.blocks.lent(),
            self.sets.lent(),
            self.scratch.lent(),
        )
    }

    fn holds(&mut self, expected: &Outcome) -> bool {
        self.blocks.lent() == expected.blocks
            && self.sets.lent() == expected.sets
            && self.scratch.lent() == expected.scratch
    }

    fn differences(&mut self, expected: &Outcome) -> Vec<String> {
        [
            differences("block", self.blocks.lent(), &expected.blocks),
            differences("sets word", self.sets.lent(), &expected.sets),
            differences("scratch word", self.scratch.lent(), &expected.scratch),
        ]
        .concat()
    }

    /// What was written to that was not lent to be written to.
    fn outside(&self, sheet: &[u8], added: &[u64], garbage: u64) -> Vec<String> {
        let offset = offset(garbage);
        let sheet_is_as_it_was = self.sheet[..offset].iter().all(|&byte| byte == 0xA5)
            && self.sheet[offset..][..sheet.len()] == *sheet
            && self.sheet[offset + sheet.len()..] == BEHIND;
        let checks = [
            ("the sheet was written to", sheet_is_as_it_was),
            ("the added set was written to", self.added.held() == added),
            ("written beside the added set", self.added.is_guarded()),
            ("written beside the block list", self.blocks.is_guarded()),
            ("written beside the sets", self.sets.is_guarded()),
            ("written beside scratch", self.scratch.is_guarded()),
        ];
        let failed = checks.iter().filter(|(_, holds)| !holds);
        failed.map(|(what, _)| what.to_string()).collect()
    }
}

/// How limits that came back differ from the given ones, if they do.
fn not_as_given(given: Limits, back: Limits) -> Vec<String> {
    let text = || format!("limits: gave {given:?}, got {back:?}");
    (given != back).then(text).into_iter().collect()
}

/// Sheets begin at any address.
fn offset(garbage: u64) -> usize {
    (garbage % 8) as usize
}

fn differences<T: Debug + PartialEq>(name: &str, got: &[T], expected: &[T]) -> Vec<String> {
    let places = (0..got.len()).filter(|&place| got[place] != expected[place]);
    let mut lines: Vec<String> = places
        .clone()
        .take(SHOWN)
        .map(|place| {
            let (expected, got) = (&expected[place], &got[place]);
            format!("{name} {place}: expected {expected:x?}, got {got:x?}")
        })
        .collect();
    let more = places.count().saturating_sub(SHOWN);
    if more > 0 {
        lines.push(format!("and {more} more of these"));
    }
    lines
}

/// A buffer between canaries.
#[derive(Default)]
struct Guarded<T> {
    cells: Vec<T>,
    canary: T,
}

impl<T: Copy + PartialEq> Guarded<T> {
    /// Lays out a buffer of this length and what it holds before the call.
    fn lay(&mut self, length: usize, mut garbage: impl FnMut() -> T) {
        self.canary = garbage();
        self.cells.clear();
        self.cells.extend([self.canary; CANARIES]);
        self.cells.extend(iter::repeat_with(garbage).take(length));
        self.cells.extend([self.canary; CANARIES]);
    }

    /// Lays out a buffer that is lent to be read, with what it holds.
    fn hold(&mut self, held: &[T], canary: T) {
        self.canary = canary;
        self.cells.clear();
        self.cells.extend([canary; CANARIES]);
        self.cells.extend(held);
        self.cells.extend([canary; CANARIES]);
    }

    fn lent(&mut self) -> &mut [T] {
        let end = self.cells.len() - CANARIES;
        &mut self.cells[CANARIES..end]
    }

    fn held(&self) -> &[T] {
        let end = self.cells.len() - CANARIES;
        &self.cells[CANARIES..end]
    }

    fn is_guarded(&self) -> bool {
        let (before, rest) = self.cells.split_at(CANARIES);
        let behind = &rest[rest.len() - CANARIES..];
        before.iter().chain(behind).all(|&cell| cell == self.canary)
    }
}

/// What lent memory holds before a call.
enum Garbage {
    Bits,
    Ones,
    /// Numbers that could be those of slots, blocks or instructions.
    Small(u32),
}

impl Garbage {
    fn new(random: &mut Random) -> Self {
        match random.number(0..=3) {
            0 => Self::Ones,
            1 => Self::Small(random.pick(&[1, 3, 64, 1_000])),
            _ => Self::Bits,
        }
    }

    /// Never zero, so that a canary differs from cleared memory.
    fn word(&self, random: &mut Random) -> u64 {
        match self {
            Self::Bits => random.bits() | 1 << 63,
            Self::Ones => u64::MAX,
            Self::Small(most) => random.number(1..=*most).into(),
        }
    }

    fn block(&self, random: &mut Random) -> Block {
        let mut number = || self.word(random) as u32;
        Block {
            start: number(),
            end: number(),
            reachable: number() | 1,
            successor_count: number(),
            successor_0: number(),
            successor_1: number(),
        }
    }
}
