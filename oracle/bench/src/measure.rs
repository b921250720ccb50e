//! The time of a call of the port, and of the Rust, on the same sheet.

use crate::classes::Class;
use compare::reader::read;
use compare_flow::expected::{Known, Outcome};
use compare_flow::flow_c::{self, Block};
use compare_flow::plan::Plan;
use kagari_oracle::{Budget, BytecodeFunction, function, sheet, verify_function};
use std::hint::black_box;
use std::time::{Duration, Instant};

/// A round repeats short calls until it takes about this long.
const ROUND: Duration = Duration::from_micros(300);

/// About how long one class is measured.
const PATIENCE: Duration = Duration::from_millis(1_200);

/// At least and at most so many rounds.
const ROUNDS: std::ops::RangeInclusive<u32> = 11..=401;

/// A script, ready to be judged by either.
pub struct Subject {
    sheet: Vec<u8>,
    function: BytecodeFunction,
    blocks: Vec<Block>,
    sets: Vec<u64>,
    scratch: Vec<u64>,
    expected: Outcome,
    /// What the script is like.
    pub size: Size,
}

/// What a script is like.
#[derive(Debug, Clone, Copy)]
pub struct Size {
    /// N.
    pub count: usize,
    /// w.
    pub words: usize,
    /// The parameters.
    pub parameters: usize,
    /// B.
    pub blocks: usize,
    /// The edges between blocks.
    pub edges: usize,
    /// The reachable awaits.
    pub awaits: usize,
    /// The charged work.
    pub work: u64,
}

/// The medians over all rounds, in nanoseconds a call.
#[derive(Debug, Clone, Copy)]
pub struct Times {
    /// The port, from the bytes of the sheet.
    pub ours: f64,
    /// The Rust, from its own structures.
    pub rust: f64,
    /// The Rust, from the bytes of the sheet.
    pub rust_from_bytes: f64,
}

impl Subject {
    /// Lays a script out for both.
    pub fn new(class: &Class) -> Self {
        let sheet = sheet(&class.script);
        let known = Known::new(&sheet);
        let lengths = Plan::plain().lengths(&known);
        let expected = known.expected(Budget::default(), lengths);
        assert_eq!(expected.answer.number, 0, "{} is accepted", class.name);
        Self {
            sheet,
            function: function(&class.script),
            blocks: vec![Block::default(); lengths.blocks],
            sets: vec![0; lengths.sets],
            scratch: vec![0; lengths.scratch],
            size: size(class, &expected),
            expected,
        }
    }

    /// Sees that both give the same, so that times of the same work are compared.
    fn agree(&mut self) {
        let work = self.expected.answer.work;
        assert_eq!([self.ours(), self.rust()], [work; 2]);
        assert!(self.blocks == self.expected.blocks);
        assert!(self.sets == self.expected.sets);
    }

    /// One call of the port. The buffers hold the answer of the call before, and the
    /// port clears what it does not fill.
    #[inline(never)]
    pub fn ours(&mut self) -> u64 {
        let answer = flow_c::verify(
            black_box(&self.sheet),
            Budget::default(),
            &mut self.blocks,
            &mut self.sets,
            &mut self.scratch,
        );
        answer.work
    }

    /// One run of the Rust over its own structures, its result given back.
    #[inline(never)]
    pub fn rust(&self) -> u64 {
        let answer = verify_function(black_box(&self.function), Budget::default());
        answer.budget.work
    }

    /// The same from the bytes: read by the plain reader, laid out as the Rust's own
    /// structures, and judged.
    #[inline(never)]
    pub fn rust_from_bytes(&self) -> u64 {
        let read = read(black_box(&self.sheet)).expect("it passes the sheet checks");
        let answer = verify_function(&function(&read.script), Budget::default());
        answer.budget.work
    }

    /// Measures all three by turns.
    pub fn measure(&mut self) -> Times {
        self.agree();
        let once = timed(1, || self.ours())
            + timed(1, || self.rust())
            + timed(1, || self.rust_from_bytes());
        let repeats = (ROUND.as_nanos() / once.as_nanos().max(1)).max(1) as u32;
        let rounds = (PATIENCE.as_nanos() / (once * repeats).as_nanos().max(1)) as u32;
        let rounds = rounds.clamp(*ROUNDS.start(), *ROUNDS.end());
        let mut times: [Vec<f64>; 3] = Default::default();
        for _ in 0..rounds {
            let round = [
                timed(repeats, || self.ours()),
                timed(repeats, || self.rust()),
                timed(repeats, || self.rust_from_bytes()),
            ];
            for (times, time) in times.iter_mut().zip(round) {
                times.push(time.as_nanos() as f64 / f64::from(repeats));
            }
        }
        let [ours, rust, rust_from_bytes] = times.map(median);
        Times {
            ours,
            rust,
            rust_from_bytes,
        }
    }
}

fn size(class: &Class, expected: &Outcome) -> Size {
    let edges = expected.blocks.iter().map(|block| block.successor_count);
    let slots = class.script.slots.len();
    Size {
        count: class.script.code.len(),
        words: slots.div_ceil(64),
        parameters: class.script.parameters.len(),
        blocks: expected.blocks.len(),
        edges: edges.sum::<u32>() as usize,
        awaits: expected.answer.awaits as usize,
        work: expected.answer.work,
    }
}

fn timed(repeats: u32, mut call: impl FnMut() -> u64) -> Duration {
    let begun = Instant::now();
    for _ in 0..repeats {
        black_box(call());
    }
    begun.elapsed()
}

fn median(mut times: Vec<f64>) -> f64 {
    times.sort_by(f64::total_cmp);
    times[times.len() / 2]
}
