//! What the program `replay` is run on: document 01's cases, which are written by hand,
//! and after them a sample of the Rust's answers.

use crate::expected::{Known, Lengths, Outcome};
use crate::flow_c::Answer;
use crate::generate::family;
use crate::report::{NUMBERS, name};
use compare::random::Random;
use kagari_oracle::Budget;
use std::collections::BTreeSet;
use std::ops::RangeInclusive;

const HEAD: &str = "\
# What replay is run on; stdout has the answers. First document 01's cases, which are written by hand (answers/cases.in and cases.out), then a
# sample of what kagari's flow verifier, the Rust, answers. src/main.rt says how to read a line. Both files are written, in the folder oracle, by
#
#     cargo run --release -p compare-flow --bin answers

";

/// What replay can lend.
const MOST: Lengths = Lengths {
    blocks: 64,
    sets: 512,
    scratch: 8_192,
};

/// A part of the sample.
struct Part {
    /// The families that it is drawn from.
    families: &'static [&'static str],
    /// How many bytes its sheets have.
    bytes: RangeInclusive<usize>,
    /// The fewest slots of a sheet.
    slots: usize,
    /// How many calls of each number it has. 11 asks for longer sheets, and there is no 16.
    calls: [usize; NUMBERS],
}

const PARTS: [Part; 4] = [
    Part {
        families: &[
            "small",
            "structured",
            "graphs",
            "awaits",
            "any",
            "parameters",
            "spoiled",
            "damaged",
            "noise",
        ],
        bytes: 0..=200,
        slots: 0,
        calls: [
            100, 20, 25, 40, 20, 12, 12, 40, 25, 20, 50, 0, 50, 50, 20, 20, 0, 40,
        ],
    },
    Part {
        families: &["awaits"],
        bytes: 0..=200,
        slots: 0,
        calls: [60, 0, 0, 0, 0, 0, 0, 0, 0, 0, 20, 0, 20, 10, 30, 30, 0, 0],
    },
    // Sets of more than one word.
    Part {
        families: &["structured", "graphs", "awaits"],
        bytes: 0..=1_000,
        slots: 65,
        calls: [20, 0, 0, 0, 0, 0, 0, 0, 0, 0, 5, 0, 5, 5, 5, 5, 0, 0],
    },
    // Longer lists of parameters, some of more than 32.
    Part {
        families: &["parameters"],
        bytes: 500..=1_000,
        slots: 0,
        calls: [10, 0, 0, 0, 0, 0, 0, 5, 0, 0, 0, 0, 0, 0, 0, 0, 0, 20],
    },
];

const SEED: u64 = 1_986;

/// Replay's files `stdin` and `stdout`, whole.
pub fn texts() -> [String; 2] {
    let mut stdin = HEAD.to_string() + include_str!("../../../answers/cases.in");
    let mut stdout = include_str!("../../../answers/cases.out").to_string();
    let mut numbers = BTreeSet::new();
    for (place, call) in sample().iter().enumerate() {
        let number = call.outcome.answer.number;
        if numbers.insert(number) {
            let name = name(number);
            stdin.push_str(&format!("\n# the sample: {number}, {name}\n"));
        }
        let name = format!("s{:03}", place + 1);
        stdin.push_str(&(call.asked(&name) + "\n"));
        stdout.push_str(&(printed(&name, &call.outcome) + "\n"));
    }
    [stdin, stdout]
}

/// A call of the sample.
struct Call {
    sheet: Vec<u8>,
    given: Budget,
    lengths: Lengths,
    outcome: Outcome,
}

impl Call {
    /// The line that asks replay for the call.
    fn asked(&self, name: &str) -> String {
        let Budget { work, retained } = self.given;
        let Lengths {
            blocks,
            sets,
            scratch,
        } = self.lengths;
        let mut sheet: String = self.sheet.iter().map(|b| format!("{b:02x}")).collect();
        if sheet.is_empty() {
            sheet.push('.');
        }
        format!("{name} {work} {retained} {blocks} {sets} {scratch} {sheet}")
    }
}

/// The line that replay prints of a call.
pub fn printed(name: &str, outcome: &Outcome) -> String {
    let Answer {
        number,
        function,
        blocks,
        awaits,
        work,
        retained,
    } = outcome.answer;
    let list = outcome.blocks.iter().flat_map(|block| {
        [
            block.start,
            block.end,
            block.reachable,
            block.successor_count,
            block.successor_0,
            block.successor_1,
        ]
    });
    let list: String = list.map(|word| format!(" {word:x}")).collect();
    let sets: String = outcome.sets.iter().map(|w| format!(" {w:x}")).collect();
    let left_over = outcome.scratch.iter().filter(|&&word| word != 0).count();
    format!(
        "{name} {number} {function} {blocks} {awaits} {work} {retained} |{list} |{sets} | {left_over}"
    )
}

/// All calls, by number and length. There is one for a sheet, so that there are many
/// sheets.
fn sample() -> Vec<Call> {
    let mut random = Random::new(SEED);
    let mut sheets = BTreeSet::new();
    let mut calls = Vec::new();
    for part in PARTS {
        let mut left = part.calls;
        for name in part.families.iter().cycle() {
            if left == [0; NUMBERS] {
                break;
            }
            let Some(call) = draw(&mut random, name, &part) else {
                continue;
            };
            let left = &mut left[call.outcome.answer.number as usize];
            if *left > 0 && sheets.insert(call.sheet.clone()) {
                *left -= 1;
                calls.push(call);
            }
        }
    }
    calls.sort_by_key(|call| (call.outcome.answer.number, call.sheet.len()));
    calls
}

/// A call of a family, if it fits the part.
fn draw(random: &mut Random, name: &str, part: &Part) -> Option<Call> {
    let family = family(name);
    let sheet = (family.draw)(random);
    if !part.bytes.contains(&sheet.len()) {
        return None;
    }
    let known = Known::new(&sheet);
    let slots = known.read.as_ref().map_or(0, |passed| passed.slots);
    // The first plan is the plain one; the others are plain now and then.
    let plans = (family.plans)(random, &known);
    let plan = random.pick(&plans[1..]);
    let lengths = plan.lengths(&known);
    let fits = slots >= part.slots && MOST.suffice(lengths);
    fits.then(|| Call {
        outcome: known.expected(plan.budget, lengths),
        sheet,
        given: plan.budget,
        lengths,
    })
}
