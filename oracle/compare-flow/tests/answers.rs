//! What the program `replay` is run on: it is what the command writes today, and the
//! port and the Rust answer each of its lines so.

use compare_flow::answers::{printed, texts};
use compare_flow::expected::{Lengths, expected};
use compare_flow::lent::called;
use compare_flow::report::{NAMES, NUMBERS};
use kagari_oracle::cases::case_n;
use kagari_oracle::{Budget, sheet};

const STDIN: &str = include_str!("../../../crates/replay/stdin");
const STDOUT: &str = include_str!("../../../crates/replay/stdout");

#[test]
fn the_files_are_up_to_date() {
    for (stored, written) in [STDIN, STDOUT].into_iter().zip(texts()) {
        for (stored, written) in stored.lines().zip(written.lines()) {
            assert_eq!(stored, written, "run the command in the head of stdin");
        }
        assert_eq!(stored.len(), written.len());
    }
}

/// Replays the lines by what replay's source says of them. Those that replay can't read
/// are left out.
#[test]
fn the_port_and_the_rust_answer_the_same() {
    let mut numbers = [0; NUMBERS];
    let mut answers = STDOUT.lines();
    for line in STDIN.lines() {
        if line.is_empty() || line.starts_with('#') {
            continue;
        }
        let answer = answers.next().expect(line);
        if answer.ends_with(" ?") {
            continue;
        }
        let (name, budget, lengths, sheet) = call(line);
        let outcome = called(&sheet, budget, lengths);
        assert_eq!(printed(name, &outcome), answer, "{line}");
        assert_eq!(expected(&sheet, budget, lengths), outcome, "{line}");
        numbers[outcome.answer.number as usize] += 1;
    }
    assert_eq!(answers.next(), None);
    assert!(numbers.iter().sum::<u32>() >= 600, "{numbers:?}");
    let came_up = |&(number, _): &(u32, _)| numbers[number as usize] > 0;
    assert!(NAMES.iter().all(came_up), "{numbers:?}");
}

/// The call that a line asks for.
fn call(line: &str) -> (&str, Budget, Lengths, Vec<u8>) {
    let decimal = |field: &str| field.parse::<u64>().expect(line);
    let length = |field| decimal(field) as usize;
    match line.split(' ').collect::<Vec<_>>()[..] {
        [name @ "n-built", blocks] => {
            let lengths = Lengths {
                scratch: 8_196,
                ..Lengths::default()
            };
            let script = case_n(decimal(blocks) as u32);
            (name, Budget::default(), lengths, sheet(&script))
        }
        [name, work, retained, blocks, sets, scratch, sheet] => {
            let budget = Budget {
                work: decimal(work),
                retained: decimal(retained),
            };
            let lengths = Lengths {
                blocks: length(blocks),
                sets: length(sets),
                scratch: length(scratch),
            };
            (name, budget, lengths, bytes(sheet))
        }
        _ => panic!("{line}"),
    }
}

/// The bytes of a sheet in hexadecimal; a dot has none.
fn bytes(sheet: &str) -> Vec<u8> {
    if sheet == "." {
        return vec![];
    }
    let (pairs, rest) = sheet.as_bytes().as_chunks::<2>();
    assert!(rest.is_empty(), "{sheet}");
    let byte = |pair: &[u8; 2]| {
        let text = str::from_utf8(pair).expect(sheet);
        u8::from_str_radix(text, 16).expect(sheet)
    };
    pairs.iter().map(byte).collect()
}
