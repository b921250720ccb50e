//! The operand table of the port against `slot_inputs`, `slot_output` and the targets
//! of the source.

use compare::operands_c::{input, input_count, output, target, target_count};
use compare::random::Random;
use kagari_oracle::{ABSENT, Field, KINDS, pattern, slot_inputs, slot_output, targets};

const BODIES_PER_KIND: u64 = 3_000;

/// The longest list: its record's length still fits a u16.
const LONGEST_LIST: u32 = 16_000;

fn kinds() -> impl Iterator<Item = (u16, &'static [Field])> {
    (1..=KINDS).map(|kind| (kind, pattern(kind).expect("a kind of the table")))
}

/// A body of a kind, as fields. Which lengths of the list come up goes by `round`.
fn fields(random: &mut Random, pattern: &[Field], round: u64) -> Vec<u32> {
    let mut fields = Vec::new();
    for field in pattern {
        match field {
            Field::Output | Field::Input | Field::Target => fields.push(present(random)),
            Field::OptionalOutput | Field::OptionalInput => {
                let absent = random.once_in(2);
                fields.push(if absent { ABSENT } else { present(random) });
            }
            Field::ModuleSlot => fields.push(random.number(0..=65_535)),
            Field::Rest => {
                let items = list_length(random, round);
                fields.extend((0..items).map(|_| present(random)));
            }
        }
    }
    fields
}

/// A slot or target: small ones, so that there are repeats, and any but [`ABSENT`].
fn present(random: &mut Random) -> u32 {
    let highest = match random.number(0..=2) {
        0 => 3,
        1 => 65_535,
        _ => ABSENT - 1,
    };
    random.number(0..=highest)
}

fn list_length(random: &mut Random, round: u64) -> u32 {
    match round {
        0 => 0,
        1 => LONGEST_LIST,
        2..=4 => random.number(0..=LONGEST_LIST),
        _ if random.once_in(50) => random.number(0..=400),
        _ => random.number(0..=6),
    }
}

fn bytes(fields: &[u32]) -> Vec<u8> {
    fields
        .iter()
        .flat_map(|field| field.to_le_bytes())
        .collect()
}

/// Places at and above a count, also such as wrap to a place below it when they are
/// cut to 32 bits or multiplied by four.
fn places_past(count: u64) -> [u64; 7] {
    [
        count,
        count + 1,
        count + 17,
        1 << 32,
        1 << 62,
        u64::MAX - 1,
        u64::MAX,
    ]
}

#[test]
fn operands_agree_with_the_source() {
    let mut random = Random::new(1);
    for (kind, pattern) in kinds() {
        for round in 0..BODIES_PER_KIND {
            let fields = fields(&mut random, pattern, round);
            agree(kind, &fields);
        }
    }
}

fn agree(kind: u16, fields: &[u32]) {
    let (number, body) = (u64::from(kind), bytes(fields));
    let shown = || format!("kind {kind}, fields {:?}", &fields[..fields.len().min(12)]);

    let inputs = slot_inputs(kind, fields);
    let count = inputs.len() as u64;
    assert_eq!(input_count(number, &body), Some(count), "{}", shown());
    for (k, &slot) in (0..).zip(&inputs) {
        let found = input(number, &body, k);
        assert_eq!(found, Some(u64::from(slot)), "input {k}, {}", shown());
    }
    for k in places_past(count) {
        assert_eq!(input(number, &body, k), None, "input {k}, {}", shown());
    }

    let slot = slot_output(kind, fields).map(u64::from);
    assert_eq!(output(number, &body), slot, "output, {}", shown());

    let targets = targets(kind, fields);
    let count = targets.len() as u64;
    assert_eq!(target_count(number, &body), Some(count), "{}", shown());
    for (k, &to) in (0..).zip(&targets) {
        let found = target(number, &body, k);
        assert_eq!(found, Some(u64::from(to)), "target {k}, {}", shown());
    }
    for k in places_past(count) {
        assert_eq!(target(number, &body, k), None, "target {k}, {}", shown());
    }
}

#[test]
fn bodies_that_do_not_fit() {
    let mut random = Random::new(2);
    for (kind, pattern) in kinds() {
        let with_list = pattern.last() == Some(&Field::Rest);
        let fixed = if with_list {
            pattern.len() - 1
        } else {
            pattern.len()
        };
        for round in 10..110 {
            let fitting = bytes(&fields(&mut random, pattern, round));
            agree_on_nothing(u64::from(kind), &fitting, |length| {
                let (items, rest) = (length / 4, length % 4);
                rest != 0 || items < fixed || (items > fixed && !with_list)
            });
        }
    }
}

#[test]
fn kinds_that_do_not_exist() {
    let mut random = Random::new(3);
    let none = [
        0,
        42,
        43,
        255,
        256,
        257,
        65_535,
        65_537,
        1 << 32 | 1,
        u64::MAX - 40,
        u64::MAX,
    ];
    for kind in none {
        for (_, pattern) in kinds() {
            let fitting_another = bytes(&fields(&mut random, pattern, 10));
            agree_on_nothing(kind, &fitting_another, |_| true);
        }
    }
}

/// Of each shorter and somewhat longer body whose length is a misfit, nothing is
/// answered.
fn agree_on_nothing(kind: u64, body: &[u8], misfit: impl Fn(usize) -> bool) {
    let longer = [body, &[0; 9]].concat();
    for length in (0..=longer.len()).filter(|&length| misfit(length)) {
        let body = &longer[..length];
        let shown = || format!("kind {kind}, {length} bytes");
        assert_eq!(input_count(kind, body), None, "{}", shown());
        assert_eq!(output(kind, body), None, "{}", shown());
        assert_eq!(target_count(kind, body), None, "{}", shown());
        for k in [0, 1, u64::MAX] {
            assert_eq!(input(kind, body, k), None, "input {k}, {}", shown());
            assert_eq!(target(kind, body, k), None, "target {k}, {}", shown());
        }
    }
}
