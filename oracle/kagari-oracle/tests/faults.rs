//! Which of several faults decides, and which slots count as host slots.

use kagari_oracle::cases::*;
use kagari_oracle::{Budget, Script, SlotType, Type, verify};

const BYTES_LIMIT: u64 = 67_108_864;

/// The number of the refusal, 0 for an acceptance.
fn number(script: &Script, retained: u64) -> u32 {
    let answer = verify(script, Budget { work: 0, retained });
    answer.result.err().unwrap_or(0)
}

/// Blocks go by start: a host handle in the first wins over an unfilled read in a
/// later one.
#[test]
fn earlier_block_wins() {
    let slots = [host(), plain(), plain()];
    let code = [await_value(1, 0), jump(2), return_value(2)];
    assert_eq!(number(&script(slots, [0, 1], code), 0), 14);
}

/// In one block all reads are checked before any await.
#[test]
fn unfilled_read_wins_in_one_block() {
    let slots = [host(), plain(), plain()];
    let code = [await_value(1, 0), return_value(2)];
    assert_eq!(number(&script(slots, [0, 1], code), 0), 13);
}

/// The awaits of a block are seen from the back.
#[test]
fn later_await_wins_in_one_block() {
    let (over_host, over_plain) = (await_value(0, 0), await_value(1, 1));
    let awaits = [over_host.clone(), over_plain.clone(), return_absent()];
    let exchanged = [over_plain, over_host, return_absent()];
    let number = |code| number(&script([host(), plain()], [0, 1], code), BYTES_LIMIT);
    assert_eq!(number(awaits), 15);
    assert_eq!(number(exchanged), 14);
}

/// Case d with slot 0 of each physical byte and type.
#[test]
fn host_slots() {
    let with = |physical, ty: &Type| {
        let mut script = case_d();
        script.slots[0] = SlotType {
            physical,
            ty: ty.clone(),
        };
        number(&script, 0)
    };
    let tuple = |items: &[Type]| Type::Tuple(items.to_vec());
    let harmless = [
        Type::Absent,
        Type::Other,
        tuple(&[]),
        tuple(&[Type::Other, tuple(&[Type::Other])]),
    ];
    let hosts = [
        Type::Host,
        Type::Reference,
        tuple(&[Type::Other, Type::Host]),
        tuple(&[Type::Other, tuple(&[tuple(&[]), Type::Reference])]),
    ];
    for physical in 0..=12 {
        for ty in &harmless {
            let due = if physical == 10 { 14 } else { 0 };
            assert_eq!(with(physical, ty), due, "physical {physical}, {ty:?}");
        }
        for ty in &hosts {
            assert_eq!(with(physical, ty), 14, "physical {physical}, {ty:?}");
        }
    }
}
