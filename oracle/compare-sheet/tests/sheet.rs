//! The sheet check of the port against the plain reader, on all nine numbers of its
//! answer.

use compare::hex::hex;
use compare::parameters::{MOST, MOST_SLOTS, lengths, pairs, sheet_of, twice};
use compare::random::Random;
use compare::reader::read;
use compare::sheets::FAMILIES;
use compare_sheet::sheet_c::{SheetFacts, check};

/// How often each number comes up at least.
const TIMES: u64 = 1_000;

/// What the check is to answer.
fn expected(sheet: &[u8]) -> SheetFacts {
    match read(sheet) {
        Ok(read) => SheetFacts {
            number: 0,
            id: read.script.id.into(),
            slots: read.script.slots.len() as u64,
            count: read.script.code.len() as u64,
            params_at: read.params_at as u64,
            params: read.params as u64,
            slots_at: read.slots_at as u64,
            code_at: read.code_at as u64,
            awaits: read.awaits as u64,
        },
        Err(refused) => SheetFacts {
            number: refused.number.into(),
            id: refused.id.into(),
            ..SheetFacts::default()
        },
    }
}

#[test]
fn the_sheet_check_agrees_with_the_reader() {
    let mut numbers = [0; 18];
    for (name, family) in FAMILIES {
        family(&mut |sheet, description| {
            let expected = expected(sheet);
            let found = check(sheet);
            assert!(
                found == expected,
                "{name}: {description}\nsheet {}\nfound    {found:?}\nexpected {expected:?}",
                hex(sheet)
            );
            numbers[expected.number as usize] += 1;
        });
    }
    for number in (0..=9).chain([17]) {
        let times = numbers[number];
        assert!(times >= TIMES, "{number} came up {times} times");
    }
}

/// A slot named twice at each end and in the middle of lists of all lengths: 17, and the
/// id alone beside it. The same lists without it pass.
#[test]
fn lists_of_parameters() {
    let refused = SheetFacts {
        number: 17,
        id: 7,
        ..SheetFacts::default()
    };
    let some_more = lengths().flat_map(|length| [(length, length), (length, length + 70)]);
    let most = [2, 32, 33, 80, MOST].map(|length| (length, MOST_SLOTS));
    for (length, slots) in some_more.chain(most) {
        let name = format_args!("{length} parameters of {slots} slots");
        let list = Random::new(slots.into()).distinct(length, slots);
        let found = check(&sheet_of(slots, &list));
        let expected = (0, u64::from(slots), u64::from(length));
        assert_eq!(
            (found.number, found.slots, found.params),
            expected,
            "{name}"
        );
        for places in pairs(length) {
            let found = check(&sheet_of(slots, &twice(&list, places)));
            assert_eq!(found, refused, "{name}, {places:?}");
        }
    }
}
