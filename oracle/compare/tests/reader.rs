//! The plain reader on the sheets of document 01 and at the edges of its rules, and on
//! all sheets of the comparisons.

use compare::parameters::{lengths, pairs, sheet_of, twice};
use compare::random::Random;
use compare::reader::{Read, Refused, read};
use compare::scripts;
use compare::sheets::FAMILIES;
use kagari_oracle::cases::*;
use kagari_oracle::{ABSENT, Instruction, Script, SlotType, Type, sheet};

/// The number of a script's refusal, which carries its id, or 0.
fn number(script: &Script) -> u32 {
    number_of(&sheet(script), script.id)
}

fn number_of(sheet: &[u8], id: u32) -> u32 {
    match read(sheet) {
        Ok(read) => {
            assert_eq!(read.script.id, id);
            0
        }
        Err(refused) => {
            assert_eq!(refused.id, id, "refusal {}", refused.number);
            refused.number
        }
    }
}

/// The bytes that document 01 prints.
#[test]
fn case_d_with_id_7() {
    let expected = Read {
        script: case_d(),
        params_at: 20,
        params: 1,
        slots_at: 24,
        code_at: 36,
        awaits: 1,
    };
    assert_eq!(read(&CASE_D_SHEET), Ok(expected));
}

#[test]
fn cases() {
    assert_eq!(number(&case_a()), 6);
    let passing = [
        case_b(),
        case_c(),
        case_d(),
        case_e(),
        case_f(),
        case_g(),
        case_h(),
        case_h_filled(),
        case_i(),
        case_k(1),
    ];
    for script in passing {
        let read = read(&sheet(&script)).expect("it passes");
        assert_eq!(read.script, script);
    }
    assert_eq!(number(&case_j()), 9);
    assert_eq!(number(&case_k(2)), 8);
    assert_eq!(number(&case_l()), 7);
}

#[test]
fn short_sheets() {
    let refused = |number, id| Err(Refused { number, id });
    let sheet = sheet(&case_d());
    for length in 0..sheet.len() {
        let id = if length < 16 { 0 } else { 7 };
        assert_eq!(read(&sheet[..length]), refused(1, id), "{length} bytes");
    }
    // Lengths below 2.
    for record in [0, 16, 24, 30, 36, 48] {
        for length in [0, 1] {
            let mut sheet = sheet.clone();
            sheet[record] = length;
            let id = if record < 16 { 0 } else { 7 };
            assert_eq!(read(&sheet), refused(1, id), "{length} at {record}");
        }
    }
    // 1 before 2.
    assert_eq!(read(&[2, 0, 9]), refused(1, 0));
    assert_eq!(read(&[3, 0, 9, 9]), refused(1, 0));
    assert_eq!(read(&[2, 0, 9, 9]), refused(2, 0));
}

/// 4,294,967,295 in each kind of field.
#[test]
fn absent() {
    let first = |kind, fields: &[u32]| {
        let instruction = Instruction::new(kind, fields);
        number(&script(
            [plain()],
            [],
            [instruction, Instruction::new(41, [])],
        ))
    };
    assert_eq!(first(8, &[ABSENT, 0]), 7);
    assert_eq!(first(8, &[0, ABSENT]), 7);
    assert_eq!(first(14, &[0, 0, ABSENT]), 7);
    assert_eq!(first(38, &[ABSENT]), 8);
    assert_eq!(first(6, &[0, ABSENT]), 3);
    assert_eq!(first(7, &[ABSENT, 0]), 3);
    let parameter = script([plain()], [ABSENT], [return_absent()]);
    assert_eq!(number(&parameter), 7);

    assert_eq!(first(3, &[0, 0, ABSENT]), 0);
    assert_eq!(first(3, &[0, 0, ABSENT - 1]), 7);
    assert_eq!(first(12, &[ABSENT, ABSENT, 0, 1]), 0);
    assert_eq!(first(13, &[ABSENT, ABSENT]), 0);
    assert_eq!(first(13, &[ABSENT, ABSENT, ABSENT]), 7);
    assert_eq!(first(36, &[ABSENT, 0, 0]), 0);
}

/// A script with one slot of a type.
fn of_type(ty: Type) -> Script {
    let slot = SlotType { physical: 3, ty };
    script([slot], [], [return_absent()])
}

fn tuples(depth: u32, inner: Type) -> Type {
    (0..depth).fold(inner, |ty, _| Type::Tuple(vec![ty]))
}

#[test]
fn types() {
    let empty = || Type::Tuple(vec![]);
    assert_eq!(number(&of_type(Type::Absent)), 0);
    assert_eq!(number(&of_type(empty())), 0);
    assert_eq!(number(&of_type(tuples(1, Type::Absent))), 3);

    assert_eq!(number(&of_type(tuples(16, Type::Other))), 0);
    assert_eq!(number(&of_type(tuples(17, Type::Other))), 3);
    assert_eq!(number(&of_type(tuples(15, empty()))), 0);
    assert_eq!(number(&of_type(tuples(16, empty()))), 3);

    // Tuples side by side.
    let deep = || tuples(15, Type::Host);
    let wide = Type::Tuple(vec![deep(), empty(), deep()]);
    assert_eq!(number(&of_type(wide)), 0);
    assert_eq!(number(&of_type(Type::Tuple(vec![empty(); 255]))), 0);

    let mut physical = of_type(Type::Absent);
    physical.slots[0].physical = 12;
    assert_eq!(number(&physical), 0);
    physical.slots[0].physical = 13;
    assert_eq!(number(&physical), 3);
}

/// A type ends where its record ends.
#[test]
fn ends_of_types() {
    let with_body = |body: &[u8]| {
        let head = [14, 0, 0, 1, 7, 0, 0, 0, 1, 0, 0, 0, 1, 0, 0, 0];
        let slot = [&[body.len() as u8 + 2, 0, 2, 1], body].concat();
        let sheet = [&head[..], &[2, 0, 1, 1], &slot, &[2, 0, 41, 0]].concat();
        number_of(&sheet, 7)
    };
    assert_eq!(with_body(&[3, 4, 2, 1, 1]), 0);
    for body in [
        &[][..],
        &[3],
        &[3, 5],
        &[3, 255],
        &[3, 0, 0],
        &[3, 1, 1],
        &[3, 4],
        &[3, 4, 1],
        &[3, 4, 2, 1],
        &[3, 4, 2, 1, 1, 1],
        &[3, 4, 0, 1],
    ] {
        assert_eq!(with_body(body), 3, "{body:?}");
    }
}

/// The parameter record is always there.
#[test]
fn without_parameters() {
    let script = case_b();
    let bytes = sheet(&script);
    assert_eq!(bytes[16..20], [2, 0, 1, 1]);
    let expected = Read {
        script,
        params_at: 20,
        params: 0,
        slots_at: 20,
        code_at: 20,
        awaits: 0,
    };
    assert_eq!(read(&bytes), Ok(expected));
    let without = [&bytes[..16], &bytes[20..]].concat();
    assert_eq!(number_of(&without, 7), 2);
}

#[test]
fn function_records() {
    let head = |slots: u32, count: u32| {
        let mut sheet = sheet(&case_d());
        sheet[8..12].copy_from_slice(&slots.to_le_bytes());
        sheet[12..16].copy_from_slice(&count.to_le_bytes());
        number_of(&sheet, 7)
    };
    assert_eq!(head(2, 2), 0);
    assert_eq!(head(65_537, 2), 5);
    assert_eq!(head(2, 65_537), 5);
    assert_eq!(head(65_537, 0), 5);
    assert_eq!(head(2, 0), 6);
    // 65,536 of each are not too many; the third slot record is not there.
    assert_eq!(head(65_536, 65_536), 2);
    // Until the length fits there is no id.
    let mut sheet = sheet(&case_d());
    sheet[0] = 13;
    assert_eq!(read(&sheet), Err(Refused { number: 3, id: 0 }));
}

/// The first bad record decides, and within a record the lowest number.
#[test]
fn order() {
    let with = |parameter: u32, physical: u8, first: Instruction, last: Instruction| {
        let mut script = script([plain()], [parameter], [first, last]);
        script.slots[0].physical = physical;
        number(&script)
    };
    let fine = || branch(0, 0, 1);
    assert_eq!(with(0, 3, fine(), return_absent()), 0);
    assert_eq!(with(1, 13, fine(), return_absent()), 7);
    assert_eq!(with(0, 13, jump(2), return_absent()), 3);
    assert_eq!(with(0, 3, jump(2), load_const(1)), 8);
    assert_eq!(with(0, 3, fine(), load_const(1)), 7);
    assert_eq!(with(0, 3, fine(), load_const(0)), 9);

    // 2, 3, 7, 8, whichever field stands first.
    let first = |kind, fields: &[u32]| with(0, 3, Instruction::new(kind, fields), return_absent());
    assert_eq!(first(0, &[1]), 2);
    assert_eq!(first(42, &[1]), 2);
    assert_eq!(first(257, &[1]), 2);
    assert_eq!(first(39, &[1, 2]), 3);
    assert_eq!(first(41, &[1]), 3);
    assert_eq!(first(6, &[1, 65_536]), 3);
    assert_eq!(first(7, &[65_536, 1]), 3);
    assert_eq!(first(6, &[1, 65_535]), 7);
    assert_eq!(first(12, &[1, 0, 2, 2]), 7);
    assert_eq!(first(12, &[0, 0, 0, 2]), 8);

    // 4 before 9, and after all else.
    let left_over = |script: &Script| {
        let sheet = [&sheet(script)[..], &[0]].concat();
        number_of(&sheet, 7)
    };
    assert_eq!(left_over(&case_d()), 4);
    assert_eq!(left_over(&case_j()), 4);
    assert_eq!(left_over(&case_l()), 7);
}

/// 17 in the parameter record after 1, 2, 3 and 7, and before all that follows.
#[test]
fn parameter_twice() {
    let with = |slots: u32, parameters: &[u32]| number_of(&sheet_of(slots, parameters), 7);
    assert_eq!(with(2, &[0, 1]), 0);
    assert_eq!(with(2, &[0, 0]), 17);
    assert_eq!(with(2, &[1, 0, 1]), 17);
    assert_eq!(with(2, &[0, 0, 2]), 7);
    assert_eq!(with(2, &[2, 0, 0]), 7);
    assert_eq!(with(2, &[2, 2]), 7);
    assert_eq!(with(2, &[ABSENT, ABSENT]), 7);
    assert_eq!(with(0, &[0, 0]), 7);

    let head = [14, 0, 0, 1, 7, 0, 0, 0, 1, 0, 0, 0, 1, 0, 0, 0];
    let zeros = [10, 0, 1, 1, 0, 0, 0, 0, 0, 0, 0, 0];
    let after_head = |parameters: &[u8]| number_of(&[&head, parameters].concat(), 7);
    assert_eq!(after_head(&zeros), 17);
    assert_eq!(after_head(&[&zeros[..], &[0]].concat()), 17);
    assert_eq!(after_head(&zeros[..11]), 1);
    assert_eq!(after_head(&[&[10, 0, 2, 1], &zeros[4..]].concat()), 2);
    assert_eq!(after_head(&[&[11, 0], &zeros[2..], &[0]].concat()), 3);
    // The function record comes first.
    let no_code = [&head[..12], &[0; 4], &zeros].concat();
    assert_eq!(number_of(&no_code, 7), 6);
}

/// Of each length, lists in which all differ pass, and no other.
#[test]
fn lists_of_parameters() {
    for length in lengths() {
        let list = Random::new(length.into()).distinct(length, length + 1);
        assert_eq!(number_of(&sheet_of(length + 1, &list), 7), 0, "{length}");
        for places in pairs(length) {
            let sheet = sheet_of(length + 1, &twice(&list, places));
            assert_eq!(number_of(&sheet, 7), 17, "{length}, {places:?}");
        }
    }
}

/// What passes is laid out again as it was read; random scripts pass.
#[test]
fn scripts_come_back() {
    for seed in 0..2_000 {
        let script = scripts::script(&mut Random::new(seed));
        let read = read(&sheet(&script)).expect("it passes");
        assert_eq!(read.script, script, "seed {seed}");
        assert_eq!(read.params, script.parameters.len());
        assert_eq!(read.slots_at, read.params_at + 4 * read.params);
    }
}

/// Over all families each number comes up, and what passes is the sheet of what was
/// read.
#[test]
fn families() {
    let mut numbers = [0; 18];
    for (name, family) in FAMILIES {
        family(&mut |bytes, description| match read(bytes) {
            Ok(read) => {
                assert!(sheet(&read.script) == bytes, "{name}, {description}");
                numbers[0] += 1;
            }
            Err(refused) => numbers[refused.number as usize] += 1,
        });
    }
    for number in (0..=9).chain([17]) {
        let times = numbers[number];
        assert!(times >= 1_000, "{number} came up {times} times");
    }
    println!("{} sheets, {numbers:?}", numbers.iter().sum::<u32>());
}
