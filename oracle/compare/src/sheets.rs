//! The sheets on which sheet checks are compared, the same in every run. Some pass,
//! and each of the numbers 1 to 9 and 17 comes up often.

use crate::damage::{damage, spoil};
use crate::parameters::{MOST, MOST_SLOTS, lengths, pairs, sheet_of, twice};
use crate::random::Random;
use crate::scripts;
use kagari_oracle::cases::*;
use kagari_oracle::{ABSENT, Field, Instruction, KINDS, Script, SlotType, Type, pattern, sheet};
use std::fmt::Arguments;

/// What is called with each sheet, and with what it is.
pub type Check<'a> = dyn FnMut(&[u8], Arguments) + 'a;

/// Calls the check with each of its sheets.
pub type Family = fn(&mut Check);

/// All families, by name.
pub const FAMILIES: [(&str, Family); 15] = [
    ("cuts", cuts),
    ("bytes", bytes),
    ("heads", heads),
    ("function records", function_records),
    ("types", types),
    ("operands", operands),
    ("parameters", parameters),
    ("faults in one record", faults_in_one_record),
    ("faults in many records", faults_in_many_records),
    ("ends", ends),
    ("spoiled scripts", spoiled_scripts),
    ("damaged sheets", damaged_sheets),
    ("most", most),
    ("longest", longest),
    ("noise", noise),
];

const FUNCTION: u16 = 256;
const PARAMETERS: u16 = 257;
const SLOT: u16 = 258;

/// Cases a to l of document 01.
fn cases_a_to_l() -> Vec<(&'static str, Script)> {
    vec![
        ("a", case_a()),
        ("b", case_b()),
        ("c", case_c()),
        ("d", case_d()),
        ("e", case_e()),
        ("f", case_f()),
        ("g", case_g()),
        ("h", case_h()),
        ("h filled", case_h_filled()),
        ("i", case_i()),
        ("j", case_j()),
        ("k, target 1", case_k(1)),
        ("k, target 2", case_k(2)),
        ("l", case_l()),
    ]
}

/// An instruction of each kind, which asks for at least two slots and two
/// instructions. Nothing is absent, and a list has two items.
fn of_each_kind() -> impl Iterator<Item = Instruction> {
    (1..=KINDS).map(|kind| {
        let pattern = pattern(kind).expect("a kind of the table");
        let fields = pattern.iter().flat_map(|field| match field {
            Field::Rest => vec![0, 1],
            Field::ModuleSlot => vec![65_535],
            _ => vec![1],
        });
        Instruction::new(kind, fields.collect::<Vec<u32>>())
    })
}

fn unreachable_code() -> Instruction {
    Instruction::new(41, [])
}

/// Cases a to l, cut at every byte.
fn cuts(check: &mut Check) {
    for (name, script) in cases_a_to_l() {
        let sheet = sheet(&script);
        for length in 0..=sheet.len() {
            let name = format_args!("case {name}, {length} bytes");
            check(&sheet[..length], name);
        }
    }
}

/// Cases a to l and a sheet with each kind; every byte has every value.
fn bytes(check: &mut Check) {
    for (name, script) in cases_a_to_l() {
        every_byte(check, &script, format_args!("case {name}"));
    }
    for instruction in of_each_kind() {
        let name = instruction.kind;
        let tuple = Type::Tuple(vec![Type::Host, Type::Tuple(vec![])]);
        let slot = SlotType {
            physical: 9,
            ty: tuple,
        };
        let script = script([plain(), slot], [1], [instruction, return_absent()]);
        every_byte(check, &script, format_args!("kind {name}"));
    }
}

fn every_byte(check: &mut Check, script: &Script, name: Arguments) {
    let mut sheet = sheet(script);
    for place in 0..sheet.len() {
        let before = sheet[place];
        for value in 0..=u8::MAX {
            sheet[place] = value;
            check(&sheet, format_args!("{name}, byte {place} is {value}"));
        }
        sheet[place] = before;
    }
}

/// Cases a to l with another kind, another length or both in one record, the bytes
/// behind them as they were.
fn heads(check: &mut Check) {
    let highest = [32_767, 32_768, 65_531, 65_532, 65_533, 65_534, 65_535];
    for (name, script) in cases_a_to_l() {
        let mut sheet = sheet(&script);
        let mut at = 0;
        while at < sheet.len() {
            let length = u16::from_le_bytes([sheet[at], sheet[at + 1]]);
            let kind = u16::from_le_bytes([sheet[at + 2], sheet[at + 3]]);
            let kinds = (0..=520).chain(highest).map(|kind| (length, kind));
            let lengths = (0..=150).chain(highest);
            let both = lengths.flat_map(|length| [(length, kind), (length, 42)]);
            for (length, kind) in kinds.chain(both) {
                set_head(&mut sheet, at, length, kind);
                let name = format_args!("case {name}, length {length}, kind {kind} at {at}");
                check(&sheet, name);
            }
            set_head(&mut sheet, at, length, kind);
            at += 2 + usize::from(length);
        }
    }
}

fn set_head(sheet: &mut [u8], at: usize, length: u16, kind: u16) {
    sheet[at..at + 2].copy_from_slice(&length.to_le_bytes());
    sheet[at + 2..at + 4].copy_from_slice(&kind.to_le_bytes());
}

/// Function records with counts at their edges, of each length up to some, and what
/// follows them in case d, or nothing.
fn function_records(check: &mut Check) {
    let counts = [
        0,
        1,
        2,
        3,
        65_535,
        65_536,
        65_537,
        131_072,
        0x0100_0000,
        ABSENT,
    ];
    let ids = [0, 1, 7, 65_536, 0x8000_0000, ABSENT];
    let rest = &sheet(&case_d())[16..];
    for id in ids {
        for slots in counts {
            for count in counts {
                for length in [0, 4, 8, 11, 12, 13, 16] {
                    let numbers = numbers(&[id, slots, count, 0]);
                    let function = record(FUNCTION, &numbers[..length]);
                    let name = format_args!("id {id}, {slots} slots, N {count}, {length} bytes");
                    check(&function, name);
                    check(&[&function, rest].concat(), name);
                }
            }
        }
    }
}

/// A sheet with one slot of this body.
fn sheet_of_slot(body: &[u8]) -> Vec<u8> {
    [
        record(FUNCTION, &numbers(&[7, 1, 1])),
        record(PARAMETERS, &[]),
        record(SLOT, body),
        record(41, &[]),
    ]
    .concat()
}

/// All short types; types at the edge of the depth, alone and beside others; long
/// tuples; physical bytes.
fn types(check: &mut Check) {
    let mut try_type = |bytes: &[u8]| {
        let sheet = sheet_of_slot(&[&[3], bytes].concat());
        check(&sheet, format_args!("type {bytes:?}"));
    };

    // Every string over the bytes 0 to 5 of up to six bytes.
    for length in 0..=6 {
        for number in 0..6_u32.pow(length) {
            let digit = |place| (number / 6_u32.pow(place) % 6) as u8;
            let bytes: Vec<u8> = (0..length).map(digit).collect();
            try_type(&bytes);
        }
    }

    let ends: [&[u8]; 10] = [
        &[],
        &[0],
        &[1],
        &[2],
        &[3],
        &[4],
        &[5],
        &[4, 0],
        &[4, 1, 1],
        &[1, 1],
    ];
    for depth in 0..=40 {
        for end in ends {
            let deep = [&[4, 1].repeat(depth), end].concat();
            try_type(&deep);
            // As an item between others, and after one that is as deep.
            try_type(&[&[4, 3, 4, 0], &deep[..], &[1]].concat());
            try_type(&[&[4, 2], &deep[..], &deep[..]].concat());
        }
    }
    // Tuples side by side are not deep.
    for count in [0, 1, 15, 16, 17, 127, 128, 254, 255] {
        for item in ends {
            let items = item.repeat(usize::from(count));
            try_type(&[&[4, count], &items[..]].concat());
            try_type(&[&[4, count], &items[..], &[1]].concat());
        }
    }
    let mut random = Random::new(1);
    for _ in 0..4_000 {
        let tuples = random.number(13..=18);
        let mut bytes = type_bytes(&scripts::nested(&mut random, tuples));
        try_type(&bytes);
        let place = random.below(bytes.len());
        bytes[place] = random.number(0..=5) as u8;
        try_type(&bytes);
    }

    for physical in 0..=u8::MAX {
        for ty in [&[][..], &[0], &[1], &[5], &[4, 0], &[0, 0]] {
            let sheet = sheet_of_slot(&[&[physical], ty].concat());
            check(&sheet, format_args!("physical {physical}, type {ty:?}"));
        }
    }
    check(&sheet_of_slot(&[]), format_args!("an empty slot record"));
}

fn type_bytes(ty: &Type) -> Vec<u8> {
    let slot = SlotType {
        physical: 0,
        ty: ty.clone(),
    };
    let sheet = sheet(&script([slot], [], []));
    sheet[16 + 4 + 5..].to_vec()
}

/// Each field of each kind, and parameters, at the edges of both counts.
fn operands(check: &mut Check) {
    for slots in [0, 1, 2, 63, 64, 65, 300_u32] {
        for count in [1, 2, 3, 300_u32] {
            let edges = [
                0,
                slots.saturating_sub(1),
                slots,
                slots + 1,
                count - 1,
                count,
                count + 1,
                64,
                65_535,
                65_536,
                ABSENT - 1,
                ABSENT,
            ];
            let mut script = Script {
                slots: vec![plain(); slots as usize],
                code: vec![unreachable_code(); count as usize],
                ..script([], [], [])
            };
            for instruction in of_each_kind() {
                let fields = vec![0; instruction.fields.len()];
                for place in 0..fields.len() {
                    for edge in edges {
                        script.code[0] = Instruction::new(instruction.kind, &fields[..]);
                        script.code[0].fields[place] = edge;
                        let name = format_args!("{slots} slots, N {count}, {:?}", script.code[0]);
                        check(&sheet(&script), name);
                    }
                }
            }
            script.code[0] = unreachable_code();
            for edge in edges {
                for parameters in [vec![edge], vec![0, edge], vec![edge, 0], vec![0, 0]] {
                    script.parameters = parameters;
                    let name = format_args!("{slots} slots, parameters {:?}", script.parameters);
                    check(&sheet(&script), name);
                }
            }
        }
    }
}

/// Lists of parameters of all lengths in which all differ, or one slot is named twice,
/// with all slots named, with some more, and with as many as there may be.
fn parameters(check: &mut Check) {
    for length in lengths() {
        for more in [0, 1, 70] {
            lists(check, length, length + more);
        }
    }
    for length in [1, 2, 31, 32, 33, 34, 80, MOST] {
        lists(check, length, MOST_SLOTS);
    }
    // Slots of one bit in words that lie all distances apart: no two are the same.
    for length in [30, 1_024] {
        for bit in [0, 1, 31, 32, 63] {
            let list: Vec<u32> = (0..length).map(|word| 64 * word + bit).collect();
            let name = format_args!("bit {bit} of {length} words");
            check(&sheet_of(MOST_SLOTS, &list), name);
        }
    }
}

/// Lists of one length over so many slots.
fn lists(check: &mut Check, length: u32, slots: u32) {
    let mut checked = |list: &[u32], name: Arguments| {
        let name = format_args!("{length} parameters of {slots} slots, {name}");
        check(&sheet_of(slots, list), name);
    };
    let list = Random::new(length.into()).distinct(length, slots);
    checked(&list, format_args!("all differ"));
    let lowest: Vec<u32> = (0..length).collect();
    checked(&lowest, format_args!("ascending"));
    let highest: Vec<u32> = (slots - length..slots).rev().collect();
    checked(&highest, format_args!("descending"));
    for [one, other] in pairs(length) {
        let name = format_args!("places {one} and {other}");
        let twice = twice(&list, [one, other]);
        checked(&twice, format_args!("{name} the same"));
        // A slot that is none comes first, wherever it stands.
        for (beyond, place) in [
            (slots, 0),
            (slots, list.len() - 1),
            (ABSENT, list.len() / 2),
        ] {
            let mut none = twice.clone();
            none[place] = beyond;
            checked(&none, format_args!("{name} the same, {beyond} at {place}"));
        }
        let mut absent = list.clone();
        absent[one] = ABSENT;
        absent[other] = ABSENT;
        checked(&absent, format_args!("{name} absent"));
    }
    if length > 1 {
        let same = vec![slots - 1; length as usize];
        checked(&same, format_args!("all the same"));
    }
}

/// Each kind with each choice of fields out of bounds, with a body that is cut or has
/// bytes added, as the first of two instructions and as the last.
fn faults_in_one_record(check: &mut Check) {
    let before = [
        record(FUNCTION, &numbers(&[7, 2, 2])),
        record(PARAMETERS, &[]),
        record(SLOT, &[3, 0]).repeat(2),
    ]
    .concat();
    let other = record(41, &[]);
    for instruction in of_each_kind() {
        let kind = instruction.kind;
        for choice in 0..1 << instruction.fields.len() {
            let mut fields = instruction.fields.clone();
            for (place, field) in fields.iter_mut().enumerate() {
                if choice >> place & 1 == 1 {
                    *field = 70_000;
                }
            }
            let longer = [numbers(&fields), vec![0; 8]].concat();
            for length in 0..=longer.len() {
                let one = record(kind, &longer[..length]);
                let name = format_args!("kind {kind}, fields {fields:?}, {length} bytes");
                check(&[&before[..], &one, &other].concat(), name);
                check(&[&before[..], &other, &one].concat(), name);
            }
        }
    }
}

/// Sheets with a choice of faults in every record, and at the end.
fn faults_in_many_records(check: &mut Check) {
    let head = |slots, count| record(FUNCTION, &numbers(&[7, slots, count]));
    let functions = [
        head(1, 2),
        head(65_537, 2),
        head(1, 65_537),
        head(1, 0),
        head(65_537, 0),
        record(FUNCTION, &numbers(&[7, 65_537])),
        record(PARAMETERS, &numbers(&[7, 1, 2])),
        record(PARAMETERS, &numbers(&[7, 1])),
    ];
    let parameters = [
        record(PARAMETERS, &numbers(&[0])),
        record(PARAMETERS, &numbers(&[1])),
        record(PARAMETERS, &numbers(&[0, 0])),
        record(PARAMETERS, &numbers(&[0, 0, 1])),
        record(PARAMETERS, &[0, 0, 0]),
        record(SLOT, &numbers(&[1])),
    ];
    let slots = [
        record(SLOT, &[3, 0]),
        record(SLOT, &[13, 0]),
        record(SLOT, &[3, 5]),
        record(FUNCTION, &[3, 0]),
    ];
    let firsts = [
        record(39, &numbers(&[0, 0, 1])),
        record(39, &numbers(&[1, 0, 1])),
        record(39, &numbers(&[0, 0, 2])),
        record(39, &numbers(&[1, 2, 1])),
        record(39, &numbers(&[1, 2])),
        record(42, &numbers(&[1, 2])),
        record(6, &numbers(&[1, 65_536])),
        record(6, &numbers(&[0, 65_535])),
    ];
    let lasts = [
        record(40, &numbers(&[0])),
        record(40, &numbers(&[1])),
        record(8, &numbers(&[0, 0])),
        record(8, &numbers(&[0, 1])),
    ];
    let ends = [vec![], vec![0], record(41, &[]), record(42, &[0])];
    for function in &functions {
        for parameters in &parameters {
            for slot in &slots {
                for first in &firsts {
                    for last in &lasts {
                        for end in &ends {
                            let sheet =
                                [&function[..], parameters, slot, first, last, end].concat();
                            check(&sheet, format_args!("whole"));
                            check(&sheet[..sheet.len() - 1], format_args!("cut by one byte"));
                        }
                    }
                }
            }
        }
    }
}

/// Random scripts with each kind as the last instruction, with bytes or records after
/// it, and cut there.
fn ends(check: &mut Check) {
    for seed in 0..400 {
        let mut random = Random::new(seed);
        let mut script = scripts::script(&mut random);
        let (slots, count) = (script.slots.len() as u32, script.code.len() as u32);
        if slots == 0 {
            continue;
        }
        let kind = (seed % u64::from(KINDS)) as u16 + 1;
        *script.code.last_mut().expect("an instruction") =
            scripts::instruction(&mut random, kind, slots, count);
        let whole = sheet(&script);
        let longer = [&whole[..], &sheet(&case_d())[..]].concat();
        let name = format_args!("seed {seed}, kind {kind} is last");
        for length in whole.len() - 12..=longer.len() {
            check(&longer[..length], format_args!("{name}, {length} bytes"));
        }
        let again = [&whole[..], &whole[..]].concat();
        check(&again, format_args!("{name}, the sheet twice"));
    }
}

/// Random scripts that pass, and the same with one to three things spoiled.
fn spoiled_scripts(check: &mut Check) {
    for seed in 0..10_000 {
        let mut random = Random::new(seed);
        let script = scripts::script(&mut random);
        check(&sheet(&script), format_args!("seed {seed}, as it was"));
        for round in 1..=6 {
            let mut spoiled = script.clone();
            for _ in 0..random.number(1..=3) {
                spoil(&mut random, &mut spoiled);
            }
            check(&sheet(&spoiled), format_args!("seed {seed}, round {round}"));
        }
    }
}

/// Sheets of random scripts with one to four things damaged.
fn damaged_sheets(check: &mut Check) {
    for seed in 0..10_000 {
        let mut random = Random::new(!seed);
        let sheet = sheet(&scripts::script(&mut random));
        for round in 1..=12 {
            let mut damaged = sheet.clone();
            for _ in 0..random.number(1..=4) {
                damage(&mut random, &mut damaged);
            }
            check(&damaged, format_args!("seed {seed}, round {round}"));
        }
    }
}

/// Sheets with 65,536 slots or instructions, or nearly so many.
fn most(check: &mut Check) {
    for slots in [0, 1, 65_535, 65_536, 65_537] {
        for count in [1, 2, 65_535, 65_536, 65_537] {
            if slots < 65_535 && count < 65_535 {
                continue;
            }
            let filling = match slots {
                0 => unreachable_code(),
                _ => await_value(slots - 1, 0),
            };
            let mut code = vec![filling; count as usize];
            code[0] = jump(count - 1);
            code[count as usize - 1] = unreachable_code();
            let script = Script {
                slots: vec![plain(); slots as usize],
                code,
                ..script([], [], [])
            };
            most_of(check, &script);
        }
    }
}

fn most_of(check: &mut Check, script: &Script) {
    let (slots, count) = (script.slots.len() as u32, script.code.len() as u32);
    let last = script.code.len() - 1;
    let mut checked = |script: &Script, name: &str| {
        let name = format_args!("{slots} slots, N {count}, {name}");
        check(&sheet(script), name);
    };
    checked(script, "as it is");

    let mut other = script.clone();
    other.parameters = vec![slots.saturating_sub(1)];
    checked(&other, "the last slot a parameter");
    other.parameters = vec![slots];
    checked(&other, "one past the last slot a parameter");

    let replaced = [
        return_value(slots.saturating_sub(1)),
        return_value(slots),
        jump(count - 1),
        jump(count),
        load_const(0),
        Instruction::new(41, [0]),
        Instruction::new(42, []),
    ];
    for instruction in replaced {
        let mut other = script.clone();
        other.code[last] = instruction;
        checked(&other, &format!("last {:?}", other.code[last]));
    }
    let mut other = script.clone();
    if let Some(slot) = other.slots.last_mut() {
        slot.physical = 13;
        checked(&other, "the last physical byte 13");
    }

    let longer = [&sheet(script)[..], &[0]].concat();
    for length in [longer.len(), longer.len() - 2] {
        let name = format_args!("{slots} slots, N {count}, {length} bytes");
        check(&longer[..length], name);
    }
}

/// Records of about 65,535 bytes: parameters, instructions of each kind, and a type.
fn longest(check: &mut Check) {
    const LENGTHS: [usize; 8] = [
        65_500, 65_528, 65_529, 65_530, 65_531, 65_532, 65_533, 16_384,
    ];
    let head = |slots| record(FUNCTION, &numbers(&[7, slots, 2]));
    let slots = |count: u32| record(SLOT, &[3, 0]).repeat(count as usize);
    let end = record(40, &numbers(&[2]));
    let none = record(PARAMETERS, &[]);
    for length in LENGTHS {
        for fault in [None, Some(0), Some(length / 8), Some(length / 4 - 1)] {
            for kind in (1..=KINDS).chain([PARAMETERS]) {
                let many = length.div_ceil(4) as u32;
                // Parameters differ; what an instruction reads need not.
                let (count, mut fields): (u32, Vec<u32>) = if kind == PARAMETERS {
                    (many, (0..many).rev().collect())
                } else {
                    (3, vec![1; many as usize])
                };
                if let Some(place) = fault {
                    fields[place] = count;
                }
                let body = &numbers(&fields)[..length];
                let long = record(kind, body);
                let (head, slots) = (head(count), slots(count));
                let sheet = if kind == PARAMETERS {
                    [&head[..], &long, &slots, &end, &end].concat()
                } else {
                    [&head[..], &none, &slots, &long, &end].concat()
                };
                let name = format_args!("kind {kind}, {length} bytes, fault {fault:?}");
                check(&sheet, name);
                check(&sheet[..sheet.len() - end.len() - 1], name);
                check(&sheet[..length + 40], name);
            }
        }
    }

    // 254 tuples of 255 items and one of 250, in one tuple: 65,532 bytes.
    let long = [&[4, 255], &[1; 255][..]].concat();
    let short = [&[4, 250], &[1; 250][..]].concat();
    let body = [&[3, 4, 255], &long.repeat(254)[..], &short[..]].concat();
    assert_eq!(body.len(), 65_533);
    check(&sheet_of_slot(&body), format_args!("the longest type"));
    let mut random = Random::new(2);
    for _ in 0..200 {
        let (place, value) = (random.below(body.len()), random.number(0..=5) as u8);
        let cut = sheet_of_slot(&body[..place]);
        check(&cut, format_args!("the longest type, cut to {place} bytes"));
        let mut damaged = body.clone();
        damaged[place] = value;
        let name = format_args!("the longest type, byte {place} is {value}");
        check(&sheet_of_slot(&damaged), name);
    }
}

/// No bytes, random bytes, and random bytes after the first records of a sheet.
fn noise(check: &mut Check) {
    check(&[], format_args!("no bytes"));
    let sheet = sheet(&case_d());
    for seed in 0..10_000 {
        let mut random = Random::new(seed);
        let kept = random.pick(&[0, 0, 2, 4, 16, 20, 24, 28, 30, 36, 40]);
        let highest = random.pick(&[4, 41, 255]);
        let length = random.number(0..=120);
        let noise = (0..length).map(|_| random.number(0..=highest) as u8);
        let bytes: Vec<u8> = sheet[..kept].iter().copied().chain(noise).collect();
        check(&bytes, format_args!("seed {seed}"));
    }
}

/// A record of any kind and body.
fn record(kind: u16, body: &[u8]) -> Vec<u8> {
    let length = u16::try_from(body.len() + 2).expect("a record's length is a u16");
    [&length.to_le_bytes(), &kind.to_le_bytes(), body].concat()
}

fn numbers(fields: &[u32]) -> Vec<u8> {
    fields
        .iter()
        .flat_map(|field| field.to_le_bytes())
        .collect()
}
