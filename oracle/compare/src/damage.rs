//! Damage to scripts and to sheets.

use crate::random::Random;
use crate::scripts::nested;
use kagari_oracle::{ABSENT, Instruction, Script, Type};
use std::ops::Range;

/// Does one thing to a script that may make its sheet one to refuse. The script has an
/// instruction before and after.
pub fn spoil(random: &mut Random, script: &mut Script) {
    let (slots, count) = (script.slots.len() as u32, script.code.len() as u32);
    let edges = [
        0,
        slots.wrapping_sub(1),
        slots,
        slots + 1,
        count - 1,
        count,
        count + 1,
        65_535,
        65_536,
        ABSENT - 1,
        ABSENT,
    ];
    let at = random.below(script.code.len());
    match random.number(0..=9) {
        0..=3 => {
            let edge = random.pick(&edges);
            if let Some(field) = any(random, &mut script.code[at].fields) {
                *field = edge;
            }
        }
        4 if random.once_in(2) && !script.parameters.is_empty() => {
            repeat(random, &mut script.parameters);
        }
        4 => {
            let edge = random.pick(&edges);
            if let Some(parameter) = any(random, &mut script.parameters) {
                *parameter = edge;
            }
        }
        5 => script.code[at].kind = any_kind(random),
        6 if random.once_in(2) => script.code[at].fields.push(0),
        6 => drop(script.code[at].fields.pop()),
        7 => {
            let physical = random.pick(&[12, 13, 255]);
            let ty = match random.number(0..=2) {
                0 => nested(random, 16),
                1 => nested(random, 17),
                _ => Type::Tuple(vec![Type::Absent]),
            };
            let of_type = random.once_in(2);
            if let Some(slot) = any(random, &mut script.slots) {
                if of_type {
                    slot.ty = ty;
                } else {
                    slot.physical = physical;
                }
            }
        }
        8 if random.once_in(2) && count > 1 => drop(script.code.remove(at)),
        8 => drop(script.slots.pop()),
        _ => script.code.push(Instruction::new(13, [ABSENT, ABSENT])),
    }
}

/// Names one of the parameters a second time, at any place.
pub fn repeat(random: &mut Random, parameters: &mut Vec<u32>) {
    let again = random.pick(parameters);
    let place = random.below(parameters.len() + 1);
    parameters.insert(place, again);
}

/// Does one thing to the bytes of a sheet that may make it one to refuse.
pub fn damage(random: &mut Random, sheet: &mut Vec<u8>) {
    if sheet.is_empty() {
        return;
    }
    let at = random.below(sheet.len());
    match random.number(0..=12) {
        0 | 1 => sheet[at] = random.bits() as u8,
        2 => sheet[at] ^= 1 << random.number(0..=7),
        3 => sheet.insert(at, random.bits() as u8),
        4 => drop(sheet.remove(at)),
        5 => sheet.truncate(at),
        _ => damage_record(random, sheet),
    }
}

/// The same, to a whole record or a field of one.
fn damage_record(random: &mut Random, sheet: &mut Vec<u8>) {
    let records = records(sheet);
    if records.is_empty() {
        return;
    }
    // The first three records are as likely as all the others.
    let among = if random.once_in(2) { 3 } else { records.len() };
    let place = random.below(among.min(records.len()));
    let record = records[place].clone();
    match random.number(0..=6) {
        0 => {
            let other = records[random.below(records.len())].clone();
            swap(sheet, record, other);
        }
        1 => drop(sheet.drain(record)),
        2 => {
            let again = sheet[record.clone()].to_vec();
            sheet.splice(record.end..record.end, again);
        }
        3 => {
            let length = any_length(random, (record.len() - 2) as u16);
            sheet[record.start..][..2].copy_from_slice(&length.to_le_bytes());
        }
        4 => {
            let kind = any_kind(random);
            sheet[record.start + 2..][..2].copy_from_slice(&kind.to_le_bytes());
        }
        _ => {
            let number = any_number(random);
            let (numbers, _) = sheet[record.start + 4..record.end].as_chunks_mut::<4>();
            if let Some(field) = any(random, numbers) {
                *field = number.to_le_bytes();
            }
        }
    }
}

/// Where the records lie, as far as their lengths go.
pub fn records(sheet: &[u8]) -> Vec<Range<usize>> {
    let mut found = Vec::new();
    let mut at = 0;
    while let Some(&length) = sheet[at..].first_chunk::<2>() {
        let length = usize::from(u16::from_le_bytes(length));
        let end = at + 2 + length;
        if length < 2 || end > sheet.len() {
            break;
        }
        found.push(at..end);
        at = end;
    }
    found
}

fn swap(sheet: &mut [u8], one: Range<usize>, other: Range<usize>) {
    let (a, b) = if one.start < other.start {
        (one, other)
    } else {
        (other, one)
    };
    if a == b {
        return;
    }
    let between = a.end..b.start;
    let parts = [&sheet[b.clone()], &sheet[between], &sheet[a.clone()]];
    let swapped = parts.concat();
    sheet[a.start..b.end].copy_from_slice(&swapped);
}

fn any<'a, T>(random: &mut Random, items: &'a mut [T]) -> Option<&'a mut T> {
    if items.is_empty() {
        return None;
    }
    let place = random.below(items.len());
    Some(&mut items[place])
}

/// A kind, mostly one that is none or belongs elsewhere.
fn any_kind(random: &mut Random) -> u16 {
    match random.number(0..=2) {
        0 => random.number(0..=43) as u16,
        1 => random.number(255..=300) as u16,
        _ => random.bits() as u16,
    }
}

fn any_length(random: &mut Random, length: u16) -> u16 {
    match random.number(0..=3) {
        0 => random.number(0..=20) as u16,
        1 => length.wrapping_add(random.pick(&[1, 2, 4, 8])),
        2 => length.wrapping_sub(random.pick(&[1, 2, 4, 8])),
        _ => random.bits() as u16,
    }
}

fn any_number(random: &mut Random) -> u32 {
    match random.number(0..=3) {
        0 => random.number(0..=3),
        1 => random.number(0..=400),
        2 => random.pick(&[65_535, 65_536, 65_537, ABSENT - 1, ABSENT]),
        _ => random.bits() as u32,
    }
}
