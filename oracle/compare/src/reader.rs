//! A plain reader of sheets, written from document 01 alone: "The sheet", and rows 1 to
//! 9 of the "Refusal table"; and from request 2: row 17.

use kagari_oracle::{ABSENT, Field, Instruction, Script, SlotType, Type, pattern};
use std::collections::BTreeSet;
use std::iter;

/// A sheet that passes: what it says, and where.
#[derive(Debug, Clone, PartialEq, Eq)]
pub struct Read {
    /// What the sheet says.
    pub script: Script,
    /// The offset of the first parameter number: where the parameter record's body is.
    pub params_at: usize,
    /// The number of parameters.
    pub params: usize,
    /// The offset of the first slot record.
    pub slots_at: usize,
    /// The offset of the first instruction record.
    pub code_at: usize,
    /// The number of instructions of kind 1, reached or not.
    pub awaits: usize,
}

/// A sheet that is refused.
#[derive(Debug, Clone, Copy, PartialEq, Eq)]
pub struct Refused {
    /// The row of the refusal table, 1 to 9 or 17.
    pub number: u32,
    /// The function's id, 0 until the function record has passed 1 to 3.
    pub id: u32,
}

// The rows of the refusal table.
const SHORT_SHEET: u32 = 1;
const WRONG_KIND: u32 = 2;
const BAD_BODY: u32 = 3;
const LEFT_OVER: u32 = 4;
const TOO_MANY: u32 = 5;
const NO_CODE: u32 = 6;
const NO_SUCH_SLOT: u32 = 7;
const NO_SUCH_TARGET: u32 = 8;
const OPEN_END: u32 = 9;
const PARAMETER_TWICE: u32 = 17;

// The kinds of the records that are no instructions.
const FUNCTION: u16 = 256;
const PARAMETERS: u16 = 257;
const SLOT: u16 = 258;

/// The bytes of a record before its body: length and kind.
const HEAD: usize = 4;

/// The most slots, and the most instructions.
const MOST: u32 = 65_536;

const HIGHEST_PHYSICAL: u8 = 12;
const HIGHEST_MODULE_SLOT: u32 = 65_535;

/// The most tuples inside one another.
const DEEPEST: usize = 16;

/// Reads a sheet, record by record. The first bad record decides, and within a record
/// the number that stands first in 1, 2, 3, 5, 6, 7, 8, 17; then 4, then 9.
pub fn read(sheet: &[u8]) -> Result<Read, Refused> {
    let mut left = sheet;
    let [id, slots, count] =
        function_record(&mut left).map_err(|number| Refused { number, id: 0 })?;
    let refused = |number| Refused { number, id };

    if slots > MOST || count > MOST {
        return Err(refused(TOO_MANY));
    }
    if count == 0 {
        return Err(refused(NO_CODE));
    }

    let params_at = sheet.len() - left.len() + HEAD;
    let parameters = parameter_record(&mut left, slots).map_err(refused)?;

    let slots_at = sheet.len() - left.len();
    let mut types = Vec::new();
    for _ in 0..slots {
        types.push(slot_record(&mut left).map_err(refused)?);
    }

    let code_at = sheet.len() - left.len();
    let mut code = Vec::new();
    for _ in 0..count {
        code.push(instruction_record(&mut left, slots, count).map_err(refused)?);
    }

    if !left.is_empty() {
        return Err(refused(LEFT_OVER));
    }
    if !matches!(code[code.len() - 1].kind, 12 | 38..=41) {
        return Err(refused(OPEN_END));
    }
    Ok(Read {
        params_at,
        params: parameters.len(),
        slots_at,
        code_at,
        awaits: code.iter().filter(|item| item.kind == 1).count(),
        script: Script {
            id,
            slots: types,
            parameters,
            code,
        },
    })
}

/// Takes one record off the bytes left: its kind and its body.
fn record<'a>(left: &mut &'a [u8]) -> Result<(u16, &'a [u8]), u32> {
    let Some((&[l0, l1, k0, k1], _)) = left.split_first_chunk::<HEAD>() else {
        return Err(SHORT_SHEET);
    };
    let length = usize::from(u16::from_le_bytes([l0, l1]));
    let after_length = left.len() - 2;
    if length < 2 || after_length < length {
        return Err(SHORT_SHEET);
    }
    let (record, rest) = left.split_at(2 + length);
    *left = rest;
    Ok((u16::from_le_bytes([k0, k1]), &record[HEAD..]))
}

/// Takes one record of the kind that is due: its body.
fn record_of<'a>(left: &mut &'a [u8], due: u16) -> Result<&'a [u8], u32> {
    let (kind, body) = record(left)?;
    if kind != due {
        return Err(WRONG_KIND);
    }
    Ok(body)
}

/// The function record's id, slot count and instruction count.
fn function_record(left: &mut &[u8]) -> Result<[u32; 3], u32> {
    let body = record_of(left, FUNCTION)?;
    let numbers = numbers(body).ok_or(BAD_BODY)?;
    numbers.try_into().map_err(|_| BAD_BODY)
}

fn parameter_record(left: &mut &[u8], slots: u32) -> Result<Vec<u32>, u32> {
    let body = record_of(left, PARAMETERS)?;
    let parameters = numbers(body).ok_or(BAD_BODY)?;
    if parameters.iter().any(|&slot| slot >= slots) {
        return Err(NO_SUCH_SLOT);
    }
    let different: BTreeSet<u32> = parameters.iter().copied().collect();
    if different.len() < parameters.len() {
        return Err(PARAMETER_TWICE);
    }
    Ok(parameters)
}

fn slot_record(left: &mut &[u8]) -> Result<SlotType, u32> {
    let body = record_of(left, SLOT)?;
    let (&physical, type_bytes) = body.split_first().ok_or(BAD_BODY)?;
    let (ty, rest) = read_type(type_bytes, 0).ok_or(BAD_BODY)?;
    if physical > HIGHEST_PHYSICAL || !rest.is_empty() {
        return Err(BAD_BODY);
    }
    Ok(SlotType { physical, ty })
}

/// The type at the start of the bytes, inside `depth` tuples, and the bytes after it.
fn read_type(bytes: &[u8], depth: usize) -> Option<(Type, &[u8])> {
    let (&first, rest) = bytes.split_first()?;
    match first {
        0 if depth == 0 => Some((Type::Absent, rest)),
        1 => Some((Type::Other, rest)),
        2 => Some((Type::Host, rest)),
        3 => Some((Type::Reference, rest)),
        4 if depth < DEEPEST => {
            let (&count, rest) = rest.split_first()?;
            let (items, rest) = read_items(rest, count, depth + 1)?;
            Some((Type::Tuple(items), rest))
        }
        _ => None,
    }
}

/// So many types, each inside `depth` tuples, and the bytes after them.
fn read_items(bytes: &[u8], count: u8, depth: usize) -> Option<(Vec<Type>, &[u8])> {
    let mut items = Vec::new();
    let mut left = bytes;
    for _ in 0..count {
        let (item, rest) = read_type(left, depth)?;
        items.push(item);
        left = rest;
    }
    Some((items, left))
}

fn instruction_record(left: &mut &[u8], slots: u32, count: u32) -> Result<Instruction, u32> {
    let (kind, body) = record(left)?;
    let pattern = pattern(kind).ok_or(WRONG_KIND)?;
    let fields = numbers(body).ok_or(BAD_BODY)?;
    if !fits(pattern, fields.len()) {
        return Err(BAD_BODY);
    }
    // What remains after the pattern's end belongs to the list that it ends with.
    let roles = pattern.iter().chain(iter::repeat(&Field::Rest));
    let refusals = roles
        .zip(&fields)
        .filter_map(|(&role, &field)| refusal(role, field, slots, count));
    // Within a record the lowest number decides, whichever field it comes from.
    if let Some(number) = refusals.min() {
        return Err(number);
    }
    Ok(Instruction { kind, fields })
}

/// Whether a pattern takes so many fields.
fn fits(pattern: &[Field], fields: usize) -> bool {
    match pattern.split_last() {
        Some((Field::Rest, before)) => fields >= before.len(),
        _ => fields == pattern.len(),
    }
}

/// The number that a field is refused with, if it is.
fn refusal(role: Field, field: u32, slots: u32, count: u32) -> Option<u32> {
    let (bad, number) = match role {
        Field::Output | Field::Input | Field::Rest => (field >= slots, NO_SUCH_SLOT),
        Field::OptionalOutput | Field::OptionalInput => {
            (field != ABSENT && field >= slots, NO_SUCH_SLOT)
        }
        Field::Target => (field >= count, NO_SUCH_TARGET),
        Field::ModuleSlot => (field > HIGHEST_MODULE_SLOT, BAD_BODY),
    };
    bad.then_some(number)
}

/// A body of little-endian u32, if it is one.
fn numbers(body: &[u8]) -> Option<Vec<u32>> {
    let (numbers, rest) = body.as_chunks::<4>();
    if !rest.is_empty() {
        return None;
    }
    Some(numbers.iter().map(|&n| u32::from_le_bytes(n)).collect())
}
