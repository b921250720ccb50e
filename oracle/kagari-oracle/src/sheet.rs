//! The layout of a script as a sheet: document 01, "The sheet".

use crate::script::{Script, Type};

const FUNCTION: u16 = 256;
const PARAMETERS: u16 = 257;
const SLOT: u16 = 258;

/// Lays a script out as a sheet. Nothing is checked, so that sheets to be refused can
/// be laid out too.
///
/// # Panics
///
/// If a count or the length of a record does not fit its field.
pub fn sheet(script: &Script) -> Vec<u8> {
    let mut bytes = Vec::new();
    let head = [
        script.id,
        count(script.slots.len()),
        count(script.code.len()),
    ];
    record(&mut bytes, FUNCTION, &numbers(&head));
    record(&mut bytes, PARAMETERS, &numbers(&script.parameters));
    for slot in &script.slots {
        let mut body = vec![slot.physical];
        push_type(&mut body, &slot.ty);
        record(&mut bytes, SLOT, &body);
    }
    for instruction in &script.code {
        record(&mut bytes, instruction.kind, &numbers(&instruction.fields));
    }
    bytes
}

/// A record: the length of what follows it, the kind, the body.
fn record(bytes: &mut Vec<u8>, kind: u16, body: &[u8]) {
    let length = u16::try_from(body.len() + 2).expect("a record's length is a u16");
    bytes.extend(length.to_le_bytes());
    bytes.extend(kind.to_le_bytes());
    bytes.extend(body);
}

fn push_type(body: &mut Vec<u8>, ty: &Type) {
    match ty {
        Type::Absent => body.push(0),
        Type::Other => body.push(1),
        Type::Host => body.push(2),
        Type::Reference => body.push(3),
        Type::Tuple(items) => {
            body.push(4);
            body.push(u8::try_from(items.len()).expect("a tuple's count is one byte"));
            for item in items {
                push_type(body, item);
            }
        }
    }
}

fn numbers(fields: &[u32]) -> Vec<u8> {
    fields
        .iter()
        .flat_map(|field| field.to_le_bytes())
        .collect()
}

fn count(length: usize) -> u32 {
    u32::try_from(length).expect("a count is a u32")
}
