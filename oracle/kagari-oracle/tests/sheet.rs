//! The layout of sheets.

use kagari_oracle::cases::*;
use kagari_oracle::{Script, Type, sheet};

/// The bytes that document 01 prints.
#[test]
fn case_d_with_id_7() {
    assert_eq!(case_d().id, 7);
    assert_eq!(sheet(&case_d()), CASE_D_SHEET);
}

/// Without slots or parameters the parameter record is still there.
#[test]
fn without_slots() {
    let head = [0x0E, 0, 0, 1, 7, 0, 0, 0, 0, 0, 0, 0, 1, 0, 0, 0];
    let parameters = [2, 0, 1, 1];
    let return_absent = [6, 0, 40, 0, 0xFF, 0xFF, 0xFF, 0xFF];
    let expected = [&head[..], &parameters, &return_absent].concat();
    assert_eq!(sheet(&case_b()), expected);
}

#[test]
fn types() {
    let bytes_of = |ty: Type| {
        let mut slot = plain();
        slot.ty = ty;
        let sheet = sheet(&Script {
            slots: vec![slot],
            ..script([], [], [])
        });
        let slot_record = &sheet[16 + 4..];
        assert_eq!(slot_record[2..5], [2, 1, 3]);
        slot_record[5..].to_vec()
    };
    assert_eq!(bytes_of(Type::Absent), [0]);
    assert_eq!(bytes_of(Type::Other), [1]);
    assert_eq!(bytes_of(Type::Host), [2]);
    assert_eq!(bytes_of(Type::Reference), [3]);
    assert_eq!(bytes_of(Type::Tuple(vec![])), [4, 0]);
    let nested = Type::Tuple(vec![Type::Tuple(vec![Type::Host]), Type::Other]);
    assert_eq!(bytes_of(nested), [4, 2, 4, 1, 2, 1]);
}
