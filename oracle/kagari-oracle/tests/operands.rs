//! Kinds, bodies and operands: the variants that `instruction` builds against the
//! order of the source and the patterns of document 01.

use kagari_bytecode::instruction::{BytecodeInstruction, CallTarget, Slot, Unread};
use kagari_oracle::{
    ABSENT, Field, KINDS, instruction, pattern, slot_inputs, slot_output, targets,
};

/// The variants of `BytecodeInstruction`, in the order of the source.
const VARIANTS: [&str; KINDS as usize] = [
    "Await",
    "Convert",
    "Numeric",
    "Iter",
    "LoadConst",
    "LoadModule",
    "StoreModule",
    "Move",
    "Unary",
    "Binary",
    "BinaryOperands",
    "PredicateBranch",
    "Call",
    "MakeTuple",
    "RangeBound",
    "MakeRange",
    "RepeatArray",
    "MakeArray",
    "MakeFuture",
    "MakeClosure",
    "MakeCell",
    "ReadCell",
    "WriteCell",
    "UpcastInterface",
    "MakeInterface",
    "MakeStruct",
    "MakeEnum",
    "TestEnumVariant",
    "ReadEnumPayload",
    "ReadAggregateField",
    "WriteAggregateField",
    "ReadAggregateIndex",
    "WriteAggregateIndex",
    "ReadPath",
    "SetPath",
    "ModifyPath",
    "MakePathView",
    "Jump",
    "Branch",
    "Return",
    "Unreachable",
];

/// A body in which every field is another number, the list has three items, and
/// optional fields are absent if asked; each number with its role.
fn body(kind: u16, absent: bool) -> Vec<(Field, u32)> {
    let mut next = 100..;
    let mut fields = Vec::new();
    for &field in pattern(kind).expect("a kind") {
        let count = if field == Field::Rest { 3 } else { 1 };
        for number in next.by_ref().take(count) {
            let optional = matches!(field, Field::OptionalOutput | Field::OptionalInput);
            fields.push((field, if optional && absent { ABSENT } else { number }));
        }
    }
    fields
}

/// The numbers of a body that have one of these roles and are not absent.
fn numbers_of(body: &[(Field, u32)], roles: &[Field]) -> Vec<u32> {
    let present = |(role, number): &(Field, u32)| roles.contains(role) && *number != ABSENT;
    body.iter()
        .filter(|field| present(field))
        .map(|&(_, number)| number)
        .collect()
}

#[test]
fn kinds_follow_the_order_of_the_source() {
    for (kind, name) in (1..).zip(VARIANTS) {
        let fields: Vec<u32> = body(kind, false)
            .into_iter()
            .map(|(_, number)| number)
            .collect();
        let built = format!("{:?}", instruction(kind, &fields));
        let variant = built.split([' ', '(']).next();
        assert_eq!(variant, Some(name), "kind {kind}");
    }
    for kind in [0, KINDS + 1, 256] {
        assert_eq!(pattern(kind), None, "kind {kind}");
    }
}

#[test]
fn operands_are_the_fields_of_the_patterns() {
    use Field::{Input, OptionalInput, OptionalOutput, Output, Rest, Target};
    for kind in 1..=KINDS {
        for absent in [false, true] {
            let body = body(kind, absent);
            let fields: Vec<u32> = body.iter().map(|&(_, number)| number).collect();

            let output = numbers_of(&body, &[Output, OptionalOutput]);
            assert_eq!(
                slot_output(kind, &fields),
                output.first().copied(),
                "kind {kind}"
            );

            // The source names the list first and the slots before it afterwards.
            let mut inputs = numbers_of(&body, &[Rest]);
            inputs.extend(numbers_of(&body, &[Input, OptionalInput]));
            assert_eq!(slot_inputs(kind, &fields), inputs, "kind {kind}");

            assert_eq!(
                targets(kind, &fields),
                numbers_of(&body, &[Target]),
                "kind {kind}"
            );
        }
    }
}

#[test]
fn repeats_are_kept() {
    assert_eq!(slot_inputs(13, &[5, 5, 5, 6, 5]), [5, 6, 5, 5]);
    assert_eq!(slot_inputs(36, &[ABSENT, 1, 1, 1]), [1, 1, 1]);
    assert_eq!(targets(39, &[0, 4, 4]), [4, 4]);
}

/// Both callees that are slots are read alike, last; the other callees read nothing.
#[test]
fn callees() {
    let inputs = |callee| {
        let args = vec![Slot::new(1), Slot::new(2)];
        let call = BytecodeInstruction::Call {
            dst: None,
            callee,
            args,
        };
        call.slot_inputs()
            .into_iter()
            .map(Slot::index)
            .collect::<Vec<_>>()
    };
    let register = CallTarget::ClosureRegister {
        register: Slot::new(9),
        params: Unread,
        return_type: Unread,
    };
    assert_eq!(inputs(CallTarget::Slot(Slot::new(9))), [1, 2, 9]);
    assert_eq!(inputs(register), [1, 2, 9]);
    let others = [
        CallTarget::Shared {
            module: Unread,
            target: Unread,
            contract: Unread,
        },
        CallTarget::ModuleFunction {
            module: Unread,
            function: Unread,
        },
        CallTarget::Function(Unread),
        CallTarget::InterfaceMethod {
            module: Unread,
            contract: Unread,
        },
        CallTarget::Native(Unread),
        CallTarget::RuntimePrimitive(Unread),
        CallTarget::RuntimeHelper(Unread),
    ];
    for callee in others {
        assert_eq!(inputs(callee.clone()), [1, 2], "{callee:?}");
    }
}
