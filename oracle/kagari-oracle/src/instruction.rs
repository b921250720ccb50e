//! From kind and fields to an instruction of the source, and what the source says of
//! its operands.

use crate::script::ABSENT;
use kagari_bytecode::instruction::{
    BytecodeInstruction as I, CallTarget, JumpTarget, ModuleSlot, ScalarOperand, Slot, Unread,
};

/// The slots that an instruction reads, by the source's `slot_inputs`: its order,
/// repeats included.
///
/// # Panics
///
/// As [`instruction`] does.
pub fn slot_inputs(kind: u16, fields: &[u32]) -> Vec<u32> {
    let inputs = instruction(kind, fields).slot_inputs();
    inputs
        .into_iter()
        .map(|slot| number(slot.index()))
        .collect()
}

/// The slot that an instruction writes, by the source's `slot_output`.
///
/// # Panics
///
/// As [`instruction`] does.
pub fn slot_output(kind: u16, fields: &[u32]) -> Option<u32> {
    let output = instruction(kind, fields).slot_output();
    output.map(|slot| number(slot.index()))
}

/// The targets of an instruction, as `graph` in flow.rs takes them from the variants.
///
/// # Panics
///
/// As [`instruction`] does.
pub fn targets(kind: u16, fields: &[u32]) -> Vec<u32> {
    let targets = match instruction(kind, fields) {
        I::Jump { target } => vec![target],
        I::Branch {
            then_target,
            else_target,
            ..
        }
        | I::PredicateBranch {
            then_target,
            else_target,
            ..
        } => vec![then_target, else_target],
        _ => vec![],
    };
    targets
        .into_iter()
        .map(|target| number(target.index()))
        .collect()
}

/// The instruction of the source that a kind and its fields stand for.
///
/// # Panics
///
/// If there is no such kind, or the number of fields does not fit its
/// [`pattern()`](crate::pattern()).
pub fn instruction(kind: u16, fields: &[u32]) -> I {
    match (kind, fields) {
        (1, &[dst, value]) => I::Await {
            dst: slot(dst),
            value: slot(value),
            future: Unread,
        },
        (2, &[dst, src]) => I::Convert {
            dst: slot(dst),
            src: slot(src),
            conversion: Unread,
        },
        (3, &[dst, lhs, rhs]) => I::Numeric {
            dst: slot(dst),
            operation: Unread,
            lhs: slot(lhs),
            rhs: optional_slot(rhs),
        },
        (4, &[dst, value]) => I::Iter {
            dst: slot(dst),
            value: optional_slot(value),
            ty: Unread,
            op: Unread,
        },
        (5, &[dst]) => I::LoadConst {
            dst: slot(dst),
            constant: Unread,
        },
        (6, &[dst, module]) => I::LoadModule {
            dst: slot(dst),
            slot: module_slot(module),
        },
        (7, &[module, src]) => I::StoreModule {
            slot: module_slot(module),
            src: slot(src),
        },
        (8, &[dst, src]) => I::Move {
            dst: slot(dst),
            src: slot(src),
        },
        (9, &[dst, operand]) => I::Unary {
            dst: slot(dst),
            op: Unread,
            operand: slot(operand),
        },
        (10, &[dst, lhs, rhs]) => I::Binary {
            dst: slot(dst),
            op: Unread,
            lhs: slot(lhs),
            rhs: slot(rhs),
        },
        (11, &[dst, lhs, rhs]) => I::BinaryOperands {
            dst: slot(dst),
            op: Unread,
            lhs: scalar(lhs),
            rhs: scalar(rhs),
        },
        (12, &[lhs, rhs, then_target, else_target]) => I::PredicateBranch {
            op: Unread,
            lhs: scalar(lhs),
            rhs: scalar(rhs),
            negated: Unread,
            then_target: target(then_target),
            else_target: target(else_target),
        },
        (13, &[dst, callee, ref args @ ..]) => I::Call {
            dst: optional_slot(dst),
            callee: call_target(callee),
            args: slots(args),
        },
        (14, &[dst, ref elements @ ..]) => I::MakeTuple {
            dst: slot(dst),
            elements: slots(elements),
        },
        (15, &[dst, value]) => I::RangeBound {
            dst: slot(dst),
            value: slot(value),
            range: Unread,
            bound: Unread,
            upper: Unread,
        },
        (16, &[dst, start, end]) => I::MakeRange {
            dst: slot(dst),
            start: optional_slot(start),
            end: optional_slot(end),
            ty: Unread,
        },
        (17, &[dst, value, count]) => I::RepeatArray {
            element: Unread,
            dst: slot(dst),
            value: slot(value),
            count: slot(count),
        },
        (18, &[dst, ref elements @ ..]) => I::MakeArray {
            element: Unread,
            dst: slot(dst),
            elements: slots(elements),
        },
        (19, &[dst, ref arguments @ ..]) => I::MakeFuture {
            dst: slot(dst),
            function: Unread,
            arguments: slots(arguments),
            future: Unread,
        },
        (20, &[dst, ref captures @ ..]) => I::MakeClosure {
            dst: slot(dst),
            function: Unread,
            captures: slots(captures),
        },
        (21, &[dst, value]) => I::MakeCell {
            dst: slot(dst),
            value: slot(value),
        },
        (22, &[dst, cell]) => I::ReadCell {
            dst: slot(dst),
            cell: slot(cell),
        },
        (23, &[cell, value]) => I::WriteCell {
            cell: slot(cell),
            value: slot(value),
        },
        (24, &[dst, value]) => I::UpcastInterface {
            dst: slot(dst),
            value: slot(value),
            source: Unread,
            target: Unread,
        },
        (25, &[dst, value]) => I::MakeInterface {
            dst: slot(dst),
            value: slot(value),
            target: Unread,
        },
        (26, &[dst, ref fields @ ..]) => I::MakeStruct {
            dst: slot(dst),
            structure: Unread,
            arguments: Unread,
            fields: slots(fields),
        },
        (27, &[dst, ref fields @ ..]) => I::MakeEnum {
            dst: slot(dst),
            enumeration: Unread,
            arguments: Unread,
            variant: Unread,
            fields: slots(fields),
        },
        (28, &[dst, value]) => I::TestEnumVariant {
            dst: slot(dst),
            value: slot(value),
            enumeration: Unread,
            arguments: Unread,
            variant: Unread,
        },
        (29, &[dst, value]) => I::ReadEnumPayload {
            dst: slot(dst),
            value: slot(value),
            enumeration: Unread,
            arguments: Unread,
            variant: Unread,
            index: Unread,
        },
        (30, &[dst, base]) => I::ReadAggregateField {
            dst: slot(dst),
            base: slot(base),
            field: Unread,
        },
        (31, &[base, value]) => I::WriteAggregateField {
            base: slot(base),
            field: Unread,
            value: slot(value),
        },
        (32, &[dst, base, index]) => I::ReadAggregateIndex {
            dst: slot(dst),
            base: slot(base),
            index: slot(index),
        },
        (33, &[base, index, value]) => I::WriteAggregateIndex {
            base: slot(base),
            index: slot(index),
            value: slot(value),
        },
        (34, &[dst, root, ref args @ ..]) => I::ReadPath {
            dst: slot(dst),
            root_or_view: slot(root),
            path: Unread,
            dynamic_args: slots(args),
        },
        (35, &[root, value, ref args @ ..]) => I::SetPath {
            root_or_view: slot(root),
            path: Unread,
            dynamic_args: slots(args),
            value: slot(value),
        },
        (36, &[dst, root, value, ref args @ ..]) => I::ModifyPath {
            dst: optional_slot(dst),
            root_or_view: slot(root),
            path: Unread,
            dynamic_args: slots(args),
            op: Unread,
            value: slot(value),
        },
        (37, &[dst, root, ref args @ ..]) => I::MakePathView {
            dst: slot(dst),
            root_or_view: slot(root),
            path: Unread,
            dynamic_args: slots(args),
        },
        (38, &[to]) => I::Jump { target: target(to) },
        (39, &[cond, then_target, else_target]) => I::Branch {
            cond: slot(cond),
            then_target: target(then_target),
            else_target: target(else_target),
        },
        (40, &[value]) => I::Return(optional_slot(value)),
        (41, &[]) => I::Unreachable,
        _ => panic!("kind {kind} with {} fields is no instruction", fields.len()),
    }
}

fn slot(field: u32) -> Slot {
    Slot::new(field as usize)
}

fn slots(fields: &[u32]) -> Vec<Slot> {
    fields.iter().copied().map(slot).collect()
}

fn optional_slot(field: u32) -> Option<Slot> {
    (field != ABSENT).then(|| slot(field))
}

fn scalar(field: u32) -> ScalarOperand {
    match optional_slot(field) {
        Some(slot) => ScalarOperand::Slot(slot),
        None => ScalarOperand::Constant {
            constant: Unread,
            ty: Unread,
        },
    }
}

/// `Slot` stands for both callees that are slots: `slot_inputs` treats `Slot` and
/// `ClosureRegister` alike. `Native` stands for all that are none.
fn call_target(field: u32) -> CallTarget {
    match optional_slot(field) {
        Some(slot) => CallTarget::Slot(slot),
        None => CallTarget::Native(Unread),
    }
}

fn module_slot(field: u32) -> ModuleSlot {
    ModuleSlot::new(field as usize)
}

fn target(field: u32) -> JumpTarget {
    JumpTarget::new(field as usize)
}

fn number(index: usize) -> u32 {
    u32::try_from(index).expect("slots and targets are u32 in the source")
}
