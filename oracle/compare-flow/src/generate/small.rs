//! All scripts of up to three instructions over one or two slots, from a few kinds.

use compare::random::Random;
use kagari_oracle::cases::*;
use kagari_oracle::{Instruction, Script, SlotType};

/// Calls the check with each script of up to `longest` instructions over so many slots,
/// with each choice of parameters and of one host slot or none.
pub fn every_small(slots: u32, longest: usize, check: &mut dyn FnMut(&Script)) {
    for count in 1..=longest {
        let kinds = instructions(slots, count as u32);
        for parameters in choices(slots) {
            for host in (0..slots).map(Some).chain([None]) {
                let mut script = empty(slots, &parameters, host);
                fill(&mut script, &kinds, count, check);
            }
        }
    }
}

/// One of these scripts.
pub fn script(random: &mut Random) -> Script {
    let slots = random.number(0..=2);
    let count = random.number(1..=3);
    let kinds = instructions(slots, count);
    let endings = kinds.iter().filter(|item| ends(item));
    let endings: Vec<Instruction> = endings.cloned().collect();
    let parameters = choices(slots);
    let parameters = &parameters[random.below(parameters.len())];
    let host = random.number(0..=2 * slots);
    let mut script = empty(slots, parameters, (host < slots).then_some(host));
    for place in 1..=count {
        let among = if place == count { &endings } else { &kinds };
        script.code.push(among[random.below(among.len())].clone());
    }
    script
}

/// The instructions of the kinds that matter to the flow: an await, a write, a jump, a
/// branch, a return of a slot and of nothing.
fn instructions(slots: u32, count: u32) -> Vec<Instruction> {
    let mut found = vec![return_absent()];
    for target in 0..count {
        found.push(jump(target));
    }
    for slot in 0..slots {
        found.extend([load_const(slot), return_value(slot)]);
        found.extend((0..slots).map(|dst| await_value(dst, slot)));
        for then_target in 0..count {
            found.extend((0..count).map(|target| branch(slot, then_target, target)));
        }
    }
    found
}

fn ends(instruction: &Instruction) -> bool {
    instruction.kind >= 38
}

/// All subsets of the slots.
fn choices(slots: u32) -> Vec<Vec<u32>> {
    match slots {
        0 => vec![vec![]],
        1 => vec![vec![], vec![0]],
        _ => vec![vec![], vec![0], vec![1], vec![1, 0]],
    }
}

fn empty(slots: u32, parameters: &[u32], host_slot: Option<u32>) -> Script {
    let slot = |slot| {
        if Some(slot) == host_slot {
            host()
        } else {
            plain()
        }
    };
    let slots: Vec<SlotType> = (0..slots).map(slot).collect();
    Script {
        id: 7,
        slots,
        parameters: parameters.to_vec(),
        code: vec![],
    }
}

/// Fills the code up to `count` instructions in each way.
fn fill(script: &mut Script, kinds: &[Instruction], count: usize, check: &mut dyn FnMut(&Script)) {
    if script.code.len() == count {
        return check(script);
    }
    let last = script.code.len() + 1 == count;
    for instruction in kinds.iter().filter(|item| !last || ends(item)) {
        script.code.push(instruction.clone());
        fill(script, kinds, count, check);
        script.code.pop();
    }
}
