//! Scripts written instruction by instruction, with an account of the slots that are
//! filled, so that many are accepted.

use compare::random::Random;
use compare::scripts::any_type;
use kagari_oracle::cases::{jump, return_absent};
use kagari_oracle::{ABSENT, Field, Instruction, Script, SlotType, Type, pattern};

/// The kinds that do not end a block.
const PLAIN_KINDS: [u16; 36] = {
    let mut kinds = [0; 36];
    let (mut place, mut kind) = (0, 1);
    while kind <= 37 {
        if kind != 12 {
            kinds[place] = kind;
            place += 1;
        }
        kind += 1;
    }
    kinds
};

/// What a script is to be like.
pub struct Manner {
    /// The number of slots.
    pub slots: u32,
    /// Of how many slots one is a host slot; 0 if none is.
    pub hosts: u32,
    /// Of how many slots one is a parameter; 0 if none is.
    pub parameters: u32,
    /// Of how many instructions one is an await; 0 for no more than of any other kind.
    pub awaits: u32,
    /// Of how many reads one is of any slot, filled or not, a handle or not; 0 if none.
    pub careless: u32,
    /// The most items of most lists.
    pub list: u32,
}

/// A script that is being written.
pub struct Writer<'a> {
    /// Where all choices come from.
    pub random: &'a mut Random,
    manner: Manner,
    slots: Vec<SlotType>,
    /// The slots that are no host slots.
    harmless: Vec<u32>,
    parameters: Vec<u32>,
    code: Vec<Instruction>,
}

impl<'a> Writer<'a> {
    /// Begins a script: its slots and parameters are drawn.
    pub fn new(random: &'a mut Random, manner: Manner) -> Self {
        let slots: Vec<SlotType> = (0..manner.slots)
            .map(|_| {
                let host = manner.hosts > 0 && random.once_in(manner.hosts);
                slot_type(random, host)
            })
            .collect();
        let harmless = (0..).zip(&slots).filter(|(_, slot)| !is_host(slot));
        let harmless = harmless.map(|(slot, _)| slot).collect();
        let parameters = parameters(random, &manner);
        Self {
            random,
            manner,
            slots,
            harmless,
            parameters,
            code: Vec::new(),
        }
    }

    /// The slots that are filled at the start.
    pub fn filled_by_parameters(&self) -> Filled {
        let mut filled = Filled::none(self.manner.slots);
        for &parameter in &self.parameters {
            filled.add(parameter);
        }
        filled
    }

    /// Every slot, as after code that is not reached.
    pub fn all_filled(&self) -> Filled {
        let mut filled = Filled::none(self.manner.slots);
        for slot in 0..self.manner.slots {
            filled.add(slot);
        }
        filled
    }

    /// The number of the next instruction.
    pub fn here(&self) -> u32 {
        self.code.len() as u32
    }

    /// Writes an instruction that ends no block.
    pub fn plain(&mut self, filled: &mut Filled) {
        let kind = self.plain_kind(filled);
        let instruction = self.instruction(kind, filled);
        let output = output(&instruction);
        self.code.push(instruction);
        if let Some(slot) = output {
            filled.add(slot);
        }
    }

    /// Writes a jump and says where, to be aimed later.
    pub fn jump(&mut self) -> u32 {
        self.code.push(jump(0));
        self.here() - 1
    }

    /// Writes a branch of either kind and says where, to be aimed later.
    pub fn branch(&mut self, filled: &Filled) -> u32 {
        let reads = self.can_read(filled) && self.random.once_in(2);
        let kind = if reads { 39 } else { 12 };
        let branch = self.instruction(kind, filled);
        self.code.push(branch);
        self.here() - 1
    }

    /// Sets the targets of a jump or a branch; of a jump, the first.
    pub fn aim(&mut self, place: u32, targets: [u32; 2]) {
        let instruction = &mut self.code[place as usize];
        let fields = instruction.fields.len();
        match instruction.kind {
            38 => instruction.fields[0] = targets[0],
            12 | 39 => instruction.fields[fields - 2..].copy_from_slice(&targets),
            kind => unreachable!("kind {kind} has no targets"),
        }
    }

    /// Writes an instruction after which nothing comes.
    pub fn leave(&mut self, filled: &Filled) {
        let instruction = match self.random.number(0..=5) {
            0 => Instruction::new(41, []),
            1 => return_absent(),
            _ => self.instruction(40, filled),
        };
        self.code.push(instruction);
    }

    /// The script as it was written.
    pub fn script(self) -> Script {
        Script {
            id: self.random.bits() as u32,
            slots: self.slots,
            parameters: self.parameters,
            code: self.code,
        }
    }

    fn plain_kind(&mut self, filled: &Filled) -> u16 {
        if self.manner.slots == 0 {
            return 13;
        }
        if !self.can_read(filled) {
            return self.random.pick(&[5, 6]);
        }
        if self.manner.awaits > 0 && self.random.once_in(self.manner.awaits) {
            return 1;
        }
        self.random.pick(&PLAIN_KINDS)
    }

    fn instruction(&mut self, kind: u16, filled: &Filled) -> Instruction {
        let mut fields = Vec::new();
        for field in pattern(kind).expect("a kind of the table") {
            match field {
                Field::Output => fields.push(self.slot()),
                Field::OptionalOutput => {
                    let absent = self.manner.slots == 0 || self.random.once_in(3);
                    fields.push(if absent { ABSENT } else { self.slot() });
                }
                Field::Input => fields.push(self.read(filled)),
                Field::OptionalInput => {
                    let absent = !self.can_read(filled) || self.random.once_in(3);
                    fields.push(if absent { ABSENT } else { self.read(filled) });
                }
                Field::Target => fields.push(0),
                Field::ModuleSlot => {
                    let highest = self.random.pick(&[3, 65_535]);
                    fields.push(highest - self.random.number(0..=3));
                }
                Field::Rest if self.can_read(filled) => {
                    for _ in 0..self.list_length() {
                        fields.push(self.read(filled));
                    }
                }
                Field::Rest => {}
            }
        }
        Instruction { kind, fields }
    }

    fn list_length(&mut self) -> u32 {
        let most = if self.random.once_in(60) {
            16 * self.manner.list
        } else {
            self.manner.list
        };
        self.random.number(0..=most)
    }

    /// Whether there is a slot to read.
    fn can_read(&self, filled: &Filled) -> bool {
        !filled.list.is_empty() || (self.manner.careless > 0 && self.manner.slots > 0)
    }

    /// A slot to read: a filled one that is no handle, if there is such a one.
    fn read(&mut self, filled: &Filled) -> u32 {
        let careless = self.manner.careless > 0 && self.random.once_in(self.manner.careless);
        if filled.list.is_empty() || careless {
            return self.slot();
        }
        for _ in 0..2 {
            let slot = self.random.pick(&filled.list);
            if self.harmless.binary_search(&slot).is_ok() {
                return slot;
            }
        }
        self.random.pick(&filled.list)
    }

    /// Any slot, often one beside the border of a word.
    fn slot(&mut self) -> u32 {
        let last = self.manner.slots - 1;
        if self.random.once_in(4) {
            self.random.pick(&[0, 1, 63, 64, 127, 128, last]).min(last)
        } else {
            self.random.number(0..=last)
        }
    }
}

/// Slots that are filled.
#[derive(Clone)]
pub struct Filled {
    has: Vec<bool>,
    list: Vec<u32>,
}

impl Filled {
    fn none(slots: u32) -> Self {
        Self {
            has: vec![false; slots as usize],
            list: Vec::new(),
        }
    }

    fn add(&mut self, slot: u32) {
        if !self.has[slot as usize] {
            self.has[slot as usize] = true;
            self.list.push(slot);
        }
    }

    /// Those that are in both.
    pub fn met(&self, other: &Self) -> Self {
        let mut met = Self::none(self.has.len() as u32);
        for &slot in &self.list {
            if other.has[slot as usize] {
                met.add(slot);
            }
        }
        met
    }
}

fn output(instruction: &Instruction) -> Option<u32> {
    let first = pattern(instruction.kind).and_then(|fields| fields.first());
    let written = match first {
        Some(Field::Output | Field::OptionalOutput) => instruction.fields[0],
        _ => ABSENT,
    };
    (written != ABSENT).then_some(written)
}

/// Slots that are filled on entry: none, some, or all, each named once, in disorder now
/// and then.
fn parameters(random: &mut Random, manner: &Manner) -> Vec<u32> {
    if manner.parameters == 0 || manner.slots == 0 {
        return Vec::new();
    }
    let mut parameters: Vec<u32> = (0..manner.slots)
        .filter(|_| random.once_in(manner.parameters))
        .collect();
    if random.once_in(3) && !parameters.is_empty() {
        for _ in 0..random.number(1..=5) {
            let (one, other) = (
                random.below(parameters.len()),
                random.below(parameters.len()),
            );
            parameters.swap(one, other);
        }
    }
    parameters
}

/// A slot with this answer to whether it is a host slot.
pub fn slot_type(random: &mut Random, host: bool) -> SlotType {
    loop {
        let slot = any_slot_type(random);
        if is_host(&slot) == host {
            return slot;
        }
    }
}

fn any_slot_type(random: &mut Random) -> SlotType {
    let physical = if random.once_in(6) {
        10
    } else {
        random.number(0..=12) as u8
    };
    let ty = any_type(random);
    SlotType { physical, ty }
}

/// Document 01: physical 10, or a type that `inline_host` accepts.
fn is_host(slot: &SlotType) -> bool {
    slot.physical == 10 || holds_host(&slot.ty)
}

fn holds_host(ty: &Type) -> bool {
    match ty {
        Type::Absent | Type::Other => false,
        Type::Host | Type::Reference => true,
        Type::Tuple(items) => items.iter().any(holds_host),
    }
}
