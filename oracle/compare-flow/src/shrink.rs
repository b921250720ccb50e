//! Makes a failing sheet small: instructions, slots, parameters and bytes are left out
//! and fields lowered for as long as some call over the sheet still fails.

use crate::added::{Added, Stray, Which};
use crate::expected::{Known, MOST_WORK};
use crate::lent::{Lent, Mismatch};
use crate::limits::Limits;
use crate::plan::{Length, Plan};
use compare::damage::records;
use compare::reader::read;
use kagari_oracle::cases::{jump, load_const, plain};
use kagari_oracle::{ABSENT, Budget, Field, Instruction, Script, Type, pattern, sheet};
use std::collections::BTreeSet;
use std::iter;
use std::ops::Range;
use std::time::{Duration, Instant};

/// How long a failing sheet is made smaller at most.
const PATIENCE: Duration = Duration::from_secs(20);

/// By how much a budget's distance from the work limit may fall in one step: about what
/// an instruction is charged in all. The same goes for a work limit.
const CLOSER: u64 = 40;

/// Where the function record has its counts.
const SLOT_COUNT: usize = 8;
const INSTRUCTION_COUNT: usize = 12;

/// Finds a small sheet that fails as this one does, perhaps with other numbers. Returns
/// it with its call and what differs.
pub fn shrink(
    lent: &mut Lent,
    sheet: &[u8],
    plan: Plan,
    mismatch: Mismatch,
) -> (Vec<u8>, Plan, Mismatch) {
    let mut shrinker = Shrinker {
        lent,
        sheet: sheet.to_vec(),
        plan,
        mismatch,
        until: Instant::now() + PATIENCE,
    };
    shrinker.simplify_plan();
    while shrinker.step() {}
    shrinker.simplify_plan();
    (shrinker.sheet, shrinker.plan, shrinker.mismatch)
}

struct Shrinker<'a> {
    lent: &'a mut Lent,
    /// The smallest failing sheet so far, its call, and what differs.
    sheet: Vec<u8>,
    plan: Plan,
    mismatch: Mismatch,
    until: Instant,
}

impl Shrinker<'_> {
    /// Tries everything once; whether anything helped.
    fn step(&mut self) -> bool {
        let mut helped = self.leave_out(instructions, without_instructions);
        helped |= self.leave_out(slots, without_slots);
        helped |= self.leave_out(parameters, without_parameters);
        helped |= self.lower_script();
        if read(&self.sheet).is_err() {
            helped |= self.leave_out(|bytes| records(bytes).len(), without_records);
            helped |= self.leave_out(|bytes| fields(bytes).len(), without_fields);
            helped |= self.leave_out(<[u8]>::len, without_bytes);
            helped |= self.lower_bytes();
        }
        helped
    }

    /// Leaves out stretches of the things that `count` counts, long ones first.
    fn leave_out(
        &mut self,
        count: impl Fn(&[u8]) -> usize,
        without: impl Fn(&[u8], Range<usize>) -> Option<Vec<u8>>,
    ) -> bool {
        let mut helped = false;
        let mut length = count(&self.sheet);
        while length > 0 {
            let mut start = 0;
            while start < count(&self.sheet) && !self.is_late() {
                let end = count(&self.sheet).min(start + length);
                let candidate = without(&self.sheet, start..end);
                if candidate.is_some_and(|candidate| self.fails(candidate)) {
                    helped = true;
                } else {
                    start += length;
                }
            }
            length /= 2;
        }
        helped
    }

    /// Lowers the numbers of a script one by one, and puts simpler parts in.
    fn lower_script(&mut self) -> bool {
        let Ok(read) = read(&self.sheet) else {
            return false;
        };
        let script = read.script;
        let mut helped = self.edit(|script| script.id = 0);
        for (place, slot) in script.slots.iter().enumerate() {
            helped |= self.edit(|script| script.slots[place] = plain());
            helped |= self.edit(|script| script.slots[place].physical = 3);
            for ty in simpler_types(&slot.ty) {
                helped |= self.edit(|script| script.slots[place].ty = ty);
            }
        }
        for place in 0..script.parameters.len() {
            helped |= self.edit(|script| {
                // The lowest that is not named yet: a slot named twice is another matter.
                let free = (0..).find(|slot| !script.parameters.contains(slot));
                script.parameters[place] = free.expect("a number");
            });
        }
        for (place, instruction) in script.code.iter().enumerate() {
            for simple in simpler(instruction, place as u32) {
                helped |= self.edit(|script| script.code[place] = simple);
            }
            for field in 0..instruction.fields.len() {
                helped |= self.edit(|script| {
                    if let Some(field) = script.code[place].fields.get_mut(field) {
                        *field = 0;
                    }
                });
            }
            helped |= self.edit(|script| {
                script.code[place].fields.pop();
            });
        }
        helped
    }

    /// Puts zeros into a sheet that does not pass the sheet checks.
    fn lower_bytes(&mut self) -> bool {
        let mut helped = false;
        for place in 0..self.sheet.len() {
            let mut lower = self.sheet.clone();
            lower[place] = 0;
            helped |= self.fails(lower);
        }
        helped
    }

    /// Tries an edit of the script that does not change its counts.
    fn edit(&mut self, edit: impl FnOnce(&mut Script)) -> bool {
        if self.is_late() {
            return false;
        }
        let Ok(read) = read(&self.sheet) else {
            return false;
        };
        let mut script = read.script;
        edit(&mut script);
        self.fails(sheet(&script))
    }

    fn is_late(&self) -> bool {
        Instant::now() > self.until
    }

    /// Takes a candidate that is smaller and fails.
    fn fails(&mut self, candidate: Vec<u8>) -> bool {
        let smaller = (candidate.len(), &candidate) < (self.sheet.len(), &self.sheet);
        if !smaller || self.is_late() {
            return false;
        }
        let known = Known::new(&candidate);
        for plan in similar(self.plan, &known) {
            if self.takes(&candidate, &known, plan) {
                self.sheet = candidate;
                return true;
            }
        }
        false
    }

    /// Tries simpler calls over the same sheet.
    fn simplify_plan(&mut self) {
        let simpler: [fn(&mut Plan); 15] = [
            |plan| {
                *plan = Plan {
                    garbage: plan.garbage,
                    ..Plan::plain()
                }
            },
            |plan| plan.added = None,
            |plan| simpler_added(plan, |added| *added = Added::NONE),
            |plan| simpler_added(plan, |added| added.which = Which::All),
            |plan| simpler_added(plan, |added| added.stray = Stray::None),
            |plan| simpler_added(plan, |added| added.more = 0),
            |plan| plan.limits = None,
            |plan| simpler_limit(plan, |limits| limits.work = Limits::TODAYS.work),
            |plan| simpler_limit(plan, |limits| limits.state = Limits::TODAYS.state),
            |plan| simpler_limit(plan, |limits| limits.facts = Limits::TODAYS.facts),
            |plan| plan.budget.work = 0,
            |plan| plan.budget.retained = 0,
            |plan| plan.blocks = Length::Needed(0),
            |plan| plan.sets = Length::Needed(0),
            |plan| plan.scratch = Length::Needed(0),
        ];
        let sheet = self.sheet.clone();
        let known = Known::new(&sheet);
        for simplify in simpler {
            let mut plan = self.plan;
            simplify(&mut plan);
            self.takes(&sheet, &known, plan);
        }
    }

    /// Makes a call, and remembers it if it fails.
    fn takes(&mut self, sheet: &[u8], known: &Known, plan: Plan) -> bool {
        let Err(mismatch) = self.lent.check(sheet, known, &plan) else {
            return false;
        };
        self.plan = plan;
        self.mismatch = *mismatch;
        true
    }
}

/// A plan, and others for a smaller sheet, which is charged less and takes less state: with
/// a budget nearer to the work limit, with a lower work limit, and with each limit at what
/// the sheet comes to and one below.
fn similar(plan: Plan, known: &Known) -> Vec<Plan> {
    let mut plans = vec![plan];
    let work = plan.budget.work;
    let nearer = match MOST_WORK.checked_sub(work) {
        Some(left) if work > 0 => left.min(CLOSER),
        _ => 0,
    };
    plans.extend((1..=nearer).map(|step| {
        let mut plan = plan;
        plan.budget.work += step;
        plan
    }));
    let (Some(limits), Ok(passed)) = (plan.limits, &known.read) else {
        return plans;
    };
    let run = match plan.added {
        None => passed.source(plan.budget),
        Some(added) => passed.with(&added.words(known)).source(plan.budget),
    };
    let Budget { work, retained } = run.budget;
    let at = |number: u64| [number, number.saturating_sub(1)];
    let closer = limits.work.saturating_sub(CLOSER)..limits.work;
    let works = closer.rev().chain(at(work));
    let works = works.map(|work| Limits { work, ..limits });
    let states = at(passed.state()).map(|state| Limits { state, ..limits });
    let facts = at(retained).map(|facts| Limits { facts, ..limits });
    plans.extend(works.chain(states).chain(facts).map(|limits| Plan {
        limits: Some(limits),
        ..plan
    }));
    plans
}

/// Edits the limits of a plan that has some.
fn simpler_limit(plan: &mut Plan, edit: fn(&mut Limits)) {
    if let Some(limits) = &mut plan.limits {
        edit(limits);
    }
}

/// Edits the added slots of a plan that has some.
fn simpler_added(plan: &mut Plan, edit: fn(&mut Added)) {
    if let Some(added) = &mut plan.added {
        edit(added);
    }
}

/// The items of a tuple, and the tuple without each of them.
fn simpler_types(ty: &Type) -> Vec<Type> {
    let Type::Tuple(items) = ty else {
        return vec![];
    };
    let without = (0..items.len()).map(|place| {
        let mut items = items.clone();
        items.remove(place);
        Type::Tuple(items)
    });
    items.iter().cloned().chain(without).collect()
}

/// Instructions to put in the place of one.
fn simpler(instruction: &Instruction, place: u32) -> Vec<Instruction> {
    let mut simpler = vec![Instruction::new(41, []), jump(place + 1)];
    if let Some(Field::Output) = pattern(instruction.kind).and_then(|fields| fields.first()) {
        simpler.push(load_const(instruction.fields[0]));
    }
    simpler
}

fn count(bytes: &[u8], of: impl Fn(&Script) -> usize) -> usize {
    read(bytes).map_or(0, |read| of(&read.script))
}

fn instructions(bytes: &[u8]) -> usize {
    count(bytes, |script| script.code.len())
}

fn slots(bytes: &[u8]) -> usize {
    count(bytes, |script| script.slots.len())
}

fn parameters(bytes: &[u8]) -> usize {
    count(bytes, |script| script.parameters.len())
}

/// Leaves out instructions; their targets and those behind move down.
fn without_instructions(bytes: &[u8], range: Range<usize>) -> Option<Vec<u8>> {
    let mut script = read(bytes).ok()?.script;
    script.code.drain(range.clone());
    let last = script.code.len().checked_sub(1)?;
    for instruction in &mut script.code {
        renumber(instruction, &[Field::Target], &range, last as u32);
    }
    Some(sheet(&script))
}

/// Leaves out slots; what reads or writes them takes the one that comes next, and so do
/// parameters, each slot being named once.
fn without_slots(bytes: &[u8], range: Range<usize>) -> Option<Vec<u8>> {
    const SLOTS: [Field; 5] = [
        Field::Output,
        Field::OptionalOutput,
        Field::Input,
        Field::OptionalInput,
        Field::Rest,
    ];
    let mut script = read(bytes).ok()?.script;
    script.slots.drain(range.clone());
    let last = script.slots.len().saturating_sub(1) as u32;
    for instruction in &mut script.code {
        renumber(instruction, &SLOTS, &range, last);
    }
    let mut named = BTreeSet::new();
    script.parameters = script
        .parameters
        .iter()
        .map(|&parameter| moved(parameter, &range, last))
        .filter(|&parameter| named.insert(parameter))
        .collect();
    Some(sheet(&script))
}

fn without_parameters(bytes: &[u8], range: Range<usize>) -> Option<Vec<u8>> {
    let mut script = read(bytes).ok()?.script;
    script.parameters.drain(range);
    Some(sheet(&script))
}

/// Leaves out whole records of any sheet, and lowers the counts of slots and of
/// instructions with them.
fn without_records(bytes: &[u8], range: Range<usize>) -> Option<Vec<u8>> {
    let dropped = &records(bytes)[range];
    let kind = |record: &Range<usize>| {
        u16::from_le_bytes([bytes[record.start + 2], bytes[record.start + 3]])
    };
    let slots = dropped.iter().filter(|record| kind(record) == 258).count() as u32;
    let others = dropped.len() as u32 - slots;
    let mut left = without_bytes(bytes, dropped.first()?.start..dropped.last()?.end)?;
    lower(&mut left, SLOT_COUNT, slots);
    lower(&mut left, INSTRUCTION_COUNT, others);
    Some(left)
}

/// Subtracts from a number at a fixed place of a sheet.
fn lower(sheet: &mut [u8], place: usize, by: u32) {
    if let Some(number) = sheet
        .get_mut(place..)
        .and_then(<[u8]>::first_chunk_mut::<4>)
    {
        *number = u32::from_le_bytes(*number).saturating_sub(by).to_le_bytes();
    }
}

/// Where the numbers of all records begin, as if each body were numbers.
fn fields(bytes: &[u8]) -> Vec<usize> {
    let of_record =
        |record: Range<usize>| (record.start + 4..=record.end.saturating_sub(4)).step_by(4);
    records(bytes).into_iter().flat_map(of_record).collect()
}

/// Leaves out numbers of one record, and lowers its length with them.
fn without_fields(bytes: &[u8], range: Range<usize>) -> Option<Vec<u8>> {
    let fields = &fields(bytes)[range];
    let dropped = *fields.first()?..fields.last()? + 4;
    let around = |record: &Range<usize>| record.contains(&dropped.start);
    let record = records(bytes).into_iter().find(around)?;
    if dropped.end > record.end {
        return None;
    }
    let mut left = bytes.to_vec();
    let length = (record.len() - 2 - dropped.len()) as u16;
    left[record.start..][..2].copy_from_slice(&length.to_le_bytes());
    left.drain(dropped);
    Some(left)
}

fn without_bytes(bytes: &[u8], range: Range<usize>) -> Option<Vec<u8>> {
    Some([&bytes[..range.start], &bytes[range.end..]].concat())
}

/// Renumbers the fields of these roles after the things in `range` were left out.
fn renumber(instruction: &mut Instruction, roles: &[Field], range: &Range<usize>, last: u32) {
    let pattern = pattern(instruction.kind).expect("a kind of the table");
    let all = pattern.iter().chain(iter::repeat(&Field::Rest));
    for (field, role) in instruction.fields.iter_mut().zip(all) {
        if roles.contains(role) && *field != ABSENT {
            *field = moved(*field, range, last);
        }
    }
}

/// Where a number goes when those in `range` are left out.
fn moved(number: u32, range: &Range<usize>, last: u32) -> u32 {
    let (start, end) = (range.start as u32, range.end as u32);
    let moved = match number {
        number if number < start => number,
        number if number < end => start,
        number => number - (end - start),
    };
    moved.min(last)
}
