//! Budgets, limits, added slots and lengths for calls. Slots and lengths are told by what a
//! sheet has and needs, so that they can be told again for a smaller sheet.

use crate::added::Added;
use crate::expected::{Known, Lengths, MOST_BYTES, MOST_WORK, Passed};
use crate::flow_c::Answer;
use crate::limits::Limits;
use compare::random::Random;
use kagari_oracle::Budget;

/// The length of one lent buffer.
#[derive(Debug, Clone, Copy, PartialEq, Eq)]
pub enum Length {
    /// So many more than needed, or fewer.
    Needed(isize),
    /// Of scratch, so many more than the early 10 asks for, or fewer.
    Early(isize),
    /// So many, whatever is needed.
    Exactly(usize),
}

/// What a call is made with, beside its sheet.
#[derive(Debug, Clone, Copy, PartialEq, Eq)]
pub struct Plan {
    /// The budget given.
    pub budget: Budget,
    /// The limits given, if any.
    pub limits: Option<Limits>,
    /// The slots that are added to the parameters, if any are handed in. Such a call takes
    /// limits too; today's if none are given.
    pub added: Option<Added>,
    /// The length of the block list.
    pub blocks: Length,
    /// The length of the sets buffer.
    pub sets: Length,
    /// The length of scratch.
    pub scratch: Length,
    /// The seed of what the buffers hold before.
    pub garbage: u64,
}

impl Plan {
    /// A budget from zero, no limits, no added slots, and buffers exactly long enough.
    pub fn plain() -> Self {
        Self {
            budget: Budget::default(),
            limits: None,
            added: None,
            blocks: Length::Needed(0),
            sets: Length::Needed(0),
            scratch: Length::Needed(0),
            garbage: 0,
        }
    }

    /// The lengths for a sheet. One that does not pass the sheet checks needs nothing;
    /// it is lent a few words.
    pub fn lengths(&self, known: &Known) -> Lengths {
        const LENT_ANYWAY: usize = 9;
        let (needs, early) = match &known.read {
            Ok(passed) => (passed.needs, passed.early_need()),
            Err(_) => {
                let needs = Lengths {
                    blocks: LENT_ANYWAY,
                    sets: LENT_ANYWAY,
                    scratch: LENT_ANYWAY,
                };
                (needs, LENT_ANYWAY)
            }
        };
        let length = |length: Length, needed: usize| match length {
            Length::Needed(more) => needed.saturating_add_signed(more),
            Length::Early(more) => early.saturating_add_signed(more),
            Length::Exactly(length) => length,
        };
        Lengths {
            blocks: length(self.blocks, needs.blocks),
            sets: length(self.sets, needs.sets),
            scratch: length(self.scratch, needs.scratch),
        }
    }

    /// The same call within limits: mostly near what its run comes to, as far as the
    /// answer without limits tells that. They are drawn from the plan's own seed.
    pub fn within(self, known: &Known, answer: &Answer) -> Self {
        // The seed itself is that of the garbage.
        let mut random = Random::new(!self.garbage);
        let limits = match &known.read {
            Ok(passed) => near_limits(&mut random, passed, self.budget, answer),
            Err(_) => any_limits(&mut random),
        };
        Self {
            limits: Some(limits),
            garbage: random.bits(),
            ..self
        }
    }

    /// The same call with slots added to the parameters, every second time within limits
    /// too. They are drawn from the plan's own seed.
    pub fn with(self, known: &Known, answer: &Answer) -> Self {
        let within = self.within(known, answer);
        let mut random = Random::new(!within.garbage);
        Self {
            added: Some(Added::any(&mut random)),
            garbage: random.bits(),
            ..random.pick(&[self, within])
        }
    }
}

/// The plans for one sheet: the plain one, and `others` more, with budgets around the
/// limits, and buffers that are longer, exactly long enough, a little short, or empty.
pub fn plans(random: &mut Random, known: &Known, others: u32) -> Vec<Plan> {
    let mut plans = vec![Plan {
        garbage: random.bits(),
        ..Plan::plain()
    }];
    match &known.read {
        Err(_) => plans.extend((0..others.min(1)).map(|_| any_plan(random))),
        Ok(passed) => {
            let charged = Charged::new(passed);
            plans.extend((0..others).map(|_| near_plan(random, &charged)));
        }
    }
    plans
}

/// Plans that lend little: scratch that the early 10 passes, and nothing else; once in a
/// while all that is needed.
pub fn sparing_plans(random: &mut Random, known: &Known) -> Vec<Plan> {
    let sparing = Plan {
        blocks: Length::Exactly(random.number(0..=9) as usize),
        sets: Length::Exactly(random.number(0..=99) as usize),
        scratch: Length::Early(random.number(0..=99) as isize),
        garbage: random.bits(),
        ..Plan::plain()
    };
    let mut plans = vec![sparing];
    if let Ok(passed) = &known.read {
        // Around the last charge before the state check.
        let work = MOST_WORK - passed.count as u64 + u64::from(random.number(0..=2)) - 1;
        plans.push(Plan {
            budget: Budget { work, retained: 0 },
            ..sparing
        });
        plans.push(Plan {
            scratch: Length::Early(-1),
            ..sparing
        });
    }
    if random.once_in(30) {
        plans.push(Plan {
            garbage: random.bits(),
            ..Plan::plain()
        });
    }
    plans
}

/// Every budget with which the work limit is met somewhere in the run, and the two
/// beside these.
pub fn every_cut(random: &mut Random, passed: &Passed) -> Vec<Plan> {
    let all = Charged::new(passed).work + 1;
    let works = MOST_WORK - all..=MOST_WORK + 1;
    works
        .map(|work| Plan {
            budget: Budget { work, retained: 0 },
            garbage: random.bits(),
            ..Plan::plain()
        })
        .collect()
}

/// What a run from zero charges, whatever it answers.
struct Charged {
    /// All its work.
    work: u64,
    /// Its work up to the state check.
    count: u64,
    /// All the bytes that it retains.
    retained: u64,
    /// The bytes that it retains for one await.
    each: u64,
}

impl Charged {
    fn new(passed: &Passed) -> Self {
        let answer = passed.source(Budget::default());
        Self {
            work: answer.budget.work.min(MOST_WORK - 1),
            count: passed.count as u64,
            retained: answer.budget.retained,
            each: passed.fact(),
        }
    }
}

fn near_plan(random: &mut Random, charged: &Charged) -> Plan {
    let mut plan = Plan {
        garbage: random.bits(),
        ..Plan::plain()
    };
    if random.once_in(2) {
        plan.budget.work = near_work(random, charged);
    }
    if random.once_in(2) {
        plan.budget.retained = near_retained(random, charged);
    }
    if random.once_in(2) {
        near_rooms(random, &mut plan);
    }
    plan
}

fn near_work(random: &mut Random, charged: &Charged) -> u64 {
    let around = random.pick(&[-1, 0, 1]);
    let end = match random.number(0..=9) {
        // The run's last charge, the last before the state check, any charge.
        0..=2 => MOST_WORK - charged.work,
        3 => MOST_WORK - charged.count,
        4..=6 => MOST_WORK - random.bits() % (charged.work + 1),
        7 => MOST_WORK,
        8 => random.pick(&[u64::MAX, u64::MAX - 1, u64::MAX - charged.count]),
        _ => random.bits() >> random.number(0..=63),
    };
    end.saturating_add_signed(around)
}

fn near_retained(random: &mut Random, charged: &Charged) -> u64 {
    let around = random.pick(&[-1, 0, 1]);
    let end = match random.number(0..=9) {
        // The last await that is charged, any await, the first.
        0..=2 => MOST_BYTES - charged.retained.min(MOST_BYTES),
        3..=5 => {
            let awaits = charged.retained / charged.each;
            let retained = random.bits() % (awaits + 1) * charged.each;
            MOST_BYTES - retained.min(MOST_BYTES)
        }
        6 => MOST_BYTES,
        7 => u64::MAX - random.bits() % (2 * charged.each),
        8 => u64::MAX,
        _ => random.bits() >> random.number(0..=63),
    };
    end.saturating_add_signed(around)
}

/// Limits near the sums of a run and near the state that it takes, one of them or all; the
/// others are today's. Now and then any.
fn near_limits(random: &mut Random, passed: &Passed, given: Budget, answer: &Answer) -> Limits {
    let [work, state, facts] = match random.number(0..=9) {
        0..=2 => [true, false, false],
        3 => [false, true, false],
        4..=6 => [false, false, true],
        7..=8 => [true; 3],
        _ => return any_limits(random),
    };
    let mut limits = Limits::TODAYS;
    if work {
        limits.work = near_work_limit(random, passed, given, answer);
    }
    if state {
        let around = random.pick(&[-1, 0, 1]);
        limits.state = passed.state().saturating_add_signed(around);
    }
    if facts {
        limits.facts = near_facts_limit(random, passed, given, answer);
    }
    limits
}

fn near_work_limit(random: &mut Random, passed: &Passed, given: Budget, answer: &Answer) -> u64 {
    let around = random.pick(&[-1, 0, 1]);
    let end = match random.number(0..=9) {
        // The run's last sum, the last before the state check, any sum, the first.
        0..=3 => answer.work,
        4 => given.work.saturating_add(passed.count as u64),
        5..=8 => given.work + random.bits() % (answer.work - given.work + 1),
        _ => given.work,
    };
    end.saturating_add_signed(around)
}

fn near_facts_limit(random: &mut Random, passed: &Passed, given: Budget, answer: &Answer) -> u64 {
    let around = random.pick(&[-1, 0, 1]);
    let end = match random.number(0..=9) {
        // The last await's sum, any await's, what the first one adds to.
        0..=4 => answer.retained,
        5..=8 => {
            let awaits = (answer.retained - given.retained) / passed.fact();
            given.retained + random.bits() % (awaits + 1) * passed.fact()
        }
        _ => given.retained,
    };
    end.saturating_add_signed(around)
}

/// Any three limits.
fn any_limits(random: &mut Random) -> Limits {
    let limit = |random: &mut Random, todays: u64| match random.number(0..=5) {
        0 => 0,
        1 => u64::MAX,
        2 => todays + 1,
        3 => todays,
        _ => random.bits() >> random.number(0..=63),
    };
    Limits {
        work: limit(random, MOST_WORK),
        state: limit(random, MOST_BYTES),
        facts: limit(random, MOST_BYTES),
    }
}

fn near_rooms(random: &mut Random, plan: &mut Plan) {
    let longer = random.number(1..=200) as isize;
    match random.number(0..=11) {
        0 => plan.scratch = Length::Early(-1),
        1 => plan.scratch = Length::Early(random.number(0..=15) as isize),
        2 => plan.scratch = Length::Needed(-1),
        3 => plan.sets = Length::Needed(-1),
        4 => plan.blocks = Length::Needed(-1),
        5 => *any_buffer(random, plan) = Length::Exactly(0),
        6 => *any_buffer(random, plan) = Length::Needed(-longer),
        7 => {
            plan.blocks = Length::Exactly(0);
            plan.sets = Length::Exactly(0);
            plan.scratch = Length::Exactly(0);
        }
        8 => {
            // One buffer is short beside long ones.
            plan.blocks = Length::Needed(longer);
            plan.sets = Length::Needed(longer);
            plan.scratch = Length::Needed(longer);
            *any_buffer(random, plan) = Length::Needed(-1);
        }
        9 => *any_buffer(random, plan) = Length::Needed(longer),
        _ => {
            plan.blocks = Length::Needed(random.number(0..=9) as isize);
            plan.sets = Length::Needed(longer);
            plan.scratch = Length::Needed(random.number(0..=99) as isize);
        }
    }
}

fn any_buffer<'a>(random: &mut Random, plan: &'a mut Plan) -> &'a mut Length {
    match random.number(0..=2) {
        0 => &mut plan.blocks,
        1 => &mut plan.sets,
        _ => &mut plan.scratch,
    }
}

/// For sheets that are refused whatever they are lent.
fn any_plan(random: &mut Random) -> Plan {
    let length = |random: &mut Random| {
        let longest = random.pick(&[0, 1, 10, 100]);
        Length::Exactly(random.number(0..=longest) as usize)
    };
    let amount = |random: &mut Random| match random.number(0..=3) {
        0 => 0,
        1 => u64::MAX,
        _ => random.bits() >> random.number(0..=63),
    };
    Plan {
        budget: Budget {
            work: amount(random),
            retained: amount(random),
        },
        limits: None,
        added: None,
        blocks: length(random),
        sets: length(random),
        scratch: length(random),
        garbage: random.bits(),
    }
}
