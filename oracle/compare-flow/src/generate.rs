//! Sheets to call the port with, each drawn from a seed.

mod graphs;
pub mod large;
mod parameters;
pub mod shapes;
mod small;
mod structured;
mod writer;

pub use small::every_small;

use crate::expected::Known;
use crate::plan::{Plan, plans, sparing_plans};
use compare::damage::{damage, spoil};
use compare::random::Random;
use compare::scripts;
use kagari_oracle::{Script, sheet};

/// One way to draw sheets.
#[derive(Clone, Copy)]
pub struct Family {
    /// Its name.
    pub name: &'static str,
    /// Of how many sheets in [`SHARES`] it draws one.
    pub share: u32,
    /// Draws a sheet.
    pub draw: fn(&mut Random) -> Vec<u8>,
    /// Draws the calls that are made with a sheet.
    pub plans: fn(&mut Random, &Known) -> Vec<Plan>,
}

/// All families.
pub const FAMILIES: [Family; 14] = [
    Family {
        name: "small",
        share: 2_400,
        draw: |random| sheet(&small::script(random)),
        plans: |random, known| plans(random, known, 4),
    },
    Family {
        name: "structured",
        share: 2_450,
        draw: |random| sheet(&structured::script(random)),
        plans: |random, known| plans(random, known, 4),
    },
    Family {
        name: "graphs",
        share: 1_650,
        draw: |random| sheet(&graphs::script(random)),
        plans: |random, known| plans(random, known, 4),
    },
    Family {
        name: "awaits",
        share: 1_600,
        draw: |random| sheet(&structured::awaits(random)),
        plans: |random, known| plans(random, known, 6),
    },
    Family {
        name: "wide",
        share: 400,
        draw: |random| sheet(&structured::wide(random)),
        plans: |random, known| plans(random, known, 2),
    },
    Family {
        name: "long lists",
        share: 40,
        draw: |random| sheet(&structured::long_lists(random)),
        plans: |random, known| plans(random, known, 2),
    },
    Family {
        name: "parameters",
        share: 60,
        draw: |random| sheet(&parameters::script(random)),
        plans: |random, known| plans(random, known, 2),
    },
    Family {
        name: "any",
        share: 700,
        draw: |random| sheet(&scripts::script(random)),
        plans: |random, known| plans(random, known, 1),
    },
    Family {
        name: "spoiled",
        share: 1_400,
        draw: spoiled,
        plans: |random, known| plans(random, known, 1),
    },
    Family {
        name: "damaged",
        share: 1_400,
        draw: damaged,
        plans: |random, known| plans(random, known, 1),
    },
    Family {
        name: "noise",
        share: 50,
        draw: noise,
        plans: |random, known| plans(random, known, 1),
    },
    Family {
        name: "state limit",
        share: 20,
        draw: |random| sheet(&large::around_state_limit(random)),
        plans: sparing_plans,
    },
    Family {
        name: "work limit",
        share: 1,
        draw: |random| sheet(&large::above_work_limit(random)),
        plans: |random, known| plans(random, known, 0),
    },
    Family {
        name: "large",
        share: 3,
        draw: |random| sheet(&large::script(random)),
        plans: |random, known| plans(random, known, 1),
    },
];

/// The sum of the families' shares.
pub const SHARES: u32 = {
    let (mut sum, mut place) = (0, 0);
    while place < FAMILIES.len() {
        sum += FAMILIES[place].share;
        place += 1;
    }
    sum
};

/// The family of this name.
///
/// # Panics
///
/// If there is none.
pub fn family(name: &str) -> Family {
    let found = FAMILIES.iter().find(|family| family.name == name);
    *found.unwrap_or_else(|| panic!("there is no family {name:?}"))
}

/// A family, each as often as its share says.
pub fn any_family(random: &mut Random) -> Family {
    let mut place = random.number(0..=SHARES - 1);
    for family in FAMILIES {
        if place < family.share {
            return family;
        }
        place -= family.share;
    }
    unreachable!("the place is below the sum of the shares")
}

/// A script that passes the sheet checks, of any of the smaller families.
fn script_to_harm(random: &mut Random) -> Script {
    match random.number(0..=4) {
        0 => small::script(random),
        1 => graphs::script(random),
        2 => scripts::script(random),
        _ => structured::script(random),
    }
}

/// A script with one to three things spoiled, or without code.
fn spoiled(random: &mut Random) -> Vec<u8> {
    let mut script = script_to_harm(random);
    for _ in 0..random.number(1..=3) {
        spoil(random, &mut script);
    }
    if random.once_in(20) {
        script.code.clear();
    }
    sheet(&script)
}

/// A sheet with one to four things damaged, or with bytes left over.
fn damaged(random: &mut Random) -> Vec<u8> {
    let mut sheet = sheet(&script_to_harm(random));
    if random.once_in(20) {
        let length = random.number(1..=9);
        sheet.extend((0..length).map(|_| random.number(0..=41) as u8));
        return sheet;
    }
    for _ in 0..random.number(1..=4) {
        damage(random, &mut sheet);
    }
    sheet
}

/// The first bytes of a sheet, and random ones after them.
fn noise(random: &mut Random) -> Vec<u8> {
    let mut sheet = sheet(&small::script(random));
    sheet.truncate(random.pick(&[0, 2, 4, 16, 20, 24, 30, 36]));
    let highest = random.pick(&[4, 41, 255]);
    let length = random.number(0..=80);
    sheet.extend((0..length).map(|_| random.number(0..=highest) as u8));
    sheet
}
