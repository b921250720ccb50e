//! The scripts that times are measured on.

use compare::parameters::MOST;
use compare_flow::generate::shapes::{SHAPES, Shape, script, sparse};
use kagari_oracle::Script;
use kagari_oracle::cases::host;

/// The instruction counts of the table.
const COUNTS: [u32; 4] = [16, 256, 4_096, 65_536];

/// The slot counts of the table: few and many.
const SLOTS: [u32; 2] = [8, 1_000];

/// At the fewest instructions also very many slots.
const MOST_SLOTS: u32 = 20_000;

/// One script to measure.
pub struct Class {
    /// Its name: shape, instructions, slots.
    pub name: String,
    /// The name of its shape.
    pub shape: &'static str,
    /// The script.
    pub script: Script,
}

impl Class {
    fn new((name, shape): (&'static str, Shape), count: u32, slots: u32) -> Self {
        Self {
            name: format!("{name}-{count}-{slots}"),
            shape: name,
            script: script(shape, count, slots),
        }
    }
}

/// The size classes of the table.
pub fn table() -> Vec<Class> {
    let mut classes = Vec::new();
    for shape in SHAPES {
        for count in COUNTS {
            for slots in SLOTS {
                classes.push(Class::new(shape, count, slots));
            }
            if count == COUNTS[0] {
                classes.push(Class::new(shape, count, MOST_SLOTS));
            }
        }
    }
    classes.push(hosts());
    classes.push(parameters());
    classes
}

/// The script with awaits and very many slots, in which every second slot that no
/// instruction names is a host slot.
fn hosts() -> Class {
    let (count, slots) = (COUNTS[0], MOST_SLOTS);
    let mut script = script(Shape::Awaits, count, slots);
    let unused = script.slots.iter_mut().skip(4 * count as usize);
    for slot in unused.step_by(2) {
        *slot = host();
    }
    Class {
        name: format!("hosts-{count}-{slots}"),
        shape: "awaits",
        script,
    }
}

/// The straight script with very many slots, of which as many are parameters as a record
/// can name.
fn parameters() -> Class {
    let (count, slots) = (COUNTS[0], MOST_SLOTS);
    Class {
        name: format!("parameters-{count}-{slots}"),
        shape: "straight",
        script: Script {
            parameters: (0..MOST).collect(),
            ..script(Shape::Straight, count, slots)
        },
    }
}

/// The class of this name.
pub fn named(name: &str) -> Option<Class> {
    let all = table().into_iter().chain(by_words()).chain(by_edges());
    all.into_iter().find(|class| class.name == name)
}

/// Scripts that differ in N alone, four of each shape.
pub fn by_count() -> Vec<Class> {
    let few = table().into_iter();
    few.filter(|class| class.script.slots.len() == 8).collect()
}

/// Scripts of 256 instructions that differ in the words of their sets.
pub fn by_words() -> Vec<Class> {
    const WORDS: [u32; 6] = [1, 4, 16, 64, 256, 1_024];
    let of_shape = |shape| WORDS.map(|words| Class::new(shape, 256, 64 * words));
    SHAPES.into_iter().flat_map(of_shape).collect()
}

/// Scripts of 4,096 instructions that differ in their edges.
pub fn by_edges() -> Vec<Class> {
    const EVERY: [u32; 5] = [1, 4, 16, 64, 256];
    EVERY
        .map(|every| Class {
            name: format!("sparse{every}-4096-64"),
            shape: "branchy",
            script: sparse(every, 4_096, 64),
        })
        .into()
}
