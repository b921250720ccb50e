//! The port's flow check and the Rust, timed on the same sheets.

mod classes;
mod measure;
mod plot;

use classes::Class;
use measure::{Size, Subject, Times};
use plot::{Panel, Series};
use std::collections::BTreeMap;
use std::process::ExitCode;
use std::{env, fs};

const USAGE: &str = "usage: bench [--svg FILE]
       bench --only CLASS
       bench --once CLASS [ours | rust]

Times all classes, prints a table in Markdown, and writes a plot to FILE.
With --only: times one class, and prints its row.
With --once: makes one call of a class, for a counter of instructions.
The classes are SHAPE-INSTRUCTIONS-SLOTS, as branchy-4096-8.";

/// The colours of the shapes.
const COLORS: [(&str, &str); 4] = [
    ("straight", "#1b9e77"),
    ("branchy", "#d95f02"),
    ("loops", "#7570b3"),
    ("awaits", "#e7298a"),
];

enum Command {
    All { svg: Option<String> },
    Only { class: String },
    Once { class: String, ours: bool },
}

fn main() -> ExitCode {
    let arguments: Vec<String> = env::args().skip(1).collect();
    let Some(command) = command(&arguments) else {
        eprintln!("{USAGE}");
        return ExitCode::from(2);
    };
    let done = match command {
        Command::All { svg } => all(svg.as_deref()),
        Command::Only { class } => only(&class),
        Command::Once { class, ours } => once(&class, ours),
    };
    match done {
        Ok(()) => ExitCode::SUCCESS,
        Err(reason) => {
            eprintln!("{reason}");
            ExitCode::FAILURE
        }
    }
}

fn command(arguments: &[String]) -> Option<Command> {
    let arguments: Vec<&str> = arguments.iter().map(String::as_str).collect();
    let once = |class: &str, ours| {
        Some(Command::Once {
            class: class.to_string(),
            ours,
        })
    };
    match arguments[..] {
        [] => Some(Command::All { svg: None }),
        ["--svg", path] => Some(Command::All {
            svg: Some(path.to_string()),
        }),
        ["--only", class] => Some(Command::Only {
            class: class.to_string(),
        }),
        ["--once", class] | ["--once", class, "ours"] => once(class, true),
        ["--once", class, "rust"] => once(class, false),
        _ => None,
    }
}

fn named(name: &str) -> Result<Class, String> {
    classes::named(name).ok_or_else(|| format!("there is no class {name}"))
}

/// Times one class.
fn only(name: &str) -> Result<(), String> {
    let class = named(name)?;
    let (size, times) = measure(&class);
    println!("{}", row(&COLUMNS));
    println!("{}", row(&["---"; COLUMNS.len()]));
    println!("{}", row(&cells(&class, &size, &times)));
    if size.parameters > MANY {
        println!("\n{}", of_parameters(name, &size, &times));
    }
    Ok(())
}

/// Makes one call.
fn once(name: &str, ours: bool) -> Result<(), String> {
    let class = named(name)?;
    let mut subject = Subject::new(&class);
    let work = if ours { subject.ours() } else { subject.rust() };
    println!("{name}: {:?}", subject.size);
    println!("work {work}");
    Ok(())
}

fn all(svg: Option<&str>) -> Result<(), String> {
    println!("{}", row(&COLUMNS));
    println!("{}", row(&["---"; COLUMNS.len()]));
    let mut measured = BTreeMap::new();
    for class in classes::table() {
        let (size, times) = measure(&class);
        println!("{}", row(&cells(&class, &size, &times)));
        measured.insert(class.name, (size, times));
    }
    println!("\n{NOTES}\n");
    for (name, (size, times)) in &measured {
        if size.parameters > MANY {
            println!("{}", of_parameters(name, size, times));
        }
    }
    if let Some(path) = svg {
        let plot = plot::svg(&panels(&measured));
        fs::write(path, plot).map_err(|error| format!("{path}: {error}"))?;
        println!("{path}: the plot");
    }
    Ok(())
}

fn measure(class: &Class) -> (Size, Times) {
    let mut subject = Subject::new(class);
    let times = subject.measure();
    (subject.size, times)
}

const NOTES: &str = "\
Medians over rounds in which ours, the Rust and the Rust with decoding take turns. Ours
starts from the bytes of the sheet: its time has the sheet checks in it, and the clearing
of the lent buffers, which hold the answer of the call before. The Rust starts from its
own structures and allocates and frees what it needs; \"+ decode\" is the Rust from the
bytes, read by the plain reader of the comparisons, which is not written for speed.";

/// From so many parameters on, times are told for each of them too.
const MANY: usize = 100;

/// The times for each parameter, the whole call counted.
fn of_parameters(name: &str, size: &Size, times: &Times) -> String {
    let each = |time: f64| time / size.parameters as f64;
    format!(
        "{name}: {} parameters; a parameter, the whole call counted, takes ours {:.2} ns, the Rust {:.2} ns, + decode {:.2} ns",
        size.parameters,
        each(times.ours),
        each(times.rust),
        each(times.rust_from_bytes)
    )
}

/// The columns of the table: sizes, times of a call in µs, times for each instruction and
/// for each unit of work in ns, and ratios.
const COLUMNS: [&str; 14] = [
    "Class",
    "Blocks",
    "Edges",
    "Awaits",
    "Work",
    "Ours, µs",
    "Rust, µs",
    "+ decode, µs",
    "Ours, ns an instruction",
    "Rust",
    "Ours, ns a unit",
    "Rust",
    "Ours / Rust",
    "/ (+ decode)",
];

fn cells(class: &Class, size: &Size, times: &Times) -> [String; COLUMNS.len()] {
    let count = size.count as f64;
    let work = size.work as f64;
    [
        class.name.clone(),
        size.blocks.to_string(),
        size.edges.to_string(),
        size.awaits.to_string(),
        size.work.to_string(),
        format!("{:.2}", times.ours / 1e3),
        format!("{:.2}", times.rust / 1e3),
        format!("{:.2}", times.rust_from_bytes / 1e3),
        format!("{:.2}", times.ours / count),
        format!("{:.2}", times.rust / count),
        format!("{:.3}", times.ours / work),
        format!("{:.3}", times.rust / work),
        format!("{:.2}", times.ours / times.rust),
        format!("{:.2}", times.ours / times.rust_from_bytes),
    ]
}

/// A row of a Markdown table.
fn row<S: AsRef<str>>(cells: &[S]) -> String {
    cells.iter().fold("|".to_string(), |row, cell| {
        row + " " + cell.as_ref() + " |"
    })
}

type Measured = BTreeMap<String, (Size, Times)>;

/// Time against N, w and edges. What the table did not measure is measured here.
fn panels(measured: &Measured) -> [Panel; 3] {
    const TIME: &str = "time of a call, µs";
    let panel = |title: &str, x, classes: Vec<Class>, value: fn(&Size) -> usize| Panel {
        title: title.to_string(),
        x,
        y: TIME,
        series: series(measured, &classes, value),
    };
    [
        panel("8 slots", "instructions (N)", classes::by_count(), |size| {
            size.count
        }),
        panel(
            "256 instructions",
            "words of a set (w)",
            classes::by_words(),
            |size| size.words,
        ),
        panel(
            "4,096 instructions, 64 slots",
            "edges between blocks",
            classes::by_edges(),
            |size| size.edges,
        ),
    ]
}

/// Two lines for each shape: ours, and the Rust's.
fn series(measured: &Measured, classes: &[Class], value: fn(&Size) -> usize) -> Vec<Series> {
    let mut found = Vec::new();
    for (shape, color) in COLORS {
        let of_shape = classes.iter().filter(|class| class.shape == shape);
        let (mut ours, mut rust) = (Vec::new(), Vec::new());
        for class in of_shape {
            let known = measured.get(&class.name).copied();
            let (size, times) = known.unwrap_or_else(|| measure(class));
            let x = value(&size) as f64;
            ours.push((x, times.ours / 1e3));
            rust.push((x, times.rust / 1e3));
        }
        if ours.is_empty() {
            continue;
        }
        for (name, dashed, points) in [("ours", false, ours), ("Rust", true, rust)] {
            found.push(Series {
                name: format!("{shape}, {name}"),
                color,
                dashed,
                points,
            });
        }
    }
    found
}
