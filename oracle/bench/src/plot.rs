//! A plot as SVG: panels side by side, both axes logarithmic.

use std::fmt::Write;

const WIDTH: f64 = 420.0;
const HEIGHT: f64 = 400.0;
const LEFT: f64 = 70.0;
const RIGHT: f64 = 15.0;
const TOP: f64 = 45.0;
const BOTTOM: f64 = 60.0;
const LEGEND: f64 = 50.0;

/// Points that are joined by a line.
pub struct Series {
    /// Its name in the legend.
    pub name: String,
    /// The colour of its line.
    pub color: &'static str,
    /// Whether the line is dashed.
    pub dashed: bool,
    /// The points; both numbers are above 0.
    pub points: Vec<(f64, f64)>,
}

/// One diagram.
pub struct Panel {
    /// What stands above it.
    pub title: String,
    /// What stands below the horizontal axis.
    pub x: &'static str,
    /// What stands beside the vertical axis.
    pub y: &'static str,
    /// Its lines.
    pub series: Vec<Series>,
}

/// The panels side by side, with one legend below, taken from the first.
pub fn svg(panels: &[Panel]) -> String {
    let width = WIDTH * panels.len() as f64;
    let height = HEIGHT + LEGEND;
    let mut text = format!(
        "<svg xmlns=\"http://www.w3.org/2000/svg\" width=\"{width}\" height=\"{height}\" \
         viewBox=\"0 0 {width} {height}\" font-family=\"sans-serif\" font-size=\"12\">\n\
         <rect width=\"{width}\" height=\"{height}\" fill=\"white\"/>\n"
    );
    for (place, panel) in panels.iter().enumerate() {
        let shift = WIDTH * place as f64;
        line(
            &mut text,
            format_args!("<g transform=\"translate({shift} 0)\">"),
        );
        draw(&mut text, panel);
        line(&mut text, format_args!("</g>"));
    }
    if let Some(first) = panels.first() {
        legend(&mut text, first, width);
    }
    text.push_str("</svg>\n");
    text
}

fn line(text: &mut String, arguments: std::fmt::Arguments) {
    writeln!(text, "{arguments}").expect("a string can be written to");
}

/// One axis: a range of powers of ten, and the pixels that it takes.
struct Axis {
    low: i32,
    high: i32,
    from: f64,
    to: f64,
}

impl Axis {
    fn new(values: impl Iterator<Item = f64> + Clone, from: f64, to: f64) -> Self {
        let least = values.clone().fold(f64::INFINITY, f64::min);
        let most = values.fold(0.0, f64::max);
        let low = least.log10().floor() as i32;
        let high = (most.log10().ceil() as i32).max(low + 1);
        Self {
            low,
            high,
            from,
            to,
        }
    }

    fn place(&self, value: f64) -> f64 {
        let share = (value.log10() - f64::from(self.low)) / f64::from(self.high - self.low);
        self.from + share * (self.to - self.from)
    }

    /// The powers of ten, with their places and names.
    fn ticks(&self) -> impl Iterator<Item = (f64, String)> {
        (self.low..=self.high).map(|power| {
            let value = 10_f64.powi(power);
            (self.place(value), short(power))
        })
    }
}

/// A power of ten as people write it.
fn short(power: i32) -> String {
    let (base, unit) = match power {
        ..=2 => (0, ""),
        3..=5 => (3, "k"),
        6..=8 => (6, "M"),
        _ => (9, "G"),
    };
    format!("{}{unit}", 10_f64.powi(power - base))
}

fn draw(text: &mut String, panel: &Panel) {
    let points = || panel.series.iter().flat_map(|series| &series.points);
    let x = Axis::new(points().map(|point| point.0), LEFT, WIDTH - RIGHT);
    let y = Axis::new(points().map(|point| point.1), HEIGHT - BOTTOM, TOP);

    let middle = (LEFT + WIDTH - RIGHT) / 2.0;
    line(
        text,
        format_args!(
            "<text x=\"{middle}\" y=\"25\" text-anchor=\"middle\" font-size=\"14\">{}</text>",
            panel.title
        ),
    );
    for (at, name) in x.ticks() {
        grid(text, (at, y.from), (at, y.to));
        let below = y.from + 18.0;
        line(
            text,
            format_args!("<text x=\"{at:.1}\" y=\"{below}\" text-anchor=\"middle\">{name}</text>"),
        );
    }
    for (at, name) in y.ticks() {
        grid(text, (x.from, at), (x.to, at));
        let (left, base) = (x.from - 6.0, at + 4.0);
        line(
            text,
            format_args!("<text x=\"{left}\" y=\"{base:.1}\" text-anchor=\"end\">{name}</text>"),
        );
    }
    let below = HEIGHT - 22.0;
    line(
        text,
        format_args!(
            "<text x=\"{middle}\" y=\"{below}\" text-anchor=\"middle\">{}</text>",
            panel.x
        ),
    );
    let middle = (y.from + y.to) / 2.0;
    line(
        text,
        format_args!(
            "<text transform=\"translate(18 {middle}) rotate(-90)\" text-anchor=\"middle\">{}</text>",
            panel.y
        ),
    );
    for series in &panel.series {
        curve(text, series, &x, &y);
    }
}

fn grid(text: &mut String, from: (f64, f64), to: (f64, f64)) {
    line(
        text,
        format_args!(
            "<line x1=\"{:.1}\" y1=\"{:.1}\" x2=\"{:.1}\" y2=\"{:.1}\" stroke=\"#ddd\"/>",
            from.0, from.1, to.0, to.1
        ),
    );
}

fn dashes(series: &Series) -> &'static str {
    if series.dashed {
        " stroke-dasharray=\"6 4\""
    } else {
        ""
    }
}

fn curve(text: &mut String, series: &Series, x: &Axis, y: &Axis) {
    let places = series.points.iter();
    let places = places.map(|&(a, b)| (x.place(a), y.place(b)));
    let joined: Vec<String> = places
        .clone()
        .map(|(a, b)| format!("{a:.1},{b:.1}"))
        .collect();
    let color = series.color;
    line(
        text,
        format_args!(
            "<polyline points=\"{}\" fill=\"none\" stroke=\"{color}\" stroke-width=\"1.6\"{}/>",
            joined.join(" "),
            dashes(series)
        ),
    );
    let inside = if series.dashed { "white" } else { color };
    for (a, b) in places {
        line(
            text,
            format_args!(
                "<circle cx=\"{a:.1}\" cy=\"{b:.1}\" r=\"3\" fill=\"{inside}\" stroke=\"{color}\"/>"
            ),
        );
    }
}

fn legend(text: &mut String, panel: &Panel, width: f64) {
    let each = (width - 2.0 * RIGHT) / panel.series.len().max(1) as f64;
    let y = HEIGHT + LEGEND / 2.0;
    for (place, series) in panel.series.iter().enumerate() {
        let x = RIGHT + each * place as f64;
        let (end, after, base) = (x + 30.0, x + 36.0, y + 4.0);
        line(
            text,
            format_args!(
                "<line x1=\"{x:.1}\" y1=\"{y}\" x2=\"{end:.1}\" y2=\"{y}\" stroke=\"{}\" \
                 stroke-width=\"1.6\"{}/>\n<text x=\"{after:.1}\" y=\"{base}\">{}</text>",
                series.color,
                dashes(series),
                series.name
            ),
        );
    }
}
