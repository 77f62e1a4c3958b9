//! The picture of the benchmark: a panel for each group of calls, time against the number of records, both logarithmic. Beside
//! the end of each line stand its name, the time there, and the time as a multiple of the plain figure.

use crate::{grouped, machine, multiple, time, Line};

/// The panels: a title, and the calls that it shows.
const PANELS: [(&str, &[&str]); 11] = [
    ("Table check, schema check", &["table check", "schema check"]),
    ("One step of the walk, start, values", &["walk, one step", "start", "values"]),
    ("Merge", &["merge", "merge, every flag"]),
    ("Comparison", &["compare, alike", "compare, neither"]),
    ("Lookup of a record", &["lookup, first label", "lookup, last label", "lookup, no such label"]),
    ("Between old and new tables", &["widen", "narrow"]),
    ("Marks", &["marks"]),
    ("Insertion", &["insertion"]),
    ("Update, deletion", &["update", "deletion"]),
    ("Edits of the herd book", &["herd book, enter", "herd book, change", "herd book, strike"]),
    (
        "Searches and refusals of the herd book",
        &[
            "herd book, find a shown milking",
            "herd book, find no milking",
            "herd book, another kind",
        ],
    ),
];

const COLUMNS: usize = 2;

/// A panel: where its axes stand in it, and their lengths. To the right of them are the labels.
const LEFT: f64 = 64.0;
const TOP: f64 = 36.0;
const WIDTH: f64 = 280.0;
const HEIGHT: f64 = 220.0;
const LABELS: f64 = 370.0;
const BOTTOM: f64 = 50.0;

/// Above the panels stand a title and the machine.
const HEAD: f64 = 56.0;

/// The least distance of two labels.
const APART: f64 = 15.0;

/// A colour for each table, and for each call of a panel a stroke.
const COLOURS: [&str; 6] = ["#1b6ca8", "#c8553d", "#2e8b57", "#8a4fa3", "#b8860b", "#20808d"];
const DASHES: [&str; 3] = ["none", "6 3", "2 3"];

const UNITS: [&str; 10] =
    ["1 ns", "10 ns", "100 ns", "1 µs", "10 µs", "100 µs", "1 ms", "10 ms", "100 ms", "1 s"];

/// The decades of a panel, as powers of ten of a nanosecond.
struct Decades {
    lowest: i32,
    highest: i32,
}

impl Decades {
    fn of(lines: &[&Line]) -> Decades {
        let all =
            || lines.iter().flat_map(|line| &line.library).map(|spent| spent.max(1.0).log10());
        let lowest = all().fold(f64::MAX, f64::min).floor() as i32;
        let highest = all().fold(0.0, f64::max).ceil() as i32;
        Decades { lowest, highest: highest.max(lowest + 1).min(UNITS.len() as i32 - 1) }
    }

    fn height(&self, nanoseconds: f64) -> f64 {
        let part = (nanoseconds.max(1.0).log10() - self.lowest as f64)
            / (self.highest - self.lowest) as f64;
        TOP + HEIGHT - part * HEIGHT
    }
}

fn across(at: usize, of: usize) -> f64 {
    LEFT + at as f64 / (of - 1) as f64 * WIDTH
}

fn text(x: f64, y: f64, more: &str, words: &str) -> String {
    format!("<text x=\"{x:.1}\" y=\"{y:.1}\" {more}>{words}</text>\n")
}

fn axes(decades: &Decades, sizes: &[usize]) -> String {
    let mut out = String::new();
    for decade in decades.lowest..=decades.highest {
        let y = decades.height(10f64.powi(decade));
        out += &format!(
            "<line x1=\"{LEFT}\" y1=\"{y:.1}\" x2=\"{:.1}\" y2=\"{y:.1}\" stroke=\"#ddd\"/>\n",
            LEFT + WIDTH
        );
        out += &text(LEFT - 8.0, y + 4.0, "text-anchor=\"end\"", UNITS[decade as usize]);
    }
    for (at, size) in sizes.iter().enumerate() {
        let x = across(at, sizes.len());
        out += &text(x, TOP + HEIGHT + 18.0, "text-anchor=\"middle\"", &grouped(*size));
    }
    out + &text(LEFT + WIDTH / 2.0, TOP + HEIGHT + 36.0, "text-anchor=\"middle\"", "records (N)")
}

/// The heights of the labels: those of the last points, moved apart where labels would overlap, and back into the panel.
fn label_heights(lines: &[&Line], decades: &Decades) -> Vec<f64> {
    let last = |at: usize| decades.height(lines[at].library[lines[at].library.len() - 1]);
    let mut order: Vec<usize> = (0..lines.len()).collect();
    order.sort_by(|a, b| last(*a).total_cmp(&last(*b)));
    let mut heights = vec![0.0; lines.len()];
    let mut free = f64::MIN;
    for at in &order {
        heights[*at] = last(*at).max(free);
        free = heights[*at] + APART;
    }
    let mut most = TOP + HEIGHT;
    for at in order.iter().rev() {
        heights[*at] = heights[*at].min(most);
        most = heights[*at] - APART;
    }
    heights
}

fn label(line: &Line, calls: &[&str]) -> String {
    let end = line.library.len() - 1;
    let name = match calls.len() {
        1 => line.subject.to_string(),
        _ => format!("{}, {}", line.call, line.subject),
    };
    let ratio = multiple(line.library[end] / line.base[end]);
    format!("{name}: {}, {ratio} × {}", time(line.library[end]), line.plain)
}

/// How a line is drawn: the height of its label, its colour and its dashes.
struct Look {
    height: f64,
    colour: &'static str,
    dashes: &'static str,
}

/// A line, and at its end the label with a stroke that leads to it.
fn drawn(line: &Line, label: &str, look: &Look, decades: &Decades) -> String {
    let Look { height, colour, dashes } = look;
    let count = line.library.len();
    let point = |(at, spent): (usize, &f64)| (across(at, count), decades.height(*spent));
    let points: Vec<(f64, f64)> = line.library.iter().enumerate().map(point).collect();
    let listed: Vec<String> = points.iter().map(|(x, y)| format!("{x:.1},{y:.1}")).collect();
    let (x, y) = points[count - 1];
    let mut out = format!(
        "<polyline points=\"{}\" fill=\"none\" stroke=\"{colour}\" stroke-width=\"1.8\" stroke-dasharray=\"{dashes}\"/>\n",
        listed.join(" ")
    );
    out += &format!(
        "<line x1=\"{x:.1}\" y1=\"{y:.1}\" x2=\"{:.1}\" y2=\"{height:.1}\" stroke=\"{colour}\" stroke-width=\"0.8\"/>\n",
        x + 14.0
    );
    out + &text(x + 18.0, height + 4.0, &format!("fill=\"{colour}\""), label)
}

/// The place of a name among those of a list, each counted once.
fn place<'a>(name: &str, names: impl Iterator<Item = &'a str>) -> usize {
    let mut seen: Vec<&str> = Vec::new();
    for other in names {
        if other == name {
            break;
        }
        if !seen.contains(&other) {
            seen.push(other);
        }
    }
    seen.len()
}

fn panel(title: &str, calls: &[&str], lines: &[Line], sizes: &[usize]) -> String {
    let shown: Vec<&Line> = lines.iter().filter(|line| calls.contains(&line.call)).collect();
    let decades = Decades::of(&shown);
    let mut out = text(LEFT, TOP - 14.0, "font-weight=\"bold\"", title);
    out += &axes(&decades, sizes);
    let heights = label_heights(&shown, &decades);
    for (line, height) in shown.iter().zip(heights) {
        let table = place(line.subject, lines.iter().map(|line| line.subject));
        let call = place(line.call, calls.iter().copied());
        let look = Look { height, colour: COLOURS[table], dashes: DASHES[call] };
        out += &drawn(line, &label(line, calls), &look, &decades);
    }
    out
}

pub fn svg(lines: &[Line], sizes: &[usize]) -> String {
    let (width, height) = (LEFT + WIDTH + LABELS, TOP + HEIGHT + BOTTOM);
    let rows = PANELS.len().div_ceil(COLUMNS);
    let (all, down) = (width * COLUMNS as f64, HEAD + height * rows as f64);
    let mut out = format!(
        "<svg xmlns=\"http://www.w3.org/2000/svg\" viewBox=\"0 0 {all} {down}\" font-family=\"sans-serif\" font-size=\"12\">\n\
         <rect width=\"100%\" height=\"100%\" fill=\"white\"/>\n"
    );
    let title = format!(
        "One call of the library, least time of one run; at {} records the time and its multiple of the plain figure",
        grouped(sizes[sizes.len() - 1])
    );
    out += &text(LEFT, 24.0, "font-size=\"15\"", &title);
    out += &text(LEFT, 44.0, "fill=\"#555\"", &machine::name());
    for (at, (title, calls)) in PANELS.iter().enumerate() {
        let (x, y) = ((at % COLUMNS) as f64 * width, HEAD + (at / COLUMNS) as f64 * height);
        out += &format!("<g transform=\"translate({x:.1} {y:.1})\">\n");
        out += &panel(title, calls, lines, sizes);
        out += "</g>\n";
    }
    out + "</svg>\n"
}
