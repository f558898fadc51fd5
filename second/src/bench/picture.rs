//! Speed against size as a picture, from the lines of results.csv.

use super::codec::HALVES_TO_EVEN;
use super::fields::FIELDS;
use super::report::CSV_HEADER;
use super::timing::{Operation, Who};
use std::fmt::Write;

/// One measured operation of one compressor on one field.
struct Point {
    who: Who,
    operation: Operation,
    width: u32,
    mode: u32,
    group: u32,
    to_even: bool,
    field: String,
    /// Packed bytes by raw bytes.
    share: f64,
    megabytes_a_second: f64,
    /// Whether values did not come back.
    loses: bool,
}

/// The other versions of our own format are not drawn: they have our sizes, and
/// the tables have their speeds. Nor are groups of 128, or halves to even, whose marks
/// lie on those of 32, or of halves away from zero, or beside them: tables have both.
const DRAWN: [Who; 5] = [Who::Ours, Who::Lz4, Who::Zstd, Who::Zfp, Who::Blosc];

/// The picture as SVG, or nothing if the text is not a results.csv.
pub fn picture(csv: &str) -> Option<String> {
    let lines = csv.strip_prefix(CSV_HEADER)?.trim_start().lines();
    let points: Vec<Point> = lines.map(point).collect::<Option<_>>()?;
    let mut svg = String::new();
    opening(&mut svg);
    for panel in &PANELS {
        panel.draw(&mut svg, &points);
    }
    legend(&mut svg, &points);
    svg += "</svg>\n";
    Some(svg)
}

fn point(line: &str) -> Option<Point> {
    let columns: Vec<&str> = line.split(',').collect();
    let [width, mode, group, halves, field, who, operation, raw, packed, median, _, lost] =
        columns[..]
    else {
        return None;
    };
    let (raw, packed, median): (f64, f64, f64) =
        (raw.parse().ok()?, packed.parse().ok()?, median.parse().ok()?);
    Some(Point {
        who: Who::ALL.iter().copied().find(|w| w.name() == who)?,
        operation: Operation::ALL.iter().copied().find(|o| o.name() == operation)?,
        width: width.parse().ok()?,
        mode: mode.parse().ok()?,
        group: group.parse().ok()?,
        to_even: halves == HALVES_TO_EVEN,
        field: field.to_string(),
        share: packed / raw,
        megabytes_a_second: raw / 1e6 / median,
        loses: lost.parse::<u64>().ok()? > 0,
    })
}

// ------------------------------------------------------------------ layout

const WIDTH: f64 = 1000.0;
const HEIGHT: f64 = 1230.0;
const PANEL_WIDTH: f64 = 400.0;
const PANEL_HEIGHT: f64 = 290.0;
const SLOWEST: f64 = 30.0;
const FASTEST: f64 = 40_000.0;
const LEAST_SHARE: f64 = -0.04;
const LARGEST_SHARE: f64 = 1.06;

struct Panel {
    title: &'static str,
    mode: u32,
    operation: Operation,
    left: f64,
    top: f64,
}

impl Panel {
    const fn at(column: u32, row: u32, title: &'static str, operation: Operation) -> Panel {
        let (left, top) = (75.0 + 495.0 * column as f64, 90.0 + 370.0 * row as f64);
        Panel { title, mode: row, operation, left, top }
    }
}

/// A row for each mode.
const PANELS: [Panel; 6] = [
    Panel::at(0, 0, "Lossless: pack", Operation::Pack),
    Panel::at(1, 0, "Lossless: unpack", Operation::Unpack),
    Panel::at(0, 1, "Within 2⁻¹⁰: pack", Operation::Pack),
    Panel::at(1, 1, "Within 2⁻¹⁰: unpack", Operation::Unpack),
    Panel::at(0, 2, "Lossless by differences: pack", Operation::Pack),
    Panel::at(1, 2, "Lossless by differences: unpack", Operation::Unpack),
];

/// Adds a line; writing to a string does not fail.
fn add(svg: &mut String, element: std::fmt::Arguments) {
    let _ = writeln!(svg, "{element}");
}

fn text(svg: &mut String, x: f64, y: f64, attributes: &str, words: &str) {
    add(svg, format_args!("<text x=\"{x:.1}\" y=\"{y:.1}\" {attributes}>{words}</text>"));
}

fn opening(svg: &mut String) {
    add(
        svg,
        format_args!(
            "<svg xmlns=\"http://www.w3.org/2000/svg\" viewBox=\"0 0 {WIDTH} {HEIGHT}\" \
             width=\"{WIDTH}\" height=\"{HEIGHT}\" font-family=\"sans-serif\" font-size=\"13\" \
             fill=\"#222\">\n<title>Speed against size</title>\n\
             <rect width=\"{WIDTH}\" height=\"{HEIGHT}\" fill=\"#fff\"/>"
        ),
    );
    text(svg, 75.0, 34.0, "font-size=\"20\" font-weight=\"bold\"", "Speed against size");
    let about =
        "Fields of up to 1,048,576 values, medians. Upward is faster, leftward is smaller. \
                 Groups of 32. A cross: values are lost.";
    text(svg, 75.0, 56.0, "fill=\"#555\"", about);
}

impl Panel {
    fn x(&self, share: f64) -> f64 {
        let place = (share - LEAST_SHARE) / (LARGEST_SHARE - LEAST_SHARE);
        self.left + PANEL_WIDTH * place.clamp(0.0, 1.0)
    }

    fn y(&self, speed: f64) -> f64 {
        let place = (speed / SLOWEST).ln() / (FASTEST / SLOWEST).ln();
        self.top + PANEL_HEIGHT * (1.0 - place.clamp(0.0, 1.0))
    }

    fn draw(&self, svg: &mut String, points: &[Point]) {
        text(svg, self.left, self.top - 9.0, "font-weight=\"bold\"", self.title);
        self.axes(svg);
        self.memcpy_line(svg, points);
        let here = |point: &&Point| {
            DRAWN.contains(&point.who)
                && point.group == 32
                && !point.to_even
                && (point.mode, point.operation) == (self.mode, self.operation)
        };
        let drawn: Vec<&Point> = points.iter().filter(here).collect();
        let place = |point: &&Point| (self.x(point.share), self.y(point.megabytes_a_second));
        let marks: Vec<(f64, f64)> = drawn.iter().map(place).collect();
        let letters = letter_places(&marks, (self.left, self.top));
        for (i, &letter) in letters.iter().enumerate() {
            leader(svg, &marks, i, letter);
        }
        // The first drawn is the lowest: ours, which comes first, lies on top.
        for (point, &(x, y)) in drawn.iter().zip(&marks).rev() {
            mark(svg, point.who, point.width == 64, x, y);
        }
        for (_, &(x, y)) in drawn.iter().zip(&marks).filter(|(point, _)| point.loses) {
            cross(svg, x, y);
        }
        let files = files_of(points);
        for (point, &(x, y)) in drawn.iter().zip(&letters) {
            let colour = colour(point.who);
            let attributes =
                format!("text-anchor=\"middle\" font-size=\"12\" fill=\"{colour}\" {HALO}");
            text(svg, x, y + 4.0, &attributes, &label(&point.field, &files));
        }
    }

    fn axes(&self, svg: &mut String) {
        let (right, bottom) = (self.left + PANEL_WIDTH, self.top + PANEL_HEIGHT);
        for speed in [30.0, 100.0, 300.0, 1000.0, 3000.0, 10000.0, 30000.0] {
            let y = self.y(speed);
            line(svg, (self.left, y), (right, y), "stroke=\"#ddd\"");
            let attributes = "text-anchor=\"end\" fill=\"#555\"";
            text(svg, self.left - 7.0, y + 4.5, attributes, &thousands(speed));
        }
        for percent in [0, 25, 50, 75, 100] {
            let x = self.x(f64::from(percent) / 100.0);
            line(svg, (x, self.top), (x, bottom), "stroke=\"#ddd\"");
            let attributes = "text-anchor=\"middle\" fill=\"#555\"";
            text(svg, x, bottom + 17.0, attributes, &format!("{percent} %"));
        }
        line(svg, (self.left, bottom), (right, bottom), "stroke=\"#222\"");
        line(svg, (self.left, self.top), (self.left, bottom), "stroke=\"#222\"");
        let middle = "text-anchor=\"middle\" fill=\"#555\"";
        text(svg, self.left + PANEL_WIDTH / 2.0, bottom + 36.0, middle, "packed size by raw size");
        let (x, y) = (self.left - 56.0, self.top + PANEL_HEIGHT / 2.0);
        let turned = format!("{middle} transform=\"rotate(-90 {x} {y})\"");
        text(svg, x, y, &turned, "MB of raw bytes a second");
    }

    /// Copies have no packed size: a line across at their mean speed.
    fn memcpy_line(&self, svg: &mut String, points: &[Point]) {
        let copies = points.iter().filter(|p| p.who == Who::Memcpy && p.mode == self.mode);
        let speeds: Vec<f64> = copies.map(|point| point.megabytes_a_second).collect();
        if speeds.is_empty() {
            return;
        }
        let y = self.y(speeds.iter().sum::<f64>() / speeds.len() as f64);
        let dashed = "stroke=\"#222\" stroke-dasharray=\"5 4\"";
        line(svg, (self.left, y), (self.left + PANEL_WIDTH, y), dashed);
        text(svg, self.x(0.6), y - 5.0, HALO, "memcpy");
    }
}

fn thousands(speed: f64) -> String {
    if speed < 1000.0 {
        format!("{speed}")
    } else {
        format!("{},000", speed / 1000.0)
    }
}

// ----------------------------------------------------------------- letters

/// The room of a letter, and that of a mark.
const LETTER: (f64, f64) = (9.0, 12.0);
const MARK: (f64, f64) = (15.0, 14.0);
/// A letter this near, with no other mark as near, needs no line to its mark.
const BESIDE: f64 = 19.0;

/// Where the letter of each mark stands, by its middle: beside it, or as near
/// as it lies on no mark and on no other letter, in the panel with this corner.
pub fn letter_places(marks: &[(f64, f64)], (left, top): (f64, f64)) -> Vec<(f64, f64)> {
    let mut letters: Vec<(f64, f64)> = Vec::new();
    for &(x, y) in marks {
        let around = (0..).flat_map(|ring| (0..16).map(move |turn| (ring, turn)));
        let tried = around.map(|(ring, turn)| {
            // From below, to both sides in turn.
            let side = if turn % 2 == 0 { 0.5 } else { -0.5 };
            let angle = std::f64::consts::PI / 8.0 * side * f64::from((turn + 1) / 2 * 2);
            let distance = 14.0 + 4.0 * f64::from(ring);
            (x + distance * angle.sin(), y + distance * angle.cos())
        });
        let free = |&(x, y): &(f64, f64)| {
            x > left + 5.0
                && x < left + PANEL_WIDTH + 20.0
                && y > top - 5.0
                && y < top + PANEL_HEIGHT - 7.0
                && !marks.iter().any(|&mark| overlap((x, y), LETTER, mark, MARK))
                && !letters.iter().any(|&other| overlap((x, y), LETTER, other, LETTER))
        };
        // The panel has more room than any run has marks.
        letters.push(tried.take(16 * 60).find(free).unwrap_or((x, y)));
    }
    letters
}

/// Whether two boxes, by middle and size, lie on each other.
pub fn overlap(one: (f64, f64), size: (f64, f64), other: (f64, f64), its: (f64, f64)) -> bool {
    (one.0 - other.0).abs() < (size.0 + its.0) / 2.0
        && (one.1 - other.1).abs() < (size.1 + its.1) / 2.0
}

/// A thin line from a mark to its letter, where one may take it for another's.
fn leader(svg: &mut String, marks: &[(f64, f64)], own: usize, letter: (f64, f64)) {
    let from = |mark: (f64, f64)| (letter.0 - mark.0).hypot(letter.1 - mark.1);
    let (mark, distance) = (marks[own], from(marks[own]));
    let doubtful = |(i, &other): (usize, &(f64, f64))| i != own && from(other) < 1.25 * distance;
    if distance > BESIDE || marks.iter().enumerate().any(doubtful) {
        let kept = 1.0 - 5.0 / distance;
        let end = (mark.0 + (letter.0 - mark.0) * kept, mark.1 + (letter.1 - mark.1) * kept);
        line(svg, mark, end, "stroke=\"#777\" stroke-width=\"0.8\"");
    }
}

// ------------------------------------------------------------------- marks

/// White around letters, so that lines do not cross them.
const HALO: &str =
    "stroke=\"#fff\" stroke-width=\"3\" paint-order=\"stroke\" stroke-linejoin=\"round\"";

fn line(svg: &mut String, from: (f64, f64), to: (f64, f64), attributes: &str) {
    let ((x1, y1), (x2, y2)) = (from, to);
    add(
        svg,
        format_args!(
            "<line x1=\"{x1:.1}\" y1=\"{y1:.1}\" x2=\"{x2:.1}\" y2=\"{y2:.1}\" {attributes}/>"
        ),
    );
}

/// The colours of Okabe and Ito, which the colour-blind tell apart too.
fn colour(who: Who) -> &'static str {
    match who {
        Who::Ours => "#0072b2",
        Who::Lz4 => "#009e73",
        Who::Zstd => "#cc79a7",
        Who::Zfp => "#d55e00",
        Who::Blosc => "#e69f00",
        Who::Tuned | Who::PlainC | Who::Memcpy => "#222222",
    }
}

/// A shape for each compressor, filled for width 64.
fn mark(svg: &mut String, who: Who, filled: bool, x: f64, y: f64) {
    let corners: &[(f64, f64)] = match who {
        Who::Lz4 => &[(-5.5, 4.5), (0.0, -5.5), (5.5, 4.5)],
        Who::Zstd => &[(-4.5, -4.5), (4.5, -4.5), (4.5, 4.5), (-4.5, 4.5)],
        Who::Zfp => &[(-5.5, -4.5), (5.5, -4.5), (0.0, 5.5)],
        Who::Blosc => &[(-6.0, 0.0), (0.0, -6.0), (6.0, 0.0), (0.0, 6.0)],
        Who::Ours | Who::Tuned | Who::PlainC | Who::Memcpy => &[],
    };
    let colour = colour(who);
    let fill = if filled { colour } else { "#fff" };
    let paint = format!("fill=\"{fill}\" stroke=\"{colour}\" stroke-width=\"2\"");
    match who {
        Who::Tuned | Who::PlainC | Who::Memcpy => {}
        Who::Ours => {
            add(svg, format_args!("<circle cx=\"{x:.1}\" cy=\"{y:.1}\" r=\"5\" {paint}/>"));
        }
        _ => {
            let corners = corners.iter().map(|(dx, dy)| format!("{:.1},{:.1}", x + dx, y + dy));
            let corners = corners.collect::<Vec<_>>().join(" ");
            add(svg, format_args!("<polygon points=\"{corners}\" {paint}/>"));
        }
    }
}

/// Over a mark whose compressor lost values.
fn cross(svg: &mut String, x: f64, y: f64) {
    for slope in [1.0, -1.0] {
        let reach = 7.0;
        let ends = ((x - reach, y - slope * reach), (x + reach, y + slope * reach));
        line(svg, ends.0, ends.1, "stroke=\"#111\" stroke-width=\"1.8\"");
    }
}

fn legend(svg: &mut String, points: &[Point]) {
    let y = HEIGHT - 50.0;
    let mut x = 80.0;
    for &who in DRAWN.iter().filter(|who| points.iter().any(|point| point.who == **who)) {
        mark(svg, who, false, x, y);
        mark(svg, who, true, x + 15.0, y);
        text(svg, x + 27.0, y + 4.5, "", who.name());
        x += 150.0;
    }
    if points.iter().any(|point| point.loses) {
        mark(svg, Who::Zfp, true, x, y);
        cross(svg, x, y);
        text(svg, x + 12.0, y + 4.5, "", "loses values");
    }
    let files = files_of(points);
    let names = FIELDS.iter().map(|field| field.name()).chain(files.iter().copied());
    let names: Vec<String> = names.map(|name| format!("{} {name}", label(name, &files))).collect();
    let key = format!(
        "Hollow: width 32; filled: width 64. The letter is the field: {}.",
        names.join(", ")
    );
    text(svg, 75.0, HEIGHT - 20.0, "fill=\"#555\"", &key);
}

/// The fields that are no model's, each once.
fn files_of(points: &[Point]) -> Vec<&str> {
    let mut files = Vec::new();
    for name in points.iter().map(|point| point.field.as_str()) {
        if !files.contains(&name) && FIELDS.iter().all(|field| field.name() != name) {
            files.push(name);
        }
    }
    files
}

/// What stands below a mark: a model field's first letter, or a file's number.
fn label(name: &str, files: &[&str]) -> String {
    match files.iter().position(|&file| file == name) {
        Some(index) => (index + 1).to_string(),
        None => name.chars().take(1).collect(),
    }
}
