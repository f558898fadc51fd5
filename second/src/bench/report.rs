//! The results as CSV and as tables in Markdown.

use super::codec::{Setting, Value, HALVES_TO_EVEN};
use super::fields::VALUES;
use super::growth::{Growth, LENGTHS};
use super::others::{lost_by, Lost, Other};
use super::rows::{Row, PROBES};
use super::timing::{Operation, Timing, Who};
use std::fmt::Write;

const GROWING: [Who; 2] = [Who::Ours, Who::Tuned];
const OTHERS: [Who; 4] = [Who::Lz4, Who::Zstd, Who::Zfp, Who::Blosc];
const TIMED: [Operation; 6] = [
    Operation::Pack,
    Operation::PackExact,
    Operation::Length,
    Operation::Check,
    Operation::Unpack,
    Operation::Probe,
];

// -------------------------------------------------------------- conditions

/// The machine, and how it is measured.
pub fn conditions(rounds: usize) -> String {
    let processor = std::fs::read_to_string("/proc/cpuinfo").unwrap_or_default();
    let model = processor.lines().find_map(|line| line.strip_prefix("model name"));
    let model = model.map_or("unknown", |text| text.trim_start_matches([' ', '\t', ':']));
    let processors = std::thread::available_parallelism().map_or(1, usize::from);
    format!(
        "{model}, {processors} lent; the processor time of one thread; {rounds} rounds, in each of \
         which every contender runs once, in another order each time.\n{}",
        load_line()
    )
}

pub fn load_line() -> String {
    let load = std::fs::read_to_string("/proc/loadavg").unwrap_or_default();
    let numbers: Vec<&str> = load.split(' ').take(3).collect();
    format!("Load of the machine (1, 5, 15 minutes): {}.\n\n", numbers.join(" "))
}

// --------------------------------------------------------------------- CSV

pub const CSV_HEADER: &str =
    "width,mode,group,halves,field,who,operation,raw bytes,packed bytes,median seconds,minimum seconds,lost values";

pub fn csv(rows: &[Row]) -> String {
    let mut text = format!("{CSV_HEADER}\n");
    for row in rows {
        for timing in &row.timings {
            let raw = raw_bytes(row);
            let packed = size_of(row, timing.who).unwrap_or(raw);
            // Probes are timed many at once.
            let runs = if timing.operation == Operation::Probe { PROBES as f64 } else { 1.0 };
            let (median, minimum) = (timing.median / runs, timing.minimum / runs);
            let (who, operation) = (timing.who.name(), timing.operation.name());
            let Row { width, mode, group, halves, field, .. } = row;
            let lost = lost_of(row, timing.who);
            let _ = write!(text, "{width},{mode},{group},{halves},{field},{who},{operation},");
            add(&mut text, format_args!("{raw},{packed},{median:e},{minimum:e},{lost}"));
        }
    }
    text
}

pub fn growth_csv(growths: &[Growth]) -> String {
    let mut text = String::from(
        "width,mode,group,length,who,operation,median ns a value,minimum ns a value\n",
    );
    for Growth { width, mode, group, by_length } in growths {
        for (length, timings) in LENGTHS.iter().zip(by_length) {
            for timing in timings {
                let (who, operation) = (timing.who.name(), timing.operation.name());
                let (median, minimum) = (per_value(timing.median), per_value(timing.minimum));
                let _ = write!(text, "{width},{mode},{group},{length},{who},{operation},");
                add(&mut text, format_args!("{median:.4},{minimum:.4}"));
            }
        }
    }
    text
}

/// Adds a line; writing to a string does not fail.
fn add(text: &mut String, line: std::fmt::Arguments) {
    let _ = writeln!(text, "{line}");
}

fn raw_bytes(row: &Row) -> usize {
    row.n * row.width as usize / 8
}

fn per_value(seconds: f64) -> f64 {
    seconds * 1e9 / VALUES as f64
}

fn size_of(row: &Row, who: Who) -> Option<usize> {
    row.sizes.iter().find(|size| size.0 == who).map(|size| size.1)
}

fn lost_of(row: &Row, who: Who) -> usize {
    row.losses.iter().find(|loss| loss.0 == who).map_or(0, |loss| loss.1)
}

fn timing_of(timings: &[Timing], who: Who, operation: Operation) -> Option<&Timing> {
    timings.iter().find(|timing| timing.who == who && timing.operation == operation)
}

fn megabytes_a_second(row: &Row, seconds: f64) -> f64 {
    raw_bytes(row) as f64 / 1e6 / seconds
}

// ------------------------------------------------------------------ tables

/// Each operation's speed, and as a share of a baseline's.
pub fn beside(baseline: Who, title: &str, rows: &[Row]) -> String {
    let mut text = format!(
        "Beside {title}. MB (10^6 raw bytes) a second, or ns a probe; in brackets the share of the \
         speed of {}, by medians and by minima. Streams of both rules for halves are read alike.\n\n\
         | width | mode | group | halves | field | size | pack | pack, exact room | length | check \
         | unpack | probe | memcpy |\n|---|---|---|---|---|---|---|---|---|---|---|---|---|\n",
        baseline.name()
    );
    for row in rows {
        let cells: Vec<String> =
            TIMED.iter().map(|&operation| cell(row, baseline, operation)).collect();
        let copy = timing_of(&row.timings, Who::Memcpy, Operation::Copy);
        let copy = copy.map_or(0.0, |copy| megabytes_a_second(row, copy.median));
        let size = share(row, Who::Ours);
        let (Row { width, mode, group, halves, field, .. }, cells) = (row, cells.join(" | "));
        let _ = write!(text, "| {width} | {mode} | {group} | {halves} | {field} | {size} | ");
        add(&mut text, format_args!("{cells} | {copy:.0} |"));
    }
    text + "\n"
}

fn cell(row: &Row, baseline: Who, operation: Operation) -> String {
    let found = [Who::Ours, baseline].map(|who| timing_of(&row.timings, who, operation));
    let [Some(ours), Some(baseline)] = found else {
        return String::new();
    };
    let speed = match operation {
        Operation::Probe => format!("{:.0} ns", ours.median * 1e9 / PROBES as f64),
        _ => format!("{:.0}", megabytes_a_second(row, ours.median)),
    };
    format!("{speed} ({})", shares(ours, baseline))
}

/// One's speed as shares of another's, by medians and by minima.
fn shares(one: &Timing, other: &Timing) -> String {
    format!("{:.2}, {:.2}", other.median / one.median, other.minimum / one.minimum)
}

fn share(row: &Row, who: Who) -> String {
    let size = size_of(row, who).unwrap_or(0);
    format!("{:.1} %", 100.0 * size as f64 / raw_bytes(row) as f64)
}

/// What the library's mode 2 gives and costs beside its mode 0.
pub fn differences(rows: &[Row]) -> String {
    let mut text = String::from(
        "Mode 2 beside mode 0, Gwizdorad alone: both sizes, and the speed of mode 2 as a share of \
         that of mode 0, by medians and by minima.\n\n\
         | width | field | size in mode 0 | size in mode 2 | pack | unpack |\n\
         |---|---|---|---|---|---|\n",
    );
    // The fields of both modes stand in the same order.
    let in_mode = |mode: u32| rows.iter().filter(move |row| (row.mode, row.group) == (mode, 32));
    for (lossless, row) in in_mode(0).zip(in_mode(2)) {
        let sizes = [lossless, row].map(|row| share(row, Who::Ours)).join(" | ");
        let [pack, unpack] = [Operation::Pack, Operation::Unpack]
            .map(|operation| share_of_speed(row, lossless, operation));
        let Row { width, field, .. } = row;
        add(&mut text, format_args!("| {width} | {field} | {sizes} | {pack} | {unpack} |"));
    }
    text + "\n"
}

/// The library's speed in one row as a share of that in another.
fn share_of_speed(row: &Row, other: &Row, operation: Operation) -> String {
    let found = [row, other].map(|row| timing_of(&row.timings, Who::Ours, operation));
    let [Some(one), Some(other)] = found else { return String::new() };
    shares(one, other)
}

/// What the library's groups of 128 give and cost beside those of 32.
pub fn group_sizes(rows: &[Row]) -> String {
    let mut text = String::from(
        "Groups of 128 beside groups of 32, Gwizdorad alone: both sizes; in brackets the share of \
         the stream that is width bytes; and the speed of 128 as a share of that of 32, by medians \
         and by minima.\n\n\
         | width | mode | halves | field | size at 32 | size at 128 | pack | length | check | unpack \
         | probe |\n|---|---|---|---|---|---|---|---|---|---|---|\n",
    );
    const COMPARED: [Operation; 5] =
        [Operation::Pack, Operation::Length, Operation::Check, Operation::Unpack, Operation::Probe];
    // The fields of both sizes stand in the same order.
    let of_size = |group: u32| rows.iter().filter(move |row| row.group == group);
    for (small, row) in of_size(32).zip(of_size(128)) {
        let sizes = [small, row].map(size_and_width_bytes).join(" | ");
        let speeds = COMPARED.map(|operation| share_of_speed(row, small, operation)).join(" | ");
        let Row { width, mode, halves, field, .. } = row;
        let _ = write!(text, "| {width} | {mode} | {halves} | {field} | ");
        add(&mut text, format_args!("{sizes} | {speeds} |"));
    }
    text + "\n"
}

/// Of the stream as it is packed: each group has one width byte.
fn size_and_width_bytes(row: &Row) -> String {
    let width_bytes = row.n.div_ceil(row.group as usize) as f64;
    let packed = size_of(row, Who::Ours).unwrap_or(0) as f64;
    format!("{} ({:.1} %)", share(row, Who::Ours), 100.0 * width_bytes / packed)
}

/// Sizes and speeds beside the other compressors that were found.
pub fn beside_others(rows: &[Row]) -> String {
    let found = |who: &Who| rows.iter().any(|row| size_of(row, *who).is_some());
    let mut columns = vec![Who::Ours];
    columns.extend(OTHERS.into_iter().filter(found));
    let names: Vec<&str> = columns.iter().map(|who| who.name()).collect();
    let mut text = String::from(
        "Size; pack and unpack in MB a second, medians; how many values do not come back (bit for \
         bit in modes 0 and 2; in mode 1 within the tolerance or, if not finite, bit for bit).\n\n",
    );
    add(&mut text, format_args!("| width | mode | field | {} |", names.join(" | ")));
    add(&mut text, format_args!("|---|---|---|{}", "---|".repeat(names.len())));
    // The others know no group size and no halves, and stand beside groups of 32 and the
    // first rule.
    for row in rows.iter().filter(|row| row.group == 32 && row.halves != HALVES_TO_EVEN) {
        let cells: Vec<String> = columns.iter().map(|&who| size_and_speeds(row, who)).collect();
        let (Row { width, mode, field, .. }, cells) = (row, cells.join(" | "));
        add(&mut text, format_args!("| {width} | {mode} | {field} | {cells} |"));
    }
    text + "\n"
}

fn size_and_speeds(row: &Row, who: Who) -> String {
    let pack = timing_of(&row.timings, who, Operation::Pack);
    let unpack = timing_of(&row.timings, who, Operation::Unpack);
    let lost = lost_of(row, who);
    let lost = if lost == 0 { String::new() } else { format!("; loses {lost}") };
    match (pack, unpack) {
        (Some(pack), Some(unpack)) => format!(
            "{}; {:.0}, {:.0}{lost}",
            share(row, who),
            megabytes_a_second(row, pack.median),
            megabytes_a_second(row, unpack.median)
        ),
        _ => String::from("-"),
    }
}

/// What one compressor loses of a field with special values.
pub struct Keeping {
    who: Who,
    width: u32,
    mode: u32,
    lost: Lost,
    all: Lost,
}

pub fn kept_by<P: Value>(other: &Other<P>, setting: Setting) -> Keeping {
    let (lost, all) = lost_by(other, setting);
    Keeping { who: other.who, width: P::W, mode: setting.mode, lost, all }
}

pub fn keeping(keepings: &[Keeping]) -> String {
    let mut text = String::from(
        "A half-dry field with not-a-numbers, infinities and -0 on the dry land: the values that \
         do not come back (finite ones: bit for bit in modes 0 and 2, within the tolerance in mode \
         1).\n\n\
         | library | width | mode | not-a-numbers | infinities | finite |\n\
         |---|---|---|---|---|---|\n",
    );
    for Keeping { who, width, mode, lost, all } in keepings {
        let not_a_numbers = told(lost.not_a_numbers, all.not_a_numbers);
        let infinities = told(lost.infinities, all.infinities);
        let (who, finite) = (who.name(), told(lost.finite, all.finite));
        add(
            &mut text,
            format_args!(
                "| {who} | {width} | {mode} | {not_a_numbers} | {infinities} | {finite} |"
            ),
        );
    }
    text + "\n"
}

fn told(lost: usize, all: usize) -> String {
    if lost == 0 {
        String::from("all kept")
    } else {
        format!("{lost} of {all} lost")
    }
}

/// Time per value by the length of the list.
pub fn growing(growths: &[Growth]) -> String {
    let mut text = String::from(
        "ns a value, medians, the smooth field in lists of this length; last, the largest by the \
         smallest, by medians and by minima.\n\n| | width | mode | group | operation |",
    );
    for length in LENGTHS {
        let _ = write!(text, " {length} |");
    }
    let columns = "---|".repeat(LENGTHS.len());
    add(&mut text, format_args!(" factor |\n|---|---|---|---|---|{columns}---|"));
    for growth in growths {
        for operation in [Operation::Pack, Operation::Unpack] {
            for who in GROWING {
                add(&mut text, format_args!("{}", growth_line(growth, who, operation)));
            }
        }
    }
    text + "\n"
}

fn growth_line(growth: &Growth, who: Who, operation: Operation) -> String {
    let find = |timings: &Vec<Timing>| timing_of(timings, who, operation).copied();
    let timings: Vec<Timing> = growth.by_length.iter().filter_map(find).collect();
    let cells: Vec<String> =
        timings.iter().map(|timing| format!("{:.2}", per_value(timing.median))).collect();
    let by_medians = factor(timings.iter().map(|timing| timing.median));
    let by_minima = factor(timings.iter().map(|timing| timing.minimum));
    format!(
        "| {} | {} | {} | {} | {} | {} | {by_medians:.2}, {by_minima:.2} |",
        who.name(),
        growth.width,
        growth.mode,
        growth.group,
        operation.name(),
        cells.join(" | ")
    )
}

fn factor(seconds: impl Iterator<Item = f64> + Clone) -> f64 {
    let largest = seconds.clone().fold(0.0, f64::max);
    largest / seconds.fold(f64::INFINITY, f64::min)
}
