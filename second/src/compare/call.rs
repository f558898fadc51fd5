//! One call of the library with its whole input.

use crate::numbers::{Width, WIDTH_32, WIDTH_64};
use std::fmt;

/// A list of values, by their patterns.
#[derive(Clone, Copy)]
pub enum Values<'a> {
    Singles(&'a [u32]),
    Doubles(&'a [u64]),
}

impl Values<'_> {
    pub fn width(&self) -> Width {
        match self {
            Values::Singles(_) => WIDTH_32,
            Values::Doubles(_) => WIDTH_64,
        }
    }

    pub fn count(&self) -> usize {
        match self {
            Values::Singles(values) => values.len(),
            Values::Doubles(values) => values.len(),
        }
    }
}

/// A list of values that owns them.
#[derive(Clone)]
pub enum List {
    Singles(Vec<u32>),
    Doubles(Vec<u64>),
}

impl List {
    /// The list of these patterns, each below 2^W.
    pub fn of(width: Width, patterns: impl IntoIterator<Item = u64>) -> List {
        let patterns = patterns.into_iter();
        if width == WIDTH_32 {
            List::Singles(patterns.map(|pattern| pattern as u32).collect())
        } else {
            List::Doubles(patterns.collect())
        }
    }

    pub fn values(&self) -> Values<'_> {
        match self {
            List::Singles(values) => Values::Singles(values),
            List::Doubles(values) => Values::Doubles(values),
        }
    }
}

/// A call of an operation, or of one of the lower library's functions. Outputs
/// are lent by whoever makes the call; `room` is how many elements.
#[derive(Clone, Copy)]
pub enum Call<'a> {
    Pack {
        level: u32,
        mode: u32,
        k: i32,
        group: u32,
        values: Values<'a>,
        room: usize,
    },
    Length {
        level: u32,
        mode: u32,
        k: i32,
        group: u32,
        values: Values<'a>,
    },
    Unpack {
        width: Width,
        level: u32,
        stream: &'a [u8],
        room: usize,
    },
    Check {
        level: u32,
        stream: &'a [u8],
    },
    Probe {
        width: Width,
        level: u32,
        stream: &'a [u8],
        index: u64,
    },
    AddSummary {
        level: u32,
        stream: &'a [u8],
        room: usize,
    },
    TestSummary {
        level: u32,
        stream: &'a [u8],
    },
    /// The room is told in chunk numbers, at both widths of 32 bits.
    ChunksFrom {
        width: Width,
        level: u32,
        x: u64,
        stream: &'a [u8],
        room: usize,
    },
    Bound {
        width: u32,
        tolerance: u64,
    },
    LosslessCode {
        width: Width,
        pattern: u64,
    },
    LosslessRestored {
        width: Width,
        code: u64,
    },
    /// The rule for halves is told by its number, which may be none.
    ToleranceCode {
        width: Width,
        halves: u32,
        k: i32,
        pattern: u64,
    },
    ToleranceRestored {
        width: Width,
        k: i32,
        code: u64,
    },
}

/// Every operation with the answer numbers it can give, 0 for success. The
/// lossless codes answer no number, but the code or pattern itself.
pub const OPERATIONS: [(&str, &[u32]); 22] = [
    ("pack32", &[0, 1, 2, 3, 4]),
    ("pack64", &[0, 1, 2, 3, 4]),
    ("length32", &[0, 1, 2, 3]),
    ("length64", &[0, 1, 2, 3]),
    ("check", &[0, 1, 5, 6, 7, 8, 9, 15, 10]),
    ("unpack32", &[0, 1, 5, 6, 7, 8, 14, 4, 9, 15, 10]),
    ("unpack64", &[0, 1, 5, 6, 7, 8, 14, 4, 9, 15, 10]),
    ("probe32", &[0, 1, 5, 6, 7, 8, 14, 11, 9, 15, 10]),
    ("probe64", &[0, 1, 5, 6, 7, 8, 14, 11, 9, 15, 10]),
    ("add_summary", &[0, 1, 5, 6, 7, 8, 9, 15, 10, 16, 4]),
    ("test_summary", &[0, 1, 5, 6, 7, 8, 9, 15, 10, 17]),
    ("chunks_from32", &[0, 1, 2, 5, 6, 7, 8, 14, 9, 15, 10, 17, 4]),
    ("chunks_from64", &[0, 1, 2, 5, 6, 7, 8, 14, 9, 15, 10, 17, 4]),
    ("bound", &[0, 2, 12, 13]),
    ("lossless_code32", &[0]),
    ("lossless_code64", &[0]),
    ("lossless_restored32", &[0]),
    ("lossless_restored64", &[0]),
    ("tolerance_code32", &[0, 2]),
    ("tolerance_code64", &[0, 2]),
    ("tolerance_restored32", &[0, 2, 10]),
    ("tolerance_restored64", &[0, 2, 10]),
];

impl Call<'_> {
    /// The operation's name, one of `OPERATIONS`.
    pub fn operation(&self) -> &'static str {
        match self {
            Call::Pack { values, .. } => of_width(values.width(), ["pack32", "pack64"]),
            Call::Length { values, .. } => of_width(values.width(), ["length32", "length64"]),
            Call::Unpack { width, .. } => of_width(*width, ["unpack32", "unpack64"]),
            Call::Check { .. } => "check",
            Call::Probe { width, .. } => of_width(*width, ["probe32", "probe64"]),
            Call::AddSummary { .. } => "add_summary",
            Call::TestSummary { .. } => "test_summary",
            Call::ChunksFrom { width, .. } => of_width(*width, ["chunks_from32", "chunks_from64"]),
            Call::Bound { .. } => "bound",
            Call::LosslessCode { width, .. } => {
                of_width(*width, ["lossless_code32", "lossless_code64"])
            }
            Call::LosslessRestored { width, .. } => {
                of_width(*width, ["lossless_restored32", "lossless_restored64"])
            }
            Call::ToleranceCode { width, .. } => {
                of_width(*width, ["tolerance_code32", "tolerance_code64"])
            }
            Call::ToleranceRestored { width, .. } => {
                of_width(*width, ["tolerance_restored32", "tolerance_restored64"])
            }
        }
    }

    fn answers_a_code(&self) -> bool {
        matches!(self, Call::LosslessCode { .. } | Call::LosslessRestored { .. })
    }

    /// The answer's number in the refusal table, 0 for success.
    pub fn number_of(&self, answer: u64) -> u32 {
        if self.answers_a_code() {
            0
        } else {
            (answer >> 32) as u32
        }
    }

    /// The answer in words.
    pub fn answer_text(&self, answer: u64) -> String {
        let low = answer as u32;
        match self.number_of(answer) {
            _ if self.answers_a_code() => format!("{answer:x}"),
            0 if matches!(self, Call::Bound { .. }) => format!("0 with k = {}", low as i32),
            0 => format!("0 with {low}"),
            number => format!("refused {number} detail {low}"),
        }
    }
}

fn of_width(width: Width, names: [&'static str; 2]) -> &'static str {
    names[usize::from(width == WIDTH_64)]
}

/// How many elements of a list or stream are printed.
const SHOWN: usize = 4096;

/// The call's input, numbers in decimal, lists, streams and patterns in hex.
impl fmt::Display for Call<'_> {
    fn fmt(&self, f: &mut fmt::Formatter) -> fmt::Result {
        match *self {
            Call::Pack { level, mode, k, group, values, room } => {
                write!(f, "level {level} mode {mode} k {k} group {group} room {room} ")?;
                write_values(f, values)
            }
            Call::Length { level, mode, k, group, values } => {
                write!(f, "level {level} mode {mode} k {k} group {group} ")?;
                write_values(f, values)
            }
            Call::Unpack { level, stream, room, .. } | Call::AddSummary { level, stream, room } => {
                write!(f, "level {level} room {room} ")?;
                write_stream(f, stream)
            }
            Call::Check { level, stream } | Call::TestSummary { level, stream } => {
                write!(f, "level {level} ")?;
                write_stream(f, stream)
            }
            Call::Probe { level, stream, index, .. } => {
                write!(f, "level {level} index {index} ")?;
                write_stream(f, stream)
            }
            Call::ChunksFrom { level, x, stream, room, .. } => {
                write!(f, "level {level} x {x:x} room {room} ")?;
                write_stream(f, stream)
            }
            Call::Bound { width, tolerance } => write!(f, "width {width} tolerance {tolerance:x}"),
            Call::LosslessCode { pattern, .. } => write!(f, "pattern {pattern:x}"),
            Call::LosslessRestored { code, .. } => write!(f, "code {code:x}"),
            Call::ToleranceCode { halves, k, pattern, .. } => {
                write!(f, "halves {halves} k {k} pattern {pattern:x}")
            }
            Call::ToleranceRestored { k, code, .. } => write!(f, "k {k} code {code:x}"),
        }
    }
}

fn write_values(f: &mut fmt::Formatter, values: Values) -> fmt::Result {
    write!(f, "values ({}):", values.count())?;
    match values {
        Values::Singles(values) => {
            for value in values.iter().take(SHOWN) {
                write!(f, " {value:08x}")?;
            }
        }
        Values::Doubles(values) => {
            for value in values.iter().take(SHOWN) {
                write!(f, " {value:016x}")?;
            }
        }
    }
    write_rest(f, values.count())
}

fn write_stream(f: &mut fmt::Formatter, stream: &[u8]) -> fmt::Result {
    write!(f, "stream ({} bytes): ", stream.len())?;
    for byte in stream.iter().take(SHOWN) {
        write!(f, "{byte:02x}")?;
    }
    write_rest(f, stream.len())
}

fn write_rest(f: &mut fmt::Formatter, count: usize) -> fmt::Result {
    match count.saturating_sub(SHOWN) {
        0 => Ok(()),
        rest => write!(f, " and {rest} more"),
    }
}
