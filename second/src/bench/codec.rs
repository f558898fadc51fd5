//! The operations of one implementation of the format, as functions that
//! answer one number: what success answers, or the refusal.

use super::fields::Cell;
use super::timing::Who;
use crate::compare::operations::Operations;
use crate::compare::outcome::answered;
use crate::numbers::Halves;
use crate::plain;
use crate::stream::{halves_of_writer, HIGHEST_LEVEL};
use std::ops::Range;
use std::slice::from_mut;

/// The level of the readers. It reads every setting.
const READER: u32 = HIGHEST_LEVEL;
/// The last writers that send halves away from zero, and the first that send them to
/// even.
const AWAY: u32 = 13;
const TO_EVEN: u32 = 14;
/// The tolerance of mode 1 is 2^K: about a millimetre per second.
pub const K: i32 = -10;

#[derive(Clone, Copy, Debug, PartialEq, Eq)]
pub struct Setting {
    /// That of the writer.
    pub level: u32,
    pub mode: u32,
    pub k: i32,
    pub group: u32,
}

/// Every mode with groups of 32, mode 1 by both rules for halves, and then the same with
/// groups of 128.
pub const SETTINGS: [Setting; 8] = [
    Setting { level: HIGHEST_LEVEL, mode: 0, k: 0, group: 32 },
    Setting { level: AWAY, mode: 1, k: K, group: 32 },
    Setting { level: TO_EVEN, mode: 1, k: K, group: 32 },
    Setting { level: HIGHEST_LEVEL, mode: 2, k: 0, group: 32 },
    Setting { level: HIGHEST_LEVEL, mode: 0, k: 0, group: 128 },
    Setting { level: AWAY, mode: 1, k: K, group: 128 },
    Setting { level: TO_EVEN, mode: 1, k: K, group: 128 },
    Setting { level: HIGHEST_LEVEL, mode: 2, k: 0, group: 128 },
];

/// What the tables call the rules for halves, and modes without halves.
pub const HALVES_AWAY: &str = "away";
pub const HALVES_TO_EVEN: &str = "even";
pub const NO_HALVES: &str = "-";

impl Setting {
    /// What the tables call the rule for halves.
    pub fn halves(self) -> &'static str {
        match (self.mode, halves_of_writer(self.level)) {
            (1, Halves::AwayFromZero) => HALVES_AWAY,
            (1, Halves::ToEven) => HALVES_TO_EVEN,
            _ => NO_HALVES,
        }
    }

    /// Streams of both rules are read alike: with halves to even the writers alone are
    /// measured.
    pub fn is_read(self) -> bool {
        self.halves() != HALVES_TO_EVEN
    }
}

pub struct Codec<P> {
    pub who: Who,
    pub pack: fn(Setting, &[P], &mut [u8]) -> u64,
    pub length: fn(Setting, &[P]) -> u64,
    pub check: fn(&[u8]) -> u64,
    pub unpack: fn(&[u8], &mut [P]) -> u64,
    /// Answers the kind of the number and puts its pattern.
    pub probe: fn(&[u8], u64, &mut P) -> u64,
}

/// A pattern of either width, as all of the benchmark takes it.
pub trait Value: Cell + plain::Lane {}
impl Value for u32 {}
impl Value for u64 {}

/// An implementation's operations with whole outputs lent.
pub fn codec_of<L: Operations<P>, P>(who: Who) -> Codec<P> {
    Codec {
        who,
        pack: |Setting { level, mode, k, group }, values, output| {
            let room = 0..output.len();
            L::pack(level, mode, k, group, values, output, room)
        },
        length: |Setting { level, mode, k, group }, values| {
            L::length(level, mode, k, group, values)
        },
        check: |stream| L::check(READER, stream),
        unpack: |stream, output| {
            let room = 0..output.len();
            L::unpack(READER, stream, output, room)
        },
        probe: |stream, index, pattern| L::probe(READER, stream, index, from_mut(pattern), 0..1),
    }
}

/// The tuned version, [`plain`].
pub struct Tuned;

impl<P: Value> Operations<P> for Tuned {
    fn pack(
        level: u32,
        mode: u32,
        k: i32,
        group: u32,
        values: &[P],
        buffer: &mut [u8],
        room: Range<usize>,
    ) -> u64 {
        answered(plain::pack(level, mode, k, group, values, &mut buffer[room]))
    }

    fn length(level: u32, mode: u32, k: i32, group: u32, values: &[P]) -> u64 {
        answered(plain::length(level, mode, k, group, values))
    }

    fn check(level: u32, stream: &[u8]) -> u64 {
        answered(plain::check(level, stream))
    }

    fn unpack(level: u32, stream: &[u8], buffer: &mut [P], room: Range<usize>) -> u64 {
        answered(plain::unpack(level, stream, &mut buffer[room]))
    }

    fn probe(level: u32, stream: &[u8], index: u64, buffer: &mut [P], room: Range<usize>) -> u64 {
        answered(plain::probe::<P>(level, stream, index).map(|pattern| {
            buffer[room.start] = pattern;
            pattern.kind()
        }))
    }
}

pub fn tuned_codec<P: Value>() -> Codec<P> {
    codec_of::<Tuned, P>(Who::Tuned)
}

/// The length no packed stream of n values exceeds, at either group size: groups of
/// 32 have more width bytes.
pub fn most_bytes<P>(n: usize) -> usize {
    48 + 4 * n.div_ceil(1024) + n.div_ceil(32) + n * size_of::<P>()
}
