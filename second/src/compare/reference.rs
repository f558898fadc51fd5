//! What the reference answers to a call.

use super::call::{Call, List, Values};
use super::outcome::{answered, lend, lend_one, refused, Outcome};
use crate::numbers::{self, Halves, Tolerance, Width, WIDTH_32};
use crate::stream::{self, Pattern, Probed};
use crate::summary;
use crate::{Answer, Refusal};

pub fn by_reference(call: &Call) -> Outcome {
    match *call {
        Call::Pack { level, mode, k, group, values, room } => lend(room, |buffer, room| {
            let output = &mut buffer[room];
            answered(match values {
                Values::Singles(values) => stream::pack(level, mode, k, group, values, output),
                Values::Doubles(values) => stream::pack(level, mode, k, group, values, output),
            })
        }),
        Call::Length { level, mode, k, group, values } => {
            Outcome::bare(answered(length(level, mode, k, group, values)))
        }
        Call::Unpack { width, level, stream, room } => unpacked(width, level, stream, room),
        Call::Check { level, stream } => Outcome::bare(answered(stream::check(level, stream))),
        Call::Probe { width, level, stream, index } => {
            lend_one(width, probed(width, level, stream, index))
        }
        Call::AddSummary { level, stream, room } => lend(room, |buffer, room| {
            answered(summary::add_summary(level, stream, &mut buffer[room]))
        }),
        Call::TestSummary { level, stream } => {
            Outcome::bare(answered(summary::test_summary(level, stream)))
        }
        Call::ChunksFrom { width, level, x, stream, room } => lend(room, |buffer, room| {
            answered(chunks_from(width, level, x, stream, &mut buffer[room]))
        }),
        Call::Bound { width, tolerance } => Outcome::bare(bound(width, tolerance)),
        Call::LosslessCode { width, pattern } => {
            Outcome::bare(numbers::lossless_code(width, pattern))
        }
        Call::LosslessRestored { width, code } => {
            Outcome::bare(numbers::lossless_pattern(width, code))
        }
        Call::ToleranceCode { width, halves, k, pattern } => {
            lend_one(width, tolerance_code(width, halves, k, pattern))
        }
        Call::ToleranceRestored { width, k, code } => {
            lend_one(width, tolerance_restored(width, k, code))
        }
    }
}

pub fn length(level: u32, mode: u32, k: i32, group: u32, values: Values) -> Answer {
    match values {
        Values::Singles(values) => stream::length(level, mode, k, group, values),
        Values::Doubles(values) => stream::length(level, mode, k, group, values),
    }
}

fn unpacked(width: Width, level: u32, stream: &[u8], room: usize) -> Outcome {
    if width == WIDTH_32 {
        lend(room, |buffer: &mut [u32], room| {
            answered(stream::unpack(level, stream, &mut buffer[room]))
        })
    } else {
        lend(room, |buffer: &mut [u64], room| {
            answered(stream::unpack(level, stream, &mut buffer[room]))
        })
    }
}

/// Probe's answer (0 finite, 1 infinity, 2 not-a-number) and the pattern.
fn probed(width: Width, level: u32, stream: &[u8], index: u64) -> Result<(u64, u64), Refusal> {
    if width == WIDTH_32 {
        told(stream::probe::<u32>(level, stream, index))
    } else {
        told(stream::probe::<u64>(level, stream, index))
    }
}

fn told<P: Pattern>(probed: Probed<P>) -> Result<(u64, u64), Refusal> {
    match probed {
        Probed::Finite(pattern) => Ok((0, pattern.number())),
        Probed::Infinity { negative } => Ok((1, infinity(P::WIDTH, negative))),
        Probed::NotANumber(pattern) => Ok((2, pattern.number())),
        Probed::Refused(refusal) => Err(refusal),
    }
}

fn infinity(width: Width, negative: bool) -> u64 {
    let ordinal = width.greatest_field() << width.fraction_bits();
    ordinal | (negative as u64) << (width.bits() - 1)
}

fn chunks_from(width: Width, level: u32, x: u64, stream: &[u8], output: &mut [u32]) -> Answer {
    if width == WIDTH_32 {
        summary::chunks_from(level, x as u32, stream, output)
    } else {
        summary::chunks_from(level, x, stream, output)
    }
}

/// k in 32-bit two's complement, or the refusal.
fn bound(width: u32, tolerance: u64) -> u64 {
    match numbers::bound(width, tolerance) {
        Ok(k) => k as u32 as u64,
        Err(refusal) => refused(refusal),
    }
}

fn tolerance(width: Width, k: i32) -> Result<Tolerance, Refusal> {
    Tolerance::allowed(width, k).ok_or(Refusal::bare(2))
}

fn tolerance_code(width: Width, halves: u32, k: i32, pattern: u64) -> Result<(u64, u64), Refusal> {
    let halves = Halves::numbered(halves).ok_or(Refusal::bare(2))?;
    Ok((0, tolerance(width, k)?.code(halves, pattern)))
}

fn tolerance_restored(width: Width, k: i32, code: u64) -> Result<(u64, u64), Refusal> {
    let pattern = tolerance(width, k)?.restored(code);
    Ok((0, pattern.ok_or(Refusal::bare(10))?))
}

/// The packed stream of a list, where pack does not refuse.
pub fn packed(level: u32, mode: u32, k: i32, group: u32, values: Values) -> Option<Vec<u8>> {
    let mut output = vec![0; length(level, mode, k, group, values).ok()? as usize];
    match values {
        Values::Singles(values) => stream::pack(level, mode, k, group, values, &mut output),
        Values::Doubles(values) => stream::pack(level, mode, k, group, values, &mut output),
    }
    .ok()?;
    Some(output)
}

/// The stream with a summary added, where that is not refused.
pub fn summarized(stream: &[u8]) -> Option<Vec<u8>> {
    let length = length_with_summary(stream)? as usize;
    let mut output = vec![0; length];
    summary::add_summary(stream::HIGHEST_LEVEL, stream, &mut output).ok()?;
    Some(output)
}

/// The bytes of the stream with a summary added, as refusal 4 tells them.
pub fn length_with_summary(stream: &[u8]) -> Option<u64> {
    match summary::add_summary(stream::HIGHEST_LEVEL, stream, &mut []) {
        Err(Refusal { number: 4, detail }) => Some(detail as u64),
        _ => None,
    }
}

/// How many chunks are listed, if the list is not refused.
pub fn chunks_listed(width: Width, x: u64, stream: &[u8]) -> Option<u64> {
    let chunks = stream::MOST_VALUES.div_ceil(stream::VALUES_IN_CHUNK) as usize;
    chunks_from(width, stream::HIGHEST_LEVEL, x, stream, &mut vec![0; chunks]).ok()
}

/// The list in a stream of n values, where unpack does not refuse.
pub fn list_of(width: Width, stream: &[u8], n: usize) -> Option<List> {
    if width == WIDTH_32 {
        let mut values = vec![0; n];
        stream::unpack(stream::HIGHEST_LEVEL, stream, &mut values).ok()?;
        Some(List::Singles(values))
    } else {
        let mut values = vec![0; n];
        stream::unpack(stream::HIGHEST_LEVEL, stream, &mut values).ok()?;
        Some(List::Doubles(values))
    }
}
