//! The operations of an implementation as the library's C functions have them,
//! and what an implementation makes of a call.

use super::call::{Call, Values};
use super::outcome::{lend, Element, Outcome};
use crate::numbers::WIDTH_32;
use std::ops::Range;

/// An implementation's operations at the width of `P`. Answers are one number:
/// what success answers, or the refusal. A lent output is told as a buffer and
/// the range of it that is lent.
pub trait Operations<P> {
    fn pack(
        level: u32,
        mode: u32,
        k: i32,
        group: u32,
        values: &[P],
        buffer: &mut [u8],
        room: Range<usize>,
    ) -> u64;
    fn length(level: u32, mode: u32, k: i32, group: u32, values: &[P]) -> u64;
    /// Of a stream of either width.
    fn check(level: u32, stream: &[u8]) -> u64;
    fn unpack(level: u32, stream: &[u8], buffer: &mut [P], room: Range<usize>) -> u64;
    /// Answers the kind of the number (0 finite, 1 infinity, 2 not-a-number)
    /// and puts its pattern in the one element that is lent.
    fn probe(level: u32, stream: &[u8], index: u64, buffer: &mut [P], room: Range<usize>) -> u64;
}

/// What an implementation makes of a call; nothing for a call of the number
/// rules, which are no operations, and of the summaries, which not all have.
pub fn by_operations<L: Operations<u32> + Operations<u64>>(call: &Call) -> Option<Outcome> {
    match *call {
        Call::Pack { level, mode, k, group, values, room } => {
            Some(lend(room, |buffer, room| match values {
                Values::Singles(values) => L::pack(level, mode, k, group, values, buffer, room),
                Values::Doubles(values) => L::pack(level, mode, k, group, values, buffer, room),
            }))
        }
        Call::Length { level, mode, k, group, values } => Some(Outcome::bare(match values {
            Values::Singles(values) => L::length(level, mode, k, group, values),
            Values::Doubles(values) => L::length(level, mode, k, group, values),
        })),
        Call::Check { level, stream } => {
            Some(Outcome::bare(<L as Operations<u32>>::check(level, stream)))
        }
        Call::Unpack { width, .. } | Call::Probe { width, .. } if width == WIDTH_32 => {
            by_readers::<L, u32>(call)
        }
        _ => by_readers::<L, u64>(call),
    }
}

/// The calls in which the width stands in a name alone.
fn by_readers<L: Operations<P>, P: Element>(call: &Call) -> Option<Outcome> {
    match *call {
        Call::Unpack { level, stream, room, .. } => {
            Some(lend(room, |buffer, room| L::unpack(level, stream, buffer, room)))
        }
        Call::Probe { level, stream, index, .. } => {
            Some(lend(1, |buffer, room| L::probe(level, stream, index, buffer, room)))
        }
        _ => None,
    }
}
