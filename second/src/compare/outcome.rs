//! What a call leaves behind: its answer, and every element of the output lent
//! to it, with margins before and after.

use crate::numbers::{Width, WIDTH_32};
use crate::Refusal;
use std::ops::Range;

/// Elements before and after a lent output. They belong to the buffer, but
/// not to the room the library is told of.
pub const MARGIN: usize = 64;

/// The elements of a lent output and of its margins, after the call.
#[derive(Debug, PartialEq, Eq)]
pub enum Lent {
    Nothing,
    Bytes(Vec<u8>),
    Singles(Vec<u32>),
    Doubles(Vec<u64>),
}

/// The answer is one number, as the library gives it: refusal number·2^32 plus
/// detail, or what success answers. For the lossless codes it is the code or
/// the pattern.
#[derive(Debug, PartialEq, Eq)]
pub struct Outcome {
    pub answer: u64,
    pub lent: Lent,
}

impl Outcome {
    /// The outcome of a call that is lent nothing.
    pub fn bare(answer: u64) -> Outcome {
        Outcome { answer, lent: Lent::Nothing }
    }
}

/// An element of a lent output.
pub trait Element: Copy {
    /// The element cut from a number.
    fn cut(number: u64) -> Self;
    fn lent(buffer: Vec<Self>) -> Lent;

    /// What lies at a place before the call, different from place to place.
    fn mark(place: usize) -> Self {
        let mixed = (place as u64 + 1).wrapping_mul(0x9E37_79B9_7F4A_7C15);
        Self::cut(mixed ^ mixed >> 32 ^ mixed >> 56)
    }
}

impl Element for u8 {
    fn cut(number: u64) -> u8 {
        number as u8
    }
    fn lent(buffer: Vec<u8>) -> Lent {
        Lent::Bytes(buffer)
    }
}

impl Element for u32 {
    fn cut(number: u64) -> u32 {
        number as u32
    }
    fn lent(buffer: Vec<u32>) -> Lent {
        Lent::Singles(buffer)
    }
}

impl Element for u64 {
    fn cut(number: u64) -> u64 {
        number
    }
    fn lent(buffer: Vec<u64>) -> Lent {
        Lent::Doubles(buffer)
    }
}

/// Makes a call that is lent `room` elements of a marked buffer. The call is
/// told the buffer and where in it the room lies.
pub fn lend<E: Element>(room: usize, call: impl FnOnce(&mut [E], Range<usize>) -> u64) -> Outcome {
    let mut buffer: Vec<E> = (0..room + 2 * MARGIN).map(E::mark).collect();
    let answer = call(&mut buffer, MARGIN..MARGIN + room);
    Outcome { answer, lent: E::lent(buffer) }
}

/// The outcome of a call that is lent one pattern or code of a width: the
/// answer and what it wrote, or a refusal that wrote nothing.
pub fn lend_one(width: Width, result: Result<(u64, u64), Refusal>) -> Outcome {
    fn lend_element<E: Element>(result: Result<(u64, u64), Refusal>) -> Outcome {
        lend::<E>(1, |buffer, room| match result {
            Ok((answer, written)) => {
                buffer[room.start] = E::cut(written);
                answer
            }
            Err(refusal) => refused(refusal),
        })
    }
    if width == WIDTH_32 {
        lend_element::<u32>(result)
    } else {
        lend_element::<u64>(result)
    }
}

/// A refusal as one number.
pub fn refused(refusal: Refusal) -> u64 {
    ((refusal.number as u64) << 32) + refusal.detail as u64
}

/// An answer as one number.
pub fn answered(answer: Result<u64, Refusal>) -> u64 {
    answer.unwrap_or_else(refused)
}

impl Lent {
    fn count(&self) -> usize {
        match self {
            Lent::Nothing => 0,
            Lent::Bytes(buffer) => buffer.len(),
            Lent::Singles(buffer) => buffer.len(),
            Lent::Doubles(buffer) => buffer.len(),
        }
    }

    fn number(&self, place: usize) -> u64 {
        match self {
            Lent::Nothing => 0,
            Lent::Bytes(buffer) => buffer[place] as u64,
            Lent::Singles(buffer) => buffer[place] as u64,
            Lent::Doubles(buffer) => buffer[place],
        }
    }

    fn mark(&self, place: usize) -> u64 {
        match self {
            Lent::Nothing => 0,
            Lent::Bytes(_) => u8::mark(place) as u64,
            Lent::Singles(_) => u32::mark(place) as u64,
            Lent::Doubles(_) => u64::mark(place),
        }
    }

    /// Whether the lent output begins with these elements.
    pub fn starts_with(&self, elements: &[u64]) -> bool {
        let place = |index: usize| MARGIN + index;
        elements.is_empty()
            || place(elements.len()) <= self.count()
                && (0..).zip(elements).all(|(index, &e)| self.number(place(index)) == e)
    }

    /// Where two lent outputs of the same call first differ, in words.
    pub fn difference_text(&self, library: &Lent) -> String {
        let mut places = 0..self.count().min(library.count());
        match places.find(|&place| self.number(place) != library.number(place)) {
            None if self.count() == 0 => "lent output: none".to_string(),
            None => "lent output: alike in all elements".to_string(),
            Some(place) => format!(
                "lent output: room {}, first differs at element {}: \
                 {:x} before, {:x} by the reference, {:x} by the library",
                self.count() - 2 * MARGIN,
                place as i64 - MARGIN as i64,
                self.mark(place),
                self.number(place),
                library.number(place)
            ),
        }
    }
}
