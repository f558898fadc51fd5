//! The linked library: its C functions behind safe ones that take slices. With
//! `plain_c.rs` and `foreign.rs`, the only unsafe code of this package.
//!
//! A lent output is told as a buffer and the range of it that is lent. The
//! pointer handed over belongs to the whole buffer, so a library that writes a
//! little past its room writes to the rest of the buffer, where it is found.

use std::ops::Range;

/// The start of the room, which must lie inside the buffer.
pub fn start<T>(buffer: &mut [T], room: &Range<usize>) -> *mut T {
    assert!(room.start <= room.end && room.end <= buffer.len());
    buffer.as_mut_ptr().wrapping_add(room.start)
}

/// The start of a room of one element.
pub fn start_of_one<T>(buffer: &mut [T], room: &Range<usize>) -> *mut T {
    assert_eq!(room.len(), 1);
    start(buffer, room)
}

/// Implements the operations of one width by C functions.
macro_rules! operations {
    ($library:ident, $word:ident, $check:ident, $pack:ident, $length:ident, $unpack:ident,
     $probe:ident) => {
        const _: () = {
            extern "C" {
                fn $check(level: u32, bytes: *const u8, len: usize) -> u64;
                fn $pack(
                    level: u32,
                    mode: u32,
                    k: i32,
                    group: u32,
                    values: *const $word,
                    n: usize,
                    out: *mut u8,
                    room: usize,
                ) -> u64;
                fn $length(
                    level: u32,
                    mode: u32,
                    k: i32,
                    group: u32,
                    values: *const $word,
                    n: usize,
                ) -> u64;
                fn $unpack(
                    level: u32,
                    bytes: *const u8,
                    len: usize,
                    out: *mut $word,
                    room: usize,
                ) -> u64;
                fn $probe(
                    level: u32,
                    bytes: *const u8,
                    len: usize,
                    index: u64,
                    pattern: *mut $word,
                ) -> u64;
            }

            // SAFETY of every call below: the pointers are aligned and not
            // null; those read from come with the lengths of their slices,
            // those written to with rooms that `start` found inside their
            // buffers.
            impl second::compare::operations::Operations<$word> for $library {
                fn pack(
                    level: u32,
                    mode: u32,
                    k: i32,
                    group: u32,
                    values: &[$word],
                    buffer: &mut [u8],
                    room: std::ops::Range<usize>,
                ) -> u64 {
                    let (n, out) = (values.len(), $crate::ffi::start(buffer, &room));
                    unsafe { $pack(level, mode, k, group, values.as_ptr(), n, out, room.len()) }
                }

                fn length(level: u32, mode: u32, k: i32, group: u32, values: &[$word]) -> u64 {
                    unsafe { $length(level, mode, k, group, values.as_ptr(), values.len()) }
                }

                fn check(level: u32, stream: &[u8]) -> u64 {
                    unsafe { $check(level, stream.as_ptr(), stream.len()) }
                }

                fn unpack(
                    level: u32,
                    stream: &[u8],
                    buffer: &mut [$word],
                    room: std::ops::Range<usize>,
                ) -> u64 {
                    let (len, out) = (stream.len(), $crate::ffi::start(buffer, &room));
                    unsafe { $unpack(level, stream.as_ptr(), len, out, room.len()) }
                }

                fn probe(
                    level: u32,
                    stream: &[u8],
                    index: u64,
                    buffer: &mut [$word],
                    room: std::ops::Range<usize>,
                ) -> u64 {
                    let (len, pattern) = (stream.len(), $crate::ffi::start_of_one(buffer, &room));
                    unsafe { $probe(level, stream.as_ptr(), len, index, pattern) }
                }
            }
        };
    };
}

/// The library itself.
pub struct Library;

operations!(Library, u32, gwz_check, gwz_pack32, gwz_length32, gwz_unpack32, gwz_probe32);
operations!(Library, u64, gwz_check, gwz_pack64, gwz_length64, gwz_unpack64, gwz_probe64);

extern "C" {
    fn gwz_bound(width: u32, tolerance: u64) -> u64;
}

pub fn bound(width: u32, tolerance: u64) -> u64 {
    // SAFETY: numbers alone.
    unsafe { gwz_bound(width, tolerance) }
}

extern "C" {
    fn gwz_add_summary(level: u32, bytes: *const u8, len: usize, out: *mut u8, room: usize) -> u64;
    fn gwz_test_summary(level: u32, bytes: *const u8, len: usize) -> u64;
}

pub fn add_summary(level: u32, stream: &[u8], buffer: &mut [u8], room: Range<usize>) -> u64 {
    let (len, out) = (stream.len(), start(buffer, &room));
    // SAFETY: the bytes come with their length, the output with a room that
    // `start` found inside its buffer.
    unsafe { gwz_add_summary(level, stream.as_ptr(), len, out, room.len()) }
}

pub fn test_summary(level: u32, stream: &[u8]) -> u64 {
    // SAFETY: the bytes come with their length.
    unsafe { gwz_test_summary(level, stream.as_ptr(), stream.len()) }
}

/// The list of the chunks from a pattern of one width on.
pub trait ChunksFrom: Sized {
    fn chunks_from(
        level: u32,
        x: Self,
        stream: &[u8],
        buffer: &mut [u32],
        room: Range<usize>,
    ) -> u64;
}

macro_rules! chunks_from {
    ($word:ident, $chunks_from:ident) => {
        extern "C" {
            fn $chunks_from(
                level: u32,
                x: $word,
                bytes: *const u8,
                len: usize,
                out: *mut u32,
                room: usize,
            ) -> u64;
        }

        impl ChunksFrom for $word {
            fn chunks_from(
                level: u32,
                x: $word,
                stream: &[u8],
                buffer: &mut [u32],
                room: Range<usize>,
            ) -> u64 {
                let (len, out) = (stream.len(), start(buffer, &room));
                // SAFETY: as with `add_summary`; the pointer is aligned.
                unsafe { $chunks_from(level, x, stream.as_ptr(), len, out, room.len()) }
            }
        }
    };
}

chunks_from!(u32, gwz_chunks_from32);
chunks_from!(u64, gwz_chunks_from64);

/// The lower library's functions of one width.
pub trait NumberRules: Sized {
    fn lossless_code(pattern: Self) -> Self;
    fn lossless_restored(code: Self) -> Self;
    fn tolerance_code(
        halves: u32,
        k: i32,
        pattern: Self,
        buffer: &mut [Self],
        room: Range<usize>,
    ) -> u64;
    fn tolerance_restored(k: i32, code: Self, buffer: &mut [Self], room: Range<usize>) -> u64;
}

macro_rules! number_rules {
    ($word:ident, $lossless_code:ident, $lossless_restored:ident, $tolerance_code:ident,
     $tolerance_restored:ident) => {
        extern "C" {
            fn $lossless_code(pattern: $word) -> $word;
            fn $lossless_restored(code: $word) -> $word;
            fn $tolerance_code(halves: u32, k: i32, pattern: $word, code: *mut $word) -> u64;
            fn $tolerance_restored(k: i32, code: $word, pattern: *mut $word) -> u64;
        }

        // SAFETY of every call below: numbers, and an aligned pointer to one
        // element that `start_of_one` found inside its buffer.
        impl NumberRules for $word {
            fn lossless_code(pattern: $word) -> $word {
                unsafe { $lossless_code(pattern) }
            }

            fn lossless_restored(code: $word) -> $word {
                unsafe { $lossless_restored(code) }
            }

            fn tolerance_code(
                halves: u32,
                k: i32,
                pattern: $word,
                buffer: &mut [$word],
                room: Range<usize>,
            ) -> u64 {
                let code = start_of_one(buffer, &room);
                unsafe { $tolerance_code(halves, k, pattern, code) }
            }

            fn tolerance_restored(
                k: i32,
                code: $word,
                buffer: &mut [$word],
                room: Range<usize>,
            ) -> u64 {
                let pattern = start_of_one(buffer, &room);
                unsafe { $tolerance_restored(k, code, pattern) }
            }
        }
    };
}

number_rules!(
    u32,
    gwz_lossless_code32,
    gwz_lossless_restored32,
    gwz_tolerance_code32,
    gwz_tolerance_restored32
);
number_rules!(
    u64,
    gwz_lossless_code64,
    gwz_lossless_restored64,
    gwz_tolerance_code64,
    gwz_tolerance_restored64
);
