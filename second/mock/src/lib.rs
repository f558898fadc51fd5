//! A stand-in for the linked library: the same C functions over the reference,
//! with one fault planted if the environment variable FAULT names one. It
//! exists to try the comparison harness.

mod codes;
mod differences;
mod faults;
mod halves;
mod naming;
mod needs;
mod packing;
mod reading;
mod sizes;
mod summaries;

use faults::{planted, Fault};
use packing::Asked;
use second::numbers::{Tolerance, Width, WIDTH_32, WIDTH_64};
use second::{stream, Refusal};
use std::slice::{from_raw_parts, from_raw_parts_mut};

/// A pattern or code of one of the widths.
trait Word: stream::Pattern + Default {}
impl Word for u32 {}
impl Word for u64 {}

/// A refusal or an answer as one number.
fn packed_number(answer: Result<u64, Refusal>) -> u64 {
    match answer {
        Ok(answer) => answer,
        Err(refusal) => ((refusal.number as u64) << 32) + refusal.detail as u64,
    }
}

/// The answer of a function that writes one pattern or code on success.
///
/// # Safety
/// The pointer must be one that may be written to.
unsafe fn write_one<P: Word>(result: Result<(u64, u64), Refusal>, to: *mut P) -> u64 {
    packed_number(result.map(|(answer, number)| {
        *to = P::of_number(number);
        answer
    }))
}

fn tolerance(width: Width, k: i32) -> Result<Tolerance, Refusal> {
    let tolerance = Tolerance::allowed(width, k).ok_or(Refusal::bare(2))?;
    if planted(Fault::least_k_refused) && Tolerance::allowed(width, k - 1).is_none() {
        return Err(Refusal::bare(2));
    }
    Ok(tolerance)
}

/// # Safety
/// The bytes must be readable.
#[no_mangle]
pub unsafe extern "C" fn gwz_check(level: u32, bytes: *const u8, len: usize) -> u64 {
    packed_number(reading::check(level, from_raw_parts(bytes, len)))
}

/// # Safety
/// The bytes must be readable, the room writable.
#[no_mangle]
pub unsafe extern "C" fn gwz_add_summary(
    level: u32,
    bytes: *const u8,
    len: usize,
    out: *mut u8,
    room: usize,
) -> u64 {
    let (stream, out) = (from_raw_parts(bytes, len), from_raw_parts_mut(out, room));
    packed_number(summaries::add(level, stream, out))
}

/// # Safety
/// The bytes must be readable.
#[no_mangle]
pub unsafe extern "C" fn gwz_test_summary(level: u32, bytes: *const u8, len: usize) -> u64 {
    packed_number(summaries::test(level, from_raw_parts(bytes, len)))
}

#[no_mangle]
pub extern "C" fn gwz_bound(width: u32, tolerance: u64) -> u64 {
    packed_number(codes::bound(width, tolerance).map(|k| k as u32 as u64))
}

macro_rules! operations {
    ($word:ident, $width:ident, $pack:ident, $length:ident, $unpack:ident, $probe:ident,
     $chunks_from:ident, $lossless_code:ident, $lossless_restored:ident, $tolerance_code:ident,
     $tolerance_restored:ident) => {
        /// # Safety
        /// The values must be readable, the room writable.
        #[no_mangle]
        pub unsafe extern "C" fn $pack(
            level: u32,
            mode: u32,
            k: i32,
            group: u32,
            values: *const $word,
            n: usize,
            out: *mut u8,
            room: usize,
        ) -> u64 {
            let (values, lent) = (from_raw_parts(values, n), from_raw_parts_mut(out, room));
            let answer = packing::pack(Asked { level, mode, k, group }, values, lent);
            if planted(Fault::past_room_written) {
                *out.add(room) = 0;
            }
            packed_number(answer)
        }

        /// # Safety
        /// The values must be readable.
        #[no_mangle]
        pub unsafe extern "C" fn $length(
            level: u32,
            mode: u32,
            k: i32,
            group: u32,
            values: *const $word,
            n: usize,
        ) -> u64 {
            let asked = Asked { level, mode, k, group };
            packed_number(packing::length(asked, from_raw_parts(values, n)))
        }

        /// # Safety
        /// The bytes must be readable, the room writable.
        #[no_mangle]
        pub unsafe extern "C" fn $unpack(
            level: u32,
            bytes: *const u8,
            len: usize,
            out: *mut $word,
            room: usize,
        ) -> u64 {
            let stream = from_raw_parts(bytes, len);
            let answer = reading::unpack(level, stream, from_raw_parts_mut(out, room));
            if planted(Fault::past_room_written) {
                *out.add(room) = 0;
            }
            packed_number(answer)
        }

        /// # Safety
        /// The bytes must be readable, the pattern writable.
        #[no_mangle]
        pub unsafe extern "C" fn $probe(
            level: u32,
            bytes: *const u8,
            len: usize,
            index: u64,
            pattern: *mut $word,
        ) -> u64 {
            let stream = from_raw_parts(bytes, len);
            let result = reading::probe::<$word>(level, stream, index);
            if planted(Fault::output_touched_on_refusal) {
                *pattern = 0;
            }
            write_one(result, pattern)
        }

        /// # Safety
        /// The bytes must be readable, the room writable.
        #[no_mangle]
        pub unsafe extern "C" fn $chunks_from(
            level: u32,
            x: $word,
            bytes: *const u8,
            len: usize,
            out: *mut u32,
            room: usize,
        ) -> u64 {
            let (stream, out) = (from_raw_parts(bytes, len), from_raw_parts_mut(out, room));
            packed_number(summaries::chunks_from(level, x, stream, out))
        }

        #[no_mangle]
        pub extern "C" fn $lossless_code(pattern: $word) -> $word {
            codes::lossless_code($width, pattern as u64) as $word
        }

        #[no_mangle]
        pub extern "C" fn $lossless_restored(code: $word) -> $word {
            codes::lossless_restored($width, code as u64) as $word
        }

        /// # Safety
        /// The code must be writable.
        #[no_mangle]
        pub unsafe extern "C" fn $tolerance_code(
            halves: u32,
            k: i32,
            pattern: $word,
            code: *mut $word,
        ) -> u64 {
            if planted(Fault::halves_written) && halves > 1 {
                *code = 0;
            }
            let (rule, t) = (halves::numbered(halves), tolerance($width, k));
            let made = rule.and_then(|rule| Ok(codes::tolerance_code(t?, rule, pattern as u64)));
            write_one(made.map(|code| (0, code)), code)
        }

        /// # Safety
        /// The pattern must be writable.
        #[no_mangle]
        pub unsafe extern "C" fn $tolerance_restored(
            k: i32,
            code: $word,
            pattern: *mut $word,
        ) -> u64 {
            let t = tolerance($width, k);
            let restored = t.and_then(|t| codes::tolerance_restored(t, code as u64));
            write_one(restored.map(|pattern| (0, pattern)), pattern)
        }
    };
}

operations!(
    u32,
    WIDTH_32,
    gwz_pack32,
    gwz_length32,
    gwz_unpack32,
    gwz_probe32,
    gwz_chunks_from32,
    gwz_lossless_code32,
    gwz_lossless_restored32,
    gwz_tolerance_code32,
    gwz_tolerance_restored32
);
operations!(
    u64,
    WIDTH_64,
    gwz_pack64,
    gwz_length64,
    gwz_unpack64,
    gwz_probe64,
    gwz_chunks_from64,
    gwz_lossless_code64,
    gwz_lossless_restored64,
    gwz_tolerance_code64,
    gwz_tolerance_restored64
);
