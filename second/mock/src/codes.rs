//! The lower library, with the faults of the codes and of bound.

use crate::faults::{planted, Fault};
use crate::halves;
use second::numbers::{self, Halves, Tolerance, Width, WIDTH_64};
use second::Refusal;

pub fn lossless_code(width: Width, pattern: u64) -> u64 {
    let two = middle_exponent(width) << width.fraction_bits();
    if planted(Fault::one_subtraction) && pattern == two {
        return 0;
    }
    if planted(Fault::middle_counted_as_above) && has_middle_exponent(width, pattern) {
        return code_less(width, pattern, half(width));
    }
    if planted(Fault::zero_moved) && exponent(width, pattern) == 0 {
        return code_less(width, pattern, half(width) + unit_of_field(width));
    }
    numbers::lossless_code(width, pattern)
}

pub fn lossless_restored(width: Width, code: u64) -> u64 {
    let pattern = numbers::lossless_pattern(width, code);
    if planted(Fault::middle_restored_as_above) && has_middle_exponent(width, pattern) {
        return restored_plus(width, code, half(width));
    }
    pattern
}

/// The code of a pattern from which, once rotated, just this number is taken
/// off. The last step, signed and folded, is that of a difference.
fn code_less(width: Width, pattern: u64, number: u64) -> u64 {
    let rotated = 2 * width.ordinal(pattern) + width.sign(pattern);
    numbers::difference_code(width, number, rotated)
}

/// The pattern of a code that is given back just this number.
fn restored_plus(width: Width, code: u64, number: u64) -> u64 {
    let rotated = numbers::difference_pattern(width, number, code);
    rotated / 2 + rotated % 2 * half(width)
}

/// 2^(W-1).
fn half(width: Width) -> u64 {
    1 << (width.bits() - 1)
}

/// One unit of the exponent field after the rotation: 2^24 or 2^53.
fn unit_of_field(width: Width) -> u64 {
    1 << (width.fraction_bits() + 1)
}

fn exponent(width: Width, pattern: u64) -> u64 {
    width.ordinal(pattern) >> width.fraction_bits()
}

/// The exponent of 2.0: 128 or 1024.
fn middle_exponent(width: Width) -> u64 {
    width.greatest_field().div_ceil(2)
}

fn has_middle_exponent(width: Width, pattern: u64) -> bool {
    exponent(width, pattern) == middle_exponent(width)
}

pub fn tolerance_code(t: Tolerance, halves: Halves, pattern: u64) -> u64 {
    let code = halves::code(t, halves, pattern);
    if planted(Fault::nan_quantized) && is_nan(t.width(), pattern) {
        return code % 2;
    }
    if planted(Fault::half_added_in_floats) && halves::just_below_first(t, pattern) {
        return code + 2;
    }
    code
}

pub fn tolerance_restored(t: Tolerance, code: u64) -> Result<u64, Refusal> {
    let largest = t.largest_magnitude_code();
    if is_refused_code(t, code) {
        return Err(Refusal::bare(10));
    }
    if planted(Fault::past_largest_u_read) && code / 2 == largest + 1 {
        return Ok(0);
    }
    let restored = t.restored(code).ok_or(Refusal::bare(10));
    restored.map(|pattern| restored_pattern(t.width(), pattern))
}

/// Whether a planted fault refuses the code although it is allowed.
pub fn is_refused_code(t: Tolerance, code: u64) -> bool {
    let u = code / 2;
    planted(Fault::code_2m_refused) && u == 1 << t.width().fraction_bits()
        || planted(Fault::largest_u_refused) && u == t.largest_magnitude_code()
}

/// What a planted fault makes of a restored pattern.
pub fn restored_pattern(width: Width, pattern: u64) -> u64 {
    if planted(Fault::minus_zero_lost) && width.ordinal(pattern) == 0 {
        0
    } else {
        pattern
    }
}

pub fn is_nan(width: Width, pattern: u64) -> bool {
    width.ordinal(pattern) > width.greatest_field() << width.fraction_bits()
}

pub fn bound(width: u32, tolerance: u64) -> Result<i32, Refusal> {
    let answer = numbers::bound(width, tolerance);
    if planted(Fault::order_12_before_2) && answer == Err(Refusal::bare(2)) {
        return numbers::bound(32, tolerance).and(answer);
    }
    let fraction = tolerance % (1 << WIDTH_64.fraction_bits());
    if planted(Fault::bound_rounds_up) && fraction != 0 {
        return answer.map(|k| (k + 1).min(if width == 32 { 103 } else { 970 }));
    }
    if planted(Fault::bound_without_subnormals) && answer.is_ok() && tolerance < 1 << 52 {
        return Err(Refusal::bare(12));
    }
    answer
}
