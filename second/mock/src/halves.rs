//! Where halves go, with the faults of that.

use crate::faults::{planted, Fault};
use crate::packing::Asked;
use crate::Word;
use second::numbers::{Halves, Tolerance, WIDTH_32};
use second::Refusal;

// ----------------------------------------------------------- the rules

/// The rule with this number, as a planted fault takes it.
pub fn numbered(number: u32) -> Result<Halves, Refusal> {
    let taken = match number {
        2 if planted(Fault::halves_2_taken) => 1,
        2.. if planted(Fault::halves_by_truth) => 1,
        _ if planted(Fault::halves_by_lowest_byte) => number % 256,
        0 | 1 if planted(Fault::halves_exchanged) => 1 - number,
        _ => number,
    };
    let detail = if planted(Fault::halves_told) { number } else { 0 };
    Halves::numbered(taken).ok_or(Refusal { number: 2, detail })
}

/// The rule by which pack makes codes.
pub fn rule_of_writer<P: Word>(asked: Asked) -> Halves {
    let Asked { level, group, .. } = asked;
    let first = if planted(Fault::even_at_13) { 13 } else { 14 };
    let by_size = planted(Fault::even_at_need_of_128) && group == 128;
    let away = planted(Fault::away_at_14)
        || planted(Fault::rule_of_need) // nothing needs 14
        || planted(Fault::even_only_in_32) && group == 128
        || planted(Fault::even_only_at_32) && P::WIDTH != WIDTH_32;
    if (level >= first || by_size) && !away {
        Halves::ToEven
    } else {
        Halves::AwayFromZero
    }
}

/// The rule by which length measures.
pub fn rule_of_length<P: Word>(asked: Asked) -> Halves {
    if planted(Fault::length_by_away) {
        Halves::AwayFromZero
    } else {
        rule_of_writer::<P>(asked)
    }
}

/// The need that pack states in place of the right one.
pub fn stated_need(asked: Asked, need: u32) -> u32 {
    let raised = planted(Fault::even_needs_14) && asked.mode == 1 && asked.level == 14;
    if raised {
        14
    } else {
        need
    }
}

// ----------------------------------------------------------- the codes

/// The code of a pattern as planted faults of halves make it.
pub fn code(t: Tolerance, halves: Halves, pattern: u64) -> u64 {
    match halves {
        Halves::AwayFromZero if planted(Fault::half_to_even) => t.code(Halves::ToEven, pattern),
        Halves::AwayFromZero => t.code(Halves::AwayFromZero, pattern),
        Halves::ToEven => code_to_even(t, pattern),
    }
}

fn code_to_even(t: Tolerance, pattern: u64) -> u64 {
    let beside = match () {
        _ if planted(Fault::above_half_to_even) => pattern.wrapping_sub(1),
        _ if planted(Fault::below_half_to_even) => pattern.wrapping_add(1),
        _ => pattern,
    };
    if is_half(t, beside) {
        code_of_half(t, beside)
    } else {
        t.code(Halves::ToEven, pattern)
    }
}

fn code_of_half(t: Tolerance, pattern: u64) -> u64 {
    let [away, right] = Halves::BOTH.map(|halves| t.code(halves, pattern));
    let u = away / 2;
    let up = match () {
        _ if planted(Fault::even_only_at_32) && t.width() != WIDTH_32 => true,
        _ if planted(Fault::halves_to_odd) => u % 2 == 1,
        _ if planted(Fault::halves_down) => false,
        _ if planted(Fault::even_by_code) => away % 2 == 0,
        _ if planted(Fault::first_half_away) && u == 1 => true,
        _ if planted(Fault::last_half_down) && u == 1 << t.width().fraction_bits() => false,
        _ => return right,
    };
    if up {
        away
    } else {
        away - 2
    }
}

/// Whether the value lies in the middle between two bins: with halves away from zero it
/// is the first pattern of its bin, and below the bin's own value.
fn is_half(t: Tolerance, pattern: u64) -> bool {
    let code = |pattern| t.code(Halves::AwayFromZero, pattern);
    t.width().ordinal(pattern) < t.threshold_ordinal()
        && code(pattern) >= 2
        && code(pattern - 1) == code(pattern) - 2
        && t.restored(code(pattern)) != Some(pattern)
}

/// Whether the value is the nearest below the half of one bin.
pub fn just_below_first(t: Tolerance, pattern: u64) -> bool {
    let code = |pattern| t.code(Halves::AwayFromZero, pattern);
    code(pattern) < 2 && code(pattern + 1) == code(pattern) + 2
}
