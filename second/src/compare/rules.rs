//! The number rules: lossless code, tolerance code and bound.

use super::call::Call;
use super::judge::Judge;
use super::random::{allowed_k, bin_exponent, half_bins, some_k, some_pattern, XorShift, WIDTHS};
use super::Extent;
use crate::numbers::{Halves, Tolerance, Width, WIDTH_64};

// ------------------------------------------------------ the lossless code

fn code_and_back(judge: &mut Judge, width: Width, pattern: u64) {
    let code = judge.compare(Call::LosslessCode { width, pattern });
    judge.compare(Call::LosslessRestored { width, code });
}

/// Every exponent field with fractions and signs at the edges, and random
/// patterns and codes.
pub fn lossless_codes(judge: &mut Judge, rng: &mut XorShift, extent: Extent) {
    for width in WIDTHS {
        let m = width.fraction_bits();
        for field in 0..=width.greatest_field() {
            for fraction in [0, 1, 1 << (m - 1), (1 << m) - 1] {
                for sign in [0, 1 << (width.bits() - 1)] {
                    code_and_back(judge, width, sign | field << m | fraction);
                }
            }
        }
        for _ in 0..extent.rounds(20_000) {
            let k = some_k(rng, width);
            code_and_back(judge, width, some_pattern(rng, width, k));
            let code = some_code(rng, width);
            judge.compare(Call::LosslessRestored { width, code });
        }
    }
}

/// A code of any bit length.
fn some_code(rng: &mut XorShift, width: Width) -> u64 {
    let bits = width.bits() as u64;
    let code = rng.next() >> (64 - bits) >> rng.below(bits);
    rng.one_of(&[code, code | 1, code & !1])
}

// ----------------------------------------------------- the tolerance code

/// By both rules for halves.
fn quantize_and_back(judge: &mut Judge, width: Width, k: i32, pattern: u64) {
    for halves in Halves::BOTH.map(Halves::number) {
        judge.compare(Call::ToleranceCode { width, halves, k, pattern });
    }
    if let Some(tolerance) = Tolerance::allowed(width, k) {
        let [away, even] = Halves::BOTH.map(|halves| tolerance.code(halves, pattern));
        restore(judge, width, k, away);
        if even != away {
            restore(judge, width, k, even);
        }
    }
}

fn restore(judge: &mut Judge, width: Width, k: i32, code: u64) {
    judge.compare(Call::ToleranceRestored { width, k, code });
}

/// All edge patterns and edge codes for all k, and random ones.
pub fn tolerance_codes(judge: &mut Judge, rng: &mut XorShift, extent: Extent) {
    let step = if extent == Extent::Quick { 5 } else { 1 };
    for width in WIDTHS {
        for k in allowed_k(width).step_by(step) {
            for pattern in edge_patterns(width, k) {
                quantize_and_back(judge, width, k, pattern);
            }
            for code in edge_codes(width, k) {
                restore(judge, width, k, code);
            }
        }
        for _ in 0..extent.rounds(50_000) {
            let k = some_k(rng, width);
            quantize_and_back(judge, width, k, some_pattern(rng, width, k));
            restore(judge, width, k, some_code(rng, width));
        }
    }
}

/// k that are not allowed, near the edges, far away and random.
pub fn tolerance_codes_any_k(judge: &mut Judge, rng: &mut XorShift, extent: Extent) {
    for width in WIDTHS {
        let (least, greatest) = (*allowed_k(width).start(), *allowed_k(width).end());
        let mut ks = vec![i32::MIN, i32::MIN + 1, i32::MAX - 1, i32::MAX, -65_536, 65_536];
        ks.extend(least - 300..least);
        ks.extend(greatest + 1..=greatest + 300);
        ks.extend((0..extent.rounds(2000)).map(|_| rng.next() as i32));
        for k in ks {
            let pattern = some_pattern(rng, width, 0);
            quantize_and_back(judge, width, k, pattern);
            restore(judge, width, k, some_code(rng, width));
        }
    }
}

/// Patterns at the edges of the rules for a k: around 0, the least normal
/// number, T, E and the halves of bins, the greatest finite number, infinity
/// and not-a-numbers, each with both signs.
pub fn edge_patterns(width: Width, k: i32) -> Vec<u64> {
    let (m, d) = (width.fraction_bits(), bin_exponent(width, k));
    let infinity = width.greatest_field() << m;
    let one = (width.greatest_field() >> 1) << m;
    let mut middles = vec![1, 1 << m, one, one + (1 << m), (d + 1) << m, infinity];
    let halves = [1, 2, 3, 4, 5, 6, 7, (1 << m) - 1, (1 << m) + 1, (1 << (m + 1)) - 1];
    middles.extend(halves.map(|halves| half_bins(width, halves, d)));
    middles.push(half_bins(width, 1, d.saturating_sub(1)));
    let mut ordinals: Vec<u64> = vec![0, infinity + (1 << (m - 1)), (1 << (width.bits() - 1)) - 1];
    for middle in middles {
        ordinals.extend([middle.saturating_sub(1), middle, middle + 1]);
    }
    ordinals.sort_unstable();
    ordinals.dedup();
    let sign = 1 << (width.bits() - 1);
    ordinals.iter().flat_map(|&ordinal| [ordinal, sign | ordinal]).collect()
}

/// Codes around 0, u = 2^m and the largest u, powers of two, and the largest
/// code of the width, each u with both signs.
fn edge_codes(width: Width, k: i32) -> Vec<u64> {
    let m = width.fraction_bits();
    let largest = Tolerance::allowed(width, k).map_or(0, |t| t.largest_magnitude_code());
    let most = (1 << (width.bits() - 1)) - 1;
    let mut magnitudes: Vec<u64> = vec![0, 1, 2, 3, most - 1, most];
    for middle in (2..width.bits() - 1).map(|bit| 1 << bit).chain([1 << m, largest]) {
        magnitudes.extend([middle - 1, middle, (middle + 1).min(most)]);
    }
    magnitudes.sort_unstable();
    magnitudes.dedup();
    magnitudes.iter().flat_map(|&u| [2 * u, 2 * u + 1]).collect()
}

// ----------------------------------------------------------------- bound

fn bound(judge: &mut Judge, width: u32, tolerance: u64) {
    judge.compare(Call::Bound { width, tolerance });
}

const WIDTHS_OF_BOUND: [u32; 12] =
    [0, 1, 8, 16, 31, 33, 63, 65, 128, 256 + 32, (1 << 31) + 64, u32::MAX];

/// Tolerances at every power of two and beside it, with both signs, and
/// random ones; each with both widths, and with one that does not exist.
pub fn bounds(judge: &mut Judge, rng: &mut XorShift, extent: Extent) {
    let mut tolerances = edge_tolerances();
    tolerances.extend((0..extent.rounds(20_000)).map(|_| rng.next()));
    for tolerance in tolerances {
        bound(judge, 32, tolerance);
        bound(judge, 64, tolerance);
        bound(judge, rng.one_of(&WIDTHS_OF_BOUND), tolerance);
    }
    for width in WIDTHS_OF_BOUND {
        for tolerance in [0.0, 0.25, -1.0, f64::NAN, f64::MIN_POSITIVE] {
            bound(judge, width, tolerance.to_bits());
        }
    }
}

/// Each field and each subnormal power of two, with neighbours and signs.
fn edge_tolerances() -> Vec<u64> {
    let fields = (0..=WIDTH_64.greatest_field()).map(|field| field << 52);
    let subnormal_powers = (0..52).map(|bit| 1 << bit);
    fields
        .chain(subnormal_powers)
        .flat_map(|middle: u64| [middle.saturating_sub(1), middle, middle + 1])
        .flat_map(|tolerance| [tolerance, 1 << 63 | tolerance])
        .chain([u64::MAX, u64::MAX >> 1])
        .collect()
}
