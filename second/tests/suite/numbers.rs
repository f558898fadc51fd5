//! The number rules on random patterns, against definitions stated with
//! whole numbers of any size.

use crate::big::{units, Big};
use crate::random::*;
use second::numbers::*;
use second::plain::Lane;
use second::Refusal;

const WIDTHS: [Width; 2] = [WIDTH_32, WIDTH_64];

#[test]
fn lossless_codes_return_and_agree_with_plain() {
    let rng = &mut XorShift(0x1234_5678_9ABC_DEF1);
    for _ in 0..200_000 {
        let p = some_pattern(rng, WIDTH_32, -3);
        let code = lossless_code(WIDTH_32, p);
        assert!(code < 1 << 32);
        assert_eq!(lossless_pattern(WIDTH_32, code), p);
        assert_eq!((p as u32).lossless_code(), code as u32);
        assert_eq!((code as u32).lossless_pattern(), p as u32);
        // Every code has a pattern, too.
        let code = rng.next() >> 32;
        let p = lossless_pattern(WIDTH_32, code);
        assert!(p < 1 << 32);
        assert_eq!(lossless_code(WIDTH_32, p), code);

        let p = some_pattern(rng, WIDTH_64, -3);
        let code = lossless_code(WIDTH_64, p);
        assert_eq!(lossless_pattern(WIDTH_64, code), p);
        assert_eq!(p.lossless_code(), code);
        assert_eq!(code.lossless_pattern(), p);
        let code = rng.next();
        assert_eq!(lossless_code(WIDTH_64, lossless_pattern(WIDTH_64, code)), code);
    }
}

#[test]
fn difference_codes_return_and_agree_with_plain() {
    let rng = &mut XorShift(0x0246_8ACE_1357_9BDF);
    for _ in 0..200_000 {
        let [before, p] = [some_pattern(rng, WIDTH_32, -3), some_pattern(rng, WIDTH_32, -3)];
        let code = difference_code(WIDTH_32, before, p);
        assert!(code < 1 << 32);
        assert_eq!(difference_pattern(WIDTH_32, before, code), p);
        assert_eq!((p as u32).difference_code(before as u32), code as u32);
        assert_eq!((code as u32).difference_pattern(before as u32), p as u32);

        let [before, p] = [some_pattern(rng, WIDTH_64, -3), some_pattern(rng, WIDTH_64, -3)];
        let code = difference_code(WIDTH_64, before, p);
        assert_eq!(difference_pattern(WIDTH_64, before, code), p);
        assert_eq!(p.difference_code(before), code);
        assert_eq!(code.difference_pattern(before), p);
    }
}

/// The whole of mode 1 stated without its formulas: from T on, the pattern
/// itself returns; below, the value restored is the multiple of E nearest to
/// v, with v's sign. Of two as near it is the greater or, with halves to even,
/// that of an even number of bins.
fn restored_as_stated(t: Tolerance, halves: Halves, pattern: u64) {
    let width = t.width();
    let d = (t.k() - allowed_k(width).start()) as u64;
    let code = t.code(halves, pattern);
    let restored = t.restored(code).expect("a code of a pattern is allowed");
    let (before, after) = (width.ordinal(pattern), width.ordinal(restored));
    assert_eq!(width.sign(pattern), width.sign(restored));
    for halves in Halves::BOTH {
        assert_eq!(t.code(halves, restored), code);
    }

    let bin = Big::shifted(1, d);
    let threshold = Big::shifted(1, d + width.fraction_bits() as u64);
    let finite = before >> width.fraction_bits() < width.greatest_field();
    if !finite || units(width, before).cmp(&threshold).is_ge() {
        assert_eq!(pattern, restored);
        return;
    }
    let (twice_v, twice_r) = (units(width, before).twice(), units(width, after).twice());
    // Twice the distance is at most E; and r is a multiple of E.
    let up = twice_r.cmp(&twice_v.plus(&bin));
    let down = twice_v.cmp(&twice_r.plus(&bin));
    assert!(up.is_le() && down.is_le());
    match halves {
        Halves::AwayFromZero => assert!(down.is_lt()),
        Halves::ToEven => assert!(up.is_lt() && down.is_lt() || (code / 2).is_multiple_of(2)),
    }
    assert!(units(width, after).multiple_of_power(d));
    // u counts bins: u·E is r.
    assert!(units(width, after).cmp(&Big::shifted(code / 2, d)).is_eq());
}

#[test]
fn tolerance_codes_are_as_stated_for_every_k() {
    let rng = &mut XorShift(0xDEAD_BEEF_0BAD_F00D);
    for width in WIDTHS {
        let each = if width == WIDTH_32 { 60 } else { 8 };
        for k in allowed_k(width) {
            let t = Tolerance::allowed(width, k).unwrap();
            for kind in 0..KINDS {
                for _ in 0..each {
                    let pattern = pattern_of_kind(rng, width, k, kind);
                    for halves in Halves::BOTH {
                        restored_as_stated(t, halves, pattern);
                    }
                }
            }
        }
    }
}

#[test]
fn tolerance_codes_agree_with_plain() {
    let rng = &mut XorShift(0x0F1E_2D3C_4B5A_6978);
    for _ in 0..4_000 {
        let k = some_k(rng, WIDTH_32);
        let (t, bin) = (Tolerance::allowed(WIDTH_32, k).unwrap(), u32::bin(k));
        for _ in 0..50 {
            let p = some_pattern(rng, WIDTH_32, k);
            let [away, even] = Halves::BOTH.map(|halves| t.code(halves, p));
            assert_eq!((p as u32).tolerance_code(bin) as u64, away);
            assert_eq!((p as u32).tolerance_code_to_even(bin) as u64, even);
            let u = rng.below(t.largest_magnitude_code() + 1) >> rng.below(32);
            let code = 2 * u + rng.below(2);
            let pattern = t.restored(code).unwrap();
            assert_eq!((code as u32).tolerance_pattern(bin) as u64, pattern);
            assert_eq!(Halves::BOTH.map(|halves| t.code(halves, pattern)), [code; 2]);
        }
        let k = some_k(rng, WIDTH_64);
        let (t, bin) = (Tolerance::allowed(WIDTH_64, k).unwrap(), u64::bin(k));
        for _ in 0..50 {
            let p = some_pattern(rng, WIDTH_64, k);
            let [away, even] = Halves::BOTH.map(|halves| t.code(halves, p));
            assert_eq!(p.tolerance_code(bin), away);
            assert_eq!(p.tolerance_code_to_even(bin), even);
            let u = (rng.next() % (t.largest_magnitude_code() + 1)) >> rng.below(64);
            let code = 2 * u + rng.below(2);
            let pattern = t.restored(code).unwrap();
            assert_eq!(code.tolerance_pattern(bin), pattern);
            assert_eq!(Halves::BOTH.map(|halves| t.code(halves, pattern)), [code; 2]);
        }
    }
}

/// 2^31 - 1 - (k+150)·2^23 and 2^63 - 1 - (k+1075)·2^52, and nothing above
/// is restored, whatever the code.
#[test]
fn largest_magnitude_codes() {
    for k in allowed_k(WIDTH_32) {
        let t = Tolerance::allowed(WIDTH_32, k).unwrap();
        let largest = (1i64 << 31) - 1 - (k as i64 + 150) * (1 << 23);
        assert_eq!(t.largest_magnitude_code(), largest as u64);
        assert_eq!(Halves::BOTH.map(|h| t.code(h, 0x7FFF_FFFF)), [2 * largest as u64; 2]);
        assert_eq!(t.restored(2 * largest as u64 + 1), Some(0xFFFF_FFFF));
        for code in [2 * largest as u64 + 2, u32::MAX as u64 + 1, u64::MAX] {
            assert_eq!(t.restored(code), None);
        }
    }
    for k in allowed_k(WIDTH_64) {
        let t = Tolerance::allowed(WIDTH_64, k).unwrap();
        let largest = (1i128 << 63) - 1 - (k as i128 + 1075) * (1 << 52);
        assert_eq!(t.largest_magnitude_code(), largest as u64);
        assert_eq!(t.restored(2 * largest as u64 + 1), Some(u64::MAX));
        assert_eq!(t.restored(u64::MAX).is_none(), k != -1075);
    }
}

#[test]
fn only_the_allowed_k_exist() {
    for width in WIDTHS {
        let (least, greatest) = (*allowed_k(width).start(), *allowed_k(width).end());
        for k in [i32::MIN, least - 1, greatest + 1, i32::MAX] {
            assert!(Tolerance::allowed(width, k).is_none());
        }
        assert!(Tolerance::allowed(width, least).is_some());
        assert!(Tolerance::allowed(width, greatest).is_some());
    }
}

/// Bound by trying every allowed k: in units of 2^-1075, so that also the
/// least k of width 64 is a whole number.
#[test]
fn bound_is_the_largest_allowed_k_not_above() {
    let rng = &mut XorShift(0xB0B0_CAFE_1357_9BDF);
    for round in 0..400 {
        let mut tolerance = some_pattern(rng, WIDTH_64, -20);
        if round % 3 == 0 {
            tolerance &= !(1 << 63);
        }
        let value = f64::from_bits(tolerance);
        for width in WIDTHS {
            let answer = bound(width.bits(), tolerance);
            if !(value.is_finite() && value > 0.0) {
                assert_eq!(answer, Err(Refusal::bare(12)));
                continue;
            }
            let doubled = units(WIDTH_64, tolerance).twice();
            let largest = allowed_k(width)
                .rev()
                .find(|k| Big::shifted(1, (k + 1075) as u64).cmp(&doubled).is_le());
            assert_eq!(answer, largest.ok_or(Refusal::bare(13)));
        }
    }
}
