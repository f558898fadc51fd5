//! Every entry of "Known values" and of "Slips we have seen".

#![allow(clippy::excessive_precision)] // 4194303.75 is a binary32 number as it stands

use second::compare::known::LOSSLESS_32;
use second::numbers::*;
use second::{plain, stream, Refusal};

fn pattern(value: f32) -> u64 {
    value.to_bits() as u64
}

fn quarter() -> Tolerance {
    Tolerance::allowed(WIDTH_32, -2).unwrap()
}

/// The code within 2^-2, with halves away from zero.
fn code(pattern: u64) -> u64 {
    quarter().code(Halves::AwayFromZero, pattern)
}

/// The code within 2^-2, with halves to even.
fn code_to_even(pattern: u64) -> u64 {
    quarter().code(Halves::ToEven, pattern)
}

#[test]
fn lossless_codes() {
    for (pattern, code) in LOSSLESS_32 {
        assert_eq!(lossless_code(WIDTH_32, pattern), code);
        assert_eq!(lossless_pattern(WIDTH_32, code), pattern);
        assert_eq!(plain::Lane::lossless_code(pattern as u32), code as u32);
        assert_eq!(plain::Lane::lossless_pattern(code as u32), pattern as u32);
    }
    let one = 1f64.to_bits();
    assert_eq!(lossless_code(WIDTH_64, one), (1 << 55) - 1);
    assert_eq!(lossless_pattern(WIDTH_64, (1 << 55) - 1), one);
    assert_eq!(plain::Lane::lossless_code(one), (1 << 55) - 1);
}

/// "exponent 0 stays 0, 1..128 become -128..-1 and 129..255 become 1..127",
/// and the same for doubles.
#[test]
fn lossless_fields() {
    for field in 0..256i64 {
        let moved = match field {
            0 => 0,
            1..=128 => field - 129,
            _ => field - 128,
        };
        let x = moved << 24;
        let code = if x >= 0 { 2 * x } else { -2 * x - 1 };
        assert_eq!(lossless_code(WIDTH_32, (field as u64) << 23), code as u64);
    }
    for field in 0..2048i128 {
        let moved = match field {
            0 => 0,
            1..=1024 => field - 1025,
            _ => field - 1024,
        };
        let x = moved << 53;
        let code = if x >= 0 { 2 * x } else { -2 * x - 1 };
        assert_eq!(lossless_code(WIDTH_64, (field as u64) << 52), code as u64);
    }
}

#[test]
fn tolerance_codes() {
    let t = quarter();
    assert_eq!(t.threshold_ordinal(), pattern(4_194_304.0));
    assert_eq!(code(pattern(0.25)), 2);
    assert_eq!(t.restored(2), Some(pattern(0.5)));
    assert_eq!(code(pattern(0.21875)), 0);
    assert_eq!(code(pattern(-0.75)), 5);
    assert_eq!(t.restored(5), Some(pattern(-1.0)));
    assert_eq!(code(pattern(4_194_303.75)), 16_777_216);
    assert_eq!(t.restored(16_777_216), Some(pattern(4_194_304.0)));
    assert_eq!(code(pattern(4_194_304.0)), 16_777_216);
    assert_eq!(code(pattern(f32::INFINITY)), 1_795_162_112);
    assert_eq!(t.largest_magnitude_code(), 905_969_663);
    assert_eq!(t.restored(1), Some(pattern(-0.0)));
}

#[test]
fn tolerance_codes_to_even() {
    assert_eq!(code_to_even(pattern(0.25)), 0);
    assert_eq!(code_to_even(pattern(-0.25)), 1);
    assert_eq!(code_to_even(pattern(-0.75)), 5);
    assert_eq!(code_to_even(pattern(4_194_303.75)), 16_777_216);
    for value in [0.21875, 0.26, -0.5, 4_194_304.0, f32::INFINITY, f32::NAN] {
        assert_eq!(code_to_even(pattern(value)), code(pattern(value)));
    }
    let rules = [Some(Halves::AwayFromZero), Some(Halves::ToEven), None, None, None];
    assert_eq!([0, 1, 2, 256, u32::MAX].map(Halves::numbered), rules);
}

/// A stream of one value of width 32, mode 1, k = -2, around a given code.
fn stream_of_code(code: u32) -> Vec<u8> {
    let w = 32 - code.leading_zeros();
    let length = w.div_ceil(8);
    let numbers = [1, 9, 9, 32, 1, -2i32 as u32, 1, 1, 48, 52, 0, 53 + length, 0];
    let mut stream: Vec<u8> = numbers.iter().flat_map(|n| n.to_le_bytes()).collect();
    stream.push(w as u8);
    stream.extend(&code.to_le_bytes()[..length as usize]);
    stream
}

#[test]
fn the_largest_magnitude_code_is_read_and_the_next_refused() {
    for sign in [0, 1] {
        let read = stream_of_code(2 * 905_969_663 + sign);
        let refused = stream_of_code(2 * 905_969_664 + sign);
        let mut value = [7u32];
        assert_eq!(stream::check(9, &read), Ok(1));
        assert_eq!(plain::check(9, &read), Ok(1));
        assert_eq!(stream::unpack(9, &read, &mut value), Ok(1));
        assert_eq!(value, [0x7FFF_FFFF | sign << 31]);
        let ten = Refusal { number: 10, detail: 0 };
        assert_eq!(stream::check(9, &refused), Err(ten));
        assert_eq!(plain::check(9, &refused), Err(ten));
        assert_eq!(stream::probe::<u32>(9, &refused, 0), stream::Probed::Refused(ten));
    }
}

#[test]
fn bounds() {
    let power = |exponent: i64| {
        if exponent < -1022 {
            1 << (exponent + 1074)
        } else {
            ((exponent + 1023) as u64) << 52
        }
    };
    assert_eq!(bound(32, 0.3f64.to_bits()), Ok(-2));
    assert_eq!(bound(32, 0.25f64.to_bits()), Ok(-2));
    assert_eq!(bound(32, power(200)), Ok(103));
    assert_eq!(bound(32, power(-150)), Ok(-150));
    assert_eq!(bound(32, power(-151)), Err(Refusal::bare(13)));
    for width in [32, 64] {
        for tolerance in [0.0, -0.0, f64::INFINITY, f64::NEG_INFINITY, f64::NAN, -1.0] {
            assert_eq!(bound(width, tolerance.to_bits()), Err(Refusal::bare(12)));
        }
    }
    assert_eq!(bound(64, 0.3f64.to_bits()), Ok(-2));
    assert_eq!(bound(64, f64::MAX.to_bits()), Ok(970));
    assert_eq!(bound(64, power(970)), Ok(970));
    assert_eq!(bound(64, power(970) - 1), Ok(969));
    assert_eq!(bound(64, 1), Ok(-1074));
    assert_eq!(bound(64, 3), Ok(-1073));
    for width in [0, 16, 31, 33, 63, 65, u32::MAX] {
        assert_eq!(bound(width, f64::NAN.to_bits()), Err(Refusal::bare(2)));
    }
}

#[test]
fn the_value_limit() {
    let most = vec![0u32; 1_048_576];
    let length = 48 + 4 * 1024 + 32 * 1024;
    assert_eq!(stream::length(8, 0, 0, 32, &most), Ok(length));
    assert_eq!(plain::length(8, 0, 0, 32, &most), Ok(length));
    let mut packed = vec![9; length as usize];
    assert_eq!(stream::pack(8, 0, 0, 32, &most, &mut packed), Ok(length));
    assert_eq!(stream::check(8, &packed), Ok(1_048_576));
    assert_eq!(plain::check(8, &packed), Ok(1_048_576));

    let more = vec![0u32; 1_048_577];
    let three = Err(Refusal::bare(3));
    assert_eq!(stream::length(8, 0, 0, 32, &more), three);
    assert_eq!(stream::pack(8, 0, 0, 32, &more, &mut packed), three);
    assert_eq!(plain::length(8, 0, 0, 32, &more), three);
    assert_eq!(plain::pack(8, 0, 0, 32, &more, &mut packed), three);
}

#[test]
fn lengths() {
    assert_eq!(stream::length::<u32>(8, 0, 0, 32, &[]), Ok(48));
    assert_eq!(plain::length::<u32>(8, 0, 0, 32, &[]), Ok(48));
    assert_eq!(stream::length(8, 0, 0, 32, &[0u32; 1024]), Ok(84));
    assert_eq!(plain::length(8, 0, 0, 32, &[0u32; 1024]), Ok(84));
    let mut packed = [0; 200];
    assert_eq!(stream::pack(8, 0, 0, 32, &[0u32; 1025], &mut packed), Ok(48 + 8 + 33));
    assert_eq!(packed[28..32], [2, 0, 0, 0]);
}

// -------------------------------------------------------------- slips

#[test]
fn slip_a_need_of_10_stops_level_9() {
    let mut packed = [0; 100];
    let length = stream::pack(10, 0, 0, 32, &[1u64], &mut packed).unwrap() as usize;
    let packed = &packed[..length];
    for level in [8, 9] {
        let seven = Refusal { number: 7, detail: 10 };
        assert_eq!(stream::check(level, packed), Err(seven));
        assert_eq!(plain::check(level, packed), Err(seven));
        assert_eq!(stream::unpack(level, packed, &mut [0u64]), Err(seven));
        assert_eq!(stream::probe::<u64>(level, packed, 0), stream::Probed::Refused(seven));
        assert_eq!(stream::length(level, 0, 0, 32, &[1u64]), Err(Refusal::bare(2)));
        assert_eq!(plain::length(level, 0, 0, 32, &[1u64]), Err(Refusal::bare(2)));
    }
    assert_eq!(stream::check(10, packed), Ok(1));
}

#[test]
fn slip_two_and_zero_do_not_share_a_code() {
    assert_ne!(lossless_code(WIDTH_32, pattern(2.0)), lossless_code(WIDTH_32, 0));
    let two = 2f64.to_bits();
    assert_ne!(lossless_code(WIDTH_64, two), lossless_code(WIDTH_64, 0));
}

#[test]
fn slip_no_half_added_in_floats() {
    assert_eq!(code(0x3E7F_FFFF), 0);
    let bin = <u32 as plain::Lane>::bin(-2);
    assert_eq!(plain::Lane::tolerance_code(0x3E7F_FFFFu32, bin), 0);
}

#[test]
fn slip_halves_go_away_from_zero() {
    // (j + 1/2)·0.5 for even and odd j, both signs.
    for j in 0..40u64 {
        let half = (j as f32 + 0.5) * 0.5;
        assert_eq!(code(pattern(half)), 2 * (j + 1));
        assert_eq!(code(pattern(-half)), 2 * (j + 1) + 1);
    }
}

#[test]
fn slip_not_a_numbers_are_not_quantized() {
    for k in -150..=103 {
        let t = Tolerance::allowed(WIDTH_32, k).unwrap();
        for nan in [0x7F80_0001, 0x7FC0_0000, 0xFFC1_2345, 0xFFFF_FFFF] {
            for code in Halves::BOTH.map(|halves| t.code(halves, nan)) {
                assert!(code / 2 > 1 << 23);
                assert_eq!(t.restored(code), Some(nan));
            }
        }
    }
    for k in -1075..=970 {
        let t = Tolerance::allowed(WIDTH_64, k).unwrap();
        for nan in [0x7FF0_0000_0000_0001, 0xFFF8_0000_0000_0000, u64::MAX] {
            for code in Halves::BOTH.map(|halves| t.code(halves, nan)) {
                assert!(code / 2 > 1 << 52);
                assert_eq!(t.restored(code), Some(nan));
            }
        }
    }
}

#[test]
fn slip_the_code_2_to_the_m_is_no_fault() {
    let values = [4_194_303.75f32.to_bits()];
    let mut packed = [0; 60];
    let length = stream::pack(9, 1, -2, 32, &values, &mut packed).unwrap() as usize;
    let mut restored = [0u32];
    assert_eq!(stream::unpack(9, &packed[..length], &mut restored), Ok(1));
    assert_eq!(restored, [4_194_304f32.to_bits()]);
    restored = [0];
    assert_eq!(plain::unpack(9, &packed[..length], &mut restored), Ok(1));
    assert_eq!(restored, [4_194_304f32.to_bits()]);
}
