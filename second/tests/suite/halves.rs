//! Halves away from zero up to level 13, and to even from level 14 on. The streams are
//! written out by hand.

use crate::random::*;
use second::numbers::{Halves, Tolerance, WIDTH_32};
use second::{plain, stream, Refusal};

/// The list of these halves of 2^-1 within 2^-2, packed by both versions.
fn packed(level: u32, group: u32, halves: &[f32]) -> Vec<u8> {
    let values: Vec<u32> = halves.iter().map(|value| value.to_bits()).collect();
    let mut first = vec![0xAA; 200];
    let length = stream::pack(level, 1, -2, group, &values, &mut first).unwrap();
    assert_eq!(stream::length(level, 1, -2, group, &values), Ok(length));
    let mut second = vec![0xAA; 200];
    assert_eq!(plain::pack(level, 1, -2, group, &values, &mut second), Ok(length));
    assert_eq!(plain::length(level, 1, -2, group, &values), Ok(length));
    assert_eq!(first, second);
    first.truncate(length as usize);
    first
}

#[test]
fn the_level_decides_and_not_the_need() {
    for (group, mode, need) in [(32, 1, 9), (128, 257, 13)] {
        for level in need..=14 {
            let stream = packed(level, group, &[0.25, -0.75, 1.25, -1.75]);
            // u is 1, 2, 3 and 4, or 0, 2, 2 and 4: codes of 4 bits.
            let codes = if level < 14 { [4, 0x52, 0x96] } else { [4, 0x50, 0x94] };
            let numbers = [1, level, need, 32, mode, -2i32 as u32, 4, 1, 48, 52, 0, 55, 0];
            let header = numbers.map(u32::to_le_bytes).concat();
            assert_eq!(stream, [&header[..], &codes].concat());
        }
    }
}

#[test]
fn every_level_from_the_need_on_reads_what_level_14_wrote() {
    let stream = packed(14, 32, &[0.25, -0.25, 0.75, -1.25]);
    let restored = [0.0, -0.0, 1.0, -1.0f32].map(f32::to_bits);
    for level in 9..=14 {
        let mut values = [7; 4];
        assert_eq!(stream::unpack(level, &stream, &mut values), Ok(4));
        assert_eq!(values, restored);
        assert_eq!(plain::unpack(level, &stream, &mut values), Ok(4));
        assert_eq!(values, restored);
    }
    assert_eq!(stream::check(8, &stream), Err(Refusal { number: 7, detail: 9 }));
    assert_eq!(stream::check(15, &stream), Err(Refusal::bare(1)));
}

/// The rules differ where a value is an odd number of half bins and the bins below it
/// are even, and there alone: by one bin.
#[test]
fn the_rules_differ_at_halves_above_an_even_number_of_bins() {
    let t = Tolerance::allowed(WIDTH_32, 3).unwrap();
    let rng = &mut XorShift(0x7E57_0F7A_15E5_1234);
    let mut met = 0;
    for _ in 0..200_000 {
        let pattern = some_pattern(rng, WIDTH_32, 3);
        let [away, even] = Halves::BOTH.map(|halves| t.code(halves, pattern));
        let half_bins = f32::from_bits(pattern as u32).abs() as f64 / 8.0;
        if half_bins < 2f64.powi(24) && half_bins % 4.0 == 1.0 {
            assert_eq!((away, even / 2), (even + 2, half_bins as u64 / 2));
            met += 1;
        } else {
            assert_eq!(away, even);
        }
    }
    assert!(met > 1000, "{met}");
}
