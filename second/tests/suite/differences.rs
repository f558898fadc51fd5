//! Mode 2: its codes, and streams in which each chunk begins anew.

use crate::random::*;
use second::compare::known::{DIFFERENCES_32, DIFFERENCES_64};
use second::compare::walks::some_walk;
use second::listing::listing;
use second::numbers::{difference_code, difference_pattern, Width, WIDTH_32, WIDTH_64};
use second::stream::{self, Probed};
use second::Refusal;

const LEVEL: u32 = 11;

fn packed<P: Bits>(values: &[P]) -> Vec<u8> {
    let mut stream = vec![0; stream::length(LEVEL, 2, 0, 32, values).unwrap() as usize];
    stream::pack(LEVEL, 2, 0, 32, values, &mut stream).unwrap();
    stream
}

fn some_values<P: Bits>(rng: &mut XorShift, n: usize) -> Vec<P> {
    some_walk(rng, P::WIDTH, n).into_iter().map(P::of_number).collect()
}

/// The pattern probe gives, whatever its kind.
fn probed<P: Bits>(stream: &[u8], index: u64) -> Result<u64, Refusal> {
    match stream::probe::<P>(LEVEL, stream, index) {
        Probed::Finite(pattern) | Probed::NotANumber(pattern) => Ok(pattern.number()),
        Probed::Infinity { negative } => {
            let infinity = P::WIDTH.greatest_field() << P::WIDTH.fraction_bits();
            Ok(infinity | (negative as u64) << (P::WIDTH.bits() - 1))
        }
        Probed::Refused(refusal) => Err(refusal),
    }
}

fn number(stream: &[u8], order: usize) -> usize {
    u32::from_le_bytes(stream[4 * order..4 * order + 4].try_into().unwrap()) as usize
}

fn put(stream: &mut [u8], order: usize, number: u32) {
    stream[4 * order..4 * order + 4].copy_from_slice(&number.to_le_bytes());
}

/// The bytes of a chunk.
fn chunk(stream: &[u8], chunk: usize) -> &[u8] {
    let data = number(stream, 9);
    let start = data + number(stream, 12 + chunk);
    let last = chunk + 1 == number(stream, 7);
    let end = if last { number(stream, 11) } else { data + number(stream, 13 + chunk) };
    &stream[start..end]
}

// ---------------------------------------------------------------- codes

#[test]
fn known_codes() {
    for (width, lists) in [(WIDTH_32, &DIFFERENCES_32[..]), (WIDTH_64, &DIFFERENCES_64)] {
        for (patterns, codes) in lists {
            let mut before = 0;
            for (&pattern, &code) in patterns.iter().zip(*codes) {
                assert_eq!(difference_code(width, before, pattern), code);
                assert_eq!(difference_pattern(width, before, code), pattern);
                before = pattern;
            }
        }
    }
}

/// Source document 001 has them by shifts of machine words; and after any
/// pattern, every code has exactly one.
#[test]
fn codes_are_those_of_the_source_and_return() {
    let rng = &mut XorShift(0xD1FF_0000_0000_0035);
    for _ in 0..100_000 {
        let [before, pattern] = [0; 2].map(|_| some_pattern(rng, WIDTH_64, 0));
        let difference = pattern.wrapping_sub(before) as i64;
        let code = difference_code(WIDTH_64, before, pattern);
        assert_eq!(code, (difference << 1 ^ difference >> 63) as u64);
        returns(WIDTH_64, before, pattern, code);
        returns(WIDTH_64, before, difference_pattern(WIDTH_64, before, pattern), pattern);

        let [before, pattern] = [0; 2].map(|_| some_pattern(rng, WIDTH_32, 0));
        let difference = (pattern as u32).wrapping_sub(before as u32) as i32;
        let code = difference_code(WIDTH_32, before, pattern);
        assert_eq!(code, (difference << 1 ^ difference >> 31) as u32 as u64);
        returns(WIDTH_32, before, pattern, code);
        returns(WIDTH_32, before, difference_pattern(WIDTH_32, before, pattern), pattern);
    }
}

fn returns(width: Width, before: u64, pattern: u64, code: u64) {
    assert_eq!(difference_code(width, before, pattern), code);
    assert_eq!(difference_pattern(width, before, code), pattern);
}

// -------------------------------------------------------------- streams

#[test]
fn lists_return_and_every_value_is_probed() {
    fn return_all<P: Bits>(rng: &mut XorShift) {
        for n in [0, 1, 32, 33, 100, 1024, 1025, 2100, 3000] {
            for _ in 0..6 {
                let values: Vec<P> = some_values(rng, n);
                let stream = packed(&values);
                assert_eq!(stream::check(LEVEL, &stream), Ok(n as u64));
                let mut output = vec![P::of_number(9); n];
                assert_eq!(stream::unpack(LEVEL, &stream, &mut output), Ok(n as u64));
                assert!(output == values);
                for (index, value) in (0..).zip(&values) {
                    assert_eq!(probed::<P>(&stream, index), Ok(value.number()));
                }
            }
        }
    }
    let rng = &mut XorShift(0xD1FF_0000_0000_0071);
    return_all::<u32>(rng);
    return_all::<u64>(rng);
}

#[test]
fn each_chunk_is_that_of_its_values_alone() {
    let rng = &mut XorShift(0xD1FF_0000_0000_0096);
    for _ in 0..40 {
        let values: Vec<u64> = some_values(rng, 2500);
        let stream = packed(&values);
        for (number, alone) in values.chunks(1024).enumerate() {
            assert!(chunk(&stream, number) == chunk(&packed(alone), 0));
        }
    }
}

#[test]
fn a_chunk_begins_anew_and_a_group_does_not() {
    // 7 is code 14, of 4 bits; every other difference is 0.
    let stream = packed(&[7u32; 1030]);
    let first = [&[4, 14][..], &[0; 15], &[0; 31]].concat();
    assert_eq!(chunk(&stream, 0), first);
    assert_eq!(chunk(&stream, 1), [4, 14, 0, 0]);
}

#[test]
fn what_is_before_goes_across_groups_of_no_bits() {
    let mut values = vec![1f64.to_bits(); 200];
    values[199] += 1;
    let stream = packed(&values);
    // The first group, five of no bits, and one with the code 2 at its end.
    let bytes = chunk(&stream, 0);
    assert_eq!(bytes[bytes.len() - 8..], [0, 0, 0, 0, 0, 2, 0, 0x80]);
    for index in [0, 31, 32, 100, 198, 199] {
        assert_eq!(probed::<u64>(&stream, index), Ok(values[index as usize]));
    }
}

/// Whatever the bytes of all other chunks are, but for their lengths.
#[test]
fn probe_depends_on_no_other_chunk() {
    let rng = &mut XorShift(0xD1FF_0000_0000_0123);
    let values: Vec<u32> = some_values(rng, 3000);
    for own in 0..3 {
        let mut stream = packed(&values);
        let kept = chunk(&stream, own).to_vec();
        let data = number(&stream, 9);
        let start = data + number(&stream, 12 + own);
        stream[data..].iter_mut().for_each(|byte| *byte = rng.next() as u8);
        stream[start..start + kept.len()].copy_from_slice(&kept);
        for index in [1024 * own, 1024 * own + 500, (1024 * own + 1023).min(2999)] {
            assert_eq!(probed::<u32>(&stream, index as u64), Ok(values[index] as u64));
        }
    }
}

// ------------------------------------------------------------- refusals

#[test]
fn mode_2_needs_level_11_and_k_0() {
    fn refuse<P: Bits>() {
        let values = [P::of_number(5), P::of_number(7)];
        for (level, k, number) in
            [(7, 0, 1), (8, 0, 2), (9, 0, 2), (10, 0, 2), (11, 1, 2), (14, -2, 2), (15, 0, 1)]
        {
            assert_eq!(stream::length(level, 2, k, 32, &values), Err(Refusal::bare(number)));
        }
        let stream = packed(&values);
        assert_eq!([number(&stream, 1), number(&stream, 2)], [11, 11]);
        for level in [8, 9, 10] {
            let seven = Refusal { number: 7, detail: 11 };
            assert_eq!(stream::check(level, &stream), Err(seven));
            assert_eq!(stream::probe::<P>(level, &stream, 0), Probed::Refused(seven));
        }
    }
    refuse::<u32>();
    refuse::<u64>();
}

#[test]
fn header_numbers_of_mode_2() {
    fn answers<P: Bits>() {
        let sound = packed(&[P::of_number(5), P::of_number(7)]);
        let eight = Err(Refusal::bare(8));
        let k = |k: i32| (5, k as u32);
        for ((order, number), answer) in [
            (k(1), eight),
            (k(-1), eight),
            (k(i32::MIN), eight),
            ((2, 8), eight),
            ((2, 10), eight),
            ((2, 12), Err(Refusal { number: 7, detail: 12 })),
            ((1, 10), eight),
            ((1, 12), Ok(2)),
            ((4, 0), eight),
            ((4, 1), eight),
            ((4, 3), eight),
        ] {
            let mut stream = sound.clone();
            put(&mut stream, order, number);
            assert_eq!(stream::check(LEVEL, &stream), answer, "number {order} set to {number}");
        }
    }
    answers::<u32>();
    answers::<u64>();
}

/// Codes of W bits, all allowed: "u above its largest" is mode 1's alone.
#[test]
fn every_code_is_allowed() {
    let rng = &mut XorShift(0xD1FF_0000_0000_0167);
    for _ in 0..200 {
        let codes: Vec<u32> = (0..32).map(|_| rng.next() as u32 | 1 << 31).collect();
        let mut stream = packed(&[1u32 << 31; 1]);
        put(&mut stream, 6, 32);
        put(&mut stream, 11, 52 + 1 + 128);
        stream.truncate(52);
        stream.push(32);
        stream.extend(codes.iter().flat_map(|code| code.to_le_bytes()));
        let mut values = [0u32; 32];
        assert_eq!(stream::unpack(LEVEL, &stream, &mut values), Ok(32));
        assert!(packed(&values) == stream);
    }
}

#[test]
fn a_listing() {
    assert_eq!(
        listing(&packed(&[7u64; 1030])),
        "format 1.11 needs 1.11\n\
         width 64 mode 2 bound 0\n\
         values 1030 chunks 2 sides 0\n\
         chunk 0 at 0 bytes 48 groups 32\n\
         chunk 1 at 48 bytes 4 groups 1\n"
    );
}

// ---------------------------------------------------------------- walks

/// What the walks of the comparison are for is in them: groups of no bits
/// before others, differences that wrap, and not-a-numbers.
#[test]
fn walks_hold_what_they_are_for() {
    for width in [WIDTH_32, WIDTH_64] {
        let rng = &mut XorShift(0xD1FF_0000_0000_0202);
        let (mut empty, mut wrapped, mut nans) = (0, 0, 0);
        let half = 1u64 << (width.bits() - 1);
        let infinity = width.greatest_field() << width.fraction_bits();
        for _ in 0..200 {
            let walk = some_walk(rng, width, 300);
            assert_eq!(walk.len(), 300);
            let stands = |at: usize| (at - 32..at).all(|index| walk[index] == walk[at - 33]);
            empty += (64..289).step_by(32).filter(|&at| stands(at) && walk[at] != 0).count();
            wrapped += walk.windows(2).filter(|pair| pair[0].abs_diff(pair[1]) >= half).count();
            nans += walk.iter().filter(|&&pattern| width.ordinal(pattern) > infinity).count();
        }
        assert!(empty > 50 && wrapped > 50 && nans > 50, "{empty} {wrapped} {nans}");
    }
}
