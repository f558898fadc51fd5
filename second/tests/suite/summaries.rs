//! Summaries: entries written out by hand, the language's own floats, and the
//! orders of refusals.

use crate::random::*;
use second::stream::{self, HIGHEST_LEVEL};
use second::summary::{add_summary, chunks_from, test_summary};
use second::{Answer, Refusal};

const MARK: u8 = 0xA5;
const QUIET: u32 = 0x7FC0_0000;
const INFINITY: u32 = 0x7F80_0000;
const MINUS: u32 = 0x8000_0000;
const ONE: u32 = 0x3F80_0000;

fn packed<P: Bits>(level: u32, mode: u32, k: i32, values: &[P]) -> Vec<u8> {
    packed_in_groups(level, mode, k, 32, values)
}

fn packed_in_groups<P: Bits>(level: u32, mode: u32, k: i32, group: u32, values: &[P]) -> Vec<u8> {
    let mut stream = vec![0; stream::length(level, mode, k, group, values).unwrap() as usize];
    stream::pack(level, mode, k, group, values, &mut stream).unwrap();
    stream
}

fn added(level: u32, stream: &[u8]) -> Vec<u8> {
    let mut copy = vec![0; stream.len() + 30_000];
    let length = add_summary(level, stream, &mut copy).unwrap();
    copy.truncate(length as usize);
    copy
}

/// The chunks that are listed, at the highest level.
fn listed<P: Bits>(x: P, stream: &[u8]) -> Vec<u32> {
    let mut numbers = [u32::MAX; 40];
    let count = chunks_from(HIGHEST_LEVEL, x, stream, &mut numbers).unwrap() as usize;
    assert!(numbers[count..].iter().all(|&number| number == u32::MAX));
    numbers[..count].to_vec()
}

fn put(stream: &mut [u8], place: usize, number: u32) {
    stream[place..place + 4].copy_from_slice(&number.to_le_bytes());
}

fn numbers_of(bytes: &[u8]) -> Vec<u32> {
    bytes.chunks_exact(4).map(|bytes| u32::from_le_bytes(bytes.try_into().unwrap())).collect()
}

/// A stream with side parts behind it.
fn sided(plain: &[u8], sides: &[(u32, &[u8])]) -> Vec<u8> {
    let mut stream = plain.to_vec();
    put(&mut stream, 40, sides.len() as u32);
    let mut place = plain.len() + 12 * sides.len();
    for (id, bytes) in sides {
        let numbers = [*id, place as u32, bytes.len() as u32];
        stream.extend(numbers.iter().flat_map(|number| number.to_le_bytes()));
        place += bytes.len();
    }
    stream.extend(sides.iter().flat_map(|(_, bytes)| bytes.iter().copied()));
    stream
}

// ------------------------------------------------------- what it holds

#[test]
fn an_entry_as_it_is_written() {
    let entry = |values: &[u32]| {
        let plain = packed(8, 0, 0, values);
        let copy = added(8, &plain);
        assert_eq!(copy[..40], plain[..40]);
        assert_eq!(copy[44..plain.len()], plain[44..]);
        let end = plain.len() as u32;
        assert_eq!(numbers_of(&copy[40..44]), [1]);
        assert_eq!(numbers_of(&copy[plain.len()..plain.len() + 12]), [1, end + 12, 12]);
        numbers_of(&copy[plain.len() + 12..])
    };
    assert_eq!(entry(&[0, MINUS, 1]), [0, MINUS, 1]);
    assert_eq!(entry(&[0]), [0, 0, 0]);
    assert_eq!(entry(&[MINUS]), [0, MINUS, MINUS]);
    assert_eq!(entry(&[MINUS, 0]), [0, MINUS, 0]);
    assert_eq!(entry(&[0, MINUS]), [0, MINUS, 0]);
    assert_eq!(entry(&[0, MINUS | 1]), [0, MINUS | 1, 0]);
    assert_eq!(entry(&[QUIET, u32::MAX, INFINITY + 1]), [3, 0, 0]);
    assert_eq!(entry(&[QUIET, MINUS, u32::MAX]), [2, MINUS, MINUS]);
    assert_eq!(entry(&[INFINITY, ONE, MINUS | INFINITY]), [0, MINUS | INFINITY, INFINITY]);
    assert_eq!(entry(&[INFINITY, INFINITY + 1]), [1, INFINITY, INFINITY]);
    assert_eq!(entry(&[MINUS | ONE, MINUS | (ONE + 1)]), [0, MINUS | (ONE + 1), MINUS | ONE]);
}

/// The restored values are summarized: -0.1 returns as -0, and 0.25 as 0.5.
#[test]
fn a_summary_is_of_the_restored_values() {
    let values = [-0.1f32, 0.25, f32::NAN].map(f32::to_bits);
    let plain = packed(9, 1, -2, &values);
    let copy = added(9, &plain);
    assert_eq!(numbers_of(&copy[copy.len() - 12..]), [1, MINUS, 0.5f32.to_bits()]);
}

#[test]
fn no_values_have_an_empty_summary() {
    for plain in [packed::<u32>(8, 0, 0, &[]), packed::<u64>(11, 2, 0, &[])] {
        let copy = added(12, &plain);
        assert_eq!(numbers_of(&copy[40..]), [1, 48, 1, 60, 0]);
        assert_eq!(test_summary(12, &copy), Ok(0));
    }
    let copy = added(8, &packed::<u32>(8, 0, 0, &[]));
    assert!(listed(MINUS | INFINITY, &copy).is_empty());
    assert_eq!(chunks_from(8, 0u32, &copy, &mut []), Ok(0));
}

/// What the language's floats make of a pattern.
fn float<P: Bits>(pattern: P) -> f64 {
    match P::WIDTH.bits() {
        32 => f32::from_bits(pattern.number() as u32) as f64,
        _ => f64::from_bits(pattern.number()),
    }
}

fn entry_by_floats<P: Bits>(chunk: &[P]) -> Vec<u8> {
    let mut values = chunk.to_vec();
    values.retain(|&value| !float(value).is_nan());
    values.sort_by(|&a, &b| float(a).total_cmp(&float(b)));
    let mut bytes = ((chunk.len() - values.len()) as u32).to_le_bytes().to_vec();
    for extreme in [values.first(), values.last()] {
        let pattern = extreme.map_or(0, |value| value.number());
        bytes.extend(&pattern.to_le_bytes()[..P::WIDTH.bits() as usize / 8]);
    }
    bytes
}

fn agrees_with_floats<P: Bits>(seed: u64) {
    let rng = &mut XorShift(seed);
    for _ in 0..300 {
        let (n, mode) = (some_length(rng), rng.below(3) as u32);
        let k = if mode == 1 { some_k(rng, P::WIDTH) } else { 0 };
        let values: Vec<P> = some_list(rng, k, n);
        let plain = packed_in_groups(HIGHEST_LEVEL, mode, k, rng.one_of(&SIZES), &values);
        let mut restored = values.clone();
        stream::unpack(HIGHEST_LEVEL, &plain, &mut restored).unwrap();

        let part: Vec<u8> = restored.chunks(1024).flat_map(entry_by_floats).collect();
        let copy = added(HIGHEST_LEVEL, &plain);
        assert_eq!(copy, sided(&plain, &[(1, &part)]));
        assert_eq!(test_summary(HIGHEST_LEVEL, &copy), Ok(n as u64));
        for _ in 0..5 {
            let x = P::of_number(some_pattern(rng, P::WIDTH, k));
            if float(x).is_nan() {
                let answer = chunks_from(HIGHEST_LEVEL, x, &copy, &mut [0; 4]);
                assert_eq!(answer, Err(Refusal::bare(2)));
                continue;
            }
            let reaches = |chunk: &[P]| chunk.iter().any(|&value| float(value) >= float(x));
            let chunks = restored.chunks(1024).map(reaches);
            let wanted: Vec<u32> =
                (0..).zip(chunks).filter(|chunk| chunk.1).map(|chunk| chunk.0).collect();
            assert_eq!(listed(x, &copy), wanted);
        }
    }
}

#[test]
fn summaries_and_lists_agree_with_floats() {
    agrees_with_floats::<u32>(0x5151_5151_3232_3232);
    agrees_with_floats::<u64>(0x5151_5151_6464_6464);
}

// ------------------------------------------------------------ the list

/// Four chunks: zeros, not-a-numbers, -0 with negatives, and an infinity.
fn four_chunks() -> Vec<u8> {
    let mut values = vec![0u32; 1024];
    values.extend([QUIET; 1024]);
    values.extend([MINUS | ONE; 1023]);
    values.push(MINUS);
    values.extend([MINUS | INFINITY, INFINITY]);
    added(8, &packed(8, 0, 0, &values))
}

#[test]
fn chunks_are_listed_in_order_and_no_others() {
    let copy = four_chunks();
    assert_eq!(listed(0u32, &copy), [0, 2, 3]);
    assert_eq!(listed(MINUS, &copy), [0, 2, 3]);
    assert_eq!(listed(1u32, &copy), [3]);
    assert_eq!(listed(INFINITY, &copy), [3]);
    assert_eq!(listed(MINUS | 1, &copy), [0, 2, 3]);
    assert_eq!(listed(MINUS | INFINITY, &copy), [0, 2, 3]);
    // Chunks of -infinity and of not-a-numbers alone.
    let mut values = vec![MINUS | INFINITY; 1024];
    values.push(u32::MAX);
    let copy = added(8, &packed(8, 0, 0, &values));
    assert_eq!(listed(MINUS | INFINITY, &copy), [0]);
    assert!(listed(MINUS | (INFINITY - 1), &copy).is_empty());
}

#[test]
fn rooms_are_exact() {
    let copy = four_chunks();
    let mut numbers = [9; 3];
    assert_eq!(chunks_from(8, 0u32, &copy, &mut numbers), Ok(3));
    assert_eq!(numbers, [0, 2, 3]);
    let mut short = [9; 2];
    assert_eq!(chunks_from(8, 0u32, &copy, &mut short), Err(Refusal::with_detail(4, 3)));
    assert_eq!(short, [9; 2]);
    assert_eq!(chunks_from(8, QUIET - 1, &copy, &mut []), Err(Refusal::bare(2)));

    let plain = packed(8, 0, 0, &[0u32, MINUS, 1]);
    for room in 0..100 {
        let mut output = vec![MARK; room];
        let answer = add_summary(8, &plain, &mut output);
        let written = if room < 79 { 0 } else { 79 };
        let wanted = if room < 79 { Err(Refusal::with_detail(4, 79)) } else { Ok(79) };
        assert_eq!(answer, wanted);
        assert!(output[written..].iter().all(|&byte| byte == MARK));
    }
}

// -------------------------------------------------- true and false ones

#[test]
fn every_bit_and_every_length_is_tested() {
    fn tested<P: Bits>(values: &[P]) {
        let plain = packed(HIGHEST_LEVEL, 0, 0, values);
        let copy = added(HIGHEST_LEVEL, &plain);
        let part = &copy[plain.len() + 12..];
        let test = |part: &[u8]| {
            let stream = sided(&plain, &[(1, part)]);
            let answer = test_summary(HIGHEST_LEVEL, &stream);
            let list = chunks_from(HIGHEST_LEVEL, P::of_number(0), &stream, &mut [0; 8]);
            assert_eq!(
                list.map_err(|refusal| refusal.number).err(),
                answer.err().map(|r| r.number)
            );
            // Nothing else of it is touched.
            assert_eq!(stream::check(HIGHEST_LEVEL, &stream), Ok(values.len() as u64));
            answer
        };
        assert_eq!(test(part), Ok(values.len() as u64));
        for bit in 0..8 * part.len() {
            let mut altered = part.to_vec();
            altered[bit / 8] ^= 1 << (bit % 8);
            assert_eq!(test(&altered), Err(Refusal::bare(17)));
        }
        for length in 0..part.len() {
            assert_eq!(test(&part[..length]), Err(Refusal::bare(17)));
        }
        for longer in [1, 4, 12, 20] {
            assert_eq!(test(&[part, &vec![0; longer]].concat()), Err(Refusal::bare(17)));
        }
    }
    tested::<u32>(&[QUIET, MINUS, 0, ONE]);
    tested::<u32>(&vec![ONE; 2049]);
    tested::<u64>(&[1, 2, u64::MAX]);
    let mut values = vec![u64::MAX; 1025];
    values[1024] = 1 << 63;
    tested::<u64>(&values);
}

#[test]
fn the_id_decides_and_other_parts_do_not() {
    let plain = packed(8, 0, 0, &[ONE, QUIET]);
    let copy = added(8, &plain);
    let part = &copy[plain.len() + 12..];
    let test = |sides: &[(u32, &[u8])]| test_summary(8, &sided(&plain, sides));
    let false_one = Err(Refusal::bare(17));
    assert_eq!(test(&[(1, part)]), Ok(2));
    assert_eq!(test(&[(0, b"x"), (1, part), (2, &[]), (0x7FFF_FFFF, b"yz")]), Ok(2));
    assert_eq!(test(&[(0, part), (1, part)]), Ok(2));
    assert_eq!(test(&[]), false_one);
    assert_eq!(test(&[(0, part)]), false_one);
    assert_eq!(test(&[(2, part), (0x7FFF_FFFF, part)]), false_one);
    assert_eq!(test(&[(0, part), (1, &[]), (2, part)]), false_one);
}

// ------------------------------------------------------------- refusals

/// What the three operations say, those that are lent an output with and without
/// room, and the lists also of the other width and of a not-a-number.
fn said(level: u32, stream: &[u8]) -> [u32; 8] {
    let number = |answer: Answer| answer.err().map_or(0, |refusal| refusal.number);
    let add = |room| number(add_summary(level, stream, &mut vec![0; room]));
    let list = |x: u32, room| number(chunks_from(level, x, stream, &mut vec![0; room]));
    [
        add(1000),
        add(0),
        number(test_summary(level, stream)),
        list(0, 8),
        list(0, 0),
        number(chunks_from(level, 0u64, stream, &mut [0; 8])),
        list(QUIET, 8),
        number(chunks_from(level, u64::MAX, stream, &mut [])),
    ]
}

#[test]
fn refusals_in_order() {
    let plain = packed(12, 0, 0, &[0, MINUS, 1]);
    let copy = added(12, &plain);
    let other = sided(&plain, &[(7, &[1])]);
    assert_eq!(said(12, &plain), [0, 4, 17, 17, 17, 14, 2, 2]);
    assert_eq!(said(12, &copy), [16, 16, 0, 0, 4, 14, 2, 2]);
    assert_eq!(said(12, &other), [16, 16, 17, 17, 17, 14, 2, 2]);
    for level in [0, 7, 15] {
        assert_eq!(said(level, &copy), [1; 8]);
        assert_eq!(said(level, &[]), [1; 8]);
    }
    assert_eq!(said(8, &[]), [5, 5, 5, 5, 5, 5, 2, 2]);
    let damaged = |place: usize, number: u32| {
        let mut stream = copy.clone();
        put(&mut stream, place, number);
        said(12, &stream)
    };
    assert_eq!(damaged(0, 2), [6, 6, 6, 6, 6, 6, 2, 2]);
    assert_eq!(damaged(8, 13), [7, 7, 7, 7, 7, 7, 2, 2]);
    assert_eq!(damaged(16, 3), [8, 8, 8, 8, 8, 8, 2, 2]);
    // The tables, and the late use of 8, stand behind the other width.
    assert_eq!(damaged(48, 1), [9, 9, 9, 9, 9, 14, 2, 2]);
    assert_eq!(damaged(8, 9), [8, 8, 8, 8, 8, 14, 2, 2]);
    // A bad chunk, whether the summary is true, false or not there.
    for stream in [&copy, &other, &plain, &sided(&plain, &[(1, &[0; 12])])] {
        let mut stream = stream.clone();
        stream[52] = 33;
        assert_eq!(said(12, &stream), [10, 10, 10, 10, 10, 14, 2, 2]);
    }
    // An id that must be understood, beside a summary, with its need.
    let mut high = sided(&plain, &[(1, &copy[67..]), (1 << 31, &[])]);
    put(&mut high, 8, 12);
    assert_eq!(said(12, &high), [15, 15, 15, 15, 15, 14, 2, 2]);
    assert_eq!(said(11, &high), [7, 7, 7, 7, 7, 7, 2, 2]);
}

#[test]
fn levels_show_the_copy_as_they_show_the_stream() {
    let values: Vec<u64> = (0..1500).map(|i| if i % 7 == 0 { u64::MAX } else { i << 40 }).collect();
    for (mode, group, need) in [(0, 32, 10), (2, 32, 11), (0, 128, 13), (2, 128, 13)] {
        let mut plain = packed_in_groups(need, mode, 0, group, &values);
        put(&mut plain, 4, 4_000_000_000); // a stream from a later minor
        let copy = added(need, &plain);
        for level in 7..=15 {
            assert_eq!(stream::check(level, &copy), stream::check(level, &plain));
            let (mut before, mut after) = (vec![7u64; 1501], vec![7u64; 1501]);
            let answer = stream::unpack(level, &plain, &mut before);
            assert_eq!(stream::unpack(level, &copy, &mut after), answer);
            assert!(before == after);
            let probed = |stream| stream::probe::<u64>(level, stream, 1400);
            assert_eq!(probed(&copy), probed(&plain));
            let told = stream::check(level, &plain).map(|_| ());
            assert_eq!(test_summary(level, &copy).map(|_| ()), told);
            assert_eq!(add_summary(level, &plain, &mut vec![0; copy.len()]).map(|_| ()), told);
        }
    }
}
