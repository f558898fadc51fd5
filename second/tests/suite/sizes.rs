//! Groups of 128. The streams are written out by hand; a group of zeros is one
//! byte, 0.

use crate::random::*;
use second::listing::listing;
use second::stream::{self, Probed};
use second::{plain, Answer, Refusal};

const LEVEL: u32 = 13;

fn bytes_of(numbers: &[u32]) -> Vec<u8> {
    numbers.iter().flat_map(|number| number.to_le_bytes()).collect()
}

/// A stream of width 32 with these mode number, k and chunks.
fn stream_of(mode: u32, k: i32, n: u32, chunks: &[Vec<u8>]) -> Vec<u8> {
    let (c, data) = (chunks.len() as u32, chunks.concat());
    let place = 48 + 4 * c;
    let end = place + data.len() as u32;
    let mut numbers = vec![1, 13, 13, 32, mode, k as u32, n, c, 48, place, 0, end];
    let mut start = 0;
    for chunk in chunks {
        numbers.push(start);
        start += chunk.len() as u32;
    }
    [bytes_of(&numbers), data].concat()
}

/// What check says; the tuned version, unpack and the listing agree.
fn checked(stream: &[u8]) -> Answer {
    let answer = stream::check(LEVEL, stream);
    assert_eq!(plain::check(LEVEL, stream), answer);
    let mut values = [0u32; 4000];
    assert_eq!(stream::unpack(LEVEL, stream, &mut values), answer);
    let mut again = [0u32; 4000];
    assert_eq!(plain::unpack(LEVEL, stream, &mut again), answer);
    assert!(values == again);
    if let Err(Refusal { number, detail }) = answer {
        assert_eq!(listing(stream), format!("refused {number} detail {detail}\n"));
    }
    answer
}

fn bad_group(detail: u32) -> Answer {
    Err(Refusal { number: 10, detail })
}

/// A group of w bits in which only the code at an index is not 0.
fn group_with(w: u8, count: usize, index: usize, code: u64) -> Vec<u8> {
    let mut bytes = vec![0; 1 + (count * w as usize).div_ceil(8)];
    bytes[0] = w;
    for bit in (0..w as usize).filter(|bit| code >> bit & 1 == 1) {
        let place = index * w as usize + bit;
        bytes[1 + place / 8] |= 1 << (place % 8);
    }
    bytes
}

#[test]
fn zeros_are_a_byte_for_128() {
    for (n, length) in [(0, 48), (1, 53), (128, 53), (129, 54), (1024, 60), (1025, 65)] {
        let values = vec![0u32; n];
        assert_eq!(stream::length(LEVEL, 0, 0, 128, &values), Ok(length));
        assert_eq!(plain::length(LEVEL, 0, 0, 128, &values), Ok(length));
    }
    let mut packed = [0xAA; 60];
    assert_eq!(stream::pack(LEVEL, 0, 0, 128, &[0u32; 1024], &mut packed), Ok(60));
    assert_eq!(packed[..], stream_of(256, 0, 1024, &[vec![0; 8]]));
}

#[test]
fn a_noisy_field_reaches_the_length_formula() {
    // The code of the least normal number is all ones.
    for n in [1usize, 127, 128, 129, 1024, 1025, 3000] {
        for group in SIZES {
            let bound =
                |bytes: usize| 48 + 4 * n.div_ceil(1024) + n.div_ceil(group as usize) + bytes * n;
            let singles = vec![1u32 << 23; n];
            assert_eq!(stream::length(LEVEL, 0, 0, group, &singles), Ok(bound(4) as u64));
            assert_eq!(plain::length(LEVEL, 0, 0, group, &singles), Ok(bound(4) as u64));
            let doubles = vec![1u64 << 52; n];
            assert_eq!(stream::length(LEVEL, 0, 0, group, &doubles), Ok(bound(8) as u64));
            assert_eq!(plain::length(LEVEL, 0, 0, group, &doubles), Ok(bound(8) as u64));
        }
    }
}

#[test]
fn the_width_is_that_of_the_whole_group() {
    for count in [33, 64, 65, 127, 128] {
        for index in [0, 31, 32, 63, 64, 95, 96, 127].into_iter().filter(|&index| index < count) {
            // Code 4, of 3 bits, is the least subnormal number.
            let chunk = group_with(3, count, index, 4);
            let stream = stream_of(256, 0, count as u32, &[chunk]);
            assert_eq!(checked(&stream), Ok(count as u64));
            let mut values = vec![0u32; count];
            values[index] = 1;
            let mut packed = vec![0; stream.len()];
            let length = stream.len() as u64;
            assert_eq!(stream::pack(LEVEL, 0, 0, 128, &values, &mut packed), Ok(length));
            assert_eq!(packed, stream);
            assert_eq!(plain::pack(LEVEL, 0, 0, 128, &values, &mut packed), Ok(length));
            assert_eq!(packed, stream);
            assert_eq!(plain::probe::<u32>(LEVEL, &stream, index as u64), Ok(1));
            assert_eq!(stream::probe(LEVEL, &stream, index as u64), Probed::Finite(1u32));
            let wider = stream_of(256, 0, count as u32, &[group_with(4, count, index, 4)]);
            assert_eq!(checked(&wider), bad_group(0));
        }
    }
}

#[test]
fn u_is_compared_with_its_largest_in_every_block() {
    for index in [0, 31, 32, 64, 96, 127] {
        let stream = |u: u64| stream_of(257, -2, 128, &[group_with(31, 128, index, 2 * u)]);
        assert_eq!(checked(&stream(905_969_663)), Ok(128));
        assert_eq!(checked(&stream(905_969_664)), bad_group(0));
    }
}

#[test]
fn details_are_chunk_times_32_and_group() {
    for chunk in 0..3 {
        for group in 0..8 {
            let mut chunks = vec![vec![0; 8]; 3];
            chunks[chunk][group] = 33;
            let stream = stream_of(256, 0, 3072, &chunks);
            let detail = (32 * chunk + group) as u32;
            assert_eq!(checked(&stream), bad_group(detail));
            let refused = Probed::Refused(Refusal { number: 10, detail });
            let probe = |index| stream::probe::<u32>(LEVEL, &stream, index);
            assert_eq!(probe(1024 * chunk as u64 + 5), refused);
            assert_eq!(probe((1024 * chunk as u64 + 1024) % 3072), Probed::Finite(0));
        }
        let mut chunks = vec![vec![0; 8]; 3];
        chunks[chunk].push(0);
        assert_eq!(checked(&stream_of(256, 0, 3072, &chunks)), bad_group(32 * chunk as u32 + 7));
    }
    // In a short chunk the last group is the one that bytes left over count for.
    assert_eq!(checked(&stream_of(256, 0, 300, &[vec![0; 4]])), bad_group(2));
    assert_eq!(checked(&stream_of(256, 0, 300, &[vec![0; 2]])), bad_group(2));
}

#[test]
fn a_short_group_is_padded_once() {
    // 33 codes of 1 bit fill 5 bytes.
    let sound = |last: u8| stream_of(256, 0, 33, &[vec![1, 1, 0, 0, 0, last]]);
    assert_eq!(checked(&sound(0)), Ok(33));
    assert_eq!(checked(&sound(1)), Ok(33));
    assert_eq!(checked(&sound(2)), bad_group(0));
    assert_eq!(checked(&sound(0x80)), bad_group(0));
    assert_eq!(checked(&stream_of(256, 0, 33, &[vec![1, 1, 0, 0, 0]])), bad_group(0));
    assert_eq!(checked(&stream_of(256, 0, 33, &[vec![1, 1, 0, 0, 0, 0, 0, 0, 0]])), bad_group(0));
}

#[test]
fn mode_numbers_of_a_header() {
    for number in [0, 1, 2, 3, 32, 128, 255, 256, 257, 258, 259, 512, 513, 1 << 31, u32::MAX - 255]
    {
        let answer = match number {
            256..=258 => Ok(3),
            _ => Err(Refusal::bare(8)),
        };
        assert_eq!(checked(&stream_of(number, 0, 3, &[vec![0]])), answer, "{number}");
    }
    let sound = stream_of(256, 0, 3, &[vec![0]]);
    for level in 8..13 {
        let seven = Err(Refusal { number: 7, detail: 13 });
        assert_eq!(stream::check(level, &sound), seven);
        assert_eq!(plain::check(level, &sound), seven);
    }
    for needed in 0..13 {
        let mut stream = sound.clone();
        stream[8] = needed;
        assert_eq!(checked(&stream), Err(Refusal::bare(8)));
    }
}

#[test]
fn lists() {
    let mut values = vec![7u64; 1300];
    values[1200] = 8;
    let mut packed = vec![0; 2000];
    let length = stream::pack(LEVEL, 2, 0, 128, &values, &mut packed).unwrap() as usize;
    // 7 is code 14, of 4 bits for each of its group's 128 codes; in the second chunk it
    // stands again, and 1, there and back, is 2 and 1, of 2 bits.
    assert_eq!(
        listing(&packed[..length]),
        "format 1.13 needs 1.13\n\
         width 64 mode 258 bound 0\n\
         values 1300 chunks 2 sides 0\n\
         chunk 0 at 0 bytes 72 groups 8\n\
         chunk 1 at 72 bytes 99 groups 3\n"
    );
}
