//! The first bad group, which refusal 10 names: chunk·32 + group. The chunks
//! are written out by hand; a group of zeros is one byte, 0.

use crate::random::*;
use second::compare::call::Call;
use second::compare::outcome::refused;
use second::compare::reference::by_reference;
use second::numbers::WIDTH_32;
use second::stream::{self, Probed};
use second::{listing, plain, Refusal};

/// A stream at the width of `P` with a sound header and table around any
/// chunks. k is that of mode 1.
fn stream_of<P: Bits>(mode: u32, n: u32, chunks: &[Vec<u8>]) -> Vec<u8> {
    let width = P::WIDTH.bits();
    let need = if width == 64 { 10 } else { 8 + mode };
    let k = if mode == 1 { -2i32 as u32 } else { 0 };
    let (c, bytes) = (chunks.len() as u32, chunks.concat());
    let data = 48 + 4 * c;
    let end = data + bytes.len() as u32;
    let mut numbers = vec![1, 10, need, width, mode, k, n, c, 48, data, 0, end];
    let mut start = 0;
    for chunk in chunks {
        numbers.push(start);
        start += chunk.len() as u32;
    }
    let mut stream: Vec<u8> = numbers.iter().flat_map(|number| number.to_le_bytes()).collect();
    stream.extend(bytes);
    stream
}

/// The detail with which all but probe refuse the stream 10.
fn detail<P: Bits>(stream: &[u8]) -> u32 {
    let refusal = stream::check(10, stream).unwrap_err();
    assert_eq!(refusal.number, 10);
    assert_eq!(plain::check(10, stream), Err(refusal));
    let n = u32::from_le_bytes(stream[24..28].try_into().unwrap()) as usize;
    let mut output = vec![P::of_number(7); n];
    assert_eq!(stream::unpack(10, stream, &mut output), Err(refusal));
    assert_eq!(plain::unpack(10, stream, &mut output), Err(refusal));
    assert!(output.iter().all(|&element| element == P::of_number(7)));
    if stream.len() <= 65_536 {
        assert_eq!(listing::listing(stream), format!("refused 10 detail {}\n", refusal.detail));
    }
    refusal.detail
}

/// The detail with which probe refuses 10 at an index, if it does.
fn probed<P: Bits>(stream: &[u8], index: u64) -> Option<u32> {
    let tuned = plain::probe::<P>(10, stream, index);
    match stream::probe::<P>(10, stream, index) {
        Probed::Refused(refusal) => {
            assert_eq!(tuned, Err(refusal));
            assert_eq!(refusal.number, 10);
            Some(refusal.detail)
        }
        _ => {
            assert!(tuned.is_ok());
            None
        }
    }
}

/// Zeros: two full chunks, and one of 40 values.
fn zeros() -> Vec<Vec<u8>> {
    vec![vec![0; 32], vec![0; 32], vec![0; 2]]
}

#[test]
fn every_width_byte_names_its_group() {
    fn every<P: Bits>() {
        let sound = stream_of::<P>(0, 2088, &zeros());
        assert_eq!(stream::check(10, &sound), Ok(2088));
        let data = 48 + 4 * 3;
        for group in 0..66 {
            // Above W, not smallest or without its bytes, and above all.
            for w in [P::WIDTH.bits() as u8 + 1, 1, 255] {
                let mut stream = sound.clone();
                stream[data + group] = w;
                assert_eq!(detail::<P>(&stream), group as u32);
                let chunk = group as u64 / 32;
                for index in [0, 1023, 1024, 2047, 2048, 2087] {
                    let named = (index / 1024 == chunk).then_some(group as u32);
                    assert_eq!(probed::<P>(&stream, index), named);
                }
            }
        }
    }
    every::<u32>();
    every::<u64>();
}

#[test]
fn bytes_left_over_count_for_the_last_group() {
    for (chunk, last) in [(0, 31), (1, 63), (2, 65)] {
        for left_over in [&[0][..], &[33], &[255; 9]] {
            let mut chunks = zeros();
            chunks[chunk].extend(left_over);
            let stream = stream_of::<u32>(0, 2088, &chunks);
            assert_eq!(detail::<u32>(&stream), last);
            assert_eq!(probed::<u32>(&stream, 1024 * chunk as u64), Some(last));
        }
    }
    // In one chunk of n values.
    for (n, last) in [(1, 0), (32, 0), (33, 1), (40, 1), (64, 1), (65, 2), (992, 30), (993, 31)] {
        let groups = last as usize + 1;
        let sound = stream_of::<u64>(0, n, &[vec![0; groups]]);
        assert_eq!(stream::check(10, &sound), Ok(n as u64));
        assert_eq!(detail::<u64>(&stream_of::<u64>(0, n, &[vec![0; groups + 1]])), last);
    }
}

#[test]
fn bytes_are_missing_in_the_group_that_does_not_fit() {
    // A chunk of so many bytes lacks the width byte of the next group.
    for bytes in 1..32 {
        let mut chunks = zeros();
        chunks[1].truncate(bytes);
        assert_eq!(detail::<u32>(&stream_of::<u32>(0, 2088, &chunks)), 32 + bytes as u32);
    }
    // Group 4 has 32 codes of 2 bits, so 8 bytes; they may not be all there.
    let chunk = [vec![0; 4], vec![2], vec![0xFF; 8], vec![0; 27]].concat();
    let cut_to = |bytes: usize| stream_of::<u32>(0, 1024, &[chunk[..bytes].to_vec()]);
    assert_eq!(stream::check(10, &cut_to(40)), Ok(1024));
    for (bytes, group) in [(4, 4), (5, 4), (8, 4), (12, 4), (13, 5), (39, 31)] {
        assert_eq!(detail::<u32>(&cut_to(bytes)), group);
        assert_eq!(probed::<u32>(&cut_to(bytes), 0), Some(group));
    }
}

/// Mode 1, width 32, k = -2: a whole group of 31 bits whose first code is the
/// given one.
fn group_of_31_bits(code: u32) -> Vec<u8> {
    [&[31], &code.to_le_bytes()[..], &[0; 120]].concat()
}

#[test]
fn all_rules_of_a_group_come_before_the_next_group() {
    let named = |group_2: Vec<u8>, group_5: &[u8]| {
        let chunk = [vec![0; 2], group_2, vec![0; 2], group_5.to_vec()].concat();
        detail::<u32>(&stream_of::<u32>(1, 1024, &[chunk]))
    };
    // u = 905969663 is read, and the next is not.
    let (largest, above) = (2 * 905_969_663 + 1, 2 * 905_969_664);
    for missing in [&[][..], &[32], &[32, 1, 2, 3], &[33], &[255]] {
        assert_eq!(named(group_of_31_bits(largest), missing), 5);
        assert_eq!(named(group_of_31_bits(above), missing), 2);
        // Not smallest: 32 codes of 1 bit, all 0.
        assert_eq!(named(vec![1, 0, 0, 0, 0], missing), 2);
        assert_eq!(named(vec![1, 0, 0, 0, 1], missing), 5);
        assert_eq!(named(vec![33], missing), 2);
    }
    // A whole group at fault, and behind the last one a byte too many.
    let leftover = [group_of_31_bits(above), vec![0; 27]].concat();
    assert_eq!(named(group_of_31_bits(largest), &leftover), 5);
    assert_eq!(named(group_of_31_bits(above), &leftover), 2);
    assert_eq!(named(group_of_31_bits(largest), &[0; 28]), 31);
}

#[test]
fn padding_is_a_fault_of_the_short_last_group() {
    // Group 1 has one code of one bit.
    let named = |chunk: &[u8]| detail::<u64>(&stream_of::<u64>(0, 33, &[chunk.to_vec()]));
    assert_eq!(stream::check(10, &stream_of::<u64>(0, 33, &[vec![0, 1, 1]])), Ok(33));
    assert_eq!(named(&[0, 1, 0x81]), 1);
    assert_eq!(named(&[0, 1, 0x03]), 1);
    assert_eq!(named(&[0, 1, 0x81, 0]), 1);
    assert_eq!(named(&[65, 1, 0x81]), 0);
    assert_eq!(named(&[1, 0, 0, 0, 0, 1, 0x81]), 0);
}

#[test]
fn the_first_bad_chunk_is_named_and_by_probe_its_own() {
    let mut chunks = zeros();
    chunks[0][31] = 65;
    chunks[1][0] = 65;
    chunks[1][7] = 65;
    let stream = stream_of::<u64>(1, 2088, &chunks);
    assert_eq!(detail::<u64>(&stream), 31);
    let all = [0, 1023, 1024, 2047, 2048].map(|index| probed::<u64>(&stream, index));
    assert_eq!(all, [Some(31), Some(31), Some(32), Some(32), None]);
}

#[test]
fn the_last_group_of_the_longest_stream() {
    let mut chunks = vec![vec![0; 32]; 1024];
    chunks[1023][31] = 33;
    let stream = stream_of::<u32>(0, 1 << 20, &chunks);
    assert_eq!(detail::<u32>(&stream), 32_767);
    assert_eq!(probed::<u32>(&stream, (1 << 20) - 1), Some(32_767));
    assert_eq!(probed::<u32>(&stream, 0), None);
}

#[test]
fn the_number_rules_know_no_group() {
    let call = Call::ToleranceRestored { width: WIDTH_32, k: -2, code: 2 * 905_969_664 };
    assert_eq!(by_reference(&call).answer, refused(Refusal::bare(10)));
}
