//! The group size, with the faults of it.
//!
//! A fault of the packer is planted by writing a right stream's groups again; one of
//! the readers by mending the stream first, or by refusing what they have read.

use crate::faults::{planted, Fault};
use crate::packing::Asked;
use crate::reading::{codes_of_group, count, number, put, stretch, written};
use second::numbers::{bit_length, Tolerance, Width};
use second::stream::HIGHEST_LEVEL;
use second::Refusal;
use std::ops::Range;

const ADDED: u32 = 256;
const BLOCK: usize = 32;

/// The mode of a stream, without what the size adds.
pub fn mode(stream: &[u8]) -> u32 {
    number(stream, 4) % ADDED
}

/// The group size of a stream whose mode number is allowed.
pub fn group(stream: &[u8]) -> usize {
    if number(stream, 4) < ADDED {
        32
    } else {
        128
    }
}

// ----------------------------------------------------------- the calls

/// What is asked as a planted fault takes it.
pub fn faced(asked: Asked) -> Asked {
    let Asked { level, mode, k, group } = asked;
    let group = match group {
        64 if planted(Fault::size_64_taken) => 128,
        0 if planted(Fault::size_0_taken) => 32,
        _ if planted(Fault::size_by_lowest_byte) => group % 256,
        _ => group,
    };
    let (mode, group) = match mode {
        256..=258 if planted(Fault::mode_256_taken) => (mode - ADDED, 128),
        _ => (mode, group),
    };
    let early = planted(Fault::size_needs_12) || planted(Fault::size_packed_at_12);
    let level = if early && level == 12 && group == 128 { 13 } else { level };
    Asked { level, mode, k, group }
}

/// What length answers for a right stream.
pub fn length(group: u32, stream: &[u8]) -> u64 {
    let (n, size) = (count(stream) as usize, group as usize);
    let more = if planted(Fault::length_by_32) { n.div_ceil(BLOCK) - n.div_ceil(size) } else { 0 };
    (as_packed(group, stream.to_vec()).len() + more) as u64
}

// ---------------------------------------------------------- the packer

/// The stream that a planted fault packs in place of the right one.
pub fn as_packed(group: u32, mut stream: Vec<u8>) -> Vec<u8> {
    if group != 128 {
        return stream;
    }
    if let Some(write) = faulty_writer() {
        stream = rewritten(&stream, write);
    }
    if planted(Fault::size_not_stated) {
        let mode = mode(&stream);
        put(&mut stream, 4, mode);
    }
    if planted(Fault::size_needs_12) {
        put(&mut stream, 2, 12);
    }
    if planted(Fault::size_needs_13_at_32) && number(&stream, 3) == 64 {
        let need = if mode(&stream) == 2 { 11 } else { 10 };
        put(&mut stream, 2, need);
    }
    stream
}

/// The bytes of a group of these codes.
type Writer = fn(&[u64]) -> Vec<u8>;

fn faulty_writer() -> Option<Writer> {
    let writers: [(Fault, Writer); 6] = [
        (Fault::packed_by_32, blocks_alone),
        (Fault::width_byte_each_block, blocks_alone),
        (Fault::width_of_first_block, cut_to_first_block),
        (Fault::filled_to_block, |codes| filled(codes, codes.len().next_multiple_of(BLOCK))),
        (Fault::filled_to_group, |codes| filled(codes, 128)),
        (Fault::last_block_first, last_block_first),
    ];
    writers.into_iter().find(|(fault, _)| planted(*fault)).map(|(_, write)| write)
}

fn width_of(codes: &[u64]) -> usize {
    bit_length(codes.iter().copied().max().unwrap_or(0)) as usize
}

fn blocks_alone(codes: &[u64]) -> Vec<u8> {
    codes.chunks(BLOCK).flat_map(|block| written(block, width_of(block))).collect()
}

fn cut_to_first_block(codes: &[u64]) -> Vec<u8> {
    written(codes, width_of(&codes[..BLOCK.min(codes.len())]))
}

fn filled(codes: &[u64], count: usize) -> Vec<u8> {
    let mut codes = codes.to_vec();
    codes.resize(count, 0);
    written(&codes, width_of(&codes))
}

fn last_block_first(codes: &[u64]) -> Vec<u8> {
    let last = (codes.len() - 1) / BLOCK * BLOCK;
    written(&[&codes[last..], &codes[..last]].concat(), width_of(codes))
}

/// A right stream without side parts, each group written again.
fn rewritten(stream: &[u8], write: Writer) -> Vec<u8> {
    let place = number(stream, 9) as usize;
    let mut front = stream[..place].to_vec();
    let mut data = Vec::new();
    for chunk in 0..number(stream, 7) as usize {
        put(&mut front, 12 + chunk, data.len() as u32);
        data.extend(groups(stream, chunk).iter().flat_map(|group| write(group)));
    }
    put(&mut front, 11, (place + data.len()) as u32);
    if planted(Fault::packed_by_32) {
        let mode = mode(stream);
        put(&mut front, 4, mode);
    }
    [front, data].concat()
}

/// The codes of each group of a sound chunk.
fn groups(stream: &[u8], chunk: usize) -> Vec<Vec<u64>> {
    let values = (count(stream) as usize - 1024 * chunk).min(1024);
    let (size, width) = (group(stream), number(stream, 3));
    let mut bytes = &stream[stretch(stream, chunk, number(stream, 7) as usize)];
    let mut groups = Vec::new();
    for from in (0..values).step_by(size) {
        let Some((codes, rest)) = codes_of_group(bytes, (values - from).min(size), width) else {
            break;
        };
        groups.push(codes);
        bytes = rest;
    }
    groups
}

// ---------------------------------------------------------- the header

/// Level and stream as a planted fault of the mode number or the need sees them.
pub fn faced_header(level: u32, mut stream: Vec<u8>) -> (u32, Vec<u8>) {
    if stream.len() < 48 {
        return (level, stream);
    }
    let (stated, needed) = (number(&stream, 4), number(&stream, 2));
    let read = match stated {
        259 if planted(Fault::mode_259_read) => 258,
        512.. if planted(Fault::mode_512_read) => ADDED + stated % ADDED,
        _ if planted(Fault::mode_in_16_bits) => stated % (1 << 16),
        _ => stated,
    };
    put(&mut stream, 4, read);
    let known = (8..=HIGHEST_LEVEL).contains(&level) && number(&stream, 0) == 1;
    let large = known && (256..=258).contains(&read);
    if planted(Fault::order_8_before_7_at_128) && large && needed != 13 {
        put(&mut stream, 2, 0);
    }
    if planted(Fault::size_needs_12) && large && needed <= level {
        return with_need_of_12(level, stream);
    }
    (level, stream)
}

/// A need of 12 is put right, and one of 13 is wrong.
fn with_need_of_12(level: u32, mut stream: Vec<u8>) -> (u32, Vec<u8>) {
    let written = number(&stream, 1);
    match number(&stream, 2) {
        12 => {
            put(&mut stream, 1, if written == 12 { 13 } else { written });
            put(&mut stream, 2, 13);
            (HIGHEST_LEVEL, stream)
        }
        13 => {
            put(&mut stream, 2, 12);
            (level, stream)
        }
        _ => (level, stream),
    }
}

// ---------------------------------------------------------- the groups

/// The detail a planted fault gives for a group.
pub fn detail(stream: &[u8], chunk: usize, number: usize) -> usize {
    match group(stream) {
        128 if planted(Fault::detail_in_eights) => 8 * chunk + number,
        128 if planted(Fault::detail_in_blocks) => 32 * chunk + 4 * number,
        _ => 32 * chunk + number,
    }
}

/// Refusal 10 for the first sound group of these chunks whose width a planted fault
/// does not find in the block where it looks.
pub fn groups_allowed(stream: &[u8], chunks: Range<usize>) -> Result<(), Refusal> {
    let first = planted(Fault::smallest_by_first_block);
    let last = planted(Fault::smallest_by_last_block);
    if !first && !last || group(stream) != 128 {
        return Ok(());
    }
    let seen = |codes: &Vec<u64>| {
        let block = if first { codes.chunks(BLOCK).next() } else { codes.chunks(BLOCK).last() };
        width_of(block.unwrap_or(&[]))
    };
    for chunk in chunks {
        let groups = groups(stream, chunk);
        if let Some(bad) = groups.iter().position(|codes| seen(codes) != width_of(codes)) {
            return Err(Refusal::with_detail(10, (32 * chunk + bad) as u64));
        }
    }
    Ok(())
}

/// Puts the largest code in place of larger ones that a planted fault does not look
/// at; whether there was one.
pub fn without_limit(stream: &[u8], codes: &mut [u64]) -> bool {
    let width = Width::numbered(number(stream, 3));
    let tolerance = width.and_then(|width| Tolerance::allowed(width, number(stream, 5) as i32));
    let Some(t) = tolerance.filter(|_| planted(Fault::limit_by_first_block) && mode(stream) == 1)
    else {
        return false;
    };
    let largest = 2 * t.largest_magnitude_code() + 1;
    let mut met = false;
    for code in codes.iter_mut().skip(BLOCK).filter(|code| **code > largest) {
        *code = largest;
        met = true;
    }
    met
}

// ---------------------------------------------------------- the values

/// The index at which a planted fault of probe looks.
pub fn faced_index(stream: &[u8], index: u64) -> u64 {
    let (size, block) = (group(stream) as u64, BLOCK as u64);
    if size == 32 || index >= count(stream) {
        index
    } else if planted(Fault::probe_in_first_block) {
        index / size * size + index % block
    } else if planted(Fault::probe_by_32) {
        let group = index % 1024 / block % 8;
        let other = index / 1024 * 1024 + group * size + index % block;
        other.min(count(stream) - 1)
    } else {
        index
    }
}

/// What planted faults of unpack do to the values that were read.
pub fn touch_patterns(stream: &[u8], patterns: &mut [u64]) {
    if group(stream) != 128 {
        return;
    }
    let last = patterns.len() % 128;
    if planted(Fault::short_block_lost) && last > BLOCK {
        let kept = patterns.len() - last % BLOCK;
        patterns[kept..].fill(0);
    }
    if planted(Fault::first_block_repeated) {
        for group in patterns.chunks_mut(128) {
            for index in BLOCK..group.len() {
                group[index] = group[index % BLOCK];
            }
        }
    }
}
