//! The first bad group, which refusal 10 names by its chunk and its number in
//! it: streams of several chunks in which the bad groups are known, and some in
//! which every byte is altered.

use super::call::Call;
use super::groups::codes_of_width;
use super::judge::Judge;
use super::outcome::refused;
use super::random::XorShift;
use super::streams::*;
use super::Extent;
use crate::numbers::{bit_length, Width};
use crate::stream::{HIGHEST_LEVEL, MOST_VALUES};
use crate::Refusal;

/// A bad group: its chunk, and its number in it.
type Place = (usize, usize);

const FULL_CHUNK: usize = VALUES_IN_CHUNK as usize;

/// The values of two full chunks, and of a short one of three groups, of which the
/// last is short.
fn three_chunks(setting: Setting) -> [usize; 3] {
    [FULL_CHUNK, FULL_CHUNK, 2 * setting.values_in_group() + 7]
}

/// Every group of those three chunks, and of three among seventy: groups of 32
/// have all that there are with groups of 128.
const LEAST_DETAILS: usize = (32 + 32 + 3) + (32 + 32 + 2);

pub fn places(judge: &mut Judge, rng: &mut XorShift, extent: Extent) {
    for setting in every_setting() {
        every_byte_altered(judge, rng, extent, setting);
        one_fault(judge, rng, setting);
        two_faults(judge, rng, setting);
        two_chunks(judge, rng, setting);
        bytes_left_over(judge, rng, setting);
        chunks_cut(judge, rng, setting);
        starts_moved(judge, rng, setting);
        if setting.mode != 0 {
            late_chunks(judge, rng, setting);
        }
    }
    judge.require_details_of_10(LEAST_DETAILS);
}

fn groups_in(setting: Setting, values: usize) -> usize {
    values.div_ceil(setting.values_in_group())
}

fn count_in_group(setting: Setting, values: usize, number: usize) -> usize {
    let size = setting.values_in_group();
    (values - size * number).min(size)
}

fn stream_of(setting: Setting, values: &[usize], chunks: Vec<Vec<u8>>) -> Vec<u8> {
    let n = values.iter().sum::<usize>() as u32;
    Draft { setting, n, chunks, sides: vec![] }.stream()
}

// ------------------------------------------------------- the readers

/// The readers of a stream, at the width it has.
#[derive(Clone, Copy)]
struct Readers<'a> {
    width: Width,
    stream: &'a [u8],
}

impl<'a> Readers<'a> {
    fn check(self) -> Call<'a> {
        Call::Check { level: HIGHEST_LEVEL, stream: self.stream }
    }

    fn unpack(self) -> Call<'a> {
        let Readers { width, stream } = self;
        let room = stated_count(stream) as usize;
        Call::Unpack { width, level: HIGHEST_LEVEL, stream, room }
    }

    /// The operations of a summary, of which the streams here have none.
    fn of_summaries(self) -> [Call<'a>; 3] {
        let Readers { width, stream } = self;
        let (level, room) = (HIGHEST_LEVEL, 4);
        [
            Call::AddSummary { level, stream, room },
            Call::TestSummary { level, stream },
            Call::ChunksFrom { width, level, x: 0, stream, room },
        ]
    }

    /// Probe at some index of the chunk.
    fn probe(self, rng: &mut XorShift, chunk: usize) -> Call<'a> {
        let Readers { width, stream } = self;
        let first = chunk as u64 * VALUES_IN_CHUNK;
        let values = (stated_count(stream) - first).min(VALUES_IN_CHUNK);
        let index = first + rng.below(values);
        Call::Probe { width, level: HIGHEST_LEVEL, stream, index }
    }

    /// Probe in some chunk other than these.
    fn probe_elsewhere(self, rng: &mut XorShift, but: &[usize]) -> Call<'a> {
        let c = number_at(self.stream, CHUNKS).unwrap_or(0) as usize;
        let others: Vec<usize> = (0..c).filter(|chunk| !but.contains(chunk)).collect();
        let chunk = rng.one_of(&others);
        self.probe(rng, chunk)
    }
}

/// Compares the readers on a stream whose bad chunks, in rising order, are
/// known with the first bad group of each. Probe looks at its own chunk alone.
fn compare_named(judge: &mut Judge, rng: &mut XorShift, readers: Readers, bad: &[Place]) {
    let named = |(chunk, number): Place| {
        refused(Refusal::with_detail(10, chunk as u64 * 32 + number as u64))
    };
    judge.compare_known(readers.check(), named(bad[0]), &[]);
    judge.compare_known(readers.unpack(), named(bad[0]), &[]);
    for &place in bad {
        judge.compare_known(readers.probe(rng, place.0), named(place), &[]);
    }
    for call in readers.of_summaries() {
        judge.compare_known(call, named(bad[0]), &[]);
    }
    let chunks: Vec<usize> = bad.iter().map(|place| place.0).collect();
    judge.compare_meant(readers.probe_elsewhere(rng, &chunks), 0);
}

// ------------------------------------------------ every byte altered

/// The groups of a sound chunk: of several width bytes, the second with the
/// largest code.
fn sound_groups(rng: &mut XorShift, setting: Setting, values: usize) -> Vec<Vec<u8>> {
    let sound = |number: usize| {
        let count = count_in_group(setting, values, number);
        if number == 1 {
            return group_with_largest_code(rng, setting, count);
        }
        let w = [2, 0, 3, 1, 5][number % 5];
        group(w, &codes_of_width(rng, w, count))
    };
    (0..groups_in(setting, values)).map(sound).collect()
}

fn group_with_largest_code(rng: &mut XorShift, setting: Setting, count: usize) -> Vec<u8> {
    let largest = setting.largest_code();
    let mut codes: Vec<u64> = (0..count).map(|_| rng.next() % largest).collect();
    codes[rng.below(count as u64) as usize] = largest;
    group(bit_length(largest) as u8, &codes)
}

/// Every byte altered to one other value; of a quick run every third.
fn every_byte_altered(judge: &mut Judge, rng: &mut XorShift, extent: Extent, setting: Setting) {
    let one_in = if extent == Extent::Quick { 3 } else { 1 };
    let three_chunks = three_chunks(setting);
    let chunks = three_chunks.map(|values| sound_groups(rng, setting, values).concat());
    let mut stream = stream_of(setting, &three_chunks, chunks.to_vec());
    let mut place = number_at(&stream, DATA_PLACE).unwrap_or(0) as usize;
    for (chunk, bytes) in chunks.iter().enumerate() {
        for &byte in bytes {
            if rng.chance(one_in) {
                stream[place] = altered(rng, byte);
                let readers = Readers { width: setting.width, stream: &stream };
                judge.compare(readers.check());
                judge.compare(readers.unpack());
                judge.compare(readers.probe(rng, chunk));
                judge.compare(readers.probe_elsewhere(rng, &[chunk]));
            }
            stream[place] = byte;
            place += 1;
        }
    }
}

fn altered(rng: &mut XorShift, byte: u8) -> u8 {
    let random = byte ^ (1 + rng.below(255)) as u8;
    let other = rng.one_of(&[byte.wrapping_add(1), byte ^ 0x80, 0, 255, random]);
    if other == byte {
        random
    } else {
        other
    }
}

// -------------------------------------------------------- known faults

/// What can be wrong with a group.
#[derive(Clone, Copy)]
enum Fault {
    WidthByteMissing,
    TooWide,
    CodesMissing,
    NotSmallest,
    PaddingSet,
    AboveLargest,
    BytesLeftOver,
}

const FAULTS: [Fault; 7] = [
    Fault::WidthByteMissing,
    Fault::TooWide,
    Fault::CodesMissing,
    Fault::NotSmallest,
    Fault::PaddingSet,
    Fault::AboveLargest,
    Fault::BytesLeftOver,
];

impl Fault {
    /// Whether the group of this number in a chunk can have the fault. A chunk
    /// without any byte is the table's fault; eight codes fill their bytes, so
    /// whole groups have no padding; and in modes 0 and 2 no code is too large.
    fn possible(self, setting: Setting, values: usize, number: usize) -> bool {
        match self {
            Fault::WidthByteMissing => number > 0,
            Fault::PaddingSet => !count_in_group(setting, values, number).is_multiple_of(8),
            Fault::AboveLargest => setting.mode == 1,
            Fault::BytesLeftOver => number + 1 == groups_in(setting, values),
            _ => true,
        }
    }

    /// A group with the fault, without the bytes that are missing.
    fn group(self, setting: Setting, count: usize) -> Vec<u8> {
        let bits = setting.width.bits() as u8;
        let mut codes = vec![0; count];
        match self {
            Fault::WidthByteMissing => vec![],
            Fault::TooWide => group(bits + 1, &codes),
            Fault::CodesMissing => vec![bits],
            Fault::NotSmallest => group(1, &codes),
            Fault::PaddingSet => {
                codes[0] = 4;
                let mut bytes = group(3, &codes);
                bytes[3 * count / 8 + 1] |= 0x80; // the last
                bytes
            }
            Fault::AboveLargest => {
                let above = setting.largest_code() + 1;
                codes[count - 1] = above;
                group(bit_length(above) as u8, &codes)
            }
            Fault::BytesLeftOver => vec![0, 0],
        }
    }
}

/// The faults the group of this number in a chunk can have.
fn faults_of(setting: Setting, values: usize, number: usize) -> impl Iterator<Item = Fault> {
    FAULTS.into_iter().filter(move |fault| fault.possible(setting, values, number))
}

/// One of these faults, for the next group another.
fn one_fault_of(setting: Setting, values: usize, number: usize) -> Fault {
    let faults: Vec<Fault> = faults_of(setting, values, number).collect();
    faults[number % faults.len()]
}

/// A chunk of zeros, but for these groups, in rising order.
fn chunk_with(setting: Setting, values: usize, faults: &[(usize, Fault)]) -> Vec<u8> {
    let mut chunk = vec![0; groups_in(setting, values)];
    // From the last on: then each still lies at the byte of its number.
    for &(number, fault) in faults.iter().rev() {
        let count = count_in_group(setting, values, number);
        chunk.splice(number..number + 1, fault.group(setting, count));
        match fault {
            Fault::WidthByteMissing => chunk.truncate(number),
            // Whatever follows is too short for the codes by a byte or more.
            Fault::CodesMissing => {
                chunk.truncate(number + count * setting.width.bits() as usize / 8)
            }
            _ => {}
        }
    }
    chunk
}

/// A stream of zeros, but for these groups, in rising order.
fn stream_with(setting: Setting, values: &[usize], faults: &[(Place, Fault)]) -> Vec<u8> {
    let in_chunk = |(chunk, &values): (usize, &usize)| {
        let faults = faults.iter().filter(|((bad, _), _)| *bad == chunk);
        let faults: Vec<_> = faults.map(|&((_, number), fault)| (number, fault)).collect();
        chunk_with(setting, values, &faults)
    };
    stream_of(setting, values, values.iter().enumerate().map(in_chunk).collect())
}

fn compare_faults(
    judge: &mut Judge,
    rng: &mut XorShift,
    setting: Setting,
    values: &[usize],
    faults: &[(Place, Fault)],
) {
    let stream = stream_with(setting, values, faults);
    let mut bad: Vec<Place> = faults.iter().map(|(place, _)| *place).collect();
    bad.dedup_by_key(|(chunk, _)| *chunk);
    compare_named(judge, rng, Readers { width: setting.width, stream: &stream }, &bad);
}

/// Every group of three chunks with every fault.
fn one_fault(judge: &mut Judge, rng: &mut XorShift, setting: Setting) {
    let three_chunks = three_chunks(setting);
    for (chunk, values) in three_chunks.into_iter().enumerate() {
        for number in 0..groups_in(setting, values) {
            for fault in faults_of(setting, values, number) {
                let faults = [((chunk, number), fault)];
                compare_faults(judge, rng, setting, &three_chunks, &faults);
            }
        }
    }
}

/// Two groups of a chunk with every two faults, so in both orders.
fn two_faults(judge: &mut Judge, rng: &mut XorShift, setting: Setting) {
    let three_chunks = three_chunks(setting);
    let pairs = match setting.group {
        32 => [(0, 1), (0, 2), (1, 2), (2, 5), (7, 20), (0, 31), (30, 31)],
        _ => [(0, 1), (0, 2), (1, 2), (2, 5), (3, 4), (0, 7), (6, 7)],
    };
    for (chunk, values) in three_chunks.into_iter().enumerate() {
        let groups = groups_in(setting, values);
        for (first, second) in pairs.into_iter().filter(|pair| pair.1 < groups) {
            for one in faults_of(setting, values, first) {
                for other in faults_of(setting, values, second) {
                    let faults = [((chunk, first), one), ((chunk, second), other)];
                    compare_faults(judge, rng, setting, &three_chunks, &faults);
                }
            }
        }
    }
}

/// Two bad chunks, the earlier one in a later group: it is the one named.
fn two_chunks(judge: &mut Judge, rng: &mut XorShift, setting: Setting) {
    let three_chunks = three_chunks(setting);
    let last = groups_in(setting, FULL_CHUNK) - 1;
    for (first, second) in [((0, last), (1, 0)), ((0, 5), (2, 2)), ((1, 2), (2, 0))] {
        for one in faults_of(setting, three_chunks[first.0], first.1) {
            for other in faults_of(setting, three_chunks[second.0], second.1) {
                let faults = [(first, one), (second, other)];
                compare_faults(judge, rng, setting, &three_chunks, &faults);
            }
        }
    }
}

/// Every group of three among seventy chunks, which is named by a number above
/// 2,047, and two groups of the last chunk that a stream can have.
fn late_chunks(judge: &mut Judge, rng: &mut XorShift, setting: Setting) {
    let mut seventy = [FULL_CHUNK; 70];
    seventy[69] = setting.values_in_group() + 8;
    for chunk in [64, 68, 69] {
        for number in 0..groups_in(setting, seventy[chunk]) {
            let fault = one_fault_of(setting, seventy[chunk], number);
            let faults = [((chunk, number), fault)];
            compare_faults(judge, rng, setting, &seventy, &faults);
        }
    }
    let most = vec![FULL_CHUNK; MOST_VALUES as usize / FULL_CHUNK];
    for number in [0, groups_in(setting, FULL_CHUNK) - 1] {
        let faults = [((most.len() - 1, number), Fault::NotSmallest)];
        compare_faults(judge, rng, setting, &most, &faults);
    }
}

// ----------------------------------------------- where a chunk ends

/// Bytes behind the last group of a full chunk, and of last chunks of one
/// group and more, the last of which is short or whole.
fn bytes_left_over(judge: &mut Judge, rng: &mut XorShift, setting: Setting) {
    let lengths = match setting.group {
        32 => [1, 7, 31, 32, 33, 40, 64, 96, 992, 993, 1000, 1023, 1024],
        _ => [1, 7, 32, 127, 128, 129, 160, 256, 384, 896, 897, 1023, 1024],
    };
    for values in lengths.map(|last| [FULL_CHUNK, last]) {
        let chunks = values.map(|values| sound_groups(rng, setting, values).concat());
        for chunk in [0, 1] {
            let left_over: [&[u8]; 5] = [&[0], &[1], &[255], &[0; 9], &[1, 255, 0, 0, 0]];
            for bytes in left_over {
                let mut chunks = chunks.to_vec();
                chunks[chunk].extend(bytes);
                let stream = stream_of(setting, &values, chunks);
                let last = groups_in(setting, values[chunk]) - 1;
                let readers = Readers { width: setting.width, stream: &stream };
                compare_named(judge, rng, readers, &[(chunk, last)]);
            }
        }
    }
}

/// Chunks that end before a group's width byte, right behind it, and before
/// the group's last byte.
fn chunks_cut(judge: &mut Judge, rng: &mut XorShift, setting: Setting) {
    let three_chunks = three_chunks(setting);
    let groups = three_chunks.map(|values| sound_groups(rng, setting, values));
    for (chunk, of_chunk) in groups.iter().enumerate() {
        let mut start = 0;
        for (number, bytes) in of_chunk.iter().enumerate() {
            let mut ends = vec![start, start + 1, start + bytes.len() - 1];
            // A chunk of no bytes is the table's fault.
            ends.retain(|&end| 0 < end && end < start + bytes.len());
            ends.dedup();
            for end in ends {
                let mut chunks = groups.each_ref().map(|groups| groups.concat());
                chunks[chunk].truncate(end);
                let stream = stream_of(setting, &three_chunks, chunks.to_vec());
                let readers = Readers { width: setting.width, stream: &stream };
                compare_named(judge, rng, readers, &[(chunk, number)]);
            }
            start += bytes.len();
        }
    }
}

/// Three chunks of zeros, the start of the second or of the third moved: what
/// one chunk has too few the other has too many.
fn starts_moved(judge: &mut Judge, rng: &mut XorShift, setting: Setting) {
    let values = [FULL_CHUNK; 3];
    let stream = stream_with(setting, &values, &[]);
    // A group missing is the one after the last byte; bytes left over count
    // for the last group.
    let groups = groups_in(setting, FULL_CHUNK);
    let first_bad = |bytes: usize| bytes.min(groups - 1);
    for chunk in [0, 1] {
        for bytes in (1..2 * groups).filter(|&bytes| bytes != groups) {
            let start = (groups * chunk + bytes) as u32;
            let stream = with(&stream, &[(STARTS + chunk + 1, start)]);
            let readers = Readers { width: setting.width, stream: &stream };
            let bad = [(chunk, first_bad(bytes)), (chunk + 1, first_bad(2 * groups - bytes))];
            compare_named(judge, rng, readers, &bad);
        }
    }
}

// ---------------------------------------------------------- listings

/// A stream for each group of three chunks, in which that group is bad.
pub fn streams_with_bad_group() -> Vec<Vec<u8>> {
    let mut streams = Vec::new();
    for setting in every_setting().into_iter().filter(|setting| setting.mode != 0) {
        let three_chunks = three_chunks(setting);
        for (chunk, values) in three_chunks.into_iter().enumerate() {
            for number in 0..groups_in(setting, values) {
                let fault = one_fault_of(setting, values, number);
                streams.push(stream_with(setting, &three_chunks, &[((chunk, number), fault)]));
            }
        }
    }
    streams
}
