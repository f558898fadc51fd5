//! Streams made up by hand: a sound header and sound tables around any bytes,
//! and single numbers put in place of others.

pub use super::random::SIZES;
use super::random::WIDTHS;
use crate::numbers::{bit_length, Tolerance, Width};
use crate::stream::HIGHEST_LEVEL;

/// The header numbers, by their order.
pub const MAJOR: usize = 0;
pub const WRITTEN: usize = 1;
pub const NEEDED: usize = 2;
pub const WIDTH: usize = 3;
pub const MODE: usize = 4;
pub const K: usize = 5;
pub const COUNT: usize = 6;
pub const CHUNKS: usize = 7;
pub const TABLE_PLACE: usize = 8;
pub const DATA_PLACE: usize = 9;
pub const SIDES: usize = 10;
pub const DATA_END: usize = 11;
/// The start of chunk 0; those of the others follow.
pub const STARTS: usize = 12;

pub const HEADER_BYTES: usize = 48;
pub const VALUES_IN_CHUNK: u64 = 1024;

/// The 32-bit number with this order, if the stream has its bytes.
pub fn number_at(stream: &[u8], order: usize) -> Option<u32> {
    let bytes = stream.get(4 * order..4 * order + 4)?;
    Some(u32::from_le_bytes(bytes.try_into().ok()?))
}

/// Puts a number at a byte place, if the stream has the bytes.
pub fn put_at(stream: &mut [u8], place: usize, number: u32) {
    let end = place.saturating_add(4);
    if let Some(bytes) = stream.get_mut(place..end) {
        bytes.copy_from_slice(&number.to_le_bytes());
    }
}

/// Puts a number in place of the one with this order.
pub fn put(stream: &mut [u8], order: usize, number: u32) {
    put_at(stream, 4 * order, number);
}

/// The stream with some numbers replaced.
pub fn with(stream: &[u8], replaced: &[(usize, u32)]) -> Vec<u8> {
    let mut stream = stream.to_vec();
    for &(order, number) in replaced {
        put(&mut stream, order, number);
    }
    stream
}

/// The value count the header states, 0 if it is cut off.
pub fn stated_count(stream: &[u8]) -> u64 {
    number_at(stream, COUNT).unwrap_or(0) as u64
}

/// Every mode, with a k that is allowed in it.
pub const MODES: [(u32, i32); 3] = [(0, 0), (1, -2), (2, 0)];

/// What groups of 128 add to the mode number of a header.
const ADDED_FOR_128: u32 = 256;

/// Every level that is known.
pub const LEVELS: [u32; 7] = [8, 9, 10, 11, 12, 13, 14];

/// The first id that must be understood, and what such ids need.
pub const FIRST_HIGH_ID: u32 = 1 << 31;
pub const NEED_OF_HIGH_ID: u32 = 12;

/// Width, mode, k and group size of a stream.
#[derive(Clone, Copy)]
pub struct Setting {
    pub width: Width,
    pub mode: u32,
    pub k: i32,
    pub group: u32,
}

impl Setting {
    /// The need of a stream without high ids. Groups of 128 need 13; else mode 2
    /// needs 11; else width 64 needs 10; else mode 1 needs 9; else 8.
    pub fn need(self) -> u32 {
        match (self.group, self.width.bits(), self.mode) {
            (128, _, _) => 13,
            (_, _, 2) => 11,
            (_, 64, _) => 10,
            (_, _, 1) => 9,
            _ => 8,
        }
    }

    /// The mode as a header has it: 256 is added for groups of 128.
    pub fn mode_number(self) -> u32 {
        self.mode + if self.group == 128 { ADDED_FOR_128 } else { 0 }
    }

    /// The largest code: in mode 1 that of the largest u.
    pub fn largest_code(self) -> u64 {
        let tolerance = Tolerance::allowed(self.width, self.k).filter(|_| self.mode == 1);
        match tolerance {
            Some(tolerance) => 2 * tolerance.largest_magnitude_code() + 1,
            None => u64::MAX >> (64 - self.width.bits()),
        }
    }

    /// How many values a group has at most.
    pub fn values_in_group(self) -> usize {
        self.group as usize
    }
}

/// Mode and group size of a header's mode number.
pub fn mode_and_group(number: u32) -> (u32, u32) {
    match number {
        ADDED_FOR_128.. => (number - ADDED_FOR_128, 128),
        _ => (number, 32),
    }
}

/// Every mode of both widths, with both group sizes.
pub fn every_setting() -> Vec<Setting> {
    let mut settings = Vec::new();
    for width in WIDTHS {
        for (mode, k) in MODES {
            settings.extend(SIZES.map(|group| Setting { width, mode, k, group }));
        }
    }
    settings
}

/// A side part: its id and its bytes.
pub type Side = (u32, Vec<u8>);

/// A stream with sound header and tables, whatever its chunks hold.
#[derive(Clone)]
pub struct Draft {
    pub setting: Setting,
    pub n: u32,
    pub chunks: Vec<Vec<u8>>,
    pub sides: Vec<Side>,
}

impl Draft {
    pub fn stream(&self) -> Vec<u8> {
        let setting = self.setting;
        let c = self.chunks.len() as u32;
        let data = self.chunks.concat();
        let place = 48 + 4 * c;
        let end = place + data.len() as u32;
        let sides = self.sides.len() as u32;
        let mut numbers = vec![1, HIGHEST_LEVEL, setting.need()];
        numbers.extend([setting.width.bits(), setting.mode_number(), setting.k as u32]);
        numbers.extend([self.n, c, 48, place, sides, end]);
        numbers.extend(starts(&self.chunks));
        let mut stream = bytes_of(&numbers);
        stream.extend(data);
        append_sides(&mut stream, &self.sides);
        stream
    }
}

/// A sound stream of these codes, if all of them are allowed.
pub fn stream_of_codes(setting: Setting, codes: &[u64]) -> Vec<u8> {
    let (n, chunks) = (codes.len() as u32, chunks_of_codes(setting, codes));
    Draft { setting, n, chunks, sides: vec![] }.stream()
}

/// The chunks of these codes, each group with the smallest width.
fn chunks_of_codes(setting: Setting, codes: &[u64]) -> Vec<Vec<u8>> {
    let smallest = |codes: &[u64]| {
        let largest = codes.iter().copied().max().unwrap_or(0);
        group(bit_length(largest) as u8, codes)
    };
    let size = setting.values_in_group();
    let groups = |chunk: &[u64]| chunk.chunks(size).flat_map(smallest).collect();
    codes.chunks(VALUES_IN_CHUNK as usize).map(groups).collect()
}

/// Each chunk's start, counted from the data.
fn starts(chunks: &[Vec<u8>]) -> Vec<u32> {
    let before = |chunk: usize| chunks[..chunk].iter().map(Vec::len).sum::<usize>() as u32;
    (0..chunks.len()).map(before).collect()
}

pub fn bytes_of(numbers: &[u32]) -> Vec<u8> {
    numbers.iter().flat_map(|number| number.to_le_bytes()).collect()
}

/// Appends a sound side table and its parts to a stream that ends with its
/// data, and puts their count in the header, and their need if an id is high and
/// the setting does not need more.
pub fn append_sides(stream: &mut Vec<u8>, sides: &[Side]) {
    put(stream, SIDES, sides.len() as u32);
    if sides.iter().any(|(id, _)| *id >= FIRST_HIGH_ID) {
        let needed = number_at(stream, NEEDED).unwrap_or(0);
        put(stream, NEEDED, needed.max(NEED_OF_HIGH_ID));
    }
    let mut place = stream.len() + 12 * sides.len();
    for (id, bytes) in sides {
        stream.extend(bytes_of(&[*id, place as u32, bytes.len() as u32]));
        place += bytes.len();
    }
    for (_, bytes) in sides {
        stream.extend(bytes);
    }
}

/// A group: the width byte w, then w bits of each code with zero bits after
/// them, whether w is the smallest or even allowed.
pub fn group(w: u8, codes: &[u64]) -> Vec<u8> {
    let w = w as usize;
    let mut bytes = vec![0; 1 + (codes.len() * w).div_ceil(8)];
    bytes[0] = w as u8;
    for (index, code) in codes.iter().enumerate() {
        for bit in (0..w.min(64)).filter(|bit| code >> bit & 1 == 1) {
            let place = index * w + bit;
            bytes[1 + place / 8] |= 1 << (place % 8);
        }
    }
    bytes
}
