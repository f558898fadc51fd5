//! Damaged streams: bytes and header numbers altered, cuts and additions.

use super::call::List;
use super::judge::Judge;
use super::random::{some_length, XorShift, WIDTHS};
use super::readings::{read, read_at_levels};
use super::streams::*;
use super::walks::{some_k_of_mode, some_patterns_of_mode};
use super::{reference, Extent};
use crate::numbers::{Width, WIDTH_32, WIDTH_64};
use crate::stream::HIGHEST_LEVEL;

// ------------------------------------------------------ sound streams

/// A sound stream of these patterns.
fn packed_with(setting: Setting, patterns: &[u64]) -> Vec<u8> {
    let Setting { width, mode, k, group } = setting;
    let list = List::of(width, patterns.iter().copied());
    reference::packed(HIGHEST_LEVEL, mode, k, group, list.values()).expect("an allowed setting")
}

/// The same with groups of 32.
fn packed(width: Width, mode: u32, k: i32, patterns: &[u64]) -> Vec<u8> {
    packed_with(Setting { width, mode, k, group: 32 }, patterns)
}

/// The patterns of singles.
fn singles<const N: usize>(values: [f32; N]) -> [u64; N] {
    values.map(|value| value.to_bits() as u64)
}

/// The patterns of doubles.
fn doubles<const N: usize>(values: [f64; N]) -> [u64; N] {
    values.map(f64::to_bits)
}

/// Streams of at most some 150 bytes: every setting, no values, one group and
/// more, one chunk and more, and side parts. All are sound, but that some have
/// ids that must be understood.
pub fn small_streams() -> Vec<Vec<u8>> {
    [small_streams_of_32(), small_streams_of_128()].concat()
}

fn small_streams_of_128() -> Vec<Vec<u8>> {
    let packed = |width, mode, k, patterns: &[u64]| {
        packed_with(Setting { width, mode, k, group: 128 }, patterns)
    };
    let mut many = [0; 2049];
    many[1030] = 4;
    let mut streams = vec![
        packed(WIDTH_32, 0, 0, &[0, 1 << 31, 1]),
        packed(WIDTH_64, 1, -2, &[]),
        packed(WIDTH_32, 1, -2, &singles([0.25, -0.75, f32::INFINITY, f32::NAN])),
        packed(WIDTH_64, 0, 0, &doubles([1.0, -0.0])),
        packed(WIDTH_64, 1, -2, &doubles([0.5; 130])),
        packed(WIDTH_32, 2, 0, &equal_but_last(130)),
        packed(WIDTH_64, 2, 0, &doubles([1.0, -1.0, f64::NAN])),
        packed(WIDTH_32, 0, 0, &many),
        packed(WIDTH_64, 0, 0, &many[..1025]),
    ];
    let low = vec![(0, vec![]), (FIRST_HIGH_ID - 1, vec![1])];
    let high = vec![(6, vec![4]), (FIRST_HIGH_ID, vec![]), (u32::MAX, vec![1, 2])];
    let sided = [(0, &low), (6, &low), (0, &high)];
    streams.extend(sided.map(|(plain, sides)| with_sides(&streams[plain], sides)));
    streams
}

fn small_streams_of_32() -> Vec<Vec<u8>> {
    let below_threshold = f32::from_bits(0x4A7F_FFFF); // 4194303.75
    let mixed = singles([0.25, -0.75, below_threshold, f32::INFINITY, f32::NAN, -0.0]);
    let mixed_doubles = doubles([0.25, -0.75, 1e300, f64::NEG_INFINITY, f64::NAN]);
    let mut many = [0; 2049];
    many[1030] = 4;
    let mut streams = vec![
        packed(WIDTH_32, 0, 0, &[0, 1 << 31, 1]),
        packed(WIDTH_32, 0, 0, &[]),
        packed(WIDTH_64, 1, -2, &[]),
        packed(WIDTH_32, 0, 0, &singles([1.0, 2.0])),
        packed(WIDTH_32, 1, -2, &mixed),
        packed(WIDTH_32, 1, -150, &[0, 1, 2, 3]),
        packed(WIDTH_32, 1, 103, &singles([f32::MAX, f32::NAN, 1e38])),
        packed(WIDTH_64, 0, 0, &doubles([1.0, -0.0])),
        packed(WIDTH_64, 1, -2, &mixed_doubles),
        packed(WIDTH_64, 1, -1075, &[0, 1, 2, 3]),
        packed(WIDTH_64, 1, 970, &doubles([f64::MAX, f64::NAN])),
        packed(WIDTH_32, 1, -2, &singles([0.5; 33])),
        packed(WIDTH_32, 0, 0, &[0; 32]),
        packed(WIDTH_64, 1, -2, &many[..1025]),
        packed(WIDTH_32, 0, 0, &many),
        packed(WIDTH_32, 2, 0, &[5, 7, 7, 4]),
        packed(WIDTH_64, 2, 0, &[]),
        packed(WIDTH_32, 2, 0, &[1 << 31, 0, u32::MAX as u64, (1 << 31) - 1]),
        packed(WIDTH_64, 2, 0, &doubles([1.0, -1.0, f64::NAN])),
        packed(WIDTH_32, 2, 0, &equal_but_last(70)),
        packed(WIDTH_64, 2, 0, &equal_but_last(1026)),
    ];
    let low = vec![(0, vec![]), (5, vec![1, 2, 3]), (FIRST_HIGH_ID - 1, vec![])];
    let high = vec![(6, vec![4]), (FIRST_HIGH_ID, vec![]), (u32::MAX, vec![1, 2])];
    let sided = [(0, &low), (1, &low), (8, &low), (18, &low), (0, &high), (18, &high)];
    streams.extend(sided.map(|(plain, sides)| with_sides(&streams[plain], sides)));
    streams
}

fn with_sides(stream: &[u8], sides: &[Side]) -> Vec<u8> {
    let mut stream = stream.to_vec();
    append_sides(&mut stream, sides);
    stream
}

/// The pattern 3 so many times, but for the last one.
fn equal_but_last(n: usize) -> Vec<u64> {
    let mut patterns = vec![3; n];
    patterns[n - 1] = 4;
    patterns
}

/// A stream of any kind, now and then with side parts; sound, but for ids that
/// must be understood.
pub fn some_stream(rng: &mut XorShift) -> Vec<u8> {
    let (width, mode, group) = (rng.one_of(&WIDTHS), rng.below(3) as u32, rng.one_of(&SIZES));
    let k = some_k_of_mode(rng, width, mode);
    let n = some_length(rng);
    let patterns = some_patterns_of_mode(rng, width, mode, k, n);
    let stream = packed_with(Setting { width, mode, k, group }, &patterns);
    if rng.chance(3) {
        with_sides(&stream, &some_sides(rng))
    } else {
        stream
    }
}

/// Well-formed side parts: few or 64, many of them empty, now and then with
/// ids that must be understood, after others or alone.
pub fn some_sides(rng: &mut XorShift) -> Vec<Side> {
    let count = rng.one_of(&[1, 1, 2, 3, 5, 64]);
    let small = rng.below(3) as u32;
    let below_high = FIRST_HIGH_ID - 1 - rng.below(1 << 21) as u32;
    let high = FIRST_HIGH_ID + rng.below(1 << 30) as u32;
    let mut id = rng.one_of(&[small, small, small, small, below_high, FIRST_HIGH_ID - 1, high]);
    let mut sides = Vec::new();
    for _ in 0..count {
        sides.push((id, vec![0xEE; rng.below(4) as usize]));
        id += 1 + rng.below(1 << 20) as u32;
    }
    sides
}

// ------------------------------------------------------ bytes and cuts

/// Every byte of the small streams altered, bit by bit and to two other values.
pub fn bytes_altered(judge: &mut Judge, rng: &mut XorShift, extent: Extent) {
    for mut stream in small_streams() {
        for place in 0..stream.len() {
            let byte = stream[place];
            for other in other_bytes(rng, byte, extent) {
                stream[place] = other;
                read(judge, HIGHEST_LEVEL, &stream);
                if (4..12).contains(&place) {
                    let levels = &LEVELS[..LEVELS.len() - 1];
                    read_at_levels(judge, levels, &stream);
                }
            }
            stream[place] = byte;
        }
    }
}

pub fn other_bytes(rng: &mut XorShift, byte: u8, extent: Extent) -> Vec<u8> {
    let mut others: Vec<u8> = (0..8).map(|bit| byte ^ 1 << bit).collect();
    let random = rng.next() as u8;
    others.push(rng.one_of(&[0, 255]));
    others.push(rng.one_of(&[byte.wrapping_add(1), byte.wrapping_sub(1), random]));
    without(byte, others, rng, extent)
}

/// The bytes that differ from this one, each once; of a quick run one alone.
fn without(byte: u8, mut others: Vec<u8>, rng: &mut XorShift, extent: Extent) -> Vec<u8> {
    others.sort_unstable();
    others.dedup();
    others.retain(|&other| other != byte);
    if extent == Extent::Quick {
        let kept = rng.one_of(&others);
        others.retain(|&other| other == kept);
    }
    others
}

/// Every cut of the small streams, bytes appended, and random cuts of others.
pub fn cuts_and_additions(judge: &mut Judge, rng: &mut XorShift, extent: Extent) {
    for stream in small_streams() {
        for cut in 0..stream.len() {
            read(judge, HIGHEST_LEVEL, &stream[..cut]);
        }
        for added in 1..=24 {
            for byte in [0, 255, rng.next() as u8] {
                let longer = [&stream[..], &vec![byte; added]].concat();
                read(judge, HIGHEST_LEVEL, &longer);
            }
        }
    }
    for length in 0..100 {
        for byte in [0, 1, 255] {
            read(judge, HIGHEST_LEVEL, &vec![byte; length]);
        }
    }
    for _ in 0..extent.rounds(300) {
        let stream = some_stream(rng);
        let cut = rng.below(stream.len() as u64) as usize;
        read(judge, HIGHEST_LEVEL, &stream[..cut]);
    }
}

// ------------------------------------------------------ header numbers

/// Every header number of the small streams set to many others.
pub fn header_numbers(judge: &mut Judge, rng: &mut XorShift, extent: Extent) {
    for stream in small_streams() {
        for order in MAJOR..=DATA_END {
            for number in other_numbers(&stream, order) {
                let levels = levels_for(rng, order, extent);
                read_at_levels(judge, &levels, &with(&stream, &[(order, number)]));
            }
        }
    }
    for stream in small_streams() {
        other_settings(judge, rng, &stream);
    }
}

/// Every level for the numbers that have to do with it; else the highest and
/// another one.
fn levels_for(rng: &mut XorShift, order: usize, extent: Extent) -> Vec<u32> {
    match order {
        _ if extent == Extent::Quick => vec![HIGHEST_LEVEL],
        WRITTEN | NEEDED | MODE => LEVELS.to_vec(),
        _ => vec![HIGHEST_LEVEL, rng.one_of(&LEVELS[..LEVELS.len() - 1])],
    }
}

/// Numbers to put in place of a header number: those near it, those near any
/// rule's limit, and those that come out right in 32 bits only.
pub fn other_numbers(stream: &[u8], order: usize) -> Vec<u32> {
    let old = number_at(stream, order).unwrap_or(0);
    let length = stream.len() as u32;
    #[rustfmt::skip]
    let mut numbers = vec![
        0, 1, 2, 3, 7, 8, 9, 10, 11, 12, 13, 14, 15, 31, 32, 33, 47, 48, 49, 63, 64, 65, 100, 108,
        1023, 1024, 1025, 1 << 20, (1 << 20) + 1, 1 << 30, 1 << 31, u32::MAX - 1023, u32::MAX,
        length - 1, length, length + 1,
    ];
    for step in [1, 2, 4, 12, 256, 1 << 16, 1 << 24, 1 << 30, 1 << 31] {
        numbers.extend([old.wrapping_add(step), old.wrapping_sub(step)]);
    }
    if order == MODE {
        numbers.extend([128, 255, 256, 257, 258, 259, 512, 513, u32::MAX - 255]);
    }
    if order == K {
        let edges = [-1076, -1075, -151, -150, -149, -1, 102, 103, 104, 970, 971];
        numbers.extend(edges.map(|k: i32| k as u32));
    }
    numbers.sort_unstable();
    numbers.dedup();
    numbers.retain(|&number| number != old);
    numbers
}

/// The same bytes under every other setting, its need put right.
fn other_settings(judge: &mut Judge, rng: &mut XorShift, stream: &[u8]) {
    let others = [(0, 1), (1, 100), (1, -1075), (1, 970), (2, 1), (2, -2), (3, 0)];
    for (mode, k) in MODES.into_iter().chain(others) {
        for (width, group) in [(WIDTH_32, 32), (WIDTH_32, 128), (WIDTH_64, 32), (WIDTH_64, 128)] {
            let setting = Setting { width, mode, k, group };
            let (mode, need) = (setting.mode_number(), setting.need());
            let numbers = [(WIDTH, width.bits()), (MODE, mode), (K, k as u32), (NEEDED, need)];
            let levels = [HIGHEST_LEVEL, rng.one_of(&LEVELS)];
            read_at_levels(judge, &levels, &with(stream, &numbers));
        }
    }
}

/// Two to four header numbers altered at once.
pub fn several_header_numbers(judge: &mut Judge, rng: &mut XorShift, extent: Extent) {
    let streams = small_streams();
    for _ in 0..extent.rounds(12_000) {
        let mut stream = streams[rng.below(streams.len() as u64) as usize].clone();
        for _ in 0..2 + rng.below(3) {
            let order = rng.below(12) as usize;
            let number = some_number(rng, &stream, order);
            put(&mut stream, order, number);
        }
        let level = rng.one_of(&[8, 9, 10, 11, 12, 13, 14, 14, 14]);
        read(judge, level, &stream);
    }
}

/// A number for a header place that is often the right one for some setting.
fn some_number(rng: &mut XorShift, stream: &[u8], order: usize) -> u32 {
    let likely: &[u32] = match order {
        MAJOR => &[1],
        WRITTEN | NEEDED => &[7, 8, 9, 10, 11, 12, 13, 14, 15],
        WIDTH => &[32, 64],
        MODE => &[0, 1, 2, 3, 256, 257, 258, 259],
        K => &[0, -2i32 as u32, -150i32 as u32, 103, 970, -1075i32 as u32],
        SIDES => &[0, 1, 2, 64, 65],
        _ => &[],
    };
    if likely.is_empty() || rng.chance(4) {
        let others = other_numbers(stream, order);
        rng.one_of(&others)
    } else {
        rng.one_of(likely)
    }
}

// -------------------------------------------------------- random damage

/// Streams of any kind, damaged in one to three ways.
pub fn random_damage(judge: &mut Judge, rng: &mut XorShift, extent: Extent) {
    for _ in 0..extent.rounds(12_000) {
        let stream = damaged_stream(rng);
        let level = rng.one_of(&[14, 14, 14, 14, 14, 14, 13, 12, 11, 10, 9, 8, 7, 15]);
        read(judge, level, &stream);
    }
}

/// A stream of any kind, damaged in one to three ways.
pub fn damaged_stream(rng: &mut XorShift) -> Vec<u8> {
    let mut stream = some_stream(rng);
    for _ in 0..1 + rng.below(3) {
        damage(rng, &mut stream);
    }
    stream
}

pub fn damage(rng: &mut XorShift, stream: &mut Vec<u8>) {
    if stream.len() <= HEADER_BYTES {
        stream.push(rng.next() as u8);
        return;
    }
    let data = number_at(stream, DATA_PLACE).unwrap_or(0) as usize;
    let end = number_at(stream, DATA_END).unwrap_or(0) as usize;
    match rng.below(8) {
        0 => stream.truncate(rng.below(stream.len() as u64 + 1) as usize),
        1 => stream.push(rng.next() as u8),
        2 => {
            let order = rng.below(12) as usize;
            let number = some_number(rng, stream, order);
            put(stream, order, number);
        }
        // A chunk's start, or a number of the side table.
        3 => nudge_number(rng, stream, HEADER_BYTES, data),
        4 => nudge_number(rng, stream, end, end.saturating_add(36)),
        // A bit, a byte, or the first width byte.
        5 => alter_byte(rng, stream, data, end, |rng, byte| byte ^ 1 << rng.below(8)),
        6 => alter_byte(rng, stream, data, end, |rng, _| {
            rng.one_of(&[0, 1, 31, 32, 33, 63, 64, 65, 255])
        }),
        _ => alter_byte(rng, stream, data, data.saturating_add(1), |rng, _| rng.below(70) as u8),
    }
}

/// Changes one of the numbers between two places a little, or wholly.
fn nudge_number(rng: &mut XorShift, stream: &mut [u8], from: usize, to: usize) {
    let numbers = (to.saturating_sub(from) / 4).max(1) as u64;
    let place = from.saturating_add(4 * rng.below(numbers) as usize);
    let Some(bytes) = stream.get(place..place.saturating_add(4)) else {
        return;
    };
    let old = u32::from_le_bytes([bytes[0], bytes[1], bytes[2], bytes[3]]);
    let nudge = rng.below(9) as u32;
    let random = rng.next() as u32;
    let near = old.wrapping_add(nudge).wrapping_sub(4);
    let number = rng.one_of(&[near, near, near, 0, 1 << 31, u32::MAX, random]);
    put_at(stream, place, number);
}

/// Alters one of the bytes between two places, if the stream has it.
fn alter_byte(
    rng: &mut XorShift,
    stream: &mut [u8],
    from: usize,
    to: usize,
    altered: fn(&mut XorShift, u8) -> u8,
) {
    let bytes = to.saturating_sub(from).max(1) as u64;
    let place = from.saturating_add(rng.below(bytes) as usize);
    if let Some(byte) = stream.get_mut(place) {
        *byte = altered(rng, *byte);
    }
}
