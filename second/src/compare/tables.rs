//! Chunk tables and side parts, sound and not.

use super::damage::{small_streams, some_sides};
use super::judge::Judge;
use super::random::XorShift;
use super::readings::read;
use super::streams::*;
use super::Extent;
use crate::numbers::WIDTH_32;
use crate::stream::HIGHEST_LEVEL;

// ---------------------------------------------------------- chunk tables

/// Three chunks of small groups: 1,024 zeros, as many with one code of 3 bits,
/// and one value; now and then with side parts.
fn three_chunks(setting: Setting, sides: Vec<Side>) -> Vec<u8> {
    let size = setting.values_in_group();
    let groups = 1024 / size;
    let mut middle = vec![0; groups - 1];
    let mut codes = vec![0; size];
    codes[9] = 4;
    middle.extend(group(3, &codes));
    let chunks = vec![vec![0; groups], middle, group(2, &[3])];
    Draft { setting, n: 2049, chunks, sides }.stream()
}

/// The starts of three chunks in every combination of numbers near a limit:
/// swapped, equal, beyond the data, off by one, and such that adding the data's
/// place passes 2^32.
pub fn chunk_tables(judge: &mut Judge, rng: &mut XorShift, extent: Extent) {
    let streams = SIZES.map(|group| {
        let setting = Setting { width: WIDTH_32, mode: 0, k: 0, group };
        three_chunks(setting, vec![])
    });
    let one_in = if extent == Extent::Quick { 10 } else { 1 };
    let places = 0..some_starts(&streams[0]).len();
    for first in places.clone() {
        for second in places.clone() {
            for third in places.clone() {
                if rng.chance(one_in) {
                    let stream = &streams[rng.below(2) as usize];
                    let [first, second, third] =
                        [first, second, third].map(|place| some_starts(stream)[place]);
                    let numbers = [(12, first), (13, second), (14, third)];
                    read(judge, HIGHEST_LEVEL, &with(stream, &numbers));
                }
            }
        }
    }
    for _ in 0..extent.rounds(500) {
        let sides = if rng.chance(2) { some_sides(rng) } else { vec![] };
        let stream = three_chunks(rng.one_of(&every_setting()), sides);
        let (order, start) = (rng.one_of(&[12, 13, 14]), rng.one_of(&some_starts(&stream)));
        read(judge, HIGHEST_LEVEL, &with(&stream, &[(order, start)]));
    }
    empty_data(judge);
}

fn some_starts(stream: &[u8]) -> [u32; 14] {
    let number = |order| number_at(stream, order).unwrap_or(0);
    let (place, end) = (number(DATA_PLACE), number(DATA_END));
    let (second, third, length) = (number(13), number(14), end - place);
    [
        0,
        1,
        second - 1,
        second,
        second + 1,
        third - 1,
        third,
        third + 1,
        length,
        length + 1,
        1 << 31,
        u32::MAX - place + 1, // the header, modulo 2^32
        second.wrapping_sub(1 << 31),
        u32::MAX,
    ]
}

/// Chunks without data, and data without chunks.
fn empty_data(judge: &mut Judge) {
    for setting in every_setting() {
        let draft = |n, chunks: Vec<Vec<u8>>| Draft { setting, n, chunks, sides: vec![] }.stream();
        let groups = 1024 / setting.values_in_group();
        read(judge, HIGHEST_LEVEL, &draft(1, vec![vec![]]));
        read(judge, HIGHEST_LEVEL, &draft(1025, vec![vec![], vec![]]));
        read(judge, HIGHEST_LEVEL, &draft(1025, vec![vec![0; groups], vec![]]));
        let mut stream = draft(0, vec![]);
        stream.push(0);
        put(&mut stream, DATA_END, 49);
        read(judge, HIGHEST_LEVEL, &stream);
    }
}

// ------------------------------------------------------------ side parts

/// A side table's entry: id, place, length.
pub type Entry = [u32; 3];

/// A stream followed by any side table and some bytes.
pub fn sided(stream: &[u8], entries: &[Entry], bytes: usize) -> Vec<u8> {
    let mut stream = with(stream, &[(SIDES, entries.len() as u32)]);
    stream.extend(bytes_of(&entries.concat()));
    stream.resize(stream.len() + bytes, 0xEE);
    stream
}

/// The entries of sound parts of these ids and lengths, after a table that
/// begins at a place.
pub fn sound_entries(table: usize, ids: impl Iterator<Item = u32>, lengths: &[u32]) -> Vec<Entry> {
    let mut place = (table + 12 * lengths.len()) as u32;
    let mut entries = Vec::new();
    for (id, &length) in ids.zip(lengths) {
        entries.push([id, place, length]);
        place += length;
    }
    entries
}

pub fn side_parts(judge: &mut Judge, rng: &mut XorShift, extent: Extent) {
    // Those without side parts.
    let streams = small_streams();
    let plain = streams.iter().filter(|stream| number_at(stream, SIDES) == Some(0));
    for stream in plain {
        let needed = number_at(stream, NEEDED).unwrap_or(0);
        let needing_12 = with(stream, &[(NEEDED, needed.max(NEED_OF_HIGH_ID))]);
        // The third id of the second is the first that must be understood.
        for (stream, first_id) in [(stream, 3), (&needing_12, FIRST_HIGH_ID - 4)] {
            sound_parts(judge, stream, first_id);
            altered_entries(judge, stream, first_id, extent);
        }
        sums_past_32_bits(judge, stream);
        for _ in 0..extent.rounds(40) {
            random_parts(judge, rng, stream);
        }
    }
}

/// Every second id from one on.
fn every_second(first_id: u32) -> impl Iterator<Item = u32> {
    (first_id..).step_by(2)
}

/// Sound parts: one, several, 64, empty ones; and 65, which are too many.
fn sound_parts(judge: &mut Judge, stream: &[u8], first_id: u32) {
    let lists: [&[u32]; 9] =
        [&[0], &[5], &[0, 0], &[4, 5], &[0, 7, 0], &[1, 0, 0, 2], &[1; 63], &[2; 64], &[0; 65]];
    for lengths in lists {
        let bytes = lengths.iter().sum::<u32>() as usize;
        let entries = sound_entries(stream.len(), every_second(first_id), lengths);
        read(judge, HIGHEST_LEVEL, &sided(stream, &entries, bytes));
        // Some bytes too few, and too many.
        read(judge, HIGHEST_LEVEL, &sided(stream, &entries, bytes + 1));
        read(judge, HIGHEST_LEVEL, &sided(stream, &entries, bytes.saturating_sub(1)));
    }
}

/// Each number of a sound table altered: ids equal or falling, gaps, overlaps,
/// parts past the end.
fn altered_entries(judge: &mut Judge, stream: &[u8], first_id: u32, extent: Extent) {
    let sound = sound_entries(stream.len(), every_second(first_id), &[4, 0, 5]);
    let steps: &[u32] = match extent {
        Extent::Quick => &[1, 2, u32::MAX - 1, u32::MAX],
        _ => &[1, 2, 4, 12, 1 << 16, 1 << 31, u32::MAX - 3, u32::MAX - 1, u32::MAX],
    };
    for entry in 0..sound.len() {
        for number in 0..3 {
            for &step in steps {
                let mut entries = sound.clone();
                entries[entry][number] = entries[entry][number].wrapping_add(step);
                read(judge, HIGHEST_LEVEL, &sided(stream, &entries, 9));
            }
        }
    }
    // Parts in the wrong order, and one that takes what another leaves.
    let swapped = [sound[1], sound[0], sound[2]];
    read(judge, HIGHEST_LEVEL, &sided(stream, &swapped, 9));
    let mut shifted = sound.clone();
    shifted[0][2] += 1;
    shifted[1][1] += 1;
    shifted[2][1] += 1;
    read(judge, HIGHEST_LEVEL, &sided(stream, &shifted, 9));
    shifted[2][2] -= 1;
    read(judge, HIGHEST_LEVEL, &sided(stream, &shifted, 9));
}

/// Places and lengths that come out right only modulo 2^32.
fn sums_past_32_bits(judge: &mut Judge, stream: &[u8]) {
    let table = stream.len();
    let two = (table + 24) as u32;
    let three = (table + 36) as u32;
    let tables: [&[Entry]; 5] = [
        &[[1, two, 0u32.wrapping_sub(two)], [2, 0, two + 5]],
        &[[1, two, u32::MAX], [2, two - 1, 6]],
        &[[1, two, 1 << 31], [2, two + (1 << 31), (1 << 31) + 5]],
        &[[1, three, 1 << 31], [2, three + (1 << 31), 1 << 31], [3, three, 5]],
        &[[1, three, u32::MAX], [2, three - 1, u32::MAX], [3, three - 2, 7]],
    ];
    for entries in tables {
        read(judge, HIGHEST_LEVEL, &sided(stream, entries, 5));
    }
    let one = (table + 12) as u32;
    for length in [u32::MAX, 1 << 31, u32::MAX - one, 0u32.wrapping_sub(one)] {
        read(judge, HIGHEST_LEVEL, &sided(stream, &[[1, one, length]], 5));
    }
}

/// Well-formed random parts, now and then with another need, and the same with
/// one number of the table altered.
fn random_parts(judge: &mut Judge, rng: &mut XorShift, stream: &[u8]) {
    let table = stream.len();
    let mut stream = stream.to_vec();
    let sides = some_sides(rng);
    append_sides(&mut stream, &sides);
    if rng.chance(4) {
        put(&mut stream, NEEDED, rng.one_of(&LEVELS));
    }
    read(judge, HIGHEST_LEVEL, &stream);
    let place = table + 4 * rng.below(3 * sides.len() as u64) as usize;
    let number =
        rng.one_of(&[0, 1, table as u32, 1 << 31, u32::MAX]).wrapping_add(rng.below(8) as u32);
    put_at(&mut stream, place, number);
    read(judge, HIGHEST_LEVEL, &stream);
}
