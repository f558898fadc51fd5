//! The orders of refusals: for each two rules of an operation, calls that
//! break both at once, and calls that break the later one alone.

use super::call::{Call, List};
use super::judge::Judge;
use super::random::{other_width, XorShift};
use super::streams::*;
use super::summaries::{not_numbers, Field, SUMMARY_ID};
use super::Extent;
use crate::numbers::{Width, WIDTH_32, WIDTH_64};
use crate::stream::{HIGHEST_LEVEL, MOST_VALUES};
use std::ops::Range;

// ------------------------------------------------------ pack and length

/// What pack is told. It is sound as it stands, but for what is broken.
#[derive(Clone)]
struct Packing {
    level: u32,
    mode: u32,
    k: i32,
    group: u32,
    list: List,
    room: usize,
}

type PackingBreak = (u32, fn(&mut Packing));

/// Each breaks the rule of the refusal with its number, in the order of pack.
const PACKING_BREAKS: [PackingBreak; 34] = [
    (1, |packing| packing.level = 7),
    (1, |packing| packing.level = 15),
    (1, |packing| packing.level = 0),
    (1, |packing| packing.level = u32::MAX),
    (2, |packing| packing.mode = 3),
    (2, |packing| packing.mode = u32::MAX),
    // In a call the mode number is without what the group size adds.
    (2, |packing| (packing.mode, packing.k) = (256, 0)),
    (2, |packing| (packing.mode, packing.k) = (257, -2)),
    (2, |packing| (packing.mode, packing.k) = (258, 0)),
    (2, |packing| packing.group = 0),
    (2, |packing| packing.group = 1),
    (2, |packing| packing.group = 31),
    (2, |packing| packing.group = 33),
    (2, |packing| packing.group = 64),
    (2, |packing| packing.group = 127),
    (2, |packing| packing.group = 129),
    (2, |packing| packing.group = 256),
    (2, |packing| packing.group = 1 << 31),
    (2, |packing| packing.group = u32::MAX),
    (2, |packing| packing.k = 971),
    (2, |packing| packing.k = -1076),
    (2, |packing| (packing.mode, packing.k) = (0, -2)),
    (2, |packing| (packing.mode, packing.k) = (2, -2)),
    // The need exceeds the level: groups of 128 need 13, mode 2 needs 11, width 64
    // needs 10, mode 1 needs 9.
    (2, |packing| (packing.level, packing.group) = (8, 128)),
    (2, |packing| (packing.level, packing.group) = (10, 128)),
    (2, |packing| (packing.level, packing.group) = (11, 128)),
    (2, |packing| (packing.level, packing.group) = (12, 128)),
    (2, |packing| (packing.level, packing.mode, packing.k) = (8, 1, -2)),
    (2, |packing| (packing.level, packing.mode, packing.k) = (8, 2, 0)),
    (2, |packing| (packing.level, packing.mode, packing.k) = (10, 2, 0)),
    (3, |packing| packing.list = zeros(packing.list.values().width(), MOST_VALUES + 1)),
    (4, |packing| packing.room = 0),
    (4, |packing| packing.room = 47),
    (4, |packing| packing.room = 48),
];

fn zeros(width: Width, n: u64) -> List {
    List::of(width, (0..n).map(|_| 0))
}

pub fn packing(judge: &mut Judge, _: &mut XorShift, _: Extent) {
    for (turn, setting) in every_setting().into_iter().enumerate() {
        let Setting { width, mode, k, group } = setting;
        let list = zeros(width, 3);
        let sound = Packing { level: HIGHEST_LEVEL, mode, k, group, list, room: 60 };
        pack_as_meant(judge, &sound, 0);
        for (later, second) in PACKING_BREAKS {
            let mut once = sound.clone();
            second(&mut once);
            pack_as_meant(judge, &once, later);
            let breaks = PACKING_BREAKS.into_iter().enumerate();
            for (number, (earlier, first)) in breaks.filter(|(_, b)| b.0 < later) {
                // A list that is too long takes long to be handed over: each setting has
                // every sixth of these.
                if later != 3 || number % 6 == turn % 6 {
                    let mut twice = once.clone();
                    first(&mut twice);
                    pack_as_meant(judge, &twice, earlier);
                }
            }
        }
    }
}

/// Length does not know refusal 4.
fn pack_as_meant(judge: &mut Judge, packing: &Packing, number: u32) {
    let Packing { level, mode, k, group, ref list, room } = *packing;
    let values = list.values();
    judge.compare_meant(Call::Pack { level, mode, k, group, values, room }, number);
    let number = if number == 4 { 0 } else { number };
    judge.compare_meant(Call::Length { level, mode, k, group, values }, number);
}

// --------------------------------------------------------------- readers

/// What a reader is told: check only level and stream, some also a room, probe
/// the index, the list x.
#[derive(Clone)]
struct Reading {
    width: Width,
    level: u32,
    stream: Vec<u8>,
    exact: Rooms,
    /// How much of the room is missing.
    missing: usize,
    index: u64,
    x: u64,
}

/// The elements that each reader needs which is lent an output.
#[derive(Clone, Copy)]
struct Rooms {
    values: usize,
    copy: usize,
    chunks: usize,
}

impl Reading {
    fn room(&self, exact: usize) -> usize {
        exact.saturating_sub(self.missing)
    }
}

/// A rule of the readers, by the number of its refusal. The late use of 8, after
/// the tables, has a number of its own here.
type Rule = u32;

const LATE_8: Rule = 208;

fn refusal_of(rule: Rule) -> u32 {
    if rule == LATE_8 {
        8
    } else {
        rule
    }
}

type ReadingBreak = (Rule, fn(&mut Reading));

/// Each breaks one rule in a sound reading, or in one whose later rules are
/// broken.
const READING_BREAKS: [ReadingBreak; 84] = [
    (1, |r| r.level = 7),
    (1, |r| r.level = 15),
    (1, |r| r.level = 0),
    (1, |r| r.level = u32::MAX),
    (2, |r| r.x = not_numbers(r.width)[0]),
    (2, |r| r.x = not_numbers(r.width)[1]),
    (2, |r| r.x = not_numbers(r.width)[5]),
    (5, |r| r.stream.truncate(47)),
    (5, |r| r.stream.truncate(4)),
    (5, |r| r.stream.clear()),
    (6, |r| put(&mut r.stream, MAJOR, 0)),
    (6, |r| put(&mut r.stream, MAJOR, 2)),
    (6, |r| put(&mut r.stream, MAJOR, 257)),
    (6, |r| put(&mut r.stream, MAJOR, (1 << 31) + 1)),
    (7, |r| put(&mut r.stream, NEEDED, 15)),
    (7, |r| put(&mut r.stream, NEEDED, 100)),
    (7, |r| put(&mut r.stream, NEEDED, u32::MAX)),
    (7, |r| {
        r.level = 10;
        put(&mut r.stream, NEEDED, 11);
    }),
    (7, |r| {
        r.level = 11;
        put(&mut r.stream, NEEDED, 12);
    }),
    (7, |r| {
        r.level = 12;
        put(&mut r.stream, NEEDED, 13);
    }),
    (7, |r| {
        r.level = 13;
        put(&mut r.stream, NEEDED, 14);
    }),
    (8, |r| {
        let need = need_of_setting(&r.stream);
        put(&mut r.stream, NEEDED, need - 1);
    }),
    (8, |r| put(&mut r.stream, NEEDED, 7)),
    (8, |r| put(&mut r.stream, NEEDED, 0)),
    (8, |r| {
        let needed = number_at(&r.stream, NEEDED).unwrap_or(0);
        put(&mut r.stream, WRITTEN, needed.wrapping_sub(1));
    }),
    (8, |r| put(&mut r.stream, WRITTEN, 7)),
    (8, |r| put(&mut r.stream, WRITTEN, 0)),
    (8, |r| put(&mut r.stream, WIDTH, 0)),
    (8, |r| put(&mut r.stream, WIDTH, 33)),
    (8, |r| put(&mut r.stream, WIDTH, 96)),
    (8, |r| put(&mut r.stream, MODE, 3)),
    (8, |r| put(&mut r.stream, MODE, 255)),
    (8, |r| put(&mut r.stream, MODE, 259)),
    (8, |r| put(&mut r.stream, MODE, 512)),
    (8, |r| put(&mut r.stream, MODE, 128)),
    (8, |r| put(&mut r.stream, MODE, u32::MAX - 255)),
    (8, |r| put(&mut r.stream, MODE, u32::MAX)),
    // The need is then below that of the group size.
    (8, |r| r.stream = with(&r.stream, &[(NEEDED, 12), (MODE, 256), (K, 0)])),
    (8, |r| r.stream = with(&r.stream, &[(NEEDED, 11), (MODE, 258), (K, 0)])),
    // The need is then below that of the mode.
    (8, |r| r.stream = with(&r.stream, &[(NEEDED, 10), (MODE, 2), (K, 0)])),
    (8, |r| r.stream = with(&r.stream, &[(NEEDED, 11), (MODE, 2), (K, 1)])),
    (8, |r| put(&mut r.stream, K, 971)),
    (8, |r| put(&mut r.stream, K, -1076i32 as u32)),
    (8, |r| put(&mut r.stream, COUNT, MOST_VALUES as u32 + 1)),
    (8, |r| add(&mut r.stream, CHUNKS, 1)),
    (8, |r| add(&mut r.stream, CHUNKS, 1 << 30)),
    (8, |r| add(&mut r.stream, TABLE_PLACE, 4)),
    (8, |r| add(&mut r.stream, DATA_PLACE, 4)),
    (8, |r| put(&mut r.stream, SIDES, 65)),
    (8, |r| put(&mut r.stream, DATA_END, 47)),
    (8, |r| put(&mut r.stream, DATA_END, u32::MAX)),
    (14, |r| r.width = other_width(r.width)),
    (4, |r| r.missing = usize::MAX),
    (4, |r| r.missing = 1),
    (11, |r| r.index = stated_count(&r.stream)),
    (11, |r| r.index = 1 << 32),
    (11, |r| r.index = u64::MAX),
    (9, |r| put(&mut r.stream, STARTS, 1)),
    (9, |r| put(&mut r.stream, STARTS, u32::MAX)),
    (9, |r| r.stream.push(0)),
    (9, |r| add(&mut r.stream, DATA_END, u32::MAX)), // one byte earlier
    // A need above the stream's, without a high id and with one, or below 12 with one.
    (LATE_8, |r| put(&mut r.stream, NEEDED, 14)),
    (LATE_8, |r| put_wrong_need(&mut r.stream, 13)),
    (LATE_8, |r| {
        put_high_id(&mut r.stream, FIRST_HIGH_ID);
        put(&mut r.stream, NEEDED, 14);
    }),
    (LATE_8, |r| {
        put_high_id(&mut r.stream, FIRST_HIGH_ID);
        put_wrong_need(&mut r.stream, 11);
    }),
    (LATE_8, |r| {
        let need = need_of_setting(&r.stream);
        put_high_id(&mut r.stream, u32::MAX);
        put_wrong_need(&mut r.stream, need);
    }),
    (15, |r| put_high_id(&mut r.stream, FIRST_HIGH_ID)),
    (15, |r| put_high_id(&mut r.stream, FIRST_HIGH_ID + 1)),
    (15, |r| put_high_id(&mut r.stream, u32::MAX)),
    (10, |r| put_width_byte(&mut r.stream, 0, 255)),
    (10, |r| put_width_byte(&mut r.stream, 0, 65)),
    (10, |r| put_width_byte(&mut r.stream, 0, 0)),
    (10, |r| put_width_byte(&mut r.stream, 0, 9)),
    (10, |r| put_width_byte(&mut r.stream, 1, 255)),
    (10, |r| put_width_byte(&mut r.stream, 1, 1)),
    (16, |r| append_sides(&mut r.stream, &[(0, vec![])])),
    (16, |r| append_sides(&mut r.stream, &[(7, vec![1, 2])])),
    (16, |r| {
        let part = Field::of_stream(r.stream.clone()).part();
        append_sides(&mut r.stream, &[(SUMMARY_ID, part)]);
    }),
    (17, |r| {
        let table = number_at(&r.stream, DATA_END).unwrap_or(0);
        r.stream.truncate(table as usize);
        put(&mut r.stream, SIDES, 0);
    }),
    (17, |r| alter_summary(&mut r.stream, |stream, entry, _| put_at(stream, entry, 2))),
    (17, |r| alter_summary(&mut r.stream, |stream, _, part| stream[part.start] ^= 1)),
    (17, |r| alter_summary(&mut r.stream, |stream, _, part| stream[part.start + 4] ^= 1)),
    (17, |r| alter_summary(&mut r.stream, |stream, _, part| stream[part.end - 1] ^= 0x80)),
    (17, |r| alter_summary(&mut r.stream, |stream, _, part| stream[part].fill(0xFF))),
];

fn add(stream: &mut [u8], order: usize, step: u32) {
    if let Some(old) = number_at(stream, order) {
        put(stream, order, old.wrapping_add(step));
    }
}

/// Mode and group size of the stream.
fn mode_of(stream: &[u8]) -> (u32, u32) {
    mode_and_group(number_at(stream, MODE).unwrap_or(0))
}

/// What width, mode and group size of the stream need.
fn need_of_setting(stream: &[u8]) -> u32 {
    let width = if number_at(stream, WIDTH) == Some(64) { WIDTH_64 } else { WIDTH_32 };
    let (mode, group) = mode_of(stream);
    Setting { width, mode, k: 0, group }.need()
}

/// Makes the need another than the stream's, and not below the setting's: puts this
/// one, or in groups of 128 the only one above theirs.
fn put_wrong_need(stream: &mut [u8], needed: u32) {
    let (_, group) = mode_of(stream);
    put(stream, NEEDED, if group == 128 { 14 } else { needed });
}

/// Makes the last side part, or a new one, one that must be understood, and
/// puts the need.
fn put_high_id(stream: &mut Vec<u8>, id: u32) {
    match number_at(stream, SIDES).zip(number_at(stream, DATA_END)) {
        Some((sides @ 1.., table)) => put_at(stream, (table + 12 * (sides - 1)) as usize, id),
        _ => append_sides(stream, &[(id, vec![])]),
    }
    let need = need_of_setting(stream).max(NEED_OF_HIGH_ID);
    put(stream, NEEDED, need);
}

/// Alters the entry of the summary in the side table, or its part, told the place
/// of the one and of the other.
fn alter_summary(stream: &mut Vec<u8>, alter: fn(&mut Vec<u8>, usize, Range<usize>)) {
    let number = |place: usize| number_at(&stream[place..], 0).unwrap_or(0) as usize;
    let entries = (number(4 * DATA_END)..).step_by(12);
    let entry = entries.take(number(4 * SIDES)).find(|&place| number(place) == SUMMARY_ID as usize);
    if let Some(entry) = entry {
        let start = number(entry + 4);
        let part = start..start + number(entry + 8);
        alter(stream, entry, part);
    }
}

/// Sets the width byte of the first group of a sound reading, number 0, or of the
/// second: the first has codes of 8 bits.
fn put_width_byte(stream: &mut [u8], number: u32, w: u8) {
    let (_, group) = mode_of(stream);
    if let Some(place) = number_at(stream, DATA_PLACE) {
        stream[(place + number * (1 + group)) as usize] = w;
    }
}

/// The side parts of a stream, told its summary.
type Sides = fn(Vec<u8>) -> Vec<Side>;

/// A reader, its order of refusals, the side parts that it does not refuse, and
/// its call.
struct Reader {
    order: &'static [Rule],
    sides: &'static [Sides],
    call: fn(&Reading) -> Call,
}

/// None, and some.
const ANY_SIDES: &[Sides] = &[|_| vec![], |_| vec![(7, vec![1, 2]), (9, vec![])]];
const NO_SIDES: &[Sides] = &[|_| vec![]];
/// The summary, alone and among others.
const WITH_SUMMARY: &[Sides] = &[
    |summary| vec![(SUMMARY_ID, summary)],
    |summary| vec![(0, vec![]), (SUMMARY_ID, summary), (77, vec![1, 2])],
];

const READERS: [Reader; 6] = [
    Reader {
        order: &[1, 5, 6, 7, 8, 9, LATE_8, 15, 10],
        sides: ANY_SIDES,
        call: |r| Call::Check { level: r.level, stream: &r.stream },
    },
    Reader {
        order: &[1, 5, 6, 7, 8, 14, 4, 9, LATE_8, 15, 10],
        sides: ANY_SIDES,
        call: |r| {
            let room = r.room(r.exact.values);
            Call::Unpack { width: r.width, level: r.level, stream: &r.stream, room }
        },
    },
    Reader {
        order: &[1, 5, 6, 7, 8, 14, 11, 9, LATE_8, 15, 10],
        sides: ANY_SIDES,
        call: |r| Call::Probe { width: r.width, level: r.level, stream: &r.stream, index: r.index },
    },
    Reader {
        order: &[1, 5, 6, 7, 8, 9, LATE_8, 15, 10, 16, 4],
        sides: NO_SIDES,
        call: |r| {
            let room = r.room(r.exact.copy);
            Call::AddSummary { level: r.level, stream: &r.stream, room }
        },
    },
    Reader {
        order: &[1, 5, 6, 7, 8, 9, LATE_8, 15, 10, 17],
        sides: WITH_SUMMARY,
        call: |r| Call::TestSummary { level: r.level, stream: &r.stream },
    },
    Reader {
        order: &[1, 2, 5, 6, 7, 8, 14, 9, LATE_8, 15, 10, 17, 4],
        sides: WITH_SUMMARY,
        call: |r| {
            let room = r.room(r.exact.chunks);
            Call::ChunksFrom { width: r.width, level: r.level, x: r.x, stream: &r.stream, room }
        },
    },
];

impl Reader {
    /// The breaks this reader can meet, each with its rank in the order.
    fn breaks(&self) -> impl Iterator<Item = (usize, ReadingBreak)> + '_ {
        READING_BREAKS.into_iter().filter_map(|broken| {
            let rank = self.order.iter().position(|&rule| rule == broken.0)?;
            Some((rank, broken))
        })
    }
}

pub fn reading(judge: &mut Judge, _: &mut XorShift, _: Extent) {
    for reader in READERS {
        for sound in sound_readings(reader.sides) {
            judge.compare_meant((reader.call)(&sound), 0);
            for (rank, (later, second)) in reader.breaks() {
                let mut once = sound.clone();
                second(&mut once);
                judge.compare_meant((reader.call)(&once), refusal_of(later));
                for (_, (earlier, first)) in reader.breaks().filter(|b| b.0 < rank) {
                    let mut twice = once.clone();
                    first(&mut twice);
                    judge.compare_meant((reader.call)(&twice), refusal_of(earlier));
                }
            }
        }
    }
}

/// A sound reading for every setting, of one chunk or of three, with each of these
/// side parts. The first group, a whole one, holds a code of 8 bits.
fn sound_readings(sides: &[Sides]) -> Vec<Reading> {
    let mut readings = Vec::new();
    for setting in every_setting() {
        // Each mode has one chunk with the one group size, and three with the other.
        let one_chunk = (setting.group == 128) == (setting.mode == 1);
        let n = if one_chunk { setting.values_in_group() + 8 } else { 2049 };
        let field = Field::of_stream(stream_of_codes(setting, &sound_codes(n)));
        readings.extend(sides.iter().map(|sides| sound_reading(&field, sides)));
    }
    readings
}

fn sound_reading(field: &Field, sides: &Sides) -> Reading {
    let exact = Rooms {
        values: field.patterns.len(),
        copy: field.with_summary().len(),
        chunks: field.chunks().count(), // each holds a value that is not below 0
    };
    let stream = field.with_parts(&sides(field.part()));
    let (width, level) = (field.width, HIGHEST_LEVEL);
    Reading { width, level, stream, exact, missing: 0, index: 1, x: 0 }
}

/// Zeros, but for one code of 8 bits at index 0, which in no mode is that of a
/// not-a-number.
fn sound_codes(n: usize) -> Vec<u64> {
    let mut codes = vec![0; n];
    codes[0] = 254;
    codes
}
