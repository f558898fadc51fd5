//! Groups of 128: the mode numbers of a header, groups in which one block of 32
//! codes alone decides, and short groups of every count, each with the answer that it
//! must have.

use super::call::{Call, List};
use super::differences::known_list;
use super::groups::codes_of_width;
use super::judge::Judge;
use super::outcome::{answered, refused};
use super::random::{XorShift, WIDTHS};
use super::streams::*;
use super::walks::some_walk;
use super::{reference, Extent};
use crate::numbers::{bit_length, Width};
use crate::stream::HIGHEST_LEVEL;
use crate::Refusal;

const SIZE: usize = 128;
const BLOCK: usize = 32;
const GROUPS_IN_CHUNK: usize = 8;

pub fn sizes(judge: &mut Judge, rng: &mut XorShift, extent: Extent) {
    mode_numbers(judge, rng, extent);
    for setting in settings_of_128() {
        blocks(judge, rng, extent, setting);
        short_groups(judge, rng, extent, setting);
    }
    short_groups_of_differences(judge, rng, extent);
}

fn settings_of_128() -> impl Iterator<Item = Setting> {
    every_setting().into_iter().filter(|setting| setting.group == 128)
}

// -------------------------------------------------- the mode numbers

/// Those there are, those beside them, and those that are one only in their lowest
/// or highest bits.
const MODE_NUMBERS: [u32; 20] = [
    0,
    1,
    2,
    3,
    32,
    128,
    130,
    254,
    255,
    256,
    257,
    258,
    259,
    260,
    512,
    513,
    (1 << 16) + 256,
    1 << 31,
    u32::MAX - 255,
    u32::MAX,
];

/// A stream of three zeros, which has the same data with both group sizes, under
/// every mode number, with needs and written minors around the levels.
fn mode_numbers(judge: &mut Judge, rng: &mut XorShift, extent: Extent) {
    let one_in = one_in(extent);
    for width in WIDTHS {
        for number in MODE_NUMBERS {
            for needed in 7..=15 {
                for written in [needed - 1, needed, 14, 20] {
                    let header = [1, written, needed, width.bits(), number, 0, 3, 1, 48, 52, 0, 53];
                    for level in 7..=15 {
                        if rng.chance(one_in) {
                            mode_number(judge, rng, width, level, &header);
                        }
                    }
                }
            }
        }
    }
}

fn one_in(extent: Extent) -> u64 {
    if extent == Extent::Quick {
        10
    } else {
        1
    }
}

/// Check, and now and then the readers of values.
fn mode_number(
    judge: &mut Judge,
    rng: &mut XorShift,
    width: Width,
    level: u32,
    header: &[u32; 12],
) {
    let stream = &[bytes_of(header), vec![0; 5]].concat();
    let refusal = refusal_of(level, header);
    let answer = |success| answered(refusal.map_or(Ok(success), Err));
    judge.compare_known(Call::Check { level, stream }, answer(3), &[]);
    if rng.chance(4) {
        let unpack = Call::Unpack { width, level, stream, room: 3 };
        judge.compare_known(unpack, answer(3), &[]);
        let probe = Call::Probe { width, level, stream, index: 2 };
        judge.compare_known(probe, answer(0), &[]);
    }
}

/// Refusals 1 7 8 of a header that breaks no rule but those of its minors and its
/// mode. k is 0, which every mode allows.
fn refusal_of(level: u32, header: &[u32; 12]) -> Option<Refusal> {
    let [_, written, needed, width, number, ..] = *header;
    let need = match (number, width) {
        (256..=258, _) => Some(13),
        (2, _) => Some(11),
        (0 | 1, 64) => Some(10),
        (1, _) => Some(9),
        (0, _) => Some(8),
        _ => None,
    };
    if !LEVELS.contains(&level) {
        Some(Refusal::bare(1))
    } else if needed > level {
        Some(Refusal::with_detail(7, needed as u64))
    } else {
        (need != Some(needed) || written < needed).then_some(Refusal::bare(8))
    }
}

// ------------------------------------------------------- the readers

/// A place of a group: its chunk, and its number in it.
type Place = (usize, usize);

/// A stream of zeros, but for one group, which is the last one if it is short.
struct Around {
    setting: Setting,
    place: Place,
    stream: Vec<u8>,
}

impl Around {
    fn new(setting: Setting, (chunk, number): Place, count: usize, group: &[u8]) -> Around {
        let mut chunks = vec![vec![0; GROUPS_IN_CHUNK]; chunk];
        let last = [&vec![0; number][..], group].concat();
        chunks.push(last);
        let n = ((chunk * GROUPS_IN_CHUNK + number) * SIZE + count) as u32;
        let stream = Draft { setting, n, chunks, sides: vec![] }.stream();
        Around { setting, place: (chunk, number), stream }
    }

    /// The group is sound, or the one that is named: chunk·32 + group.
    fn compare(&self, judge: &mut Judge, rng: &mut XorShift, sound: bool) {
        let Around { setting: Setting { width, .. }, place, ref stream } = *self;
        let (level, n) = (HIGHEST_LEVEL, stated_count(stream));
        let bad = Refusal::with_detail(10, (place.0 * 32 + place.1) as u64);
        let answer = |success| if sound { success } else { refused(bad) };
        judge.compare_known(Call::Check { level, stream }, answer(n), &[]);
        let unpack = Call::Unpack { width, level, stream, room: n as usize };
        judge.compare_known(unpack, answer(n), &[]);
        let first = (place.0 * 1024) as u64;
        let probe = |index| Call::Probe { width, level, stream, index };
        let met = probe(first + rng.below(n - first));
        if sound {
            judge.compare(met);
        } else {
            judge.compare_known(met, refused(bad), &[]);
        }
        if first > 0 {
            // No other chunk's bytes touch its answer.
            judge.compare_known(probe(rng.below(first)), 0, &[0]);
        }
        judge.compare(Call::AddSummary { level, stream, room: stream.len() + 80 });
    }

    /// The values are read and packed to the same stream again.
    fn compare_packed(&self, judge: &mut Judge) {
        let Around { setting: Setting { width, mode, k, group }, ref stream, .. } = *self;
        let (level, n) = (HIGHEST_LEVEL, stated_count(stream) as usize);
        let list: List = reference::list_of(width, stream, n).expect("a sound stream");
        let (values, room) = (list.values(), stream.len());
        let bytes: Vec<u64> = stream.iter().map(|&byte| byte as u64).collect();
        let pack = Call::Pack { level, mode, k, group, values, room };
        judge.compare_known(pack, room as u64, &bytes);
        judge.compare_known(Call::Length { level, mode, k, group, values }, room as u64, &[]);
    }
}

/// Some place of a group, in any of three chunks.
fn some_place(rng: &mut XorShift) -> Place {
    (rng.below(3) as usize, rng.below(GROUPS_IN_CHUNK as u64) as usize)
}

// -------------------------------------------------------- the blocks

/// Groups in which the codes of one block alone have the width, or are too large.
fn blocks(judge: &mut Judge, rng: &mut XorShift, extent: Extent, setting: Setting) {
    for count in [SIZE, SIZE, SIZE, 127, 97, 96, 65, 64, 33] {
        for block in 0..count.div_ceil(BLOCK) {
            for _ in 0..extent.rounds(4) {
                one_wide_block(judge, rng, setting, count, block);
                largest_codes(judge, rng, setting, count, block);
            }
        }
    }
}

/// An index of the block.
fn index_in(rng: &mut XorShift, count: usize, block: usize) -> usize {
    let (first, last) = (block * BLOCK, (block * BLOCK + BLOCK - 1).min(count - 1));
    let between = first + rng.below((last - first + 1) as u64) as usize;
    rng.one_of(&[first, last, between])
}

/// One code has w bits, all others have fewer, or none: the group is sound with w,
/// and with no other width byte.
fn one_wide_block(
    judge: &mut Judge,
    rng: &mut XorShift,
    setting: Setting,
    count: usize,
    block: usize,
) {
    let bits = bit_length(setting.largest_code()) as u64 - 1; // no code of so many is too large
    let w = 1 + rng.below(bits - 1) as u8;
    let fewer = rng.one_of(&[0, 0, w - 1]);
    let mut codes = codes_of_width(rng, fewer, count);
    codes[index_in(rng, count, block)] = 1 << (w - 1);
    let place = some_place(rng);
    let sound = Around::new(setting, place, count, &group(w, &codes));
    sound.compare(judge, rng, true);
    sound.compare_packed(judge);
    for other in [w + 1, bits as u8 + 1] {
        Around::new(setting, place, count, &group(other, &codes)).compare(judge, rng, false);
    }
    // The width byte alone altered: bytes are missing or left over.
    for other in [w + 1, w - 1, 0, 65, 255] {
        let mut bytes = group(w, &codes);
        bytes[0] = other;
        Around::new(setting, place, count, &bytes).compare(judge, rng, false);
    }
}

/// The largest code there is in the block, and the next, if W bits hold it.
fn largest_codes(
    judge: &mut Judge,
    rng: &mut XorShift,
    setting: Setting,
    count: usize,
    block: usize,
) {
    let (largest, place) = (setting.largest_code(), some_place(rng));
    let below = codes_of_width(rng, bit_length(largest) as u8 - 1, count);
    let mut codes = if rng.chance(2) { vec![0; count] } else { below };
    let index = index_in(rng, count, block);
    codes[index] = largest;
    let w = bit_length(largest) as u8;
    let sound = Around::new(setting, place, count, &group(w, &codes));
    sound.compare(judge, rng, true);
    if setting.mode == 1 {
        codes[index] = largest + 1;
        let w = bit_length(largest + 1) as u8;
        Around::new(setting, place, count, &group(w, &codes)).compare(judge, rng, false);
    }
}

// ------------------------------------------------- short last groups

/// A last group of every count from 1 to 127: sound, with a padding bit set, with a
/// byte left over and with one missing.
fn short_groups(judge: &mut Judge, rng: &mut XorShift, extent: Extent, setting: Setting) {
    for count in 1..SIZE {
        if rng.chance(one_in(extent)) {
            short_group(judge, rng, setting, count);
        }
    }
}

fn short_group(judge: &mut Judge, rng: &mut XorShift, setting: Setting, count: usize) {
    let bits = bit_length(setting.largest_code()) as u64 - 1; // no code of so many is too large
    let w = rng.below(bits) as u8 + 1;
    let codes = codes_of_width(rng, w, count);
    let (bytes, place) = (group(w, &codes), some_place(rng));
    let around = |bytes: &[u8]| Around::new(setting, place, count, bytes);
    around(&bytes).compare(judge, rng, true);
    around(&bytes).compare_packed(judge);

    let padding = count * w as usize..8 * (bytes.len() - 1);
    if !padding.is_empty() {
        let bit = padding.start + rng.below(padding.len() as u64) as usize;
        let mut set = bytes.clone();
        set[1 + bit / 8] |= 1 << (bit % 8);
        around(&set).compare(judge, rng, false);
    }
    around(&[&bytes[..], &[0]].concat()).compare(judge, rng, false);
    around(&bytes[..bytes.len() - 1]).compare(judge, rng, false);
    // The codes filled up to whole blocks, or to a whole group.
    for whole in [count.next_multiple_of(BLOCK), SIZE] {
        let mut filled = codes.clone();
        filled.resize(whole, 0);
        let filled = group(w, &filled);
        around(&filled).compare(judge, rng, filled.len() == bytes.len());
    }
}

/// The same counts in mode 2, alone and behind whole groups, with every value of the
/// last group probed.
fn short_groups_of_differences(judge: &mut Judge, rng: &mut XorShift, extent: Extent) {
    for count in 1..SIZE {
        for width in WIDTHS {
            if rng.chance(one_in(extent)) {
                let before = rng.one_of(&[0, 0, 1, 3, 7, 8, 15]) * SIZE;
                let n = before + count;
                let list = known_list(width, 128, some_walk(rng, width, n));
                list.compare_whole(judge);
                list.compare_probes(judge, before.saturating_sub(3)..n);
            }
        }
    }
}

// ---------------------------------------------------------- listings

/// Streams with groups of 128: sound ones of every setting and of many lengths, and
/// those with another mode number.
pub fn streams_of_128(rng: &mut XorShift) -> Vec<Vec<u8>> {
    let mut streams = Vec::new();
    for setting in settings_of_128() {
        for n in [0, 1, 127, 128, 129, 1000, 1024, 1025, 1152, 1153, 2048, 2100] {
            let w = if n == 0 { 0 } else { rng.below(12) as u8 };
            streams.push(stream_of_codes(setting, &codes_of_width(rng, w, n)));
        }
        let sound = stream_of_codes(setting, &[3; 200]);
        let others = MODE_NUMBERS.into_iter().filter(|&number| number != setting.mode_number());
        streams.extend(others.map(|number| with(&sound, &[(MODE, number)])));
        let needs = 7..=15;
        streams.extend(needs.map(|needed| with(&sound, &[(NEEDED, needed)])));
    }
    streams
}
