//! Groups that keep or break the rules of refusal 10, at every place a group
//! can have, under a sound header and sound tables.

use super::judge::Judge;
use super::random::{XorShift, WIDTHS};
use super::readings::read;
use super::streams::{group, Draft, Setting, SIZES};
use super::walks::some_k_of_mode;
use super::Extent;
use crate::numbers::bit_length;
use crate::stream::HIGHEST_LEVEL;

/// Counts at the edges of bytes, and of blocks of 32.
const COUNTS_OF_32: [usize; 8] = [1, 2, 3, 7, 8, 9, 31, 32];
const COUNTS_OF_128: [usize; 12] = [1, 7, 8, 31, 32, 33, 63, 64, 65, 96, 127, 128];

pub fn groups(judge: &mut Judge, rng: &mut XorShift, extent: Extent) {
    for _ in 0..extent.rounds(400) {
        let (width, mode, group) = (rng.one_of(&WIDTHS), rng.below(3) as u32, rng.one_of(&SIZES));
        let setting = Setting { width, mode, k: some_k_of_mode(rng, width, mode), group };
        let count =
            if group == 32 { rng.one_of(&COUNTS_OF_32) } else { rng.one_of(&COUNTS_OF_128) };
        for bytes in variants(rng, setting, count) {
            read_alone(judge, setting, count, &bytes);
            read_among_chunks(judge, rng, setting, count, &bytes);
        }
    }
}

// ------------------------------------------------------------ the groups

/// A sound group of a random width, and what can be wrong with it.
fn variants(rng: &mut XorShift, setting: Setting, count: usize) -> Vec<Vec<u8>> {
    let w = rng.below(setting.width.bits() as u64 + 1) as u8;
    let codes = codes_of_width(rng, w, count);
    let sound = group(w, &codes);
    let mut variants = vec![sound.clone()];
    variants.extend(other_widths(setting, w, &codes));
    variants.extend(other_lengths(&sound));
    variants.extend(paddings(&sound, w as usize * count));
    variants.extend(around_largest_code(rng, setting, count));
    variants
}

/// Codes of which the largest has w bits.
pub fn codes_of_width(rng: &mut XorShift, w: u8, count: usize) -> Vec<u64> {
    if w == 0 {
        return vec![0; count];
    }
    let mut codes: Vec<u64> = (0..count).map(|_| rng.next() >> (64 - w)).collect();
    let longest = rng.below(count as u64) as usize;
    codes[longest] |= 1 << (w - 1);
    codes
}

/// The same codes with a width that is not smallest, or above W, and the
/// width byte alone changed.
fn other_widths(setting: Setting, w: u8, codes: &[u64]) -> Vec<Vec<u8>> {
    let bits = setting.width.bits() as u8;
    let mut variants = Vec::new();
    for other in [w + 1, w + 8, bits, bits + 1, bits + 8, 64, 65, 128, 255] {
        if other != w {
            variants.push(group(other, codes));
        }
        let mut bytes = group(w, codes);
        bytes[0] = other;
        variants.push(bytes);
    }
    if w > 0 {
        variants.push(group(w - 1, codes));
    }
    variants
}

/// Bytes missing or left over.
fn other_lengths(sound: &[u8]) -> Vec<Vec<u8>> {
    let mut variants = vec![
        [sound, &[0]].concat(),
        [sound, &[1]].concat(),
        [sound, &[0; 9]].concat(),
        sound[..1].to_vec(),
    ];
    if sound.len() > 1 {
        variants.push(sound[..sound.len() - 1].to_vec());
        variants.push(sound[1..].to_vec());
    }
    variants
}

/// Each padding bit set, one at a time, where there are any.
fn paddings(sound: &[u8], bits: usize) -> Vec<Vec<u8>> {
    let padding = bits..8 * (sound.len() - 1);
    let set = |bit: usize| {
        let mut bytes = sound.to_vec();
        bytes[1 + bit / 8] |= 1 << (bit % 8);
        bytes
    };
    padding.map(set).collect()
}

/// The largest code and its neighbours at a random place of the group, with
/// the smallest width, wherever they fit W bits.
fn around_largest_code(rng: &mut XorShift, setting: Setting, count: usize) -> Vec<Vec<u8>> {
    let largest = setting.largest_code();
    let most = u64::MAX >> (64 - setting.width.bits());
    let mut variants = Vec::new();
    for step in [0, 1, 2, 3, 4] {
        // Two codes below, the two of the largest u, and the two above.
        let code = (largest - 2).saturating_add(step).min(most);
        let mut codes = vec![0; count];
        codes[rng.below(count as u64) as usize] = code;
        codes[rng.below(count as u64) as usize] |= code & 1;
        variants.push(group(bit_length(code) as u8, &codes));
    }
    let random: Vec<u64> = (0..count).map(|_| rng.next() & most).collect();
    let longest = random.iter().copied().max().unwrap_or(0);
    variants.push(group(bit_length(longest) as u8, &random));
    variants
}

// ------------------------------------------------------- their places

/// The only group of the only chunk, and the second one.
fn read_alone(judge: &mut Judge, setting: Setting, count: usize, bytes: &[u8]) {
    let mut draft = Draft { setting, n: count as u32, chunks: vec![bytes.to_vec()], sides: vec![] };
    read(judge, HIGHEST_LEVEL, &draft.stream());
    draft.n += setting.group;
    draft.chunks = vec![[&[0], bytes].concat()];
    read(judge, HIGHEST_LEVEL, &draft.stream());
}

/// The last group of the last of three chunks, and whole groups in some of
/// the chunks before, so that the first chunk at fault is any of the three.
fn read_among_chunks(
    judge: &mut Judge,
    rng: &mut XorShift,
    setting: Setting,
    count: usize,
    bytes: &[u8],
) {
    let groups = 1024 / setting.values_in_group();
    let mut chunks = vec![vec![0; groups]; 2];
    for chunk in &mut chunks {
        if rng.chance(2) {
            let place = rng.below(groups as u64) as usize;
            let whole = whole_group(rng, setting);
            chunk.splice(place..place + 1, whole);
        }
    }
    chunks.push(if rng.chance(3) { vec![0] } else { bytes.to_vec() });
    let n = 2048 + count as u32;
    let draft = Draft { setting, n, chunks, sides: vec![] };
    read(judge, HIGHEST_LEVEL, &draft.stream());
}

/// A whole group, sound or with a fault.
fn whole_group(rng: &mut XorShift, setting: Setting) -> Vec<u8> {
    let variants = variants(rng, setting, setting.values_in_group());
    let chosen = rng.below(variants.len() as u64) as usize;
    variants.into_iter().nth(chosen).unwrap_or_default()
}
