//! Lists packed, measured and read back.

use super::call::{Call, List};
use super::damage::small_streams;
use super::judge::Judge;
use super::random::{allowed_k, some_length, XorShift, WIDTHS};
use super::readings::{probe_at, read, read_at_levels};
use super::rules::edge_patterns;
use super::streams::{bytes_of, every_setting, Setting, LEVELS, SIZES};
use super::walks::{some_k_of_mode, some_patterns_of_mode};
use super::{reference, Extent};
use crate::numbers::{WIDTH_32, WIDTH_64};
use crate::stream::{HIGHEST_LEVEL, MOST_VALUES};

/// What pack and length are told besides the list.
#[derive(Clone, Copy)]
struct Packing {
    level: u32,
    setting: Setting,
}

impl Packing {
    fn length<'a>(&self, list: &'a List) -> Call<'a> {
        let Packing { level, setting: Setting { mode, k, group, .. } } = *self;
        Call::Length { level, mode, k, group, values: list.values() }
    }

    fn pack<'a>(&self, list: &'a List, room: usize) -> Call<'a> {
        let Packing { level, setting: Setting { mode, k, group, .. } } = *self;
        Call::Pack { level, mode, k, group, values: list.values(), room }
    }

    fn packed(&self, list: &List) -> Option<Vec<u8>> {
        let Packing { level, setting: Setting { mode, k, group, .. } } = *self;
        reference::packed(level, mode, k, group, list.values())
    }

    fn some_list(&self, rng: &mut XorShift, n: usize) -> List {
        let Setting { width, mode, k, .. } = self.setting;
        // Where k is not allowed the values may lie anywhere.
        let k = k.clamp(*allowed_k(width).start(), *allowed_k(width).end());
        List::of(width, some_patterns_of_mode(rng, width, mode, k, n))
    }
}

/// Rooms for a packed length: exact, ample, one short, half and none.
fn rooms(length: usize) -> [usize; 6] {
    [length, length + 1, length + 40, length - 1, length / 2, 0]
}

/// Measures and packs the list; answers the packed stream unless refused.
fn measure_and_pack(judge: &mut Judge, packing: Packing, list: &List) -> Option<Vec<u8>> {
    let length = judge.compare(packing.length(list));
    if length >> 32 != 0 {
        judge.compare(packing.pack(list, 4000));
        judge.compare(packing.pack(list, 0));
        return None;
    }
    for room in rooms(length as usize) {
        judge.compare(packing.pack(list, room));
    }
    packing.packed(list)
}

// --------------------------------------------------------- the settings

/// Numbers that are a level or a mode only if all but their lowest digits,
/// bits or bytes are left away.
const FAR_NUMBERS: [u32; 9] =
    [108, 256, 256 + 1, 256 + 2, 256 + 9, 1 << 16, (1 << 31) + 8, u32::MAX - 1, u32::MAX];

/// Group sizes that there are not: those beside the two and between them, and some
/// that are one of them in their lowest bits alone.
#[rustfmt::skip]
const OTHER_SIZES: [u32; 16] = [
    0, 1, 8, 31, 33, 64, 127, 129, 256, 256 + 32, 256 + 128, 1024, (1 << 16) + 32, 1 << 31,
    (1 << 31) + 128, u32::MAX,
];

/// Each k at the edges, and some that are an allowed one modulo a power of 2.
#[rustfmt::skip]
const EDGES_OF_K: [i32; 30] = [
    i32::MIN, i32::MIN + 1, -65_536, -1078, -1077, -1076, -1075, -1074, -1073, -256, -152, -151,
    -150, -149, -2, -1, 0, 1, 102, 103, 104, 105, 256, 969, 970, 971, 972, 65_536, i32::MAX - 1,
    i32::MAX,
];

/// Every level, mode and edge of k, allowed or not, with a short list. Of the group
/// sizes each has one, mostly one that there is.
pub fn settings(judge: &mut Judge, rng: &mut XorShift, _: Extent) {
    needs(judge, rng);
    other_sizes(judge, rng);
    for level in (0..=20).chain(FAR_NUMBERS) {
        for mode in (0..=3).chain(FAR_NUMBERS) {
            for k in EDGES_OF_K {
                for width in WIDTHS {
                    let other = rng.one_of(&OTHER_SIZES);
                    let group = rng.one_of(&[32, 32, 32, 128, 128, 128, other]);
                    let setting = Setting { width, mode, k, group };
                    try_setting(judge, rng, Packing { level, setting });
                }
            }
        }
    }
}

/// Every mode and group size at every level that there is: refused 2 below its
/// need.
fn needs(judge: &mut Judge, rng: &mut XorShift) {
    for level in LEVELS {
        for setting in every_setting() {
            let packing = Packing { level, setting };
            let list = packing.some_list(rng, 3);
            let number = if setting.need() > level { 2 } else { 0 };
            judge.compare_meant(packing.length(&list), number);
            judge.compare_meant(packing.pack(&list, 100), number);
        }
    }
}

/// Every group size that there is not, in every setting at every level: refused 2.
fn other_sizes(judge: &mut Judge, rng: &mut XorShift) {
    for setting in every_setting() {
        for group in OTHER_SIZES {
            for (level, number) in [(7, 1), (8, 2), (10, 2), (12, 2), (13, 2), (14, 2), (15, 1)] {
                let packing = Packing { level, setting: Setting { group, ..setting } };
                let list = packing.some_list(rng, 3);
                judge.compare_meant(packing.length(&list), number);
                judge.compare_meant(packing.pack(&list, 100), number);
            }
        }
    }
}

fn try_setting(judge: &mut Judge, rng: &mut XorShift, packing: Packing) {
    let n = rng.below(4) as usize;
    let list = packing.some_list(rng, n);
    judge.compare(packing.length(&list));
    let room = rng.one_of(&[0, 47, 200]);
    judge.compare(packing.pack(&list, room));
}

// ------------------------------------------------------------ the lists

/// Every length around the edges of groups and chunks, each with both widths, every
/// mode and both group sizes, read back at every level.
pub fn every_length(judge: &mut Judge, rng: &mut XorShift, extent: Extent) {
    let short = 0..=66;
    let edges = [95, 96, 97, 127, 128, 129, 130, 160, 161, 255, 256, 257, 383, 385];
    let last = [895, 896, 897, 991, 992, 993];
    let long = (1022..=1027).chain(1055..=1057).chain(2046..=2051).chain(3071..=3073);
    for n in short.chain(edges).chain(last).chain(long) {
        for setting in every_setting() {
            for _ in 0..extent.rounds(1).min(3) {
                let packing = at_some_level(rng, setting);
                let list = packing.some_list(rng, n);
                there_and_back(judge, rng, packing, &list);
            }
        }
    }
}

/// The setting with another k, at a level that allows it, or now and then not.
fn at_some_level(rng: &mut XorShift, setting: Setting) -> Packing {
    let k = some_k_of_mode(rng, setting.width, setting.mode);
    let need = setting.need();
    let level = need + rng.below((HIGHEST_LEVEL - need + 1) as u64) as u32;
    let level = if rng.chance(40) { rng.one_of(&LEVELS) } else { level };
    Packing { level, setting: Setting { k, ..setting } }
}

/// Lists are read back at the highest level and another; one short list in three at
/// all levels and beyond.
fn there_and_back(judge: &mut Judge, rng: &mut XorShift, packing: Packing, list: &List) {
    let Some(stream) = measure_and_pack(judge, packing, list) else {
        return;
    };
    if list.values().count() <= 70 && rng.chance(3) {
        read_at_levels(judge, &[7, 8, 9, 10, 11, 12, 13, 14, 15], &stream);
    } else {
        let other = rng.one_of(&[7, 8, 9, 10, 11, 12, 13, 15, 20, 1 << 31, u32::MAX]);
        read_at_levels(judge, &[HIGHEST_LEVEL, other], &stream);
    }
    let n = list.values().count() as u64;
    let indices: Vec<u64> = (0..n.min(4)).map(|_| rng.below(n)).collect();
    probe_at(judge, HIGHEST_LEVEL, &stream, packing.setting.width, &indices);
}

pub fn random_lists(judge: &mut Judge, rng: &mut XorShift, extent: Extent) {
    for _ in 0..extent.rounds(6000) {
        let setting = rng.one_of(&every_setting());
        let packing = at_some_level(rng, setting);
        let n = if rng.chance(50) { 3000 + rng.below(6000) as usize } else { some_length(rng) };
        let list = packing.some_list(rng, n);
        there_and_back(judge, rng, packing, &list);
    }
}

/// For every allowed k a list of the patterns at the edges of its rules with the
/// one group size, and a few of them with the other, by the first writer that can and
/// by the last.
pub fn every_k(judge: &mut Judge, rng: &mut XorShift, extent: Extent) {
    let step = if extent == Extent::Quick { 15 } else { 1 };
    for width in WIDTHS {
        for k in allowed_k(width).step_by(step) {
            let edges = edge_patterns(width, k);
            let few: Vec<u64> = (0..10).map(|_| rng.one_of(&edges)).collect();
            let sizes = if k % 2 == 0 { [32, 128] } else { [128, 32] };
            for (patterns, group) in [edges, few].into_iter().zip(sizes) {
                let setting = Setting { width, mode: 1, k, group };
                let list = List::of(width, patterns);
                for level in [setting.need(), HIGHEST_LEVEL] {
                    let packing = Packing { level, setting };
                    if let Some(stream) = measure_and_pack(judge, packing, &list) {
                        read(judge, HIGHEST_LEVEL, &stream);
                    }
                }
            }
        }
    }
}

/// The small sound streams read at every level, known or not.
pub fn every_level(judge: &mut Judge, _: &mut XorShift, _: Extent) {
    let levels: Vec<u32> = (0..=20).chain(FAR_NUMBERS).collect();
    for stream in small_streams() {
        read_at_levels(judge, &levels, &stream);
    }
}

// ------------------------------------------------------------ the limit

/// The longest lists, one value more, and a stream that states one more.
pub fn value_limit(judge: &mut Judge, rng: &mut XorShift, extent: Extent) {
    for (width, mode, k, group) in
        [(WIDTH_32, 0, 0, 128), (WIDTH_64, 1, -20, 32), (WIDTH_32, 2, 0, 32)]
    {
        let setting = Setting { width, mode, k, group };
        let packing = Packing { level: HIGHEST_LEVEL, setting };
        longest_list(judge, rng, packing);
        let more = List::of(width, (0..=MOST_VALUES).map(|_| 0));
        judge.compare(packing.length(&more));
        judge.compare(packing.pack(&more, 40_000));
        if extent == Extent::Quick {
            break;
        }
    }
    for group in SIZES {
        for n in [MOST_VALUES, MOST_VALUES + 1] {
            read(judge, HIGHEST_LEVEL, &stream_of_zeros(group, n as u32));
        }
    }
}

fn longest_list(judge: &mut Judge, rng: &mut XorShift, packing: Packing) {
    let n = MOST_VALUES as usize;
    let Packing { level, setting: Setting { width, mode, k, .. } } = packing;
    let of_chunk = |_| some_patterns_of_mode(rng, width, mode, k, 1024);
    let patterns: Vec<u64> = (0..n / 1024).flat_map(of_chunk).collect();
    let list = List::of(width, patterns);
    let length = judge.compare(packing.length(&list)) as usize;
    judge.compare(packing.pack(&list, length));
    judge.compare(packing.pack(&list, length - 1));
    let Some(stream) = packing.packed(&list) else {
        return;
    };
    judge.compare(Call::Check { level, stream: &stream });
    for room in [n, n - 1] {
        judge.compare(Call::Unpack { width, level, stream: &stream, room });
    }
    let random = rng.below(MOST_VALUES);
    probe_at(judge, level, &stream, width, &[0, random, MOST_VALUES - 1, MOST_VALUES]);
}

/// The stream of n zeros, made up so that n may pass the limit.
fn stream_of_zeros(group: u32, n: u32) -> Vec<u8> {
    let setting = Setting { width: WIDTH_32, mode: 0, k: 0, group };
    let (c, groups) = (n.div_ceil(1024), n.div_ceil(group));
    let (place, need) = (48 + 4 * c, setting.need());
    let mut numbers = vec![1, need, need, 32, setting.mode_number(), 0];
    numbers.extend([n, c, 48, place, 0, place + groups]);
    numbers.extend((0..c).map(|chunk| 1024 / group * chunk));
    let mut stream = bytes_of(&numbers);
    stream.resize(stream.len() + groups as usize, 0);
    stream
}
