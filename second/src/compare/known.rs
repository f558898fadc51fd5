//! The known values of the document, as they stand there. The reference must
//! give them too, or the comparison would say nothing about them.

use super::call::{Call, List};
use super::judge::Judge;
use super::outcome::refused;
use super::random::XorShift;
use super::streams::{
    bytes_of, every_setting, stated_count, stream_of_codes, Setting, LEVELS, SIZES,
};
use super::Extent;
use crate::numbers::{Width, WIDTH_32, WIDTH_64};
use crate::stream::HIGHEST_LEVEL;
use crate::Refusal;

/// Mode 0, width 32: pattern and code.
pub const LOSSLESS_32: [(u64, u64); 10] = [
    (0x0000_0000, 0),
    (0x8000_0000, 2),
    (0x0000_0001, 4),
    (0x3F80_0000, 0x03FF_FFFF),
    (0xBF80_0000, 0x03FF_FFFD),
    (0x4000_0000, 0x01FF_FFFF),
    (0x4080_0000, 0x0200_0000),
    (0x0080_0000, 0xFFFF_FFFF),
    (0x7F80_0000, 0xFE00_0000),
    (0x7FC0_0000, 0xFF00_0000),
];

/// Mode 1, width 32, k = -2: pattern, code and restored pattern, with halves away
/// from zero.
const TOLERANCE_32: [(u64, u64, u64); 7] = [
    (0x3E80_0000, 2, 0x3F00_0000),             // 0.25, restored 0.5
    (0x3E60_0000, 0, 0),                       // 0.21875
    (0xBF40_0000, 5, 0xBF80_0000),             // -0.75, restored -1.0
    (0x4A7F_FFFF, 16_777_216, 0x4A80_0000),    // 4194303.75, restored 4194304
    (0x4A80_0000, 16_777_216, 0x4A80_0000),    // 4194304
    (0x7F80_0000, 1_795_162_112, 0x7F80_0000), // infinity
    (0x3E7F_FFFF, 0, 0),                       // the last below 0.25
];

/// The same with halves to even.
const TOLERANCE_TO_EVEN_32: [(u64, u64, u64); 10] = [
    (0x3E80_0000, 0, 0),                       // 0.25
    (0xBE80_0000, 1, 0x8000_0000),             // -0.25, restored -0
    (0x3E60_0000, 0, 0),                       // 0.21875
    (0x3E80_0001, 2, 0x3F00_0000),             // the first above 0.25
    (0xBF40_0000, 5, 0xBF80_0000),             // -0.75, restored -1.0
    (0x3FA0_0000, 4, 0x3F80_0000),             // 1.25, restored 1.0
    (0x4A7F_FFFD, 16_777_212, 0x4A7F_FFFC),    // 4194303.25, restored 4194303
    (0x4A7F_FFFF, 16_777_216, 0x4A80_0000),    // 4194303.75, restored 4194304
    (0x4A80_0000, 16_777_216, 0x4A80_0000),    // 4194304
    (0x7F80_0000, 1_795_162_112, 0x7F80_0000), // infinity
];

/// Mode 2: the patterns of a list, and their codes.
pub type Differences = (&'static [u64], &'static [u64]);

/// Small differences, and those that wrap around either end.
pub const DIFFERENCES_32: [Differences; 7] = [
    (&[5, 7, 7, 4], &[10, 4, 0, 5]),
    (&[0, 0x8000_0000], &[0, 0xFFFF_FFFF]),
    (&[0xFFFF_FFFF, 0, 0xFFFF_FFFF], &[1, 2, 1]),
    (&[0x7FFF_FFFF, 0x8000_0000], &[0xFFFF_FFFE, 2]),
    (&[0x8000_0000, 0x7FFF_FFFF, 0xFFFF_FFFF], &[0xFFFF_FFFF, 1, 0xFFFF_FFFF]),
    (&[0x3F80_0000, 0x3F80_0001, 0xBF80_0001], &[0x7F00_0000, 2, 0xFFFF_FFFF]),
    (&[0x7FC0_0000, 0x7F80_0000], &[0xFF80_0000, 0x007F_FFFF]),
];

pub const DIFFERENCES_64: [Differences; 4] = [
    (&[5, 7, 7, 4], &[10, 4, 0, 5]),
    (&[0, 1 << 63, 0], &[0, u64::MAX, u64::MAX]),
    (&[u64::MAX, 0, u64::MAX], &[1, 2, 1]),
    (&[0xFFFF_FFFF, 1 << 32, u64::MAX >> 1], &[0x1_FFFF_FFFE, 2, 0xFFFF_FFFD_FFFF_FFFE]),
];

/// Bound, width 32: tolerance, and k or the refusal.
const BOUNDS_32: [(f64, Result<i32, u32>); 8] = [
    (0.3, Ok(-2)),
    (0.25, Ok(-2)),
    (power_of_two(200), Ok(103)),
    (power_of_two(-150), Ok(-150)),
    (power_of_two(-151), Err(13)),
    (0.0, Err(12)),
    (-0.0, Err(12)),
    (f64::INFINITY, Err(12)),
];

const fn power_of_two(exponent: i64) -> f64 {
    f64::from_bits(((exponent + 1023) as u64) << 52)
}

pub fn known_values(judge: &mut Judge, _: &mut XorShift, _: Extent) {
    lossless_codes(judge);
    tolerance_codes(judge);
    examples_of_halves(judge);
    for (tolerance, k) in BOUNDS_32 {
        let answer = match k {
            Ok(k) => k as u32 as u64,
            Err(number) => refused(Refusal::bare(number)),
        };
        let tolerance = tolerance.to_bits();
        judge.compare_known(Call::Bound { width: 32, tolerance }, answer, &[]);
    }
    lengths(judge);
    example(judge);
    differences(judge, WIDTH_32, &DIFFERENCES_32);
    differences(judge, WIDTH_64, &DIFFERENCES_64);
    example_of_differences(judge);
    example_of_high_ids(judge);
    example_of_summary(judge);
    summary_of_two_chunks(judge);
    example_of_128(judge);
    longest_streams(judge);
    levels_of_128(judge);
}

fn lossless_codes(judge: &mut Judge) {
    let doubles = (WIDTH_64, 1f64.to_bits(), (1 << 55) - 1);
    let singles = LOSSLESS_32.map(|(pattern, code)| (WIDTH_32, pattern, code));
    for (width, pattern, code) in singles.into_iter().chain([doubles]) {
        judge.compare_known(Call::LosslessCode { width, pattern }, code, &[]);
        judge.compare_known(Call::LosslessRestored { width, code }, pattern, &[]);
    }
}

fn tolerance_codes(judge: &mut Judge) {
    let (width, k) = (WIDTH_32, -2);
    let away = TOLERANCE_32.map(|known| (0, known));
    let to_even = TOLERANCE_TO_EVEN_32.map(|known| (1, known));
    for (halves, (pattern, code, restored)) in away.into_iter().chain(to_even) {
        judge.compare_known(Call::ToleranceCode { width, halves, k, pattern }, 0, &[code]);
        judge.compare_known(Call::ToleranceRestored { width, k, code }, 0, &[restored]);
    }
    for halves in [2, 3, 1 << 31, u32::MAX] {
        let other = Call::ToleranceCode { width, halves, k, pattern: 0 };
        judge.compare_known(other, refused(Refusal::bare(2)), &[]);
    }
    let largest = Call::ToleranceRestored { width, k, code: 2 * 905_969_663 };
    judge.compare_known(largest, 0, &[0x7FFF_FFFF]);
    let above = Call::ToleranceRestored { width, k, code: 2 * 905_969_664 };
    judge.compare_known(above, refused(Refusal::bare(10)), &[]);
}

/// Lists within 2^-2 by every writer that can, with their groups up to level 13 and from
/// level 14 on. The codes of 0.25 and -0.75 are 2 and 5, and then 0 and 5, of 3 bits; that
/// of 0.25 alone is 2, of 2 bits, and then 0, of none.
fn examples_of_halves(judge: &mut Judge) {
    for setting in every_setting().into_iter().filter(|setting| setting.mode == 1) {
        for level in setting.need()..=HIGHEST_LEVEL {
            let (restored, of_two, of_one): (f64, [u8; 2], &[u8]) =
                if level < 14 { (0.5, [3, 0x2A], &[2, 0x02]) } else { (0.0, [3, 0x28], &[0]) };
            let writer = (setting, level);
            example_of_halves(judge, writer, &[0.25, -0.75], &of_two, &[restored, -1.0]);
            example_of_halves(judge, writer, &[0.25], of_one, &[restored]);
        }
    }
}

/// What a writer makes of a list, and every reader from the need on of that.
fn example_of_halves(
    judge: &mut Judge,
    (setting, level): (Setting, u32),
    values: &[f64],
    group: &[u8],
    restored: &[f64],
) {
    let Setting { width, mode, k, group: size } = setting;
    let (need, n, end) = (setting.need(), values.len(), 52 + group.len() as u32);
    let mut header = vec![1, level, need, width.bits(), setting.mode_number(), k as u32];
    header.extend([n as u32, 1, 48, 52, 0, end, 0]);
    let stream = &[&bytes_of(&header), group].concat();
    let bytes: Vec<u64> = stream.iter().map(|&byte| byte as u64).collect();
    let patterns = |values: &[f64]| -> Vec<u64> {
        values.iter().map(|&value| pattern_of(width, value)).collect()
    };
    let list = List::of(width, patterns(values));
    let (values, room) = (list.values(), stream.len());
    judge.compare_known(Call::Length { level, mode, k, group: size, values }, room as u64, &[]);
    let pack = Call::Pack { level, mode, k, group: size, values, room };
    judge.compare_known(pack, room as u64, &bytes);
    for level in need..=HIGHEST_LEVEL {
        judge.compare_known(Call::Check { level, stream }, n as u64, &[]);
        let unpack = Call::Unpack { width, level, stream, room: n };
        judge.compare_known(unpack, n as u64, &patterns(restored));
    }
}

/// The pattern of a value, which a single holds too.
fn pattern_of(width: Width, value: f64) -> u64 {
    if width == WIDTH_32 {
        (value as f32).to_bits() as u64
    } else {
        value.to_bits()
    }
}

/// Mode 0: no values, 1,024 zeros, and 1,025, which have two chunks. A group of
/// zeros is its width byte.
fn lengths(judge: &mut Judge) {
    let of_32 = [(0, 48), (1024, 48 + 4 + 32), (1025, 48 + 8 + 33)];
    let of_128 = [(0, 48), (1, 53), (128, 53), (129, 54), (1024, 48 + 4 + 8), (1025, 48 + 8 + 9)];
    let of_32 = of_32.map(|(n, length)| (8, 32, n, length));
    let of_128 = of_128.map(|(n, length)| (13, 128, n, length));
    for (level, group, n, length) in of_32.into_iter().chain(of_128) {
        let list = List::of(WIDTH_32, vec![0; n]);
        let call = Call::Length { level, mode: 0, k: 0, group, values: list.values() };
        judge.compare_known(call, length, &[]);
    }
}

/// The list 0, -0, 2^-149 with groups of 128: another need and mode number, and the
/// same data. 1,024 zeros are 8 bytes of data.
fn example_of_128(judge: &mut Judge) {
    let (setting, level) = (Setting { width: WIDTH_32, mode: 0, k: 0, group: 128 }, 13);
    let mut stream = bytes_of(&[1, 13, 13, 32, 256, 0, 3, 1, 48, 52, 0, 55, 0]);
    stream.extend([0x03, 0x10, 0x01]);
    KnownList { setting, level, patterns: vec![0, 0x8000_0000, 1], stream }.compare(judge);

    let mut stream = bytes_of(&[1, 13, 13, 32, 256, 0, 1024, 1, 48, 52, 0, 60, 0]);
    stream.extend([0; 8]);
    KnownList { setting, level, patterns: vec![0; 1024], stream }.compare_whole(judge);
}

/// The length formula: 48 + 4c + (n/size rounded up) + n·W/8, where all codes have W
/// bits: the least normal number's are all ones.
fn longest_streams(judge: &mut Judge) {
    for (width, least_normal, bytes) in [(WIDTH_32, 1 << 23, 4), (WIDTH_64, 1 << 52, 8)] {
        for group in SIZES {
            for n in [0, 1, 31, 32, 33, 127, 128, 129, 1023, 1024, 1025, 2500] {
                let list = List::of(width, vec![least_normal; n]);
                let (level, mode, k, values) = (13, 0, 0, list.values());
                let groups = n.div_ceil(group as usize);
                let length = 48 + 4 * n.div_ceil(1024) + groups + n * bytes;
                let measured = Call::Length { level, mode, k, group, values };
                judge.compare_known(measured, length as u64, &[]);
                let pack = Call::Pack { level, mode, k, group, values, room: length };
                judge.compare_known(pack, length as u64, &[1, 0, 0, 0, 13]);
            }
        }
    }
}

/// Groups of 128 need 13 in every mode and width: the writers of lower levels refuse
/// them by 2, the readers by 7.
fn levels_of_128(judge: &mut Judge) {
    for setting in every_setting().into_iter().filter(|setting| setting.group == 128) {
        let Setting { width, mode, k, group } = setting;
        let list = List::of(width, [5, 7]);
        let values = list.values();
        let stream = &stream_of_codes(setting, &[10, 4]);
        for level in [8, 9, 10, 11, 12] {
            let refusal = refused(Refusal::bare(2));
            judge.compare_known(Call::Length { level, mode, k, group, values }, refusal, &[]);
            let pack = Call::Pack { level, mode, k, group, values, room: 60 };
            judge.compare_known(pack, refusal, &[]);

            let refusal = refused(Refusal::with_detail(7, 13));
            for call in [
                Call::Check { level, stream },
                Call::Unpack { width, level, stream, room: 2 },
                Call::Probe { width, level, stream, index: 0 },
                Call::AddSummary { level, stream, room: 200 },
                Call::TestSummary { level, stream },
                Call::ChunksFrom { width, level, x: 0, stream, room: 2 },
            ] {
                judge.compare_known(call, refusal, &[]);
            }
        }
        judge.compare_known(Call::Check { level: 13, stream }, 2, &[]);
    }
}

/// The list 0, -0, 2^-149, which is 55 bytes.
fn example(judge: &mut Judge) {
    let mut stream = bytes_of(&[1, 8, 8, 32, 0, 0, 3, 1, 48, 52, 0, 55, 0]);
    stream.extend([0x03, 0x10, 0x01]);
    let patterns = vec![0, 0x8000_0000, 1];
    let setting = Setting { width: WIDTH_32, mode: 0, k: 0, group: 32 };
    KnownList { setting, level: 8, patterns, stream }.compare(judge);
}

/// Mode 2 with groups of 32.
fn by_differences(width: Width) -> Setting {
    Setting { width, mode: 2, k: 0, group: 32 }
}

fn differences(judge: &mut Judge, width: Width, lists: &[Differences]) {
    for (patterns, codes) in lists {
        for group in SIZES {
            let setting = Setting { group, ..by_differences(width) };
            let (patterns, stream) = (patterns.to_vec(), stream_of_codes(setting, codes));
            KnownList { setting, level: HIGHEST_LEVEL, patterns, stream }.compare(judge);
        }
    }
    difference_levels(judge, width);
}

/// The list 5, 7, 7, 4 in mode 2, byte for byte; and 1,025 sevens, of which the
/// second chunk's only one is again the difference from 0.
fn example_of_differences(judge: &mut Judge) {
    let (setting, level) = (by_differences(WIDTH_32), 11);
    let mut stream = bytes_of(&[1, 11, 11, 32, 2, 0, 4, 1, 48, 52, 0, 55, 0]);
    stream.extend([0x04, 0x4A, 0x50]);
    KnownList { setting, level, patterns: vec![5, 7, 7, 4], stream }.compare(judge);

    let mut stream = bytes_of(&[1, 11, 11, 32, 2, 0, 1025, 2, 48, 56, 0, 106, 0, 48]);
    stream.extend([0x04, 0x0E]);
    stream.resize(104, 0);
    stream.extend([0x04, 0x0E]);
    KnownList { setting, level, patterns: vec![7; 1025], stream }.compare(judge);
}

/// Mode 2 needs 11 at both widths, and its k is 0.
fn difference_levels(judge: &mut Judge, width: Width) {
    let list = List::of(width, [5, 7]);
    let values = list.values();
    for (level, k, number) in
        [(7, 0, 1), (8, 0, 2), (9, 0, 2), (10, 0, 2), (11, 1, 2), (14, -2, 2), (15, 0, 1)]
    {
        let (mode, group, refusal) = (2, 32, refused(Refusal::bare(number)));
        judge.compare_known(Call::Length { level, mode, k, group, values }, refusal, &[]);
        let pack = Call::Pack { level, mode, k, group, values, room: 60 };
        judge.compare_known(pack, refusal, &[]);
    }
    let stream = &stream_of_codes(by_differences(width), &[10, 4]);
    for level in [8, 9, 10] {
        let refusal = refused(Refusal::with_detail(7, 11));
        judge.compare_known(Call::Check { level, stream }, refusal, &[]);
        judge.compare_known(Call::Unpack { width, level, stream, room: 2 }, refusal, &[]);
        judge.compare_known(Call::Probe { width, level, stream, index: 0 }, refusal, &[]);
    }
}

/// The example with two empty side parts that must be understood after one that
/// may be skipped, at each level with each need.
fn example_of_high_ids(judge: &mut Judge) {
    for needed in LEVELS {
        let mut stream = bytes_of(&[1, 14, needed, 32, 0, 0, 3, 1, 48, 52, 3, 55, 0]);
        stream.extend([0x03, 0x10, 0x01]);
        stream.extend(bytes_of(&[0x7FFF_FFFF, 91, 0, 0x8000_0000, 91, 0, 0x8000_0001, 91, 0]));
        for level in LEVELS {
            let refusal = refused(match needed {
                _ if needed > level => Refusal::with_detail(7, needed as u64),
                12 => Refusal::with_detail(15, 0x8000_0000),
                _ => Refusal::bare(8),
            });
            let (stream, width) = (&stream, WIDTH_32);
            judge.compare_known(Call::Check { level, stream }, refusal, &[]);
            judge.compare_known(Call::Unpack { width, level, stream, room: 3 }, refusal, &[]);
            judge.compare_known(Call::Probe { width, level, stream, index: 2 }, refusal, &[]);
        }
    }
}

/// The example with its summary: no not-a-number, the smallest -0, the largest
/// 2^-149. The part follows a table of one entry.
fn example_of_summary(judge: &mut Judge) {
    let (width, level) = (WIDTH_32, 8);
    let mut plain = bytes_of(&[1, 8, 8, 32, 0, 0, 3, 1, 48, 52, 0, 55, 0]);
    plain.extend([0x03, 0x10, 0x01]);
    let mut copy = bytes_of(&[1, 8, 8, 32, 0, 0, 3, 1, 48, 52, 1, 55, 0]);
    copy.extend([0x03, 0x10, 0x01]);
    copy.extend(bytes_of(&[1, 67, 12, 0, 0x8000_0000, 1]));
    compare_summary(judge, level, &plain, &copy);
    let [plain, copy] = [&plain, &copy];
    for (stream, number) in [(plain, 17), (copy, 0)] {
        judge.compare_meant(Call::TestSummary { level, stream }, number);
    }
    let twice = Call::AddSummary { level, stream: copy, room: 200 };
    judge.compare_known(twice, refused(Refusal::bare(16)), &[]);
    for (x, listed) in [
        (0, &[0][..]),
        (0x8000_0000, &[0]),
        (1, &[0]),
        (2, &[]),
        (0x7F80_0000, &[]),
        (0xFF80_0000, &[0]),
        (0x8000_0001, &[0]),
    ] {
        let list = Call::ChunksFrom { width, level, x, stream: copy, room: 3 };
        judge.compare_known(list, listed.len() as u64, listed);
    }
    let list = |x, room| Call::ChunksFrom { width, level, x, stream: copy, room };
    judge.compare_known(list(0x7FC0_0000, 3), refused(Refusal::bare(2)), &[]);
    judge.compare_known(list(0, 0), refused(Refusal::with_detail(4, 1)), &[]);
}

/// 1,025 doubles in mode 2, all the same not-a-number but for an infinity at the
/// end: the first chunk is never listed, though its summary holds 0 and 0.
fn summary_of_two_chunks(judge: &mut Judge) {
    let (width, level) = (WIDTH_64, 11);
    // All bits set is the difference -1, code 1; -infinity is -2^52, code 2^53 - 1.
    let mut codes = vec![0; 1025];
    codes[0] = 1;
    codes[1024] = (1 << 53) - 1;
    let plain = stream_of_codes(by_differences(width), &codes);
    let mut copy = plain.clone();
    copy[40] = 1;
    copy.extend(bytes_of(&[1, plain.len() as u32 + 12, 40]));
    copy.extend(bytes_of(&[1024, 0, 0, 0, 0, 0, 0, 0xFFF0_0000, 0, 0xFFF0_0000]));
    compare_summary(judge, level, &plain, &copy);
    let minus_infinity = 0xFFF0 << 48;
    for (x, listed) in [(minus_infinity, &[1][..]), (minus_infinity - 1, &[]), (0, &[])] {
        let list = Call::ChunksFrom { width, level, x, stream: &copy, room: 3 };
        judge.compare_known(list, listed.len() as u64, listed);
    }
}

/// The summary is added as the copy has it, and is true.
fn compare_summary(judge: &mut Judge, level: u32, plain: &[u8], copy: &[u8]) {
    let bytes: Vec<u64> = copy.iter().map(|&byte| byte as u64).collect();
    let length = copy.len();
    let add = |room| Call::AddSummary { level, stream: plain, room };
    judge.compare_known(add(length), length as u64, &bytes);
    judge.compare_known(add(length - 1), refused(Refusal::with_detail(4, length as u64)), &[]);
    let n = stated_count(plain);
    for stream in [plain, copy] {
        judge.compare_known(Call::Check { level, stream }, n, &[]);
    }
    judge.compare_known(Call::TestSummary { level, stream: copy }, n, &[]);
}

// ----------------------------------------------------------- whole lists

/// A list and its stream at a level, in a mode whose k is 0 and which alters no
/// value.
pub struct KnownList {
    pub setting: Setting,
    pub level: u32,
    pub patterns: Vec<u64>,
    pub stream: Vec<u8>,
}

impl KnownList {
    fn compare(&self, judge: &mut Judge) {
        self.compare_whole(judge);
        self.compare_probes(judge, 0..self.patterns.len());
    }

    /// All operations but probe.
    pub fn compare_whole(&self, judge: &mut Judge) {
        let KnownList { setting, level, ref patterns, ref stream } = *self;
        let Setting { width, mode, k, group } = setting;
        let bytes: Vec<u64> = stream.iter().map(|&byte| byte as u64).collect();
        let list = List::of(width, patterns.iter().copied());
        let (values, n, length) = (list.values(), patterns.len(), stream.len());
        judge.compare_known(Call::Length { level, mode, k, group, values }, length as u64, &[]);
        let pack = Call::Pack { level, mode, k, group, values, room: length + 5 };
        judge.compare_known(pack, length as u64, &bytes);
        judge.compare_known(Call::Check { level, stream }, n as u64, &[]);
        let unpack = Call::Unpack { width, level, stream, room: n + 1 };
        judge.compare_known(unpack, n as u64, patterns);
    }

    pub fn compare_probes(&self, judge: &mut Judge, indices: impl Iterator<Item = usize>) {
        let KnownList { setting: Setting { width, .. }, level, ref patterns, ref stream } = *self;
        for index in indices {
            let pattern = patterns[index];
            let probe = Call::Probe { width, level, stream, index: index as u64 };
            judge.compare_known(probe, kind_of(width, pattern), &[pattern]);
        }
    }
}

/// Probe's answer for a pattern: 0 finite, 1 infinity, 2 not-a-number.
pub fn kind_of(width: Width, pattern: u64) -> u64 {
    let infinity = width.greatest_field() << width.fraction_bits();
    let ordinal = width.ordinal(pattern);
    (ordinal >= infinity) as u64 + (ordinal > infinity) as u64
}
