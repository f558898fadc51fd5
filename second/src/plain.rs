//! The same format once more, tuned for speed: the bar of the benchmark.
//!
//! Ordinary safe Rust. Values are coded a group at a time in a fixed array, by loops
//! that the compiler turns into steps of several lanes. Codes are put and taken in
//! blocks of 32, which fill whole bytes, by a function for each width byte, in which
//! every shift is known; that of the difference mode takes and sums up at once. A
//! group is one block, or four of them under one width byte. The tolerance code divides by exact
//! products of floats, and has a function for each rule of halves. Nothing is allocated.
//! The rules, constants and checks are written here again rather than borrowed
//! from the reference, so that comparing the two says something about both.
//! `plain.c` is the same in C.

use crate::{Answer, Refusal};
use std::ops::{BitOr, RangeInclusive};

const MOST_VALUES: usize = 1 << 20;
const CHUNK: usize = 1024;
/// Codes that are put and taken at once: a group has one such block, or four.
const BLOCK: usize = 32;
const HEADER: usize = 48;
/// What groups of 128 add to the mode number of the header.
const ADDED_FOR_128: u32 = 256;

/// Gives each index of a block to a macro.
macro_rules! for_each_code {
    ($each:ident) => {
        for_each_code!($each; 0 1 2 3 4 5 6 7 8 9 10 11 12 13 14 15 16 17 18 19 20 21 22 23 24 25
            26 27 28 29 30 31);
    };
    ($each:ident; $($index:literal)*) => { $($each!($index);)* };
}

/// A function for each width byte, up to 32 and, for `u64`, from there to 64.
macro_rules! for_each_width {
    ($function:ident, u32) => {
        for_each_width!($function, u32; 0 1 2 3 4 5 6 7 8 9 10 11 12 13 14 15 16 17 18 19 20 21 22
            23 24 25 26 27 28 29 30 31 32)
    };
    ($function:ident, u64) => {
        for_each_width!($function, u64; 0 1 2 3 4 5 6 7 8 9 10 11 12 13 14 15 16 17 18 19 20 21 22
            23 24 25 26 27 28 29 30 31 32 33 34 35 36 37 38 39 40 41 42 43 44 45 46 47 48 49 50 51
            52 53 54 55 56 57 58 59 60 61 62 63 64)
    };
    ($function:ident, $word:ident; $($w:literal)*) => { &[$($function::<$word, $w>),*] };
}

// ------------------------------------------------------------- the codes

/// An unsigned word holding a pattern or a code of its width.
pub trait Lane: Copy + Default + Ord + BitOr<Output = Self> + 'static {
    const W: u32;
    const LEAST_K: i32;
    const GREATEST_K: i32;
    /// Put and take 32 codes of as many bits as the index says, and sum up as
    /// many differences.
    const PUT: &'static [Put<Self>];
    const TAKE: &'static [Take<Self>];
    const SUM: &'static [Sum<Self>];
    /// What the tolerance code needs of an allowed k.
    type Bin: Copy;

    fn wide(self) -> u64;
    fn narrow(word: u64) -> Self;
    fn lossless_code(self) -> Self;
    fn lossless_pattern(self) -> Self;
    /// The code of the difference from the pattern before.
    fn difference_code(self, before: Self) -> Self;
    /// The pattern of a code of a difference from the pattern before.
    fn difference_pattern(self, before: Self) -> Self;
    /// The largest code a stream may hold: in mode 1 twice the largest u, plus
    /// the sign.
    fn largest_code(mode: u32, k: i32) -> Self;
    fn bin(k: i32) -> Self::Bin;
    /// By exact products of floats. Halves go away from zero.
    fn tolerance_code(self, bin: Self::Bin) -> Self;
    /// The same, but that halves go to even.
    fn tolerance_code_to_even(self, bin: Self::Bin) -> Self;
    fn tolerance_pattern(self, bin: Self::Bin) -> Self;
}

pub type Put<P> = fn(&[P; BLOCK], &mut [u8]);
pub type Take<P> = fn(&[u8; WINDOW], &mut [P; BLOCK]);
pub type Sum<P> = fn(&[u8; WINDOW], P, &mut [P; BLOCK]) -> P;

/// What one k gives.
#[derive(Clone, Copy)]
pub struct Bin<Word, Float> {
    /// The ordinal of T.
    threshold: Word,
    /// What lies between an ordinal from T on and its magnitude code.
    lift: Word,
    /// E itself.
    e: Float,
    /// 1/E as two powers of two, since 1/E alone may be too large.
    per_e: [f64; 2],
}

macro_rules! lane {
    ($word:tt, $signed:ident, $float:ident, $m:literal, $least_k:literal, $greatest_k:literal,
     $half_up:ident, $whole_as_float:ident) => {
        impl Bin<$word, $float> {
            /// The code of a pattern, told the magnitude code that it has if it is
            /// below T.
            #[inline(always)]
            fn code(self, pattern: $word, near: $word) -> $word {
                let ordinal = pattern << 1 >> 1;
                let far = ordinal.wrapping_sub(self.lift);
                let u = if ordinal < self.threshold { near } else { far };
                (u << 1) | (pattern >> ($word::BITS - 1))
            }
        }

        impl Lane for $word {
            const W: u32 = $word::BITS;
            const LEAST_K: i32 = $least_k;
            const GREATEST_K: i32 = $greatest_k;
            const PUT: &'static [Put<$word>] = for_each_width!(put_codes, $word);
            const TAKE: &'static [Take<$word>] = for_each_width!(take_codes, $word);
            const SUM: &'static [Sum<$word>] = for_each_width!(sum_differences, $word);
            type Bin = Bin<$word, $float>;

            #[inline(always)]
            fn wide(self) -> u64 {
                self as u64
            }

            #[inline(always)]
            fn narrow(word: u64) -> Self {
                word as $word
            }

            #[inline(always)]
            fn lossless_code(self) -> Self {
                const UNIT: $word = 1 << ($m + 1);
                // For fields from 1 to the middle, x is less - 2^(W-1): it is
                // negative, and its code is the complement of 2·less. For all
                // others x is rotated, perhaps without its highest bit, and
                // its code is 2·rotated. The highest bit of `less`, which
                // wraps for field 0, tells the two apart.
                let rotated = self.rotate_left(1);
                let less = rotated.wrapping_sub(UNIT);
                let negative = !((less as $signed) >> ($word::BITS - 1)) as $word;
                ((rotated.wrapping_sub(negative & UNIT)) << 1) ^ negative
            }

            #[inline(always)]
            fn lossless_pattern(self) -> Self {
                const UNIT: $word = 1 << ($m + 1);
                const HALF: $word = 1 << ($word::BITS - 1);
                let negative = (self & 1).wrapping_neg();
                let x = (self ^ negative) >> 1;
                // Where x is not negative and has a field, its highest bit was
                // taken off; where it was negative, a unit was.
                let other = x | (!x.wrapping_sub(UNIT) & HALF);
                let rotated = (other & !negative) | (x.wrapping_add(UNIT) & negative);
                rotated.rotate_right(1)
            }

            #[inline(always)]
            fn difference_code(self, before: Self) -> Self {
                let x = self.wrapping_sub(before) as $signed;
                // -2x-1 is the complement of 2x.
                ((x << 1) ^ (x >> ($word::BITS - 1))) as $word
            }

            #[inline(always)]
            fn difference_pattern(self, before: Self) -> Self {
                before.wrapping_add((self >> 1) ^ (self & 1).wrapping_neg())
            }

            fn largest_code(mode: u32, k: i32) -> Self {
                match mode {
                    1 => $word::MAX - (((k - $least_k) as $word) << ($m + 1)),
                    _ => $word::MAX,
                }
            }

            /// Only for an allowed k: then d, with E = 2^d units of the
            /// smallest subnormal, is not negative.
            fn bin(k: i32) -> Self::Bin {
                let d = (k - $least_k) as $word;
                let threshold = (d + 1) << $m;
                // 2^d units: a subnormal below bit m, else field d-m+1.
                let e = if d < $m { 1 << d } else { (d - $m + 1) << $m };
                let half = (k + 1) / 2;
                Bin {
                    threshold,
                    lift: threshold - (1 << $m),
                    e: $float::from_bits(e),
                    per_e: [power_of_two(-half), power_of_two(half - k - 1)],
                }
            }

            #[inline(always)]
            fn tolerance_code(self, bin: Self::Bin) -> Self {
                // Exact, but for magnitudes so far below E/2 that no rounding
                // lifts them there. From T on it is not used.
                let magnitude = $float::from_bits(self << 1 >> 1) as f64;
                bin.code(self, $half_up(magnitude * bin.per_e[0] * bin.per_e[1]))
            }

            #[inline(always)]
            fn tolerance_code_to_even(self, bin: Self::Bin) -> Self {
                // From 2^m to 2^(m+1) a float counts ones: adding 2^m rounds to
                // a whole number, halves to even, as IEEE 754 does. Singles hold
                // the powers too, and their products are as exact.
                const TWO_TO_M: $float = ((1 as $word) << $m) as $float;
                let [first, second] = bin.per_e.map(|power| power as $float);
                let bins = $float::from_bits(self << 1 >> 1) * first * second;
                bin.code(self, (bins + TWO_TO_M).to_bits().wrapping_sub(TWO_TO_M.to_bits()))
            }

            #[inline(always)]
            fn tolerance_pattern(self, bin: Self::Bin) -> Self {
                let u = self >> 1;
                let sign = self << ($word::BITS - 1);
                // Exact: u has at most m bits and u·E is below T, a normal
                // number, and a whole number of the smallest unit.
                let near = ($whole_as_float(u) * bin.e).to_bits();
                let far = u.wrapping_add(bin.lift);
                let ordinal = if u < (1 << $m) { near } else { far };
                ordinal | sign
            }
        }
    };
}

/// From 2^52 to 2^53 a binary64 counts ones: adding this rounds to a whole
/// number, which the lower bits then show.
const TWO_TO_52: f64 = (1u64 << 52) as f64;

/// 2^exponent, for exponents of normal numbers.
fn power_of_two(exponent: i32) -> f64 {
    f64::from_bits(((exponent + 1023) as u64) << 52)
}

/// Below 2^23 and with at most 24 significant bits, rounded to the nearest
/// whole number, halves up: 2^-26 lifts a half above the half, and nothing
/// else past one.
#[inline(always)]
fn half_up_24(bins: f64) -> u32 {
    const LIFT: f64 = 1.0 / (1u64 << 26) as f64;
    (bins + LIFT + TWO_TO_52).to_bits() as u32
}

/// Below 2^52, rounded to the nearest whole number, halves up: those that went
/// down to an even number are found by what is left.
#[inline(always)]
fn half_up_53(bins: f64) -> u64 {
    let rounded = bins + TWO_TO_52;
    let went_down = bins - (rounded - TWO_TO_52) == 0.5;
    rounded.to_bits().wrapping_sub(TWO_TO_52.to_bits()).wrapping_add(went_down as u64)
}

/// u as a float; exact for u < 2^23 (others are not used).
#[inline(always)]
fn whole_as_f32(u: u32) -> f32 {
    u as i32 as f32
}

/// u as a float; exact for u < 2^52 (others are not used).
#[inline(always)]
fn whole_as_f64(u: u64) -> f64 {
    f64::from_bits(u | TWO_TO_52.to_bits()) - TWO_TO_52
}

lane!(u32, i32, f32, 23, -150, 103, half_up_24, whole_as_f32);
lane!(u64, i64, f64, 52, -1075, 970, half_up_53, whole_as_f64);

// -------------------------------------------------------------- the modes

/// How a writer makes codes of patterns.
trait Coding<P: Lane>: Copy {
    /// Hands on each group of a chunk by its codes and how many are its own. G is
    /// the group size. Codes past a short group's count are 0, which changes
    /// neither the width nor the bytes, as padding bits are zero too.
    fn for_each_group<const G: usize>(self, chunk: &[P], hand_on: impl FnMut(&[P; G], usize));
}

/// How a mode restores patterns.
trait Restoring<P: Lane>: Copy {
    /// Restores a block from the codes of w bits that begin the bytes. What code
    /// 0 restores is told, and answered for the next block.
    fn restore(self, packed: &[u8], w: u32, still: P, block: &mut [P]) -> P;

    /// The pattern at an index of the checked chunk that begins the bytes.
    fn pattern_at<const G: usize>(self, chunk: &[u8], index: usize) -> P;
}

/// Modes 0 and 1: each pattern has its own code, and code 0 is pattern 0. The
/// function makes the one of the other.
#[derive(Clone, Copy)]
struct Each<Function>(Function);

impl<P: Lane, Code: Fn(P) -> P + Copy> Coding<P> for Each<Code> {
    #[inline(always)]
    fn for_each_group<const G: usize>(self, chunk: &[P], mut hand_on: impl FnMut(&[P; G], usize)) {
        for group in chunk.chunks(G) {
            hand_on(&codes_of(group, self.0), group.len());
        }
    }
}

impl<P: Lane, Restored: Fn(P) -> P + Copy> Restoring<P> for Each<Restored> {
    #[inline(always)]
    fn restore(self, packed: &[u8], w: u32, _: P, block: &mut [P]) -> P {
        let codes = taken(packed, w);
        match <&mut [P; BLOCK]>::try_from(&mut *block) {
            Ok(full) => restore_into(full, &codes, self.0),
            Err(_) => restore_into(block, &codes, self.0),
        }
        P::default()
    }

    fn pattern_at<const G: usize>(self, chunk: &[u8], index: usize) -> P {
        (self.0)(code_at::<P, G>(chunk, index))
    }
}

/// The codes of up to G values. A short group is filled up with pattern 0.
#[inline(always)]
fn codes_of<P: Lane, const G: usize>(group: &[P], code: impl Fn(P) -> P) -> [P; G] {
    match <&[P; G]>::try_from(group) {
        Ok(full) => coded(full, code),
        Err(_) => {
            let mut filled = [P::default(); G];
            filled[..group.len()].copy_from_slice(group);
            coded(&filled, code)
        }
    }
}

/// A plain loop, which the compiler turns into steps of several lanes.
#[inline(always)]
fn coded<P: Lane, const G: usize>(patterns: &[P; G], code: impl Fn(P) -> P) -> [P; G] {
    let mut codes = [P::default(); G];
    // Block by block: the compiler unrolls a loop of 32.
    let blocks = codes.as_chunks_mut::<BLOCK>().0.iter_mut().zip(patterns.as_chunks::<BLOCK>().0);
    for (to, from) in blocks {
        for (to, &from) in to.iter_mut().zip(from) {
            *to = code(from);
        }
    }
    codes
}

/// Restores as many codes as there are elements; a block of known length
/// lets the compiler unroll.
#[inline(always)]
fn restore_into<P: Lane>(block: &mut [P], codes: &[P; BLOCK], restored: impl Fn(P) -> P) {
    for (element, &code) in block.iter_mut().zip(codes) {
        *element = restored(code);
    }
}

/// Mode 2: a code is the difference from the pattern before, and code 0 is that
/// pattern again.
#[derive(Clone, Copy)]
struct Differences;

impl<P: Lane> Coding<P> for Differences {
    /// The whole chunk is coded by one long loop, of which the compiler makes
    /// better steps than of a group at a time.
    #[inline(always)]
    fn for_each_group<const G: usize>(self, chunk: &[P], mut hand_on: impl FnMut(&[P; G], usize)) {
        let mut codes = [P::default(); CHUNK];
        codes[0] = chunk[0].difference_code(P::default());
        for (code, pair) in codes[1..].iter_mut().zip(chunk.windows(2)) {
            *code = pair[1].difference_code(pair[0]);
        }
        for (codes, group) in codes.as_chunks().0.iter().zip(chunk.chunks(G)) {
            hand_on(codes, group.len());
        }
    }
}

impl<P: Lane> Restoring<P> for Differences {
    #[inline(always)]
    fn restore(self, packed: &[u8], w: u32, still: P, block: &mut [P]) -> P {
        opened(packed, |window| match <&mut [P; BLOCK]>::try_from(&mut *block) {
            Ok(full) => P::SUM[w as usize](window, still, full),
            Err(_) => {
                let mut patterns = [still; BLOCK];
                let last = P::SUM[w as usize](window, still, &mut patterns);
                block.copy_from_slice(&patterns[..block.len()]);
                last
            }
        })
    }

    /// The sums run from the chunk's start.
    fn pattern_at<const G: usize>(self, mut chunk: &[u8], index: usize) -> P {
        let (mut before, mut patterns) = (P::default(), [P::default(); BLOCK]);
        for group in 0..=index / G {
            let last = if group == index / G { index % G / BLOCK } else { G / BLOCK - 1 };
            for block in 0..=last {
                let (w, packed) = block_of(chunk, block);
                before = self.restore(packed, w, before, &mut patterns);
            }
            if group < index / G {
                chunk = after_full_group::<G>(chunk);
            }
        }
        patterns[index % BLOCK]
    }
}

/// Does something with an allowed group size, which is known to the compiler
/// there.
macro_rules! by_size {
    ($group:expr, $size:ident => $done:expr) => {
        match $group {
            32 => {
                const $size: usize = 32;
                $done
            }
            _ => {
                const $size: usize = 128;
                $done
            }
        }
    };
}

/// Does something by the coding of a writer's level and an allowed mode and k,
/// which is known to the compiler there.
macro_rules! by_coding {
    ($level:expr, $mode:expr, $k:expr, $coding:ident => $done:expr) => {
        match $mode {
            0 => {
                let $coding = Each(P::lossless_code);
                $done
            }
            1 if $level < FIRST_LEVEL_TO_EVEN => {
                let bin = P::bin($k);
                let $coding = Each(move |pattern: P| pattern.tolerance_code(bin));
                $done
            }
            1 => {
                let bin = P::bin($k);
                let $coding = Each(move |pattern: P| pattern.tolerance_code_to_even(bin));
                $done
            }
            _ => {
                let $coding = Differences;
                $done
            }
        }
    };
}

/// Does something by the restoring of an allowed mode and k, which is known to the
/// compiler there.
macro_rules! by_restoring {
    ($mode:expr, $k:expr, $restoring:ident => $done:expr) => {
        match $mode {
            0 => {
                let $restoring = Each(P::lossless_pattern);
                $done
            }
            1 => {
                let bin = P::bin($k);
                let $restoring = Each(move |code: P| code.tolerance_pattern(bin));
                $done
            }
            _ => {
                let $restoring = Differences;
                $done
            }
        }
    };
}

// ------------------------------------------------------- pack and length

const LEVELS: RangeInclusive<u32> = 8..=14;
/// Writers from this level on send halves to even.
const FIRST_LEVEL_TO_EVEN: u32 = 14;

/// What pack and length are told besides the level and the list, and what a header
/// tells.
#[derive(Clone, Copy)]
struct Setting {
    mode: u32,
    k: i32,
    group: u32,
}

impl Setting {
    /// The setting of a header: 256 is added to the mode for groups of 128. A
    /// number that is no mode stays none.
    fn of_header(mode_number: u32, k: i32) -> Setting {
        match mode_number {
            ADDED_FOR_128.. => Setting { mode: mode_number - ADDED_FOR_128, k, group: 128 },
            _ => Setting { mode: mode_number, k, group: 32 },
        }
    }

    fn mode_number(self) -> u32 {
        if self.group == 128 {
            self.mode + ADDED_FOR_128
        } else {
            self.mode
        }
    }

    /// Groups of 128 need 13; else mode 2 needs 11; else width 64 needs 10; else
    /// mode 1 needs 9; else 8. A side part that must be understood may raise it.
    fn need(self, width: u32) -> u32 {
        match (width, self.mode, self.group) {
            (_, _, 128) => 13,
            (_, 2, _) => 11,
            (64, _, _) => 10,
            (_, 1, _) => 9,
            _ => 8,
        }
    }

    fn allowed(self, least_k: i32, greatest_k: i32) -> bool {
        let of_mode = match self.mode {
            0 | 2 => self.k == 0,
            1 => least_k <= self.k && self.k <= greatest_k,
            _ => false,
        };
        of_mode && (self.group == 32 || self.group == 128)
    }
}

/// Refusals 1 2 3 of pack and length.
fn admit<P: Lane>(level: u32, setting: Setting, n: usize) -> Result<(), Refusal> {
    if !LEVELS.contains(&level) {
        return Err(Refusal::bare(1));
    }
    if !setting.allowed(P::LEAST_K, P::GREATEST_K) || setting.need(P::W) > level {
        return Err(Refusal::bare(2));
    }
    if n > MOST_VALUES {
        return Err(Refusal::bare(3));
    }
    Ok(())
}

/// Writes the packed stream to the front of the output.
pub fn pack<P: Lane>(
    level: u32,
    mode: u32,
    k: i32,
    group: u32,
    values: &[P],
    output: &mut [u8],
) -> Answer {
    let setting = Setting { mode, k, group };
    admit::<P>(level, setting, values.len())?;
    let end = by_coding!(level, mode, k, coding => by_size!(group, G => {
        pack_data::<P, G>(values, output, coding)
    }))?;
    let n = values.len() as u32;
    let c = n.div_ceil(CHUNK as u32);
    let (need, mode) = (setting.need(P::W), setting.mode_number());
    let numbers = [1, level, need, P::W, mode, k as u32, n, c, 48, 48 + 4 * c, 0, end as u32];
    for (place, number) in output.chunks_exact_mut(4).zip(numbers) {
        place.copy_from_slice(&number.to_le_bytes());
    }
    Ok(end as u64)
}

/// The bytes pack would use.
pub fn length<P: Lane>(level: u32, mode: u32, k: i32, group: u32, values: &[P]) -> Answer {
    admit::<P>(level, Setting { mode, k, group }, values.len())?;
    let length = by_coding!(level, mode, k, coding => by_size!(group, G => {
        measured::<P, G>(values, coding)
    }));
    Ok(length as u64)
}

/// The bit length of the largest code is that of all codes or-ed together.
#[inline(always)]
fn width_of<P: Lane, const G: usize>(codes: &[P; G]) -> u32 {
    let of_block = |block: &[P; BLOCK]| block.iter().fold(P::default(), |all, &code| all | code);
    let blocks = codes.as_chunks().0.iter();
    let all = blocks.map(of_block).fold(P::default(), |all, block| all | block);
    64 - all.wide().leading_zeros()
}

#[inline(always)]
fn bytes_of(count: usize, w: u32) -> usize {
    (count * w as usize).div_ceil(8)
}

fn measured<P: Lane, const G: usize>(values: &[P], coding: impl Coding<P>) -> usize {
    let mut length = HEADER + 4 * values.len().div_ceil(CHUNK);
    for chunk in values.chunks(CHUNK) {
        coding.for_each_group::<G>(chunk, |codes, count| {
            length += 1 + bytes_of(count, width_of(codes));
        });
    }
    length
}

/// The length no packed stream of n values exceeds.
fn most_bytes<P: Lane, const G: usize>(n: usize) -> usize {
    HEADER + 4 * n.div_ceil(CHUNK) + n.div_ceil(G) + n * (P::W / 8) as usize
}

/// Writes chunk table and data and answers where the data ends, or refuses
/// with 4. An output that is long enough for anything needs no measuring.
fn pack_data<P: Lane, const G: usize>(
    values: &[P],
    output: &mut [u8],
    coding: impl Coding<P>,
) -> Result<usize, Refusal> {
    if output.len() < most_bytes::<P, G>(values.len()) {
        let length = measured::<P, G>(values, coding);
        if output.len() < length {
            return Err(Refusal::with_detail(4, length as u64));
        }
    }
    let data_place = HEADER + 4 * values.len().div_ceil(CHUNK);
    let (front, data) = output.split_at_mut(data_place);
    let table = front[HEADER..].chunks_exact_mut(4);
    let mut at = 0;
    for (chunk, entry) in values.chunks(CHUNK).zip(table) {
        entry.copy_from_slice(&(at as u32).to_le_bytes());
        coding.for_each_group::<G>(chunk, |codes, count| {
            let w = width_of(codes);
            let length = bytes_of(count, w);
            data[at] = w as u8;
            let packed = &mut data[at + 1..at + 1 + length];
            if count == G {
                put_blocks(codes, w, packed);
            } else {
                put_short(codes, w, packed);
            }
            at += 1 + length;
        });
    }
    Ok(data_place + at)
}

/// Puts a whole group, block after block: each fills 4w bytes.
#[inline(always)]
fn put_blocks<P: Lane, const G: usize>(codes: &[P; G], w: u32, bytes: &mut [u8]) {
    let (put, step) = (P::PUT[w as usize], BLOCK / 8 * w as usize);
    for (number, block) in codes.as_chunks().0.iter().enumerate() {
        put(block, &mut bytes[number * step..(number + 1) * step]);
    }
}

/// Puts a short group: whole blocks at first, then as many bytes as are its own.
fn put_short<P: Lane, const G: usize>(codes: &[P; G], w: u32, bytes: &mut [u8]) {
    let mut whole = [0; MOST_BYTES_OF_GROUP];
    put_blocks(codes, w, &mut whole[..G / 8 * w as usize]);
    bytes.copy_from_slice(&whole[..bytes.len()]);
}

/// 128 codes of 64 bits.
const MOST_BYTES_OF_GROUP: usize = 128 * 8;

/// Puts 32 codes of W bits into the 4W bytes they fill, through an accumulator.
/// W is known to the compiler, and with it every shift.
fn put_codes<P: Lane, const W: usize>(codes: &[P; BLOCK], bytes: &mut [u8]) {
    let bytes = &mut bytes[..BLOCK / 8 * W];
    let mut accumulator = 0;
    let mut filled = 0;
    let mut at = 0;
    macro_rules! put {
        ($index:literal) => {
            let code = codes[$index].wide();
            accumulator |= code << filled;
            filled += W;
            if filled >= 64 {
                bytes[at..at + 8].copy_from_slice(&accumulator.to_le_bytes());
                at += 8;
                filled -= 64;
                accumulator = if filled == 0 { 0 } else { code >> (W - filled) };
            }
        };
    }
    for_each_code!(put);
    if filled > 0 {
        bytes[at..].copy_from_slice(&(accumulator as u32).to_le_bytes());
    }
}

// --------------------------------------------------------------- reading

/// Side parts from this id up must be understood, and none is known yet; and what
/// they need, if the setting does not need more.
const FIRST_HIGH_ID: u32 = 1 << 31;
const NEED_OF_HIGH_ID: u32 = 12;

/// What the header of a stream that passed refusals 1 5 6 7 8 says.
struct Header {
    needed: u32,
    width: u32,
    setting: Setting,
    n: usize,
    c: usize,
    sides: usize,
    data_place: usize,
    data_end: usize,
}

fn number_at(stream: &[u8], place: usize) -> u32 {
    let mut four = [0; 4];
    four.copy_from_slice(&stream[place..place + 4]);
    u32::from_le_bytes(four)
}

fn read_header(level: u32, stream: &[u8]) -> Result<Header, Refusal> {
    if !LEVELS.contains(&level) {
        return Err(Refusal::bare(1));
    }
    if stream.len() < HEADER {
        return Err(Refusal::bare(5));
    }
    let number = |index: usize| number_at(stream, 4 * index);
    if number(0) != 1 {
        return Err(Refusal::bare(6));
    }
    let needed = number(2);
    if needed > level {
        return Err(Refusal::with_detail(7, needed as u64));
    }
    let (width, n) = (number(3), number(6) as usize);
    let setting = Setting::of_header(number(4), number(5) as i32);
    let (least_k, greatest_k) = match width {
        32 => (u32::LEAST_K, u32::GREATEST_K),
        64 => (u64::LEAST_K, u64::GREATEST_K),
        _ => return Err(Refusal::bare(8)),
    };
    // With n within its limit, c and the places below stay small.
    let c = n.div_ceil(CHUNK);
    let (data_place, data_end) = (number(9) as usize, number(11) as usize);
    let kept = setting.allowed(least_k, greatest_k)
        && needed >= setting.need(width)
        && number(1) >= needed
        && n <= MOST_VALUES
        && number(7) as usize == c
        && number(8) as usize == HEADER
        && data_place == HEADER + 4 * c
        && number(10) <= 64
        && data_place <= data_end
        && data_end <= stream.len();
    if !kept {
        return Err(Refusal::bare(8));
    }
    let sides = number(10) as usize;
    Ok(Header { needed, width, setting, n, c, sides, data_place, data_end })
}

/// Refusals 9 8 15: both tables, the exact need, and ids that must be
/// understood.
fn check_tables(stream: &[u8], header: &Header) -> Result<(), Refusal> {
    if !chunk_table_holds(stream, header) || !side_table_holds(stream, header) {
        return Err(Refusal::bare(9));
    }
    let mut ids = side_table(stream, header).chunks_exact(12).map(|entry| number_at(entry, 0));
    let high_id = ids.find(|&id| id >= FIRST_HIGH_ID);
    let need = header.setting.need(header.width);
    if header.needed != high_id.map_or(need, |_| need.max(NEED_OF_HIGH_ID)) {
        return Err(Refusal::bare(8));
    }
    match high_id {
        Some(id) => Err(Refusal::with_detail(15, id as u64)),
        None => Ok(()),
    }
}

fn chunk_start(stream: &[u8], chunk: usize) -> usize {
    number_at(stream, HEADER + 4 * chunk) as usize
}

fn chunk_table_holds(stream: &[u8], header: &Header) -> bool {
    let data_length = header.data_end - header.data_place;
    if header.c == 0 {
        return data_length == 0;
    }
    // Rising from 0, so if the last start is below the length all are.
    let table = &stream[HEADER..header.data_place];
    let later = table[4..].chunks_exact(4);
    let rising = table.chunks_exact(4).zip(later).all(|(a, b)| number_at(a, 0) < number_at(b, 0));
    rising && chunk_start(stream, 0) == 0 && chunk_start(stream, header.c - 1) < data_length
}

fn side_table_end(header: &Header) -> usize {
    header.data_end + 12 * header.sides
}

/// The bytes of the side table, which must be there.
fn side_table<'a>(stream: &'a [u8], header: &Header) -> &'a [u8] {
    &stream[header.data_end..side_table_end(header)]
}

fn side_table_holds(stream: &[u8], header: &Header) -> bool {
    if side_table_end(header) > stream.len() {
        return false;
    }
    // Lengths add up in u64, where 64 of them cannot overflow.
    let mut part = side_table_end(header) as u64;
    let mut least_id = 0u64;
    for entry in side_table(stream, header).chunks_exact(12) {
        let id = number_at(entry, 0) as u64;
        if id < least_id || number_at(entry, 4) as u64 != part {
            return false;
        }
        least_id = id + 1;
        part += number_at(entry, 8) as u64;
    }
    part == stream.len() as u64
}

/// Refusal 10: all chunks, without restoring a value.
fn check_chunks<P: Lane>(stream: &[u8], header: &Header) -> Result<(), Refusal> {
    let most = P::largest_code(header.setting.mode, header.setting.k);
    by_size!(header.setting.group, G => {
        for chunk in 0..header.c {
            check_chunk::<P, G>(stream, header, chunk, most)?;
        }
    });
    Ok(())
}

fn check_chunk<P: Lane, const G: usize>(
    stream: &[u8],
    header: &Header,
    chunk: usize,
    most: P,
) -> Result<(), Refusal> {
    let start = header.data_place + chunk_start(stream, chunk);
    let end = if chunk + 1 < header.c {
        header.data_place + chunk_start(stream, chunk + 1)
    } else {
        header.data_end
    };
    let count = (header.n - chunk * CHUNK).min(CHUNK);
    match value_in_bad_group::<P, G>(&stream[start..], end - start, count, most) {
        None => Ok(()),
        // At either size, a chunk has 32 details.
        Some(value) => Err(Refusal::with_detail(10, (chunk * 32 + value / G) as u64)),
    }
}

/// A value in the first bad group of the chunk of this length that begins the
/// bytes, if it has one. Bytes left over count for the last group.
fn value_in_bad_group<P: Lane, const G: usize>(
    bytes: &[u8],
    length: usize,
    count: usize,
    most: P,
) -> Option<usize> {
    let mut at = 0;
    let mut left = count;
    while left > 0 {
        if at == length {
            return Some(count - left);
        }
        let w = bytes[at] as u32;
        let group = left.min(G);
        let end = at + 1 + bytes_of(group, w);
        if w > P::W || end > length || !group_holds(&bytes[at + 1..], group, w, most) {
            return Some(count - left);
        }
        at = end;
        left -= group;
    }
    (at != length).then(|| count - 1)
}

/// The smallest width, zero padding and the largest code of the group whose
/// codes begin the bytes.
#[inline(always)]
fn group_holds<P: Lane>(bytes: &[u8], count: usize, w: u32, most: P) -> bool {
    if w == 0 {
        return true;
    }
    // w is smallest when some code has its highest bit set; in most groups
    // one of the first few has.
    let step = w as usize;
    let bit_at = |place: usize| bytes[place / 8] >> (place % 8) & 1 == 1;
    if !(1..=count).any(|code| bit_at(code * step - 1)) {
        return false;
    }
    let (full_bytes, bits_left) = (count * step / 8, count * step % 8);
    if bits_left > 0 && bytes[full_bytes] >> bits_left != 0 {
        return false;
    }
    // Only at the bit length of the largest code do the codes themselves
    // decide: shorter ones all fit, and of longer ones none does.
    let longest = 64 - most.wide().leading_zeros();
    if w != longest || most.wide() == u64::MAX >> (64 - P::W) {
        return w <= longest;
    }
    codes_fit(bytes, count, w, most)
}

/// Whether none of these codes is larger than the largest.
fn codes_fit<P: Lane>(bytes: &[u8], count: usize, w: u32, most: P) -> bool {
    (0..count).step_by(BLOCK).all(|first| {
        let codes: [P; BLOCK] = taken(&bytes[first / 8 * w as usize..], w);
        let own = &codes[..BLOCK.min(count - first)];
        own.iter().fold(true, |all_fit, &code| all_fit & (code <= most))
    })
}

/// Checks a whole stream of either width and answers n.
pub fn check(level: u32, stream: &[u8]) -> Answer {
    let header = read_header(level, stream)?;
    check_tables(stream, &header)?;
    if header.width == u32::W {
        check_chunks::<u32>(stream, &header)?;
    } else {
        check_chunks::<u64>(stream, &header)?;
    }
    Ok(header.n as u64)
}

/// Writes the n values to the front of the output and answers n. All is
/// checked before the first value is written.
pub fn unpack<P: Lane>(level: u32, stream: &[u8], output: &mut [P]) -> Answer {
    let header = read_header(level, stream)?;
    if header.width != P::W {
        return Err(Refusal::bare(14));
    }
    if output.len() < header.n {
        return Err(Refusal::with_detail(4, header.n as u64));
    }
    check_tables(stream, &header)?;
    check_chunks::<P>(stream, &header)?;
    let data = &stream[header.data_place..header.data_end];
    let output = &mut output[..header.n];
    let Setting { mode, k, group } = header.setting;
    by_restoring!(mode, k, restoring => by_size!(group, G => {
        unpack_data::<P, G>(data, output, restoring)
    }));
    Ok(header.n as u64)
}

/// The pattern at an index. Of the chunks only its own is read.
pub fn probe<P: Lane>(level: u32, stream: &[u8], index: u64) -> Result<P, Refusal> {
    let header = read_header(level, stream)?;
    if header.width != P::W {
        return Err(Refusal::bare(14));
    }
    if index >= header.n as u64 {
        return Err(Refusal::bare(11));
    }
    check_tables(stream, &header)?;
    let (chunk, index) = (index as usize / CHUNK, index as usize % CHUNK);
    let Setting { mode, k, group } = header.setting;
    let most = P::largest_code(mode, k);
    by_size!(group, G => check_chunk::<P, G>(stream, &header, chunk, most))?;
    let bytes = &stream[header.data_place + chunk_start(stream, chunk)..];
    Ok(by_restoring!(mode, k, restoring => by_size!(group, G => {
        restoring.pattern_at::<G>(bytes, index)
    })))
}

/// The code at an index of the checked chunk that begins the bytes: the groups
/// before its own are full, and are stepped over.
fn code_at<P: Lane, const G: usize>(mut chunk: &[u8], index: usize) -> P {
    for _ in 0..index / G {
        chunk = after_full_group::<G>(chunk);
    }
    let (w, packed) = block_of(chunk, index % G / BLOCK);
    taken(packed, w)[index % BLOCK]
}

/// The bytes after the full group that begins them.
fn after_full_group<const G: usize>(bytes: &[u8]) -> &[u8] {
    &bytes[1 + bytes_of(G, bytes[0] as u32)..]
}

/// The width byte of the group that begins the bytes, and where the block with
/// this number begins in it.
fn block_of(group: &[u8], block: usize) -> (u32, &[u8]) {
    let w = group[0] as u32;
    (w, &group[1 + block * bytes_of(BLOCK, w)..])
}

/// Restores all groups of checked data, block by block: chunks hold whole groups
/// and follow each other without a gap.
fn unpack_data<P: Lane, const G: usize>(
    mut data: &[u8],
    output: &mut [P],
    restoring: impl Restoring<P>,
) {
    for chunk in output.chunks_mut(CHUNK) {
        let mut still = P::default();
        for group in chunk.chunks_mut(G) {
            let (w, packed) = (data[0] as u32, &data[1..]);
            data = &packed[bytes_of(group.len(), w)..];
            if w == 0 {
                group.fill(still);
                continue;
            }
            if G == BLOCK {
                still = restoring.restore(packed, w, still, group);
                continue;
            }
            for (number, block) in group.chunks_mut(BLOCK).enumerate() {
                still = restoring.restore(&packed[number * bytes_of(BLOCK, w)..], w, still, block);
            }
        }
    }
}

/// The bytes of the largest block, and 8 more so that 9 bytes can be read
/// from any place where a code begins.
const WINDOW: usize = 8 * BLOCK + 8;

/// 32 codes of w bits.
#[inline(always)]
fn taken<P: Lane>(packed: &[u8], w: u32) -> [P; BLOCK] {
    let mut codes = [P::default(); BLOCK];
    opened(packed, |window| P::TAKE[w as usize](window, &mut codes));
    codes
}

/// Does something with the window that the bytes begin. All but a stream's last
/// blocks are read where they lie.
#[inline(always)]
fn opened<T>(packed: &[u8], done: impl FnOnce(&[u8; WINDOW]) -> T) -> T {
    match packed.first_chunk() {
        Some(window) => done(window),
        None => done(&windowed(packed)),
    }
}

/// The bytes, or as many as matter, with zero bytes after them.
fn windowed(packed: &[u8]) -> [u8; WINDOW] {
    let mut window = [0; WINDOW];
    let length = packed.len().min(WINDOW);
    window[..length].copy_from_slice(&packed[..length]);
    window
}

/// Takes 32 codes of W bits. Past a short block's count they are made of
/// whatever follows it, and nobody looks at them.
fn take_codes<P: Lane, const W: usize>(window: &[u8; WINDOW], codes: &mut [P; BLOCK]) {
    macro_rules! take {
        ($index:literal) => {
            codes[$index] = code_in::<P, W>(window, $index);
        };
    }
    for_each_code!(take);
}

/// Sums up 32 differences, whose codes have W bits, to the patterns after one,
/// and answers the last. A code goes from its bytes to its pattern without a
/// stop: that is faster than several lanes with a stop between.
fn sum_differences<P: Lane, const W: usize>(
    window: &[u8; WINDOW],
    before: P,
    patterns: &mut [P; BLOCK],
) -> P {
    let mut sum = before;
    macro_rules! add {
        ($index:literal) => {
            sum = code_in::<P, W>(window, $index).difference_pattern(sum);
            patterns[$index] = sum;
        };
    }
    for_each_code!(add);
    sum
}

/// The code at an index, from the eight or nine bytes that hold it. W and the
/// index are known to the compiler, and with them the place and the shift.
#[inline(always)]
fn code_in<P: Lane, const W: usize>(window: &[u8; WINDOW], index: usize) -> P {
    let mask = if W == 0 { 0 } else { u64::MAX >> (64 - W) };
    let (place, shift) = (index * W / 8, index * W % 8);
    let mut eight = [0; 8];
    eight.copy_from_slice(&window[place..place + 8]);
    let mut code = u64::from_le_bytes(eight) >> shift;
    if shift + W > 64 {
        code |= (window[place + 8] as u64) << (64 - shift);
    }
    P::narrow(code & mask)
}
