//! Halves of bins, which go away from zero or to even: by the number rules at every
//! exponent for every k, and in lists by the writers of every level. How a half is made
//! up tells its code, so each call is compared with the answer that it must have.

use super::call::{Call, List};
use super::judge::Judge;
use super::outcome::{answered, refused};
use super::random::{allowed_k, bin_exponent, half_bins, some_k, some_length, XorShift, WIDTHS};
use super::streams::*;
use super::walks::{some_k_of_mode, some_patterns_of_mode};
use super::{reference, Extent};
use crate::numbers::{Halves, Width, WIDTH_32};
use crate::stream::HIGHEST_LEVEL;
use crate::Refusal;
use std::ops::RangeInclusive;

/// From this level on writers send halves to even.
const FIRST_LEVEL_TO_EVEN: u32 = 14;

// --------------------------------------------------- halves and others

/// Where a pattern lies: on a half, or the nearest one to it on either side.
#[derive(Clone, Copy)]
enum Place {
    Below,
    On,
    Above,
}

const PLACES: [Place; 3] = [Place::Below, Place::On, Place::Above];

/// A pattern around the half of bins that lies above a whole number of them.
#[derive(Clone, Copy)]
struct Around {
    width: Width,
    k: i32,
    whole: u64,
    place: Place,
    negative: bool,
}

impl Around {
    fn pattern(&self) -> u64 {
        let half = half_bins(self.width, 2 * self.whole + 1, bin_exponent(self.width, self.k));
        let ordinal = match self.place {
            Place::Below => half - 1,
            Place::On => half,
            Place::Above => half + 1,
        };
        ordinal | (self.negative as u64) << (self.width.bits() - 1)
    }

    fn code(&self, halves: Halves) -> u64 {
        let up = match (self.place, halves) {
            (Place::Below, _) => false,
            (Place::Above, _) | (Place::On, Halves::AwayFromZero) => true,
            (Place::On, Halves::ToEven) => self.whole % 2 == 1,
        };
        2 * (self.whole + up as u64) + self.negative as u64
    }

    fn restored(&self, halves: Halves) -> u64 {
        let code = self.code(halves);
        let d = bin_exponent(self.width, self.k);
        let ordinal = if code < 2 { 0 } else { half_bins(self.width, 2 * (code / 2), d) };
        ordinal | (code % 2) << (self.width.bits() - 1)
    }
}

/// The k of a width that have halves: with the least one every value is a whole number
/// of bins.
fn ks_with_halves(width: Width) -> RangeInclusive<i32> {
    allowed_k(width).start() + 1..=*allowed_k(width).end()
}

/// A whole number of so many bits.
fn whole_of_length(rng: &mut XorShift, bits: u32) -> u64 {
    match bits {
        0 => 0,
        _ => (1 << (bits - 1)) + rng.next() % (1 << (bits - 1)),
    }
}

// ------------------------------------------------------ the number rules

/// For every k a half of every exponent that there is below T, and what lies around it or,
/// of width 64, around some; and the rules for halves that there are not.
pub fn codes(judge: &mut Judge, rng: &mut XorShift, extent: Extent) {
    let step = if extent == Extent::Quick { 5 } else { 1 };
    for width in WIDTHS {
        let m = width.fraction_bits();
        let one_in = if width == WIDTH_32 { 1 } else { 8 };
        for k in ks_with_halves(width).step_by(step) {
            for whole in [0, 1, 2, 3, (1 << m) - 2, (1 << m) - 1] {
                all_around(judge, width, k, whole);
            }
            for bits in 0..=m {
                let (whole, negative) = (whole_of_length(rng, bits), rng.chance(2));
                compare_codes(judge, Around { width, k, whole, place: Place::On, negative });
                if rng.chance(one_in) {
                    all_around(judge, width, k, whole);
                }
            }
        }
        other_rules(judge, rng, width);
    }
}

/// A half and its neighbours, with both signs.
fn all_around(judge: &mut Judge, width: Width, k: i32, whole: u64) {
    for place in PLACES {
        for negative in [false, true] {
            compare_codes(judge, Around { width, k, whole, place, negative });
        }
    }
}

/// By both rules.
fn compare_codes(judge: &mut Judge, around: Around) {
    let Around { width, k, .. } = around;
    for rule in Halves::BOTH {
        let (halves, pattern) = (rule.number(), around.pattern());
        let call = Call::ToleranceCode { width, halves, k, pattern };
        judge.compare_known(call, 0, &[around.code(rule)]);
    }
}

/// Numbers that are no rule, some of them one in their lowest bits alone.
const OTHER_RULES: [u32; 12] =
    [2, 3, 4, 14, 255, 256, 257, 1 << 16, (1 << 16) + 1, 1 << 31, (1 << 31) + 1, u32::MAX];

/// Every such number, and the two rules, with k that are allowed and that are not: each
/// of the two faults is refused 2, and so are both.
fn other_rules(judge: &mut Judge, rng: &mut XorShift, width: Width) {
    let (least, greatest) = (*allowed_k(width).start(), *allowed_k(width).end());
    let allowed = [least, least + 1, -2, 0, greatest];
    let others = [i32::MIN, least - 1, greatest + 1, i32::MAX];
    let patterns = [0, 1, half_bins(width, 1, bin_exponent(width, -2)), rng.next()];
    for pattern in patterns.map(|pattern| pattern & (u64::MAX >> (64 - width.bits()))) {
        for k in allowed.into_iter().chain(others) {
            for halves in OTHER_RULES {
                let call = Call::ToleranceCode { width, halves, k, pattern };
                judge.compare_known(call, refused(Refusal::bare(2)), &[]);
            }
        }
        for k in others {
            for halves in Halves::BOTH.map(Halves::number) {
                let call = Call::ToleranceCode { width, halves, k, pattern };
                judge.compare_known(call, refused(Refusal::bare(2)), &[]);
            }
        }
    }
}

// ------------------------------------------------------------- the lists

/// Lists of halves by the writers of every level, and lists without any, of which the
/// last two make the same.
pub fn lists(judge: &mut Judge, rng: &mut XorShift, extent: Extent) {
    for setting in every_setting() {
        for _ in 0..extent.rounds(100) {
            if setting.mode == 1 {
                let list = FullOfHalves::some(rng, setting);
                list.compare_writers(judge, rng);
                list.compare_readers(judge, rng);
            }
            without_halves(judge, rng, setting);
        }
    }
}

/// A list of which most values are halves, and the others lie beside one.
struct FullOfHalves {
    setting: Setting,
    values: Vec<Around>,
}

/// Every level that is known, and those beside them.
fn levels_and_beyond() -> impl Iterator<Item = u32> {
    7..=HIGHEST_LEVEL + 1
}

/// The rule of a writer.
fn rule_at(level: u32) -> Halves {
    if level < FIRST_LEVEL_TO_EVEN {
        Halves::AwayFromZero
    } else {
        Halves::ToEven
    }
}

impl FullOfHalves {
    /// With any k that has halves, of any length. Often no value is above the half of one
    /// bin: then alone the rules give a group different widths.
    fn some(rng: &mut XorShift, setting: Setting) -> FullOfHalves {
        let (width, m) = (setting.width, setting.width.fraction_bits());
        let k = some_k(rng, width).max(*ks_with_halves(width).start());
        let (n, any) = (some_length(rng), rng.below(m as u64 + 1));
        let most_bits = rng.one_of(&[0, 0, 1, any, any]);
        let beside = rng.one_of(&[Place::On, Place::Below, Place::Above]);
        let value = |_| {
            let bits = rng.below(most_bits + 1) as u32;
            let whole = whole_of_length(rng, bits);
            let place = rng.one_of(&[Place::On, Place::On, Place::On, Place::Below, beside]);
            Around { width, k, whole, place, negative: rng.chance(2) }
        };
        let values = (0..n).map(value).collect();
        FullOfHalves { setting: Setting { k, ..setting }, values }
    }

    fn n(&self) -> u64 {
        self.values.len() as u64
    }

    fn restored(&self, halves: Halves) -> Vec<u64> {
        self.values.iter().map(|value| value.restored(halves)).collect()
    }

    /// What a writer makes of it.
    fn stream(&self, level: u32) -> Vec<u8> {
        let codes: Vec<u64> = self.values.iter().map(|value| value.code(rule_at(level))).collect();
        with(&stream_of_codes(self.setting, &codes), &[(WRITTEN, level)])
    }

    /// Refusals 1 and that of a need which exceeds the level.
    fn refusal_at(&self, level: u32, of_need: Refusal) -> Option<Refusal> {
        if !LEVELS.contains(&level) {
            Some(Refusal::bare(1))
        } else {
            (self.setting.need() > level).then_some(of_need)
        }
    }

    /// Length, and pack into an exact, an ample and a short room, at every level.
    fn compare_writers(&self, judge: &mut Judge, rng: &mut XorShift) {
        let Setting { width, mode, k, group } = self.setting;
        let list = List::of(width, self.values.iter().map(Around::pattern));
        let values = list.values();
        for level in levels_and_beyond() {
            let stream = self.stream(level);
            let (length, refusal) = (stream.len(), self.refusal_at(level, Refusal::bare(2)));
            let answer = answered(refusal.map_or(Ok(length as u64), Err));
            judge.compare_known(Call::Length { level, mode, k, group, values }, answer, &[]);
            let bytes: Vec<u64> = stream.iter().map(|&byte| byte as u64).collect();
            let written = if refusal.is_none() { &bytes[..] } else { &[] };
            let room = length + rng.one_of(&[0, 1, 50]);
            let pack = Call::Pack { level, mode, k, group, values, room };
            judge.compare_known(pack, answer, written);
            let short = Refusal::with_detail(4, length as u64);
            let pack = Call::Pack { level, mode, k, group, values, room: length - 1 };
            judge.compare_known(pack, refused(refusal.unwrap_or(short)), &[]);
        }
    }

    /// The streams of both rules, at every level: from the need on all read the same.
    fn compare_readers(&self, judge: &mut Judge, rng: &mut XorShift) {
        for writer in [FIRST_LEVEL_TO_EVEN - 1, FIRST_LEVEL_TO_EVEN] {
            let (stream, restored) = (&self.stream(writer), self.restored(rule_at(writer)));
            for level in levels_and_beyond() {
                self.compare_reader(judge, rng, level, stream, &restored);
            }
        }
    }

    fn compare_reader(
        &self,
        judge: &mut Judge,
        rng: &mut XorShift,
        level: u32,
        stream: &[u8],
        restored: &[u64],
    ) {
        let (width, n, need) = (self.setting.width, self.n(), self.setting.need());
        let refusal = self.refusal_at(level, Refusal::with_detail(7, need as u64));
        let answer = |success: u64| answered(refusal.map_or(Ok(success), Err));
        judge.compare_known(Call::Check { level, stream }, answer(n), &[]);
        let written = if refusal.is_none() { restored } else { &[] };
        let unpack = Call::Unpack { width, level, stream, room: n as usize };
        judge.compare_known(unpack, answer(n), written);
        if n > 0 {
            let index = rng.below(n);
            let written = if refusal.is_none() { &restored[index as usize..][..1] } else { &[] };
            judge.compare_known(Call::Probe { width, level, stream, index }, answer(0), written);
        }
    }
}

/// A list without halves, or in modes 0 and 2 any, packed at level 14 as it is at 13, but
/// for the written minor.
fn without_halves(judge: &mut Judge, rng: &mut XorShift, setting: Setting) {
    let Setting { width, mode, group, .. } = setting;
    let (k, n) = (some_k_of_mode(rng, width, mode), some_length(rng));
    let mut patterns = some_patterns_of_mode(rng, width, mode, k, n);
    if mode == 1 {
        let halves = patterns.iter_mut().filter(|pattern| is_half(width, k, **pattern));
        halves.for_each(|pattern| *pattern += 1);
    }
    let list = List::of(width, patterns);
    let values = list.values();
    let before = reference::packed(FIRST_LEVEL_TO_EVEN - 1, mode, k, group, values);
    let before = before.expect("an allowed setting");
    for level in [FIRST_LEVEL_TO_EVEN - 1, FIRST_LEVEL_TO_EVEN] {
        let stream = with(&before, &[(WRITTEN, level)]);
        let (bytes, room) = (stream.iter().map(|&byte| byte as u64), stream.len());
        let pack = Call::Pack { level, mode, k, group, values, room };
        judge.compare_known(pack, room as u64, &bytes.collect::<Vec<u64>>());
        judge.compare_known(Call::Length { level, mode, k, group, values }, room as u64, &[]);
    }
}

/// Whether a value is a half: an odd number of half bins, which are 2^(d-1) of the
/// smallest subnormals.
fn is_half(width: Width, k: i32, pattern: u64) -> bool {
    let (m, ordinal) = (width.fraction_bits(), width.ordinal(pattern));
    let (field, fraction) = (ordinal >> m, ordinal & ((1 << m) - 1));
    let (significand, scale) = match field {
        0 => (fraction, 0),
        _ => (fraction | 1 << m, field - 1),
    };
    let lowest_bit = significand.trailing_zeros() as u64 + scale;
    significand != 0 && lowest_bit + 1 == bin_exponent(width, k)
}

// ------------------------------------------------------------- listings

/// Lists of halves by each writer that can.
pub fn streams_of_halves(rng: &mut XorShift) -> Vec<Vec<u8>> {
    let mut streams = Vec::new();
    for setting in every_setting().into_iter().filter(|setting| setting.mode == 1) {
        let list = FullOfHalves::some(rng, setting);
        streams.extend((setting.need()..=HIGHEST_LEVEL).map(|level| list.stream(level)));
    }
    streams
}
