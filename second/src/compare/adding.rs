//! Summaries added, tested and listed by: lists of every setting whose chunks
//! hold what a summary may go wrong at, with the answer that each call must have.

use super::call::Call;
use super::judge::Judge;
use super::known::kind_of;
use super::outcome::{answered, refused};
use super::random::{some_length, some_pattern, XorShift, WIDTHS};
use super::streams::*;
use super::summaries::*;
use super::Extent;
use crate::stream::{HIGHEST_LEVEL, MOST_VALUES};
use crate::Refusal;

pub fn added(judge: &mut Judge, rng: &mut XorShift, extent: Extent) {
    // Each palette and length with about one of the two group sizes.
    let one_in = if extent == Extent::Quick { 20 } else { 2 };
    for setting in settings() {
        compare_whole(judge, rng, setting, vec![]);
        for palette in palettes(setting.width) {
            for n in [1, 2, 32, 33, 129] {
                if rng.chance(one_in) {
                    let patterns = chunk_of(rng, &palette, n);
                    compare_whole(judge, rng, setting, patterns);
                }
            }
        }
        for n in [1023, 1024, 1025, 2048, 3000] {
            let patterns = some_chunks(rng, setting, n);
            compare_whole(judge, rng, setting, patterns);
        }
    }
    for _ in 0..extent.rounds(600) {
        let (setting, n) = (rng.one_of(&settings()), some_length(rng));
        let patterns = some_chunks(rng, setting, n);
        compare_whole(judge, rng, setting, patterns);
    }
    many_chunks(judge, rng, extent);
}

/// A field written at any level that allows it, now and then at a later one.
fn field_of(rng: &mut XorShift, setting: Setting, patterns: Vec<u64>) -> Field {
    let need = setting.need();
    let level = need + rng.below((HIGHEST_LEVEL - need + 1) as u64) as u32;
    let mut field = Field::packed(setting, level, patterns);
    if rng.chance(8) {
        put(&mut field.plain, WRITTEN, rng.one_of(&[15, 20, 4_000_000_000]));
    }
    field
}

// --------------------------------------------------------------- calls

/// A field and the stream with its summary.
struct Summarized<'a> {
    field: &'a Field,
    copy: Vec<u8>,
}

/// Adds the summary in every room and at every level, tests it, lists by it, and
/// reads the copy as the field was read.
fn compare_whole(judge: &mut Judge, rng: &mut XorShift, setting: Setting, patterns: Vec<u64>) {
    let field = &field_of(rng, setting, patterns);
    let summarized = Summarized { field, copy: field.with_summary() };
    summarized.compare_rooms(judge);
    for level in 7..=15 {
        summarized.compare_at(judge, rng, level);
    }
    for x in patterns_asked(rng, field) {
        summarized.compare_list(judge, x, 0);
        for step in [-1, 3, -(field.chunks().count() as i64)] {
            if rng.chance(4) {
                summarized.compare_list(judge, x, step);
            }
        }
    }
}

impl Summarized<'_> {
    fn add(&self, judge: &mut Judge, level: u32, room: usize) {
        let (stream, length) = (&self.field.plain, self.copy.len());
        let short = (room < length).then_some(Refusal::with_detail(4, length as u64));
        let refusal = self.field.refusal_at(level).or(short);
        let bytes: Vec<u64> = self.copy.iter().map(|&byte| byte as u64).collect();
        let written = if refusal.is_none() { &bytes[..] } else { &[] };
        let answer = answered(refusal.map_or(Ok(length as u64), Err));
        judge.compare_known(Call::AddSummary { level, stream, room }, answer, written);
    }

    /// Exact, ample, one short, enough for the stream alone, and none.
    fn compare_rooms(&self, judge: &mut Judge) {
        let length = self.copy.len();
        for room in [length, length + 1, length + 40, length - 1, self.field.plain.len(), 0] {
            self.add(judge, HIGHEST_LEVEL, room);
        }
    }

    /// All operations at a level, known or not.
    fn compare_at(&self, judge: &mut Judge, rng: &mut XorShift, level: u32) {
        let Summarized { field, copy: ref stream } = *self;
        let (width, n, refusal) = (field.width, field.n(), field.refusal_at(level));
        let answer = |success: u64| answered(refusal.map_or(Ok(success), Err));
        let written = |elements: &[u64]| match refusal {
            Some(_) => vec![],
            None => elements.to_vec(),
        };
        self.add(judge, level, stream.len() + 2);
        judge.compare_known(Call::TestSummary { level, stream }, answer(n), &[]);
        let listed = field.listed(0);
        let list = Call::ChunksFrom { width, level, x: 0, stream, room: listed.len() + 2 };
        judge.compare_known(list, answer(listed.len() as u64), &written(&listed));

        judge.compare_known(Call::Check { level, stream }, answer(n), &[]);
        let unpack = Call::Unpack { width, level, stream, room: n as usize + 1 };
        judge.compare_known(unpack, answer(n), &written(&field.patterns));
        if n > 0 {
            let index = rng.below(n);
            let pattern = field.patterns[index as usize];
            let probe = Call::Probe { width, level, stream, index };
            judge.compare_known(probe, answer(kind_of(width, pattern)), &written(&[pattern]));
        }
    }

    /// The list for a pattern, in a room that is exact, or so much more or less.
    fn compare_list(&self, judge: &mut Judge, x: u64, step: i64) {
        let Summarized { field, copy: ref stream } = *self;
        let (listed, width) = (field.listed(x), field.width);
        let count = listed.len() as u64;
        let room = count.saturating_add_signed(step) as usize;
        let list = Call::ChunksFrom { width, level: HIGHEST_LEVEL, x, stream, room };
        if is_not_a_number(width, x) {
            judge.compare_known(list, refused(Refusal::bare(2)), &[]);
        } else if room < listed.len() {
            judge.compare_known(list, refused(Refusal::with_detail(4, count)), &[]);
        } else {
            judge.compare_known(list, count, &listed);
        }
    }
}

/// Zeros, infinities, the least and the greatest numbers; the extremes of each
/// chunk and some values, with their neighbours in the order of patterns.
fn patterns_asked(rng: &mut XorShift, field: &Field) -> Vec<u64> {
    let (infinity, sign) = infinity_and_sign(field.width);
    let mut asked: Vec<u64> = [0, 1, infinity - 1, infinity, infinity + 1, sign - 1]
        .into_iter()
        .flat_map(|ordinal| [ordinal, sign | ordinal])
        .collect();
    let extremes = field.entries().into_iter().flat_map(|entry| [entry.smallest, entry.largest]);
    let mut middles: Vec<u64> = extremes.take(8).collect();
    middles.extend(field.patterns.iter().take(6)); // of a palette, each
    if field.n() > 0 {
        middles.push(rng.one_of(&field.patterns));
    }
    middles.push(some_pattern(rng, field.width, 0));
    for middle in middles {
        let neighbours = [middle.wrapping_sub(1), middle, middle.wrapping_add(1)];
        asked.extend(neighbours.map(|pattern| pattern & (sign | (sign - 1))));
    }
    asked.sort_unstable();
    asked.dedup();
    asked
}

/// Seventy chunks of all palettes, and as many chunks as a stream can have, all
/// zeros but for a few: the numbers of many chunks are listed.
fn many_chunks(judge: &mut Judge, rng: &mut XorShift, extent: Extent) {
    for (width, group) in WIDTHS.into_iter().zip(SIZES) {
        let setting = Setting { width, mode: 0, k: 0, group };
        let patterns = some_chunks(rng, setting, 70 * VALUES_IN_CHUNK as usize - 5);
        let field = field_of(rng, setting, patterns);
        let summarized = Summarized { field: &field, copy: field.with_summary() };
        let (infinity, sign) = infinity_and_sign(width);
        for x in [0, 1, infinity, sign | infinity, sign | 1] {
            summarized.compare_list(judge, x, 0);
            summarized.compare_list(judge, x, -1);
        }
    }
    if extent != Extent::Quick {
        longest_list(judge);
    }
}

fn longest_list(judge: &mut Judge) {
    let setting = Setting { width: WIDTHS[0], mode: 0, k: 0, group: 128 };
    let mut patterns = vec![0; MOST_VALUES as usize];
    for (place, pattern) in [(0, 1), (5000, 1), (1_048_575, 2)] {
        patterns[place] = pattern;
    }
    let field = Field::packed(setting, HIGHEST_LEVEL, patterns);
    let summarized = Summarized { field: &field, copy: field.with_summary() };
    summarized.add(judge, HIGHEST_LEVEL, summarized.copy.len());
    summarized.add(judge, HIGHEST_LEVEL, summarized.copy.len() - 1);
    for (x, step) in [(0, 0), (0, -1), (1, 0), (3, 0)] {
        summarized.compare_list(judge, x, step);
    }
}
