//! Lists whose chunks hold what a summary may go wrong at, and their summaries,
//! made by the language's own floats, where the reference goes by whole numbers.

use super::call::List;
use super::random::{allowed_k, XorShift, WIDTHS};
use super::reference;
use super::streams::*;
use super::walks::some_patterns_of_mode;
use crate::numbers::{Width, WIDTH_32};
use crate::Refusal;

pub const SUMMARY_ID: u32 = 1;

/// Every mode of both widths with both group sizes, and mode 1 also with the k that
/// alters no value.
pub fn settings() -> Vec<Setting> {
    let exact = |group: u32| {
        WIDTHS.map(|width| Setting { width, mode: 1, k: *allowed_k(width).start(), group })
    };
    let mut settings = every_setting();
    settings.extend(SIZES.into_iter().flat_map(exact));
    settings
}

// -------------------------------------------------------------- floats

/// The value of a pattern. A double holds every single exactly.
fn value_of(width: Width, pattern: u64) -> f64 {
    if width == WIDTH_32 {
        f32::from_bits(pattern as u32) as f64
    } else {
        f64::from_bits(pattern)
    }
}

pub fn is_not_a_number(width: Width, pattern: u64) -> bool {
    value_of(width, pattern).is_nan()
}

/// What a summary holds of a chunk.
#[derive(Clone, Copy, PartialEq, Eq)]
pub struct Entry {
    pub not_numbers: u32,
    pub smallest: u64,
    pub largest: u64,
}

impl Entry {
    fn of_chunk(width: Width, chunk: &[u64]) -> Entry {
        let mut values = chunk.to_vec();
        values.retain(|&pattern| !is_not_a_number(width, pattern));
        // The total order has -0 below 0.
        values.sort_by(|&a, &b| value_of(width, a).total_cmp(&value_of(width, b)));
        Entry {
            not_numbers: (chunk.len() - values.len()) as u32,
            smallest: values.first().copied().unwrap_or(0),
            largest: values.last().copied().unwrap_or(0),
        }
    }
}

/// The part of these entries.
pub fn part_of(width: Width, entries: &[Entry]) -> Vec<u8> {
    let bytes_of_entry = |entry: &Entry| {
        let mut bytes = bytes_of(&[entry.not_numbers]);
        for pattern in [entry.smallest, entry.largest] {
            bytes.extend(&pattern.to_le_bytes()[..width.bits() as usize / 8]);
        }
        bytes
    };
    entries.iter().flat_map(bytes_of_entry).collect()
}

// -------------------------------------------------------------- values

/// The infinity of a width, and the sign alone, which is also -0.
pub fn infinity_and_sign(width: Width) -> (u64, u64) {
    (width.greatest_field() << width.fraction_bits(), 1 << (width.bits() - 1))
}

/// Not-a-numbers: with the least payload, quiet, with all bits set; both signs.
pub fn not_numbers(width: Width) -> [u64; 6] {
    let (infinity, sign) = infinity_and_sign(width);
    let quiet = infinity | 1 << (width.fraction_bits() - 1);
    [infinity + 1, quiet, sign - 1, sign | (infinity + 1), sign | quiet, sign | (sign - 1)]
}

/// What a chunk may hold, and no more.
pub fn palettes(width: Width) -> Vec<Vec<u64>> {
    let (infinity, sign) = infinity_and_sign(width);
    let [signalling, quiet, last, minus_signalling, minus_quiet, minus_last] = not_numbers(width);
    let (one, largest) = ((width.greatest_field() >> 1) << width.fraction_bits(), infinity - 1);
    let normal = 1 << width.fraction_bits();
    let minus = |pattern: u64| sign | pattern;
    let (zero, minus_zero) = (0, minus(0));
    vec![
        // Not-a-numbers alone.
        vec![signalling],
        vec![minus_last],
        vec![quiet, minus_quiet],
        vec![minus_signalling, signalling, last, minus_last, quiet],
        // Zeros, alone and beside others on either side.
        vec![zero],
        vec![minus_zero],
        vec![zero, minus_zero],
        vec![minus_zero, zero],
        vec![minus_zero, minus(one)],
        vec![zero, minus(one)],
        vec![minus(one), minus_zero, zero],
        vec![minus_zero, one],
        vec![zero, one],
        vec![minus_zero, quiet],
        vec![minus_signalling, zero],
        vec![minus_last, minus_zero, zero, minus(1)],
        // Infinities.
        vec![infinity],
        vec![minus(infinity)],
        vec![infinity, minus(infinity)],
        vec![minus(infinity), minus(largest), minus_signalling],
        vec![infinity, largest, signalling],
        vec![one, infinity, last],
        vec![minus(one), minus(infinity), minus_last],
        // Negatives alone, and the greatest numbers.
        vec![minus(one), minus(one + 1), minus(one - 1)],
        vec![minus(largest), minus(1)],
        vec![largest, last, signalling],
        vec![largest, minus(largest)],
        vec![one, one + 1],
        // Subnormals, and the least normal number.
        vec![1],
        vec![minus(1)],
        vec![1, minus(1), minus_zero],
        vec![normal - 1, normal],
        vec![minus(normal - 1), minus(normal), quiet],
        vec![1, 2, normal - 1, zero],
    ]
}

/// A chunk of these patterns in turn; or of the first, with the others at one
/// place each.
pub fn chunk_of(rng: &mut XorShift, palette: &[u64], count: usize) -> Vec<u64> {
    if rng.chance(2) {
        return palette.iter().copied().cycle().take(count).collect();
    }
    let mut chunk = vec![palette[0]; count];
    for &pattern in &palette[1..] {
        let between = rng.below(count as u64) as usize;
        chunk[rng.one_of(&[0, between, count - 1])] = pattern;
    }
    chunk
}

/// Chunks of some palettes, and now and then of a list of any kind.
pub fn some_chunks(rng: &mut XorShift, setting: Setting, n: usize) -> Vec<u64> {
    let Setting { width, mode, k, .. } = setting;
    let palettes = palettes(width);
    let mut patterns = some_patterns_of_mode(rng, width, mode, k, n);
    for chunk in patterns.chunks_mut(VALUES_IN_CHUNK as usize) {
        if !rng.chance(3) {
            let palette = &palettes[rng.below(palettes.len() as u64) as usize];
            chunk.copy_from_slice(&chunk_of(rng, palette, chunk.len()));
        }
    }
    patterns
}

// -------------------------------------------------------------- fields

/// A sound stream without side parts, and the values it restores.
pub struct Field {
    pub width: Width,
    pub patterns: Vec<u64>,
    pub plain: Vec<u8>,
}

impl Field {
    /// The field of a list packed at a level, which the setting must allow.
    pub fn packed(setting: Setting, level: u32, patterns: Vec<u64>) -> Field {
        let Setting { width, mode, k, group } = setting;
        let list = List::of(width, patterns);
        let packed = reference::packed(level, mode, k, group, list.values());
        Field::of_stream(packed.expect("an allowed setting"))
    }

    /// The field of a stream that can be read.
    pub fn of_stream(plain: Vec<u8>) -> Field {
        let width = number_at(&plain, WIDTH).and_then(Width::numbered).expect("a sound header");
        let list = reference::list_of(width, &plain, stated_count(&plain) as usize);
        let patterns = match list.expect("a sound stream") {
            List::Singles(values) => values.into_iter().map(u64::from).collect(),
            List::Doubles(values) => values,
        };
        Field { width, patterns, plain }
    }

    pub fn n(&self) -> u64 {
        self.patterns.len() as u64
    }

    pub fn chunks(&self) -> impl Iterator<Item = &[u64]> {
        self.patterns.chunks(VALUES_IN_CHUNK as usize)
    }

    pub fn entries(&self) -> Vec<Entry> {
        self.chunks().map(|chunk| Entry::of_chunk(self.width, chunk)).collect()
    }

    /// The true summary.
    pub fn part(&self) -> Vec<u8> {
        part_of(self.width, &self.entries())
    }

    pub fn with_parts(&self, sides: &[Side]) -> Vec<u8> {
        let mut stream = self.plain.clone();
        append_sides(&mut stream, sides);
        stream
    }

    pub fn with_summary(&self) -> Vec<u8> {
        self.with_parts(&[(SUMMARY_ID, self.part())])
    }

    /// The chunks that hold some value at least x; a comparison with a
    /// not-a-number never holds.
    pub fn listed(&self, x: u64) -> Vec<u64> {
        let x = value_of(self.width, x);
        let reaches = |chunk: &[u64]| chunk.iter().any(|&v| value_of(self.width, v) >= x);
        (0..)
            .zip(self.chunks())
            .filter(|(_, chunk)| reaches(chunk))
            .map(|(number, _)| number)
            .collect()
    }

    /// Refusals 1 and 7, the only ones of a sound stream that lie in the level.
    pub fn refusal_at(&self, level: u32) -> Option<Refusal> {
        let needed = number_at(&self.plain, NEEDED).unwrap_or(0);
        if !LEVELS.contains(&level) {
            Some(Refusal::bare(1))
        } else {
            (needed > level).then_some(Refusal::with_detail(7, needed as u64))
        }
    }
}
