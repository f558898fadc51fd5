//! Adding a summary, testing it and listing by it, with the faults of those.
//!
//! They are written here once more, over what check and unpack of this library
//! say, so that a fault of theirs is one of these, too.

use crate::codes::is_nan;
use crate::faults::{planted, Fault};
use crate::reading::{self, count, number, numbers_of, put};
use crate::Word;
use second::numbers::{Width, WIDTH_32, WIDTH_64};
use second::stream::HIGHEST_LEVEL;
use second::{Answer, Refusal};
use std::ops::Range;

const SUMMARY_ID: u32 = 1;

/// The values of a stream, as far as a summary is concerned with them.
struct Field {
    width: Width,
    patterns: Vec<u64>,
}

impl Field {
    /// The values of a stream that passes check.
    fn read(level: u32, stream: &[u8]) -> Result<Field, Refusal> {
        let n = reading::check(level, stream)? as usize;
        if number(stream, 3) == 64 {
            Ok(Field { width: WIDTH_64, patterns: unpacked::<u64>(level, stream, n)? })
        } else {
            Ok(Field { width: WIDTH_32, patterns: unpacked::<u32>(level, stream, n)? })
        }
    }

    fn chunks(&self) -> impl Iterator<Item = &[u64]> {
        self.patterns.chunks(1024)
    }
}

fn unpacked<P: Word>(level: u32, stream: &[u8], n: usize) -> Result<Vec<u64>, Refusal> {
    let mut values = vec![P::default(); n];
    reading::unpack(level, stream, &mut values)?;
    Ok(numbers_of(&values))
}

fn is_known(level: u32) -> bool {
    (8..=HIGHEST_LEVEL).contains(&level)
}

/// Whether check refuses the stream with this number.
fn refused_by(refusal: u32, level: u32, stream: &[u8]) -> bool {
    reading::check(level, stream).is_err_and(|met| met.number == refusal)
}

/// Puts the elements to the front of the output, or refuses with 4.
fn put_out<T: Copy>(elements: &[T], out: &mut [T], touches: Fault, detail: usize) -> Answer {
    let fits = elements.len().min(out.len());
    if fits == elements.len() || planted(touches) {
        out[..fits].copy_from_slice(&elements[..fits]);
    }
    if fits < elements.len() {
        return Err(Refusal::with_detail(4, detail as u64));
    }
    Ok(elements.len() as u64)
}

// --------------------------------------------------------- the summary

fn summary(field: &Field) -> Vec<u8> {
    let mut entries: Vec<Vec<u8>> = field.chunks().map(|chunk| entry(field.width, chunk)).collect();
    if planted(Fault::summary_of_first_chunk) {
        let first = entries.first().cloned().unwrap_or_default();
        entries.fill(first);
    }
    entries.concat()
}

fn entry(width: Width, chunk: &[u64]) -> Vec<u8> {
    let mut values: Vec<u64> = chunk.iter().copied().filter(|&p| is_value(width, p)).collect();
    if planted(Fault::last_chunk_filled) {
        values.resize(values.len() + 1024 - chunk.len(), 0);
    }
    // The first of those alike is the smallest, and the largest.
    let smallest = values.iter().copied().reduce(|a, b| if below(width, b, a) { b } else { a });
    let largest = values.iter().copied().reduce(|a, b| if below(width, a, b) { b } else { a });
    let nothing = if planted(Fault::nan_chunk_keeps_pattern) { chunk[0] } else { 0 };

    let not_numbers = chunk.iter().filter(|&&pattern| is_counted(width, pattern)).count();
    let mut bytes = (not_numbers as u32).to_le_bytes().to_vec();
    if planted(Fault::gap_behind_count) && width == WIDTH_64 {
        bytes.extend([0; 4]);
    }
    for pattern in [smallest, largest] {
        let pattern = pattern.unwrap_or(nothing);
        bytes.extend(&pattern.to_le_bytes()[..width.bits() as usize / 8]);
    }
    bytes
}

fn infinity(width: Width) -> u64 {
    width.greatest_field() << width.fraction_bits()
}

fn is_value(width: Width, pattern: u64) -> bool {
    let left_out = planted(Fault::infinities_left_out) || planted(Fault::infinities_counted);
    let infinite = width.ordinal(pattern) == infinity(width);
    let largest = planted(Fault::nan_as_largest) && width.sign(pattern) == 0;
    !(is_nan(width, pattern) && !largest || infinite && left_out)
}

/// Whether the pattern counts as a not-a-number.
fn is_counted(width: Width, pattern: u64) -> bool {
    if planted(Fault::infinities_counted) && width.ordinal(pattern) == infinity(width) {
        return true;
    }
    let missed = planted(Fault::signalling_uncounted) && is_signalling(width, pattern)
        || planted(Fault::negative_nan_uncounted) && width.sign(pattern) == 1;
    is_nan(width, pattern) && !missed
}

fn is_signalling(width: Width, pattern: u64) -> bool {
    let quiet = pattern >> (width.fraction_bits() - 1) & 1 == 1;
    is_nan(width, pattern) && !quiet
}

/// The order of IEEE 754, in which -0 equals 0.
fn rank(width: Width, pattern: u64) -> i128 {
    let ordinal = width.ordinal(pattern) as i128;
    if width.sign(pattern) == 1 {
        -ordinal
    } else {
        ordinal
    }
}

/// The order in a summary, in which -0 stands below 0.
fn below(width: Width, a: u64, b: u64) -> bool {
    if planted(Fault::summary_by_pattern) {
        return a < b;
    }
    let (of_a, of_b) = (rank(width, a), rank(width, b));
    if of_a != of_b || planted(Fault::zeros_alike) {
        return of_a < of_b;
    }
    if planted(Fault::minus_zero_above_zero) {
        a < b
    } else {
        a > b
    }
}

// ------------------------------------------------------------- the part

/// The place of the summary's bytes, if the stream has a summary.
fn place_of_part(stream: &[u8]) -> Option<Range<usize>> {
    let (sides, table) = (number(stream, 10) as usize, number(stream, 11) as usize);
    if planted(Fault::further_parts_refused) && sides != 1 {
        return None;
    }
    let entries = (0..sides).map(|side| &stream[table + 12 * side..]);
    let is_summary =
        |entry: &&[u8]| planted(Fault::first_part_taken) || number(entry, 0) == SUMMARY_ID;
    let entry = entries.into_iter().find(is_summary)?;
    let (place, length) = (number(entry, 1) as usize, number(entry, 2) as usize);
    Some(place..place + length)
}

/// Whether the stream has a summary that is true, as planted faults see it.
fn holds(stream: &[u8], field: &Field) -> bool {
    let Some(place) = place_of_part(stream) else {
        return planted(Fault::no_part_passes) && number(stream, 10) == 0;
    };
    let (mut part, mut right) = (stream[place].to_vec(), summary(field));
    if planted(Fault::longer_part_read) {
        part.truncate(right.len());
    }
    if planted(Fault::empty_summary_refused) && part.is_empty() || part.len() != right.len() {
        return false;
    }
    let size = 4 + field.width.bits() as usize / 4;
    if planted(Fault::first_entry_tested) {
        part.truncate(size);
        right.truncate(size);
    }
    if let Some(untested) = untested(field.width) {
        let entries = part.chunks_mut(size).chain(right.chunks_mut(size));
        entries.for_each(|entry| entry[untested.clone()].fill(0));
    }
    part == right
}

/// The bytes of an entry that a planted fault does not test.
fn untested(width: Width) -> Option<Range<usize>> {
    if planted(Fault::counts_untested) {
        Some(0..4)
    } else if planted(Fault::smallest_untested) {
        Some(4..4 + width.bits() as usize / 8)
    } else {
        None
    }
}

/// Whether a part of the right length is there, which takes no values.
fn has_length(stream: &[u8]) -> bool {
    let size = 4 + number(stream, 3) as usize / 4;
    let length = place_of_part(stream).map(|place| place.len());
    length == Some(size * number(stream, 7) as usize)
}

// ---------------------------------------------------------- operations

pub fn add(level: u32, stream: &[u8], out: &mut [u8]) -> Answer {
    let sided = number(stream, 10) != 0;
    if planted(Fault::order_16_before_10) && sided && refused_by(10, level, stream) {
        return Err(Refusal::bare(16));
    }
    if planted(Fault::summary_needs_12) && is_known(level) && level < 12 {
        return Err(Refusal::bare(1));
    }
    let field = Field::read(level, stream)?;
    let part = summary(&field);
    let again = planted(Fault::added_again) && number(stream, 10) == 1 && holds(stream, &field);
    let short = planted(Fault::order_4_before_16) && out.len() < stream.len();
    if sided && !again && !short {
        return Err(Refusal::bare(16));
    }
    let copy = with_part(level, &stream[..number(stream, 11) as usize], &part);
    let detail = if planted(Fault::part_told) { part.len() } else { copy.len() };
    put_out(&copy, out, Fault::short_copy_written, detail)
}

fn with_part(level: u32, plain: &[u8], part: &[u8]) -> Vec<u8> {
    let mut copy = plain.to_vec();
    put(&mut copy, 10, 1);
    if planted(Fault::written_raised) {
        put(&mut copy, 1, level.max(number(plain, 1)));
    }
    if planted(Fault::need_raised) {
        put(&mut copy, 2, number(plain, 2).max(9));
    }
    let before = if planted(Fault::place_of_table_told) { 0 } else { 12 };
    for number in [SUMMARY_ID as usize, plain.len() + before, part.len()] {
        copy.extend((number as u32).to_le_bytes());
    }
    copy.extend(part);
    copy
}

pub fn test(level: u32, stream: &[u8]) -> Answer {
    let field = tested(level, stream)?;
    if holds(stream, &field) {
        Ok(count(stream))
    } else {
        Err(Refusal::bare(17))
    }
}

/// The values of a stream that is read for its summary.
fn tested(level: u32, stream: &[u8]) -> Result<Field, Refusal> {
    let before_10 = planted(Fault::order_17_before_10) && refused_by(10, level, stream);
    if before_10 && !has_length(stream) {
        return Err(Refusal::bare(17));
    }
    Field::read(level, stream)
}

pub fn chunks_from<P: Word>(level: u32, x: P, stream: &[u8], out: &mut [u32]) -> Answer {
    refused_early::<P>(level, x.number(), stream)?;
    let field = tested(level, stream)?;
    let listed = listed(&field, x.number());
    let unread = planted(Fault::list_without_test) && has_length(stream);
    let short = planted(Fault::order_4_before_17) && out.len() < listed.len();
    if !holds(stream, &field) && !unread && !short {
        return Err(Refusal::bare(17));
    }
    let chunks = number(stream, 7) as usize;
    if planted(Fault::room_for_all_chunks) && out.len() < chunks {
        return Err(Refusal::with_detail(4, chunks as u64));
    }
    let detail = if planted(Fault::all_chunks_told) { chunks } else { listed.len() };
    if planted(Fault::past_list_written) && out.len() > listed.len() {
        out[listed.len()] = 0;
    }
    put_out(&listed, out, Fault::short_list_written, detail)
}

/// Refusals 1 2 5 6 7 8 14 of the list.
fn refused_early<P: Word>(level: u32, x: u64, stream: &[u8]) -> Result<(), Refusal> {
    let not_a_number = is_refused(P::WIDTH, x);
    let before_1 = planted(Fault::order_2_before_1);
    let behind_5 = planted(Fault::order_5_before_2) && stream.len() < 48;
    if not_a_number && (is_known(level) || before_1) && !behind_5 {
        return Err(Refusal::bare(2));
    }
    let header = match reading::check(level, stream) {
        Err(refusal) if matches!(refusal.number, 1 | 5 | 6 | 7) => Err(refusal),
        // The late use of 8, which goes behind 14, is found by the other readers.
        Err(refusal) if refusal.number == 8 => {
            reading::probe::<P>(level, stream, u64::MAX).map(|_| ())
        }
        Err(refusal) if refusal.number == 9 && planted(Fault::order_9_before_14) => Err(refusal),
        _ => Ok(()),
    };
    header.or_else(|refusal| if refusal.number == 11 { Ok(()) } else { Err(refusal) })?;
    if number(stream, 3) != P::WIDTH.bits() {
        return Err(Refusal::bare(14));
    }
    Ok(())
}

/// Whether x is refused as a not-a-number.
fn is_refused(width: Width, x: u64) -> bool {
    let taken = planted(Fault::signalling_x_taken) && is_signalling(width, x);
    let infinite = planted(Fault::infinite_x_refused) && width.ordinal(x) == infinity(width);
    is_nan(width, x) && !taken || infinite
}

/// The numbers of the chunks that hold some value at least x.
fn listed(field: &Field, x: u64) -> Vec<u32> {
    let reaching = (0..).zip(field.chunks()).filter(|(_, chunk)| reaches(field.width, chunk, x));
    let mut numbers: Vec<u32> = reaching.map(|(number, _)| number).collect();
    if planted(Fault::chunks_descending) {
        numbers.reverse();
    }
    if planted(Fault::chunk_listed_twice) {
        numbers.extend(numbers.last().copied());
    }
    if planted(Fault::chunks_counted_from_1) {
        numbers.iter_mut().for_each(|number| *number += 1);
    }
    numbers
}

fn reaches(width: Width, chunk: &[u64], x: u64) -> bool {
    let mut values: Vec<u64> = chunk.iter().copied().filter(|&p| !is_nan(width, p)).collect();
    if planted(Fault::nan_chunk_listed) && values.is_empty() {
        values.push(0);
    }
    if planted(Fault::infinities_not_listed) {
        values.retain(|&pattern| width.ordinal(pattern) != infinity(width));
    }
    if planted(Fault::smallest_compared) {
        let smallest = values.iter().copied().min_by_key(|&pattern| rank(width, pattern));
        values = smallest.into_iter().collect();
    }
    values.into_iter().any(|value| at_least(width, value, x))
}

fn at_least(width: Width, value: u64, x: u64) -> bool {
    if planted(Fault::x_by_pattern) {
        return value >= x;
    }
    if planted(Fault::above_x_only) {
        return rank(width, value) > rank(width, x);
    }
    let zeros = width.ordinal(value) == 0 && width.ordinal(x) == 0;
    if planted(Fault::minus_zero_below_zero) && zeros {
        return width.sign(value) <= width.sign(x);
    }
    if planted(Fault::high_half_compared) && width == WIDTH_64 {
        return rank(width, value) >> 32 >= rank(width, x) >> 32;
    }
    rank(width, value) >= rank(width, x)
}
