//! The summary beside the data: adding it, testing it, and listing the chunks
//! that reach a value.
//!
//! Side part 1 has an entry for each chunk: how many not-a-numbers it holds, the
//! smallest and the largest of its other values.

use crate::numbers::Width;
use crate::stream::{self, Pattern, Whole, SIDE_ENTRY_BYTES};
use crate::{Answer, Refusal};

const SUMMARY_ID: u32 = 1;
/// Where the header has the side part count s.
const PLACE_OF_SIDES: usize = 40;

// ---------------------------------------------------- patterns as values

fn is_not_a_number(width: Width, pattern: u64) -> bool {
    let infinity = width.greatest_field() << width.fraction_bits();
    width.ordinal(pattern) > infinity
}

/// A number that is as great as another's exactly when the value is, as IEEE 754
/// compares: -0 and 0 have the same.
fn magnitude_with_sign(width: Width, pattern: u64) -> i128 {
    let ordinal = width.ordinal(pattern) as i128;
    match width.sign(pattern) {
        0 => ordinal,
        _ => -ordinal,
    }
}

/// The same order, but that -0 stands below 0.
fn order_in_summary(width: Width, pattern: u64) -> (i128, bool) {
    (magnitude_with_sign(width, pattern), width.sign(pattern) == 0)
}

// --------------------------------------------------------- the summary

/// The summary of a stream's restored values, its chunks in order.
fn summary(whole: &Whole) -> Vec<u8> {
    let width = whole.header.setting.width();
    whole.chunks.iter().flat_map(|chunk| entry(width, chunk)).collect()
}

/// What the summary holds for one chunk: 4 bytes of count, and W/8 of each
/// pattern, which is 0 if there is no value.
fn entry(width: Width, chunk: &[u64]) -> Vec<u8> {
    let (not_numbers, values): (Vec<u64>, Vec<u64>) =
        chunk.iter().partition(|&&pattern| is_not_a_number(width, pattern));
    let order = |pattern: &u64| order_in_summary(width, *pattern);
    let smallest = values.iter().copied().min_by_key(order).unwrap_or(0);
    let largest = values.iter().copied().max_by_key(order).unwrap_or(0);

    let mut bytes = (not_numbers.len() as u32).to_le_bytes().to_vec();
    for pattern in [smallest, largest] {
        bytes.extend(&pattern.to_le_bytes()[..width.bits() as usize / 8]);
    }
    bytes
}

/// Refusal 17, where the stream has no summary or a false one.
fn summary_holds(stream: &[u8], whole: &Whole) -> Result<(), Refusal> {
    let side = whole.tables.sides.iter().find(|side| side.id == SUMMARY_ID);
    let part = side.map(|side| &stream[side.bytes.start as usize..side.bytes.end as usize]);
    if part == Some(&summary(whole)) {
        Ok(())
    } else {
        Err(Refusal::bare(17))
    }
}

// ---------------------------------------------------------- operations

/// Writes the stream with a summary to the front of the output and answers the
/// bytes. Order 1 5 6 7 8 9 8 15 10 16 4.
pub fn add_summary(level: u32, stream: &[u8], output: &mut [u8]) -> Answer {
    let whole = stream::checked(level, stream)?;
    if whole.header.sides != 0 {
        return Err(Refusal::bare(16));
    }
    let copy = with_summary(stream, &summary(&whole));
    let length = copy.len() as u64;
    match output.get_mut(..copy.len()) {
        Some(front) => front.copy_from_slice(&copy),
        None => return Err(Refusal::with_detail(4, length)),
    }
    Ok(length)
}

/// A stream that ends with its data, and behind it a side table of one entry and
/// the summary.
fn with_summary(stream: &[u8], summary: &[u8]) -> Vec<u8> {
    let mut copy = stream.to_vec();
    copy[PLACE_OF_SIDES..PLACE_OF_SIDES + 4].copy_from_slice(&1u32.to_le_bytes());
    let place = stream.len() as u64 + SIDE_ENTRY_BYTES;
    for number in [SUMMARY_ID, place as u32, summary.len() as u32] {
        copy.extend(number.to_le_bytes());
    }
    copy.extend(summary);
    copy
}

/// Tests the summary against the values and answers n. Order
/// 1 5 6 7 8 9 8 15 10 17.
pub fn test_summary(level: u32, stream: &[u8]) -> Answer {
    let whole = stream::checked(level, stream)?;
    summary_holds(stream, &whole)?;
    Ok(whole.header.n)
}

/// Writes the numbers of the chunks that hold some value at least x, in order, to
/// the front of the output and answers how many. Order
/// 1 2 5 6 7 8 14 9 8 15 10 17 4.
pub fn chunks_from<P: Pattern>(level: u32, x: P, stream: &[u8], output: &mut [u32]) -> Answer {
    stream::level_known(level)?;
    if is_not_a_number(P::WIDTH, x.number()) {
        return Err(Refusal::bare(2));
    }
    let header = stream::read_header(level, stream)?;
    if header.setting.width() != P::WIDTH {
        return Err(Refusal::bare(14));
    }
    let whole = stream::read_rest(stream, header)?;
    summary_holds(stream, &whole)?;

    let reaching =
        (0..).zip(&whole.chunks).filter(|(_, chunk)| reaches(P::WIDTH, chunk, x.number()));
    let numbers: Vec<u32> = reaching.map(|(number, _)| number).collect();
    let count = numbers.len() as u64;
    match output.get_mut(..numbers.len()) {
        Some(front) => front.copy_from_slice(&numbers),
        None => return Err(Refusal::with_detail(4, count)),
    }
    Ok(count)
}

/// Whether the chunk holds some value at least x. A not-a-number is none.
fn reaches(width: Width, chunk: &[u64], x: u64) -> bool {
    let at_least_x =
        |&pattern: &u64| magnitude_with_sign(width, pattern) >= magnitude_with_sign(width, x);
    chunk.iter().filter(|&&pattern| !is_not_a_number(width, pattern)).any(at_least_x)
}
