//! Check, unpack and probe, with their faults.
//!
//! A fault that reads what should be refused is planted by mending the stream
//! first; one that refuses otherwise, by changing the refusal afterwards.

use crate::faults::{planted, Fault};
use crate::sizes::{self, group, mode};
use crate::{codes, differences, naming, needs, Word};
use second::numbers::{self, bit_length, Halves, Tolerance, Width};
use second::stream::{self, Probed, HIGHEST_LEVEL};
use second::{Answer, Refusal};
use std::ops::Range;

pub fn number(stream: &[u8], order: usize) -> u32 {
    let bytes = stream.get(4 * order..4 * order + 4);
    bytes.map_or(0, |b| u32::from_le_bytes([b[0], b[1], b[2], b[3]]))
}

pub fn put(stream: &mut [u8], order: usize, number: u32) {
    stream[4 * order..4 * order + 4].copy_from_slice(&number.to_le_bytes());
}

pub fn count(stream: &[u8]) -> u64 {
    number(stream, 6) as u64
}

pub fn numbers_of<P: Word>(values: &[P]) -> Vec<u64> {
    values.iter().map(|value| value.number()).collect()
}

// --------------------------------------------------------- operations

pub fn check(level: u32, stream: &[u8]) -> Answer {
    let (level, mended) = faced(level, stream);
    let answer = match number(stream, 3) {
        64 => checked::<u64>(level, &mended),
        _ => checked::<u32>(level, &mended),
    };
    match answer {
        Err(Refusal { number: 10, detail })
            if planted(Fault::first_chunk_checked) && detail >= 32 =>
        {
            Ok(count(stream))
        }
        answer => changed(level, stream, answer),
    }
}

pub fn unpack<P: Word>(level: u32, stream: &[u8], out: &mut [P]) -> Answer {
    let (level, mended) = faced(level, stream);
    let mut values = out.to_vec();
    let answer = stream::unpack(level, &mended, &mut values).and_then(|n| {
        codes_allowed(&mended, &values[..n as usize])?;
        sizes::groups_allowed(&mended, 0..number(&mended, 7) as usize)?;
        Ok(n)
    });
    match answer {
        Ok(n) => {
            out.copy_from_slice(&values);
            touch_values(&mended, out, n as usize);
        }
        Err(Refusal { number: 10, detail }) if planted(Fault::output_touched_on_refusal) => {
            out[..1024 * (detail as usize / 32)].fill(P::default());
        }
        Err(Refusal { number: 4, .. }) if planted(Fault::detail_of_4) => {
            return Err(Refusal::with_detail(4, out.len() as u64));
        }
        Err(_) => {}
    }
    let tables = refused_tables(level, stream);
    match answer {
        Err(Refusal { number: 4, .. }) if planted(Fault::order_9_before_4) && tables => {
            Err(Refusal::bare(9))
        }
        answer => changed(level, stream, width_first::<P>(stream, answer)),
    }
}

/// The answer with the pattern, or the refusal.
pub fn probe<P: Word>(level: u32, stream: &[u8], index: u64) -> Result<(u64, u64), Refusal> {
    let (level, mended) = faced(level, stream);
    let mended = needs::faced_by_probe(level, mended);
    let index = if planted(Fault::index_in_32_bits) { index as u32 as u64 } else { index };
    let index = sizes::faced_index(&mended, index);
    let answer = pattern_at::<P>(level, &mended, index).and_then(|pattern| {
        let chunk = index as usize / 1024;
        sizes::groups_allowed(&mended, chunk..chunk + 1)?;
        let pattern = match mode(&mended) {
            2 => probed_difference::<P>(level, &mended, index, pattern)?,
            _ => {
                let allowed = codes_allowed(&mended, &[P::of_number(pattern)]);
                allowed.map_err(|_| named_group(&mended, index))?;
                restored(&mended, pattern)
            }
        };
        Ok(told_apart(P::WIDTH, pattern))
    });
    if planted(Fault::probe_all_chunks) && answer.is_ok() {
        stream::check(level, &mended)?;
    }
    let beyond = index >= count(stream);
    match answer.map_err(|refusal| refusal.number) {
        Err(10) if planted(Fault::probe_names_own_group) => Err(named_group(stream, index)),
        Err(14) if planted(Fault::order_11_before_14) && beyond => Err(Refusal::bare(11)),
        Err(11) if planted(Fault::order_9_before_11) && refused_tables(level, stream) => {
            Err(Refusal::bare(9))
        }
        _ => match width_first::<P>(stream, answer.map(|_| 0)) {
            Ok(_) => answer,
            refused => changed(level, stream, refused).and(answer),
        },
    }
}

/// Refusal 10 for the group of a value.
fn named_group(stream: &[u8], index: u64) -> Refusal {
    Refusal::with_detail(10, index / 1024 * 32 + index % 1024 / group(stream) as u64)
}

/// The pattern of a value, or the refusal.
fn pattern_at<P: Word>(level: u32, stream: &[u8], index: u64) -> Result<u64, Refusal> {
    match stream::probe::<P>(level, stream, index) {
        Probed::Refused(refusal) => Err(refusal),
        Probed::Finite(pattern) | Probed::NotANumber(pattern) => Ok(pattern.number()),
        Probed::Infinity { negative } => Ok(infinity(P::WIDTH, negative)),
    }
}

/// What a planted fault of mode 2 makes of a probed pattern.
fn probed_difference<P: Word>(
    level: u32,
    stream: &[u8],
    index: u64,
    pattern: u64,
) -> Result<u64, Refusal> {
    let size = group(stream) as u64;
    let (group, chunk) = (index / size * size, index / 1024 * 1024);
    let faulty = if planted(Fault::probe_from_group_start) && group > chunk {
        pattern.wrapping_sub(pattern_at::<P>(level, stream, group - 1)?)
    } else if planted(Fault::probe_from_chunk_before) && chunk > 0 {
        pattern.wrapping_add(pattern_at::<P>(level, stream, chunk - 1)?)
    } else {
        pattern
    };
    Ok(P::of_number(faulty).number())
}

fn refused_tables(level: u32, stream: &[u8]) -> bool {
    stream::check(level, stream) == Err(Refusal::bare(9))
}

// ---------------------------------------------- refusals changed afterwards

/// What a planted fault makes of a reader's answer.
fn changed(level: u32, stream: &[u8], answer: Answer) -> Answer {
    let Err(refusal) = answer else {
        let written = number(stream, 1);
        let limited = planted(Fault::written_limited) && written > HIGHEST_LEVEL
            || planted(Fault::written_14_refused) && written == 14 && level < 14;
        return if limited { Err(Refusal::bare(8)) } else { answer };
    };
    let changed = match refusal.number {
        1 if planted(Fault::order_5_before_1) && stream.len() < 48 => Refusal::bare(5),
        6 if planted(Fault::order_7_before_6) && number(stream, 2) > level => {
            Refusal::with_detail(7, number(stream, 2) as u64)
        }
        9 if planted(Fault::data_without_chunks_is_8) && count(stream) == 0 => Refusal::bare(8),
        9 if planted(Fault::equal_starts_are_10) => {
            equal_starts(stream).map_or(refusal, |chunk| Refusal::with_detail(10, 32 * chunk))
        }
        10 => Refusal::with_detail(10, naming::named(stream, refusal.detail as usize) as u64),
        _ => needs::changed(level, stream, refusal),
    };
    Err(changed)
}

fn width_first<P: Word>(stream: &[u8], answer: Answer) -> Answer {
    let other = 96 - P::WIDTH.bits();
    match answer {
        Err(Refusal { number: 8, .. })
            if planted(Fault::order_14_before_8) && number(stream, 3) == other =>
        {
            Err(Refusal::bare(14))
        }
        answer => answer,
    }
}

/// The first chunk that starts where the next one does.
fn equal_starts(stream: &[u8]) -> Option<u64> {
    let c = number(stream, 7) as usize;
    let chunks = 0..c.saturating_sub(1);
    let equal = |&chunk: &usize| number(stream, 12 + chunk) == number(stream, 13 + chunk);
    chunks.into_iter().find(equal).map(|chunk| chunk as u64)
}

// ---------------------------------------------------- what success leaves

fn touch_values<P: Word>(stream: &[u8], out: &mut [P], n: usize) {
    let mut patterns: Vec<u64> = numbers_of(&out[..n]);
    if mode(stream) == 2 {
        patterns = differences::as_read(P::WIDTH, group(stream), &patterns);
    }
    sizes::touch_patterns(stream, &mut patterns);
    for (value, pattern) in out.iter_mut().zip(patterns) {
        *value = P::of_number(restored(stream, pattern));
    }
    if planted(Fault::first_chunk_only) && n > 1024 {
        out[1024..n].fill(P::default());
    }
    if planted(Fault::past_n_written) && out.len() > n {
        out[n] = P::default();
    }
}

/// What a planted fault makes of a value restored from a stream.
fn restored(stream: &[u8], pattern: u64) -> u64 {
    match (Width::numbered(number(stream, 3)), mode(stream)) {
        (Some(width), 0) => codes::lossless_restored(width, numbers::lossless_code(width, pattern)),
        (Some(width), 1) => codes::restored_pattern(width, pattern),
        _ => pattern,
    }
}

/// Probe's answer, and the pattern.
fn told_apart(width: Width, pattern: u64) -> (u64, u64) {
    let ordinal = width.ordinal(pattern);
    if codes::is_nan(width, pattern) {
        (2, quiet(width, pattern))
    } else if ordinal == infinity(width, false) {
        let sign = if planted(Fault::infinity_without_sign) { 0 } else { width.sign(pattern) };
        (1, infinity(width, sign == 1))
    } else {
        (0, pattern)
    }
}

fn infinity(width: Width, negative: bool) -> u64 {
    width.greatest_field() << width.fraction_bits() | (negative as u64) << (width.bits() - 1)
}

fn quiet(width: Width, pattern: u64) -> u64 {
    let quiet = 1 << (width.fraction_bits() - 1);
    pattern | if planted(Fault::nan_made_quiet) { quiet } else { 0 }
}

// ------------------------------------------------------ codes refused

/// Refusal 10 for the first group with a code that a planted fault refuses.
fn codes_allowed<P: Word>(stream: &[u8], values: &[P]) -> Result<(), Refusal> {
    let refused = match mode(stream) {
        1 => first_refused(number(stream, 5) as i32, values),
        2 => differences::first_refused(P::WIDTH, group(stream), &numbers_of(values)),
        _ => None,
    };
    match refused {
        Some(index) => Err(named_group(stream, index as u64)),
        None => Ok(()),
    }
}

/// The first value in mode 1 whose code is refused.
fn first_refused<P: Word>(k: i32, values: &[P]) -> Option<usize> {
    let t = Tolerance::allowed(P::WIDTH, k)?;
    // A restored value is no half.
    let code = |value: &P| t.code(Halves::AwayFromZero, value.number());
    values.iter().position(|value| codes::is_refused_code(t, code(value)))
}

/// The same for a stream whose values nobody has asked for.
fn checked<P: Word>(level: u32, stream: &[u8]) -> Answer {
    let n = stream::check(level, stream)?;
    let mut values = vec![P::default(); n as usize];
    stream::unpack(level, stream, &mut values)?;
    codes_allowed(stream, &values)?;
    sizes::groups_allowed(stream, 0..number(stream, 7) as usize)?;
    Ok(n)
}

// --------------------------------------------- streams mended beforehand

/// Level and stream as a planted fault sees them.
fn faced(level: u32, stream: &[u8]) -> (u32, Vec<u8>) {
    let (level, stream) = faced_header(faced_level(level, number(stream, 2)), stream);
    let (level, stream) = sizes::faced_header(level, stream);
    let (level, stream) = needs::faced(level, stream);
    let mended = match stream::check(level, &stream).map_err(|refusal| refusal.number) {
        Err(9) => without_sides(&stream),
        Err(10) => rebuilt(&stream),
        _ => None,
    };
    (level, mended.unwrap_or(stream))
}

fn faced_level(level: u32, need: u32) -> u32 {
    let of_two_digits = is_known(level) && (10..=HIGHEST_LEVEL).contains(&need);
    if planted(Fault::minor_by_last_digit) && of_two_digits {
        level.max(need)
    } else {
        needs::faced_level(level)
    }
}

fn is_known(level: u32) -> bool {
    (8..=HIGHEST_LEVEL).contains(&level)
}

/// Level and stream such that a mode 2 of another need, or of any k, is read.
fn faced_header(level: u32, stream: &[u8]) -> (u32, Vec<u8>) {
    let mut stream = stream.to_vec();
    let in_mode_2 = stream.len() >= 48 && number(&stream, 4) == 2; // with groups of 32
    let Some(width) = Width::numbered(number(&stream, 3)).filter(|_| in_mode_2) else {
        return (level, stream);
    };
    if planted(Fault::any_k_read) {
        put(&mut stream, 5, 0);
    }
    let (written, need) = (number(&stream, 1), number(&stream, 2));
    let known = is_known(level) && need <= level;
    match need {
        10 if known && differences::need(width) == 10 => {
            put(&mut stream, 1, if written == 10 { 11 } else { written });
            put(&mut stream, 2, 11);
            (level.max(11), stream)
        }
        11 if known && differences::need(width) == 10 => {
            put(&mut stream, 2, 10);
            (level, stream)
        }
        _ => (level, stream),
    }
}

/// The stream without its side table and parts, if a planted fault lets the
/// table pass.
fn without_sides(stream: &[u8]) -> Option<Vec<u8>> {
    let modulo = planted(Fault::side_sums_in_32_bits);
    let equal = planted(Fault::equal_ids_read);
    let (sides, end) = (number(stream, 10) as usize, number(stream, 11) as usize);
    if !modulo && !equal || stream.len() < end + 12 * sides || sides == 0 {
        return None;
    }
    let mut place = (end + 12 * sides) as u64;
    let mut least_id = 0;
    for entry in stream[end..end + 12 * sides].chunks_exact(12) {
        let (id, stated, length) = (number(entry, 0), number(entry, 1), number(entry, 2));
        if (id as u64) < least_id || stated as u64 != place {
            return None;
        }
        least_id = id as u64 + if equal { 0 } else { 1 };
        place += length as u64;
        place %= if modulo { 1 << 32 } else { u64::MAX };
    }
    if place != stream.len() as u64 {
        return None;
    }
    let mut cut = stream[..end].to_vec();
    put(&mut cut, 10, 0);
    Some(cut)
}

/// The stream with its chunks written again as a planted fault reads them.
fn rebuilt(stream: &[u8]) -> Option<Vec<u8>> {
    let faults = [
        Fault::padding_ignored,
        Fault::smallest_width_ignored,
        Fault::leftover_ignored,
        Fault::limit_by_first_block,
    ];
    if !faults.into_iter().any(planted) {
        return None;
    }
    let (n, c) = (count(stream) as usize, number(stream, 7) as usize);
    let (place, end) = (number(stream, 9) as usize, number(stream, 11) as usize);
    let mut front = stream[..place].to_vec();
    let mut data = Vec::new();
    for chunk in 0..c {
        let values = (n - 1024 * chunk).min(1024);
        let bytes = &stream[stretch(stream, chunk, c)];
        put(&mut front, 12 + chunk, data.len() as u32);
        data.extend(chunk_again(stream, bytes, values));
    }
    let moved = (place + data.len()) as u32;
    if moved as usize != end && number(stream, 10) != 0 {
        return None; // side parts would have to move, too
    }
    put(&mut front, 11, moved);
    Some([&front, &data[..], &stream[end..]].concat())
}

pub fn stretch(stream: &[u8], chunk: usize, c: usize) -> Range<usize> {
    let place = number(stream, 9) as usize;
    let start = place + number(stream, 12 + chunk) as usize;
    match chunk + 1 < c {
        true => start..place + number(stream, 13 + chunk) as usize,
        false => start..number(stream, 11) as usize,
    }
}

/// A chunk's bytes with each group written again; from the first group that
/// cannot be read on, as they stand.
fn chunk_again(stream: &[u8], mut bytes: &[u8], values: usize) -> Vec<u8> {
    let mut again = Vec::new();
    let size = group(stream);
    for from in (0..values).step_by(size) {
        let count = (values - from).min(size);
        let Some((group, rest)) = group_again(stream, bytes, count) else {
            break;
        };
        again.extend(group);
        bytes = rest;
    }
    if !planted(Fault::leftover_ignored) {
        again.extend(bytes);
    }
    again
}

fn group_again<'a>(stream: &[u8], bytes: &'a [u8], count: usize) -> Option<(Vec<u8>, &'a [u8])> {
    let (mut codes, rest) = codes_of_group(bytes, count, number(stream, 3))?;
    let (w, length) = (bytes[0] as usize, bytes.len() - rest.len());
    let refused_above = sizes::without_limit(stream, &mut codes);
    let smallest = bit_length(codes.iter().copied().max()?) as usize;
    let any_width = planted(Fault::smallest_width_ignored) || refused_above;
    let w_again = if any_width { smallest } else { w };
    let mut again = written(&codes, w_again);
    if !planted(Fault::padding_ignored) && w_again == w && !refused_above {
        again = bytes[..length].to_vec();
    }
    Some((again, rest))
}

/// The codes of the group that begins the bytes, and the bytes after it; nothing if
/// it is too wide or cut.
pub fn codes_of_group(bytes: &[u8], count: usize, width: u32) -> Option<(Vec<u64>, &[u8])> {
    let (&w, rest) = bytes.split_first()?;
    let length = (count * w as usize).div_ceil(8);
    let packed = rest.get(..length).filter(|_| w as u32 <= width)?;
    let bit = |place: usize| (packed[place / 8] >> (place % 8) & 1) as u64;
    let w = w as usize;
    let code = |index: usize| (0..w).map(|b| bit(index * w + b) << b).sum::<u64>();
    Some(((0..count).map(code).collect(), &rest[length..]))
}

pub fn written(codes: &[u64], w: usize) -> Vec<u8> {
    let mut bytes = vec![0; 1 + (codes.len() * w).div_ceil(8)];
    bytes[0] = w as u8;
    for (index, code) in codes.iter().enumerate() {
        for bit in (0..w).filter(|bit| code >> bit & 1 == 1) {
            bytes[1 + (index * w + bit) / 8] |= 1 << ((index * w + bit) % 8);
        }
    }
    bytes
}
