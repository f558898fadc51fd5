//! The stream: pack, length, unpack, check and probe.
//!
//! Each operation applies its refusals in the order the document states. All
//! places and lengths are added as `u64`: the largest sum, the 64 lengths of a
//! side table, stays far below 2^64.

use crate::numbers::{self, bit_length, Halves, Tolerance, Width, WIDTH_32, WIDTH_64};
use crate::{Answer, Refusal};
use std::ops::Range;

pub const MOST_VALUES: u64 = 1_048_576;
pub const HIGHEST_LEVEL: u32 = 14;
/// Writers from this level on send halves to even; nothing needs it to be read.
const FIRST_LEVEL_TO_EVEN: u32 = 14;

const HEADER_BYTES: u64 = 48;
const TABLE_ENTRY_BYTES: u64 = 4;
pub(crate) const SIDE_ENTRY_BYTES: u64 = 12;
const MOST_SIDES: u64 = 64;
/// Ids from here up mean "must be understood". None is defined yet.
const FIRST_HIGH_ID: u32 = 1 << 31;
/// What a stream with such an id needs.
const NEED_OF_HIGH_ID: u32 = 12;
pub(crate) const VALUES_IN_CHUNK: u64 = 1024;
/// The detail of refusal 10 is chunk·32 + group, at either group size.
const DETAILS_OF_CHUNK: u64 = 32;
/// What groups of 128 add to the mode number in the header and the listing.
const ADDED_FOR_128: u32 = 256;
/// What groups of 128 need.
const NEED_OF_128: u32 = 13;

/// A bit pattern of one of the two widths.
pub trait Pattern: Copy {
    const WIDTH: Width;
    fn number(self) -> u64;
    /// The pattern with this number; it is below 2^W wherever this is called.
    fn of_number(number: u64) -> Self;
}

impl Pattern for u32 {
    const WIDTH: Width = WIDTH_32;
    fn number(self) -> u64 {
        self as u64
    }
    fn of_number(number: u64) -> u32 {
        number as u32
    }
}

impl Pattern for u64 {
    const WIDTH: Width = WIDTH_64;
    fn number(self) -> u64 {
        self
    }
    fn of_number(number: u64) -> u64 {
        number
    }
}

/// What probe answers. A finite number is given by its pattern, so that two
/// answers can be compared exactly, -0 included.
#[derive(Clone, Copy, Debug, PartialEq, Eq)]
pub enum Probed<P> {
    Finite(P),
    Infinity { negative: bool },
    NotANumber(P),
    Refused(Refusal),
}

/// How values become codes: an allowed combination of width, mode and k.
#[derive(Clone, Copy, Debug)]
enum Coding {
    Lossless(Width),
    Tolerance(Tolerance),
    Difference(Width),
}

impl Coding {
    /// The coding, if width, mode and k are allowed together.
    fn allowed(width: u32, mode: u32, k: i32) -> Option<Coding> {
        let width = Width::numbered(width)?;
        match mode {
            0 if k == 0 => Some(Coding::Lossless(width)),
            1 => Tolerance::allowed(width, k).map(Coding::Tolerance),
            2 if k == 0 => Some(Coding::Difference(width)),
            _ => None,
        }
    }

    fn width(self) -> Width {
        match self {
            Coding::Lossless(width) | Coding::Difference(width) => width,
            Coding::Tolerance(tolerance) => tolerance.width(),
        }
    }

    fn mode(self) -> u32 {
        match self {
            Coding::Lossless(_) => 0,
            Coding::Tolerance(_) => 1,
            Coding::Difference(_) => 2,
        }
    }

    fn k(self) -> i32 {
        match self {
            Coding::Lossless(_) | Coding::Difference(_) => 0,
            Coding::Tolerance(tolerance) => tolerance.k(),
        }
    }

    /// The code of a pattern by a writer's rule for halves, where `before` is the
    /// pattern before it in its chunk, 0 for the first.
    fn code(self, halves: Halves, before: u64, pattern: u64) -> u64 {
        match self {
            Coding::Lossless(width) => numbers::lossless_code(width, pattern),
            Coding::Tolerance(tolerance) => tolerance.code(halves, pattern),
            Coding::Difference(width) => numbers::difference_code(width, before, pattern),
        }
    }

    /// The pattern of a code after the same `before`, or nothing if u is above
    /// its largest.
    fn restored(self, before: u64, code: u64) -> Option<u64> {
        match self {
            Coding::Lossless(width) => Some(numbers::lossless_pattern(width, code)),
            Coding::Tolerance(tolerance) => tolerance.restored(code),
            Coding::Difference(width) => Some(numbers::difference_pattern(width, before, code)),
        }
    }
}

/// An allowed setting: a coding, and a group size, which is 32 or 128.
#[derive(Clone, Copy, Debug)]
pub(crate) struct Setting {
    coding: Coding,
    group: u64,
}

impl Setting {
    /// The setting of a call.
    fn asked(width: u32, mode: u32, k: i32, group: u32) -> Option<Setting> {
        let coding = Coding::allowed(width, mode, k)?;
        match group {
            32 | 128 => Some(Setting { coding, group: group as u64 }),
            _ => None,
        }
    }

    /// The setting of a header, where 256 is added to the mode for groups of 128.
    fn stated(width: u32, mode_number: u32, k: i32) -> Option<Setting> {
        match mode_number {
            0..=2 => Setting::asked(width, mode_number, k, 32),
            256..=258 => Setting::asked(width, mode_number - ADDED_FOR_128, k, 128),
            _ => None,
        }
    }

    pub(crate) fn width(self) -> Width {
        self.coding.width()
    }

    /// The mode as the header and the listing have it.
    pub(crate) fn mode_number(self) -> u32 {
        match self.group {
            128 => self.coding.mode() + ADDED_FOR_128,
            _ => self.coding.mode(),
        }
    }

    pub(crate) fn k(self) -> i32 {
        self.coding.k()
    }

    /// Groups of 128 need 13, mode 2 needs 11, width 64 needs 10, mode 1 needs 9,
    /// and all need 8: the largest stands. It is the need of a stream without high
    /// ids.
    fn need(self) -> u32 {
        let of_mode = match self.coding {
            Coding::Lossless(_) => 8,
            Coding::Tolerance(_) => 9,
            Coding::Difference(_) => 11,
        };
        let of_width = if self.width() == WIDTH_64 { 10 } else { 8 };
        let of_group = if self.group == 128 { NEED_OF_128 } else { 8 };
        of_mode.max(of_width).max(of_group)
    }
}

/// Refusal 1, first in every operation.
pub(crate) fn level_known(level: u32) -> Result<(), Refusal> {
    match level {
        8..=HIGHEST_LEVEL => Ok(()),
        _ => Err(Refusal::bare(1)),
    }
}

// ------------------------------------------------------- pack and length

/// Where a writer of this level sends halves. The need has no say.
pub fn halves_of_writer(level: u32) -> Halves {
    if level >= FIRST_LEVEL_TO_EVEN {
        Halves::ToEven
    } else {
        Halves::AwayFromZero
    }
}

/// Writes the packed stream to the front of the output. Order 1 2 3 4.
pub fn pack<P: Pattern>(
    level: u32,
    mode: u32,
    k: i32,
    group: u32,
    values: &[P],
    output: &mut [u8],
) -> Answer {
    let stream = packed(level, mode, k, group, values)?;
    let length = stream.len() as u64;
    match output.get_mut(..stream.len()) {
        Some(front) => front.copy_from_slice(&stream),
        None => return Err(Refusal::with_detail(4, length)),
    }
    Ok(length)
}

/// The bytes pack would use. Order 1 2 3.
pub fn length<P: Pattern>(level: u32, mode: u32, k: i32, group: u32, values: &[P]) -> Answer {
    packed(level, mode, k, group, values).map(|stream| stream.len() as u64)
}

/// The whole packed stream, or one of the refusals 1 2 3.
fn packed<P: Pattern>(
    level: u32,
    mode: u32,
    k: i32,
    group: u32,
    values: &[P],
) -> Result<Vec<u8>, Refusal> {
    level_known(level)?;
    let setting = Setting::asked(P::WIDTH.bits(), mode, k, group)
        .filter(|setting| setting.need() <= level)
        .ok_or(Refusal::bare(2))?;
    if values.len() as u64 > MOST_VALUES {
        return Err(Refusal::bare(3));
    }

    let halves = halves_of_writer(level);
    let mut starts: Vec<u32> = Vec::new();
    let mut data: Vec<u8> = Vec::new();
    for chunk in values.chunks(VALUES_IN_CHUNK as usize) {
        starts.push(data.len() as u32);
        let codes = codes_of_chunk(chunk, setting.coding, halves);
        for group in codes.chunks(setting.group as usize) {
            append_group(&mut data, group);
        }
    }

    let n = values.len() as u32;
    let c = starts.len() as u32;
    let data_place = 48 + 4 * c;
    let data_end = data_place + data.len() as u32;
    let header: [u32; 12] = [
        1,
        level,
        setting.need(),
        setting.width().bits(),
        setting.mode_number(),
        setting.k() as u32, // two's complement
        n,
        c,
        48,
        data_place,
        0,
        data_end,
    ];
    let mut stream: Vec<u8> = Vec::new();
    for number in header.iter().chain(&starts) {
        stream.extend(number.to_le_bytes());
    }
    stream.extend(data);
    Ok(stream)
}

/// The codes of a chunk's values. No chunk knows of the one before it.
fn codes_of_chunk<P: Pattern>(chunk: &[P], coding: Coding, halves: Halves) -> Vec<u64> {
    let mut before = 0;
    let mut codes = Vec::with_capacity(chunk.len());
    for value in chunk {
        codes.push(coding.code(halves, before, value.number()));
        before = value.number();
    }
    codes
}

/// Appends one group: its width byte, then its codes bit by bit.
fn append_group(data: &mut Vec<u8>, codes: &[u64]) {
    let w = smallest_width(codes);
    data.push(w as u8);
    let start = data.len();
    data.resize(start + bytes_of_codes(codes.len(), w), 0);
    let packed = &mut data[start..];
    let mut place = 0;
    for code in codes {
        for bit in 0..w {
            packed[place / 8] |= ((code >> bit & 1) as u8) << (place % 8);
            place += 1;
        }
    }
}

/// The bit length of the largest code, 0 if all are 0.
fn smallest_width(codes: &[u64]) -> u32 {
    bit_length(codes.iter().copied().max().unwrap_or(0))
}

/// The bytes that `count` codes of w bits fill, the padding included.
fn bytes_of_codes(count: usize, w: u32) -> usize {
    (count * w as usize).div_ceil(8)
}

// --------------------------------------------------- the header, 5 6 7 8

/// The header of a stream that passed refusals 5 6 7 8: so `data_place` is at
/// most `data_end`, and that at most the stream's length.
pub(crate) struct Header {
    pub(crate) written: u32,
    pub(crate) needed: u32,
    pub(crate) setting: Setting,
    pub(crate) n: u64,
    pub(crate) c: u64,
    pub(crate) sides: u64,
    data_place: u64,
    data_end: u64,
}

impl Header {
    fn data_length(&self) -> u64 {
        self.data_end - self.data_place
    }

    /// 1,024, or for the last chunk the remainder.
    fn values_in_chunk(&self, chunk: u64) -> u64 {
        (self.n - chunk * VALUES_IN_CHUNK).min(VALUES_IN_CHUNK)
    }

    pub(crate) fn groups_in_chunk(&self, chunk: u64) -> u64 {
        self.values_in_chunk(chunk).div_ceil(self.setting.group)
    }
}

/// The 32-bit little-endian number at a place, if the stream has its bytes.
fn number_at(stream: &[u8], place: u64) -> Option<u32> {
    let place = usize::try_from(place).ok()?;
    let bytes = stream.get(place..place.checked_add(4)?)?;
    Some(u32::from_le_bytes(bytes.try_into().ok()?))
}

/// The twelve header numbers, if there are 48 bytes.
fn header_numbers(stream: &[u8]) -> Option<[u32; 12]> {
    let mut numbers = [0; 12];
    for (place, number) in (0..HEADER_BYTES).step_by(4).zip(&mut numbers) {
        *number = number_at(stream, place)?;
    }
    Some(numbers)
}

pub(crate) fn read_header(level: u32, stream: &[u8]) -> Result<Header, Refusal> {
    let numbers = header_numbers(stream).ok_or(Refusal::bare(5))?;
    let [major, written, needed, width, mode, k, n, c, table, data, sides, end] = numbers;
    if major != 1 {
        return Err(Refusal::bare(6));
    }
    if needed > level {
        return Err(Refusal::with_detail(7, needed as u64));
    }
    // k is stored in two's complement, which the cast reads back.
    let setting = Setting::stated(width, mode, k as i32).ok_or(Refusal::bare(8))?;
    let header = Header {
        written,
        needed,
        setting,
        n: n as u64,
        c: c as u64,
        sides: sides as u64,
        data_place: data as u64,
        data_end: end as u64,
    };
    let rules = [
        // So it is not below 8 either. Whether it is exact, the ids decide.
        needed >= setting.need(),
        written >= needed,
        header.n <= MOST_VALUES,
        header.c == header.n.div_ceil(VALUES_IN_CHUNK),
        table as u64 == HEADER_BYTES,
        header.data_place == HEADER_BYTES + TABLE_ENTRY_BYTES * header.c,
        header.sides <= MOST_SIDES,
        header.data_place <= header.data_end,
        header.data_end <= stream.len() as u64,
    ];
    if rules.contains(&false) {
        return Err(Refusal::bare(8));
    }
    Ok(header)
}

// ------------------------------------------ the tables, 9 8 (late) 15

/// What the tables of a stream say that passed refusals 9 8 15.
pub(crate) struct Tables {
    /// The chunks as stretches of the data, counted from the data.
    pub(crate) stretches: Vec<Range<u64>>,
    pub(crate) sides: Vec<Side>,
}

/// A side part: its id, and its bytes as a stretch of the stream.
pub(crate) struct Side {
    pub(crate) id: u32,
    pub(crate) bytes: Range<u64>,
}

/// The tables, if both keep their rules, the need is exact, and every side part
/// may be skipped.
fn read_tables(stream: &[u8], header: &Header) -> Result<Tables, Refusal> {
    let sides = side_parts(stream, header).ok_or(Refusal::bare(9))?;
    let stretches = chunk_stretches(stream, header).ok_or(Refusal::bare(9))?;
    let high_id = sides.iter().map(|side| side.id).find(|&id| id >= FIRST_HIGH_ID);
    if header.needed != need_of_stream(header.setting, high_id) {
        return Err(Refusal::bare(8));
    }
    match high_id {
        Some(id) => Err(Refusal::with_detail(15, id as u64)),
        None => Ok(Tables { stretches, sides }),
    }
}

/// The need of a stream whose first high id, if it has one, is told.
fn need_of_stream(setting: Setting, high_id: Option<u32>) -> u32 {
    match high_id {
        Some(_) => setting.need().max(NEED_OF_HIGH_ID),
        None => setting.need(),
    }
}

/// Each chunk's stretch of the data, or nothing if the chunk table breaks a rule.
fn chunk_stretches(stream: &[u8], header: &Header) -> Option<Vec<Range<u64>>> {
    let mut starts: Vec<u64> = Vec::new();
    for chunk in 0..header.c {
        let start = number_at(stream, HEADER_BYTES + TABLE_ENTRY_BYTES * chunk)? as u64;
        let in_order = match starts.last() {
            None => start == 0,
            Some(&last) => start > last,
        };
        if !in_order || start >= header.data_length() {
            return None;
        }
        starts.push(start);
    }
    if starts.is_empty() && header.data_length() != 0 {
        return None;
    }
    let ends = starts.iter().copied().skip(1).chain([header.data_length()]);
    Some(starts.iter().zip(ends).map(|(&start, end)| start..end).collect())
}

/// The side parts, or nothing if the side table breaks a rule: ids increase
/// strictly; the parts follow the table and each other without a gap; the last,
/// or with none the data, ends with the stream.
fn side_parts(stream: &[u8], header: &Header) -> Option<Vec<Side>> {
    let mut next_place = header.data_end + SIDE_ENTRY_BYTES * header.sides;
    let mut sides: Vec<Side> = Vec::new();
    for side in 0..header.sides {
        let entry = header.data_end + SIDE_ENTRY_BYTES * side;
        // Nothing where the table runs past the bytes.
        let id = number_at(stream, entry)?;
        let place = number_at(stream, entry + 4)?;
        let length = number_at(stream, entry + 8)?;
        if sides.last().is_some_and(|last| id <= last.id) || place as u64 != next_place {
            return None;
        }
        next_place += length as u64;
        sides.push(Side { id, bytes: place as u64..next_place });
    }
    (next_place == stream.len() as u64).then_some(sides)
}

// -------------------------------------------------------- the chunks, 10

/// The patterns of one chunk, or refusal 10 with its first bad group:
/// chunk·32 + group.
fn read_chunk(
    stream: &[u8],
    header: &Header,
    stretch: &Range<u64>,
    chunk: u64,
) -> Result<Vec<u64>, Refusal> {
    // Both ends are at most data_end, which is at most the stream's length.
    let start = (header.data_place + stretch.start) as usize;
    let end = (header.data_place + stretch.end) as usize;
    patterns_of_chunk(&stream[start..end], header.values_in_chunk(chunk), header.setting)
        .map_err(|group| Refusal::with_detail(10, chunk * DETAILS_OF_CHUNK + group))
}

/// The patterns in a chunk's bytes, or the first bad group. All rules of a
/// group come before the next group.
fn patterns_of_chunk(mut bytes: &[u8], values: u64, setting: Setting) -> Result<Vec<u64>, u64> {
    let groups = values.div_ceil(setting.group);
    let mut patterns = Vec::new();
    let mut before = 0;
    for group in 0..groups {
        let count = (values - group * setting.group).min(setting.group);
        let (codes, rest) = codes_of_group(bytes, count as usize, setting.width()).ok_or(group)?;
        for code in codes {
            before = setting.coding.restored(before, code).ok_or(group)?;
            patterns.push(before);
        }
        bytes = rest;
    }
    // A chunk ends with its last group: what is left over counts for that one.
    if bytes.is_empty() {
        Ok(patterns)
    } else {
        Err(groups - 1)
    }
}

/// The codes of the group at the front of the bytes, and the bytes after it;
/// nothing if w is above W or not smallest, bytes are missing or a padding bit
/// is set. Bytes are missing where the width byte or the codes do not fit.
fn codes_of_group(bytes: &[u8], count: usize, width: Width) -> Option<(Vec<u64>, &[u8])> {
    let (&w, bytes) = bytes.split_first()?;
    let w = w as u32;
    if w > width.bits() {
        return None;
    }
    let length = bytes_of_codes(count, w);
    let packed = bytes.get(..length)?;
    let rest = bytes.get(length..)?;

    let bit_at = |place: usize| (packed[place / 8] >> (place % 8) & 1) as u64;
    let mut place = 0;
    let mut codes = Vec::with_capacity(count);
    for _ in 0..count {
        let mut code = 0;
        for bit in 0..w {
            code |= bit_at(place) << bit;
            place += 1;
        }
        codes.push(code);
    }
    let padding_is_zero = (place..8 * length).all(|place| bit_at(place) == 0);
    (padding_is_zero && smallest_width(&codes) == w).then_some((codes, rest))
}

// ------------------------------------------------ check, unpack and probe

/// A stream that passed every rule.
pub(crate) struct Whole {
    pub(crate) header: Header,
    pub(crate) tables: Tables,
    /// The restored patterns, chunk by chunk.
    pub(crate) chunks: Vec<Vec<u64>>,
}

/// A whole stream, every rule checked. Order 1 5 6 7 8 9 8 15 10.
pub(crate) fn checked(level: u32, stream: &[u8]) -> Result<Whole, Refusal> {
    level_known(level)?;
    let header = read_header(level, stream)?;
    read_rest(stream, header)
}

/// The whole stream of a header. Order 9 8 15 10.
pub(crate) fn read_rest(stream: &[u8], header: Header) -> Result<Whole, Refusal> {
    let tables = read_tables(stream, &header)?;
    let mut chunks = Vec::new();
    for (chunk, stretch) in (0..).zip(&tables.stretches) {
        chunks.push(read_chunk(stream, &header, stretch, chunk)?);
    }
    Ok(Whole { header, tables, chunks })
}

/// Checks a whole stream of either width and answers n.
pub fn check(level: u32, stream: &[u8]) -> Answer {
    checked(level, stream).map(|whole| whole.header.n)
}

/// Writes the n values to the front of the output and answers n. Order
/// 1 5 6 7 8 14 4 9 8 15 10. The output is written only once nothing can be
/// refused any more.
pub fn unpack<P: Pattern>(level: u32, stream: &[u8], output: &mut [P]) -> Answer {
    level_known(level)?;
    let header = read_header(level, stream)?;
    if header.setting.width() != P::WIDTH {
        return Err(Refusal::bare(14));
    }
    if (output.len() as u64) < header.n {
        return Err(Refusal::with_detail(4, header.n));
    }
    let whole = read_rest(stream, header)?;
    for (element, &pattern) in output.iter_mut().zip(whole.chunks.iter().flatten()) {
        *element = P::of_number(pattern);
    }
    Ok(whole.header.n)
}

/// One value by index. Order 1 5 6 7 8 14 11 9 8 15 10, the last for the
/// index's own chunk only.
pub fn probe<P: Pattern>(level: u32, stream: &[u8], index: u64) -> Probed<P> {
    match pattern_at(level, stream, index, P::WIDTH) {
        Ok(pattern) => told_apart(pattern),
        Err(refusal) => Probed::Refused(refusal),
    }
}

fn pattern_at(level: u32, stream: &[u8], index: u64, width: Width) -> Result<u64, Refusal> {
    level_known(level)?;
    let header = read_header(level, stream)?;
    if header.setting.width() != width {
        return Err(Refusal::bare(14));
    }
    if index >= header.n {
        return Err(Refusal::bare(11));
    }
    let tables = read_tables(stream, &header)?;
    let chunk = index / VALUES_IN_CHUNK;
    let patterns = read_chunk(stream, &header, &tables.stretches[chunk as usize], chunk)?;
    Ok(patterns[(index % VALUES_IN_CHUNK) as usize])
}

/// The kinds of IEEE 754: the greatest field with fraction 0 is an infinity,
/// with another fraction a not-a-number, all else is finite.
fn told_apart<P: Pattern>(pattern: u64) -> Probed<P> {
    let infinity = P::WIDTH.greatest_field() << P::WIDTH.fraction_bits();
    let ordinal = P::WIDTH.ordinal(pattern);
    if ordinal < infinity {
        Probed::Finite(P::of_number(pattern))
    } else if ordinal == infinity {
        Probed::Infinity { negative: P::WIDTH.sign(pattern) == 1 }
    } else {
        Probed::NotANumber(P::of_number(pattern))
    }
}
