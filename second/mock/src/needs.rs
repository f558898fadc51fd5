//! The levels, the need of a stream, and ids that must be understood, with the
//! faults of those.

use crate::faults::{planted, Fault};
use crate::reading::{number, put};
use crate::sizes::{group, mode};
use second::stream::{check, pack, HIGHEST_LEVEL};
use second::Refusal;

const FIRST_HIGH_ID: u32 = 1 << 31;
const NEED_OF_HIGH_ID: u32 = 12;

/// The level as a planted fault takes it.
pub fn faced_level(level: u32) -> u32 {
    match level {
        12 if planted(Fault::level_12_unknown) => HIGHEST_LEVEL + 1,
        13 if planted(Fault::level_13_unknown) => HIGHEST_LEVEL + 1,
        14 if planted(Fault::level_14_unknown) => HIGHEST_LEVEL + 1,
        15 if planted(Fault::level_15_known) => HIGHEST_LEVEL,
        _ => level,
    }
}

/// What a stream needs, and what it says of that.
struct Need {
    of_setting: u32,
    stated: u32,
    high_ids: Vec<u32>,
}

impl Need {
    /// Nothing of a stream that is refused because of its header.
    fn of(level: u32, stream: &[u8]) -> Option<Need> {
        let of_setting = need_of_setting(stream)?;
        let stated = number(stream, 2);
        let ids = entries(stream).map(|entry| number(&stream[entry..], 0));
        let high_ids = ids.filter(|&id| id >= FIRST_HIGH_ID).collect();
        let need = Need { of_setting, stated, high_ids };
        let early = stated < of_setting || stated > number(stream, 1);
        let in_header = |answer| matches!(answer, Err(Refusal { number: 1 | 5 | 6 | 7, .. }));
        // With the exact need, 8 can only be because of the header.
        let exact = check(HIGHEST_LEVEL, &with_need(stream, need.exact()));
        let refused = early || in_header(check(level, stream)) || exact == Err(Refusal::bare(8));
        (!refused).then_some(need)
    }

    fn exact(&self) -> u32 {
        if self.high_ids.is_empty() {
            self.of_setting
        } else {
            self.of_setting.max(NEED_OF_HIGH_ID)
        }
    }

    /// The need that a planted fault takes this one for.
    fn faced(&self) -> u32 {
        match (self.stated, self.high_ids.is_empty()) {
            _ if planted(Fault::late_need_ignored) => self.exact(),
            (12, true) if planted(Fault::need_12_without_high_id) => self.exact(),
            (14, true) if planted(Fault::need_14_read) => self.exact(),
            (11, false) if planted(Fault::high_id_needs_11) => 12,
            (12, false) if planted(Fault::high_id_needs_11) => 11,
            _ => self.stated,
        }
    }
}

/// What the setting needs, if it is allowed: a list of no values tells.
fn need_of_setting(stream: &[u8]) -> Option<u32> {
    let (mode, k, group) = (mode(stream), number(stream, 5) as i32, group(stream) as u32);
    let mut header = [0; 48];
    match number(stream, 3) {
        32 => pack::<u32>(HIGHEST_LEVEL, mode, k, group, &[], &mut header).ok()?,
        64 => pack::<u64>(HIGHEST_LEVEL, mode, k, group, &[], &mut header).ok()?,
        _ => return None,
    };
    Some(number(&header, 2))
}

/// The places of the side table's entries that are there.
fn entries(stream: &[u8]) -> impl Iterator<Item = usize> {
    let (sides, table) = (number(stream, 10) as usize, number(stream, 11) as usize);
    let length = stream.len();
    (0..sides.min(64)).map(move |side| table + 12 * side).filter(move |entry| entry + 12 <= length)
}

fn with_need(stream: &[u8], need: u32) -> Vec<u8> {
    let mut stream = stream.to_vec();
    let written = number(&stream, 1);
    put(&mut stream, 1, written.max(need));
    put(&mut stream, 2, need);
    stream
}

// --------------------------------------------- streams mended beforehand

/// Level and stream as a planted fault sees them.
pub fn faced(level: u32, stream: Vec<u8>) -> (u32, Vec<u8>) {
    let faults = [
        Fault::late_need_ignored,
        Fault::need_12_without_high_id,
        Fault::need_14_read,
        Fault::high_id_needs_11,
        Fault::id_2_31_skipped,
        Fault::high_ids_skipped,
    ];
    let need = faults.into_iter().any(planted).then(|| Need::of(level, &stream));
    let Some(need) = need.flatten() else {
        return (level, stream);
    };
    let skipped = if planted(Fault::id_2_31_skipped) {
        skipping(&stream, FIRST_HIGH_ID)
    } else if planted(Fault::high_ids_skipped) {
        skipping(&stream, u32::MAX)
    } else {
        stream
    };
    match need.faced() {
        stated if stated == need.stated => (level, skipped),
        // Its need has passed, so the level says no more.
        other => (HIGHEST_LEVEL, with_need(&skipped, other)),
    }
}

pub fn faced_by_probe(level: u32, stream: Vec<u8>) -> Vec<u8> {
    let need = planted(Fault::probe_skips_high_ids).then(|| Need::of(level, &stream));
    match need.flatten() {
        Some(need) if need.stated == need.exact() => without_high_ids(&stream, &need),
        _ => stream,
    }
}

/// The stream with other ids, which may be skipped, in place of those up to the
/// last; as it is where they do not rise.
fn skipping(stream: &[u8], last: u32) -> Vec<u8> {
    let ids: Vec<u32> = entries(stream).map(|entry| number(&stream[entry..], 0)).collect();
    let mut other = stream.to_vec();
    if ids.is_sorted_by(|a, b| a < b) {
        let skipped = ids.iter().filter(|&&id| id <= last).count();
        for (entry, id) in entries(stream).zip(0..skipped as u32) {
            put(&mut other[entry..], 0, id);
        }
    }
    other
}

/// The stream as it would be if all of its side parts might be skipped.
fn without_high_ids(stream: &[u8], need: &Need) -> Vec<u8> {
    with_need(&skipping(stream, u32::MAX), need.of_setting)
}

// ---------------------------------------------- refusals changed afterwards

/// The refusal that a planted fault gives in place of this one.
pub fn changed(level: u32, stream: &[u8], refusal: Refusal) -> Refusal {
    let Some(need) = Need::of(level, stream) else {
        return refusal;
    };
    let exact = need.stated == need.exact();
    let refused_id = |id: Option<&u32>| id.map(|&id| Refusal::with_detail(15, id as u64));
    let first = refused_id(need.high_ids.first());
    let other = match refusal.number {
        4 | 9 | 11 | 14 if planted(Fault::need_exact_in_header) && !exact => Some(Refusal::bare(8)),
        9 if planted(Fault::order_late_8_before_9) && !exact => Some(Refusal::bare(8)),
        9 if planted(Fault::order_15_before_9) && exact => first,
        8 if planted(Fault::small_need_is_15) => first,
        15 if planted(Fault::last_high_id_told) => refused_id(need.high_ids.last()),
        15 if planted(Fault::detail_of_15) => Some(Refusal::bare(15)),
        15 if planted(Fault::need_12_at_128) && group(stream) == 128 => Some(Refusal::bare(8)),
        15 if planted(Fault::order_10_before_15) => {
            let of_chunk = check(level, &without_high_ids(stream, &need)).err();
            of_chunk.filter(|refusal| refusal.number == 10)
        }
        _ => None,
    };
    other.unwrap_or(refusal)
}
