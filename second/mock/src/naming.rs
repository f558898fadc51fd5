//! The group that refusal 10 names, with the faults of that.

use crate::faults::{planted, Fault};
use crate::reading::{count, number, put, stretch};
use crate::sizes;
use second::stream::{check, HIGHEST_LEVEL};

/// The detail a planted fault gives in place of the right one.
pub fn named(stream: &[u8], detail: usize) -> usize {
    let chunk = detail / 32;
    if planted(Fault::detail_of_10) {
        return 0;
    }
    if planted(Fault::chunk_named) {
        return chunk;
    }
    if planted(Fault::group_dropped) {
        return 32 * chunk;
    }
    sizes::detail(stream, chunk, Walk::through(stream, chunk).named(detail % 32))
}

/// What is found in a chunk by going on after a bad group, as long as it is
/// clear where the next one begins.
struct Walk {
    groups: usize,
    bad: Vec<usize>,
    ended: End,
}

#[derive(PartialEq)]
enum End {
    WithLastGroup,
    BytesLeftOver,
    /// In a group that is too wide, or whose codes are missing.
    InGroup,
    BeforeWidthByte,
}

impl Walk {
    fn through(stream: &[u8], chunk: usize) -> Walk {
        let values = (count(stream) as usize - 1024 * chunk).min(1024);
        let bytes = &stream[stretch(stream, chunk, number(stream, 7) as usize)];
        let size = sizes::group(stream);
        let mut walk =
            Walk { groups: values.div_ceil(size), bad: Vec::new(), ended: End::WithLastGroup };
        let mut at = 0;
        for group in 0..walk.groups {
            let count = (values - size * group).min(size);
            let Some(&w) = bytes.get(at) else {
                return walk.ending(group, End::BeforeWidthByte);
            };
            let end = at + 1 + (count * w as usize).div_ceil(8);
            if w as u32 > number(stream, 3) || end > bytes.len() {
                return walk.ending(group, End::InGroup);
            }
            if !holds_alone(stream, count, &bytes[at..end]) {
                walk.bad.push(group);
            }
            at = end;
        }
        if at < bytes.len() {
            walk.ended = End::BytesLeftOver;
        }
        walk
    }

    fn ending(mut self, group: usize, ended: End) -> Walk {
        self.bad.push(group);
        Walk { ended, ..self }
    }

    /// The group that is named in place of the first bad one.
    fn named(&self, first_bad: usize) -> usize {
        let last = self.groups - 1;
        let leftover = self.ended == End::BytesLeftOver;
        let last_bad = if leftover { Some(&last) } else { self.bad.last() };
        let alone = leftover && self.bad.is_empty();
        let width_byte_missing = self.ended == End::BeforeWidthByte && self.bad.len() == 1;
        let other = [
            (Fault::last_bad_group_named, true, last_bad.copied()),
            (Fault::bytes_before_codes, self.ended != End::WithLastGroup, last_bad.copied()),
            (Fault::leftover_past_last_group, alone, Some(self.groups)),
            (Fault::leftover_always_31, alone, Some(31)),
            (Fault::missing_for_group_before, width_byte_missing, first_bad.checked_sub(1)),
        ];
        let found = other.into_iter().find(|&(fault, met, _)| planted(fault) && met);
        found.and_then(|(_, _, group)| group).unwrap_or(first_bad)
    }
}

/// Whether a group is sound as the only one of a stream.
fn holds_alone(stream: &[u8], count: usize, group: &[u8]) -> bool {
    let mut alone = stream[..48].to_vec();
    let end = 52 + group.len() as u32;
    for (order, number) in [(6, count as u32), (7, 1), (9, 52), (10, 0), (11, end)] {
        put(&mut alone, order, number);
    }
    alone.extend([0; 4]);
    alone.extend(group);
    check(HIGHEST_LEVEL, &alone).is_ok()
}
