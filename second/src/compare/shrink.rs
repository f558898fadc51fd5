//! Makes a differing call shorter: cuts its list or stream while the
//! difference remains.

use super::call::{Call, List, Values};
use super::reference;
use super::streams::{mode_and_group, number_at, stated_count, K, MODE, WIDTH};
use crate::numbers::Width;
use crate::stream::HIGHEST_LEVEL;
use crate::summary::test_summary;
use std::cell::Cell;

/// How many elements may be put to calls while one difference is made
/// shorter: it bounds the time, and unlike a clock it is repeatable.
const BUDGET: usize = 2_000_000;

/// What one call costs besides its elements.
const COST_OF_CALL: usize = 200;

/// Hands the shortest call found that still differs to `then`.
pub fn with_shortest(call: &Call, differs: &dyn Fn(&Call) -> bool, then: impl FnOnce(&Call)) {
    let shrinker = Shrinker { differs, budget: Cell::new(BUDGET) };
    match *call {
        Call::Pack { level, mode, k, group, values, .. }
        | Call::Length { level, mode, k, group, values } => {
            let length = reference::length(level, mode, k, group, values).ok();
            let list = shrinker.shorter_list(values, &|values| {
                shrinker.differs(&with_values(call, length, values))
            });
            then(&with_values(call, length, list.values()))
        }
        Call::Unpack { stream, .. }
        | Call::Check { stream, .. }
        | Call::Probe { stream, .. }
        | Call::AddSummary { stream, .. }
        | Call::TestSummary { stream, .. }
        | Call::ChunksFrom { stream, .. } => {
            let stream = shrinker.shorter_stream(call, stream);
            then(&with_stream(call, &stream))
        }
        _ => then(call),
    }
}

struct Shrinker<'a> {
    differs: &'a dyn Fn(&Call) -> bool,
    budget: Cell<usize>,
}

impl Shrinker<'_> {
    fn differs(&self, call: &Call) -> bool {
        (self.differs)(call)
    }

    /// Takes the cost of a call from the budget, if that much is left.
    fn pays(&self, elements: usize) -> bool {
        let left = self.budget.get().checked_sub(elements + COST_OF_CALL);
        self.budget.set(left.unwrap_or(self.budget.get()));
        left.is_some()
    }

    fn shorter_list(&self, values: Values, holds: &dyn Fn(Values) -> bool) -> List {
        match values {
            Values::Singles(values) => {
                List::Singles(self.cut(values, &|values| holds(Values::Singles(values))))
            }
            Values::Doubles(values) => {
                List::Doubles(self.cut(values, &|values| holds(Values::Doubles(values))))
            }
        }
    }

    /// A stream that can be read is packed again from ever shorter lists, with a
    /// summary if it has a true one; then, as any other, it is cut byte by byte.
    fn shorter_stream(&self, call: &Call, stream: &[u8]) -> Vec<u8> {
        let holds = |stream: &[u8]| self.differs(&with_stream(call, stream));
        let repacked = self.packed_shorter(stream, &holds);
        self.cut(repacked.as_deref().unwrap_or(stream), &holds)
    }

    fn packed_shorter(&self, stream: &[u8], holds: &dyn Fn(&[u8]) -> bool) -> Option<Vec<u8>> {
        let (mode, group) = mode_and_group(number_at(stream, MODE)?);
        let k = number_at(stream, K)? as i32;
        let width = Width::numbered(number_at(stream, WIDTH)?)?;
        let n = stated_count(stream) as usize;
        if n > stream.len() * 128 {
            return None; // no such stream can be read
        }
        let list = reference::list_of(width, stream, n)?;
        let summarized = test_summary(HIGHEST_LEVEL, stream).is_ok();
        let packed = |values: Values| {
            let plain = reference::packed(HIGHEST_LEVEL, mode, k, group, values);
            plain.and_then(|plain| match summarized {
                true => reference::summarized(&plain),
                false => Some(plain),
            })
        };
        let still = |values: Values| packed(values).is_some_and(|stream| holds(&stream));
        if !still(list.values()) {
            return None; // the difference is not in what the list decides
        }
        packed(self.shorter_list(list.values(), &still).values())
    }

    /// Cuts stretches out of the items, long ones first, while the rest holds;
    /// then puts 0 in place of each item that may be 0. It stops where the
    /// budget ends.
    fn cut<T>(&self, items: &[T], holds: &dyn Fn(&[T]) -> bool) -> Vec<T>
    where
        T: Copy + Default + PartialEq,
    {
        let mut best = items.to_vec();
        let mut stretch = best.len();
        while stretch > 0 {
            let mut from = 0;
            while from < best.len() && self.pays(best.len()) {
                let to = (from + stretch).min(best.len());
                let shorter = [&best[..from], &best[to..]].concat();
                if holds(&shorter) {
                    best = shorter;
                } else {
                    from = to;
                }
            }
            stretch /= 2;
        }
        for place in 0..best.len() {
            let item = std::mem::take(&mut best[place]);
            let may_be_0 = item == T::default() || self.pays(best.len()) && holds(&best);
            if !may_be_0 {
                best[place] = item;
            }
        }
        best
    }
}

/// The same call with other values. The room stays as much above or below the
/// length as it was.
fn with_values<'a>(call: &Call, length_before: Option<u64>, values: Values<'a>) -> Call<'a> {
    match *call {
        Call::Pack { level, mode, k, group, room, .. } => {
            let length = reference::length(level, mode, k, group, values).ok();
            let room = moved(room, length_before, length);
            Call::Pack { level, mode, k, group, values, room }
        }
        Call::Length { level, mode, k, group, .. } => {
            Call::Length { level, mode, k, group, values }
        }
        _ => unreachable!("a call without values"),
    }
}

/// The same call with another stream. The room stays as much above or below what
/// the call writes as it was, and an index below n stays below it.
fn with_stream<'a>(call: &Call, stream: &'a [u8]) -> Call<'a> {
    let n = stated_count(stream);
    match *call {
        Call::Unpack { width, level, stream: before, room } => {
            let room = moved(room, Some(stated_count(before)), Some(n));
            Call::Unpack { width, level, stream, room }
        }
        Call::Check { level, .. } => Call::Check { level, stream },
        Call::AddSummary { level, stream: before, room } => {
            let [from, to] = [before, stream].map(reference::length_with_summary);
            Call::AddSummary { level, stream, room: moved(room, from, to) }
        }
        Call::TestSummary { level, .. } => Call::TestSummary { level, stream },
        Call::ChunksFrom { width, level, x, stream: before, room } => {
            let listed = |stream| reference::chunks_listed(width, x, stream);
            let room = moved(room, listed(before), listed(stream));
            Call::ChunksFrom { width, level, x, stream, room }
        }
        Call::Probe { width, level, stream: before, index } => {
            let inside = index < stated_count(before);
            let index = if inside { index.min(n.saturating_sub(1)) } else { index };
            Call::Probe { width, level, stream, index }
        }
        _ => unreachable!("a call without a stream"),
    }
}

/// A room moved along with what it is measured by; never a larger one.
fn moved(room: usize, from: Option<u64>, to: Option<u64>) -> usize {
    match (from, to) {
        (Some(from), Some(to)) if to <= from => (room as u64 + to).saturating_sub(from) as usize,
        _ => room,
    }
}
