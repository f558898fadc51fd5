//! What the linked library makes of a call.

use crate::ffi::{add_summary, bound, test_summary, ChunksFrom, Library, NumberRules};
use second::compare::call::Call;
use second::compare::operations::by_operations;
use second::compare::outcome::{lend, Element, Outcome};
use second::numbers::WIDTH_32;

pub fn by_library(call: &Call) -> Outcome {
    let outcome = by_operations::<Library>(call).or_else(|| by_summaries(call));
    outcome.unwrap_or_else(|| by_number_rules(call))
}

/// Nothing for a call that is of no summary.
fn by_summaries(call: &Call) -> Option<Outcome> {
    match *call {
        Call::AddSummary { level, stream, room } => {
            Some(lend(room, |buffer, room| add_summary(level, stream, buffer, room)))
        }
        Call::TestSummary { level, stream } => Some(Outcome::bare(test_summary(level, stream))),
        Call::ChunksFrom { width, .. } if width == WIDTH_32 => Some(by_chunks_from::<u32>(call)),
        Call::ChunksFrom { .. } => Some(by_chunks_from::<u64>(call)),
        _ => None,
    }
}

fn by_chunks_from<P: ChunksFrom + Element>(call: &Call) -> Outcome {
    match *call {
        Call::ChunksFrom { level, x, stream, room, .. } => {
            lend(room, |buffer, room| P::chunks_from(level, P::cut(x), stream, buffer, room))
        }
        _ => unreachable!("answered by the caller"),
    }
}

fn by_number_rules(call: &Call) -> Outcome {
    match *call {
        Call::Bound { width, tolerance } => Outcome::bare(bound(width, tolerance)),
        Call::LosslessCode { width, .. }
        | Call::LosslessRestored { width, .. }
        | Call::ToleranceCode { width, .. }
        | Call::ToleranceRestored { width, .. }
            if width == WIDTH_32 =>
        {
            by_number_rules_of::<u32>(call)
        }
        _ => by_number_rules_of::<u64>(call),
    }
}

fn by_number_rules_of<P: NumberRules + Element + Into<u64>>(call: &Call) -> Outcome {
    match *call {
        Call::LosslessCode { pattern, .. } => {
            Outcome::bare(P::lossless_code(P::cut(pattern)).into())
        }
        Call::LosslessRestored { code, .. } => {
            Outcome::bare(P::lossless_restored(P::cut(code)).into())
        }
        Call::ToleranceCode { halves, k, pattern, .. } => {
            lend(1, |buffer, room| P::tolerance_code(halves, k, P::cut(pattern), buffer, room))
        }
        Call::ToleranceRestored { k, code, .. } => {
            lend(1, |buffer, room| P::tolerance_restored(k, P::cut(code), buffer, room))
        }
        _ => unreachable!("answered by the caller"),
    }
}
