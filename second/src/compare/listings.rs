//! Inputs for the listing program: sound streams, their cuts, damaged ones,
//! one for each bad group, some with right and with wrong needs, some with a
//! summary, some with groups of 128, some of halves, and some about as long as a
//! listing takes.

use super::damage::{damaged_stream, small_streams, some_stream};
use super::falsified::streams_with_summary;
use super::halves::streams_of_halves;
use super::needs::streams_with_needs;
use super::places::streams_with_bad_group;
use super::random::XorShift;
use super::sizes::streams_of_128;
use super::streams::append_sides;
use super::Extent;

/// The most bytes of an input that is listed.
const MOST_BYTES: usize = 65_536;
/// An entry of the side table: id, place, length.
const ENTRY_BYTES: usize = 12;

pub fn inputs(seed: u64, extent: Extent) -> Vec<Vec<u8>> {
    let mut rng = XorShift::seeded(seed, 100);
    let mut inputs = small_streams();
    for stream in small_streams() {
        inputs.extend((0..stream.len()).step_by(7).map(|cut| stream[..cut].to_vec()));
        inputs.extend(around_the_limit(&stream));
    }
    for _ in 0..extent.rounds(2_000) {
        inputs.push(some_stream(&mut rng));
        inputs.push(damaged_stream(&mut rng));
    }
    inputs.extend(streams_with_bad_group());
    inputs.extend(streams_with_needs());
    inputs.extend(streams_with_summary(&mut rng));
    inputs.extend(streams_of_128(&mut rng));
    inputs.extend(streams_of_halves(&mut rng));
    inputs
}

/// The stream with a side part that makes it one byte shorter than the limit,
/// just as long, and one byte longer; none for a stream that has side parts.
fn around_the_limit(stream: &[u8]) -> Vec<Vec<u8>> {
    if stream.len() < 48 || stream[40..44] != [0; 4] {
        return Vec::new();
    }
    let part = MOST_BYTES - stream.len() - ENTRY_BYTES;
    let with_part = |bytes| {
        let mut longer = stream.to_vec();
        append_sides(&mut longer, &[(7, vec![0xEE; bytes])]);
        longer
    };
    [part - 1, part, part + 1].map(with_part).into()
}
