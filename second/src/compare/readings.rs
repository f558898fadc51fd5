//! Every way to read a stream.

use super::call::Call;
use super::judge::Judge;
use super::random::WIDTHS;
use super::streams::{number_at, stated_count, WIDTH};
use crate::numbers::Width;

/// The most room lent for a count that may be made up.
const MOST_ROOM: u64 = 12_000;

/// Checks the stream, unpacks it into several rooms and probes it at several
/// indices, with the readers of both widths.
pub fn read(judge: &mut Judge, level: u32, stream: &[u8]) {
    judge.compare(Call::Check { level, stream });
    let n = stated_count(stream);
    for width in WIDTHS {
        if number_at(stream, WIDTH) == Some(width.bits()) {
            unpack_into(judge, level, stream, width, &rooms(n));
            probe_at(judge, level, stream, width, &indices(n));
        } else {
            // Refused at the latest because of the width.
            unpack_into(judge, level, stream, width, &[n.min(MOST_ROOM)]);
            probe_at(judge, level, stream, width, &[0, n]);
        }
    }
}

/// Reads the stream at each of the levels.
pub fn read_at_levels(judge: &mut Judge, levels: &[u32], stream: &[u8]) {
    for &level in levels {
        read(judge, level, stream);
    }
}

fn unpack_into(judge: &mut Judge, level: u32, stream: &[u8], width: Width, rooms: &[u64]) {
    for &room in rooms {
        judge.compare(Call::Unpack { width, level, stream, room: room as usize });
    }
}

pub fn probe_at(judge: &mut Judge, level: u32, stream: &[u8], width: Width, indices: &[u64]) {
    for &index in indices {
        judge.compare(Call::Probe { width, level, stream, index });
    }
}

/// Exact, ample, one short and none.
fn rooms(n: u64) -> Vec<u64> {
    let mut rooms = vec![n, n + 3, n.saturating_sub(1), 0];
    rooms.retain(|&room| room <= MOST_ROOM);
    rooms.dedup();
    rooms
}

/// The first, the last, some in the first chunks, and some not below n: one
/// of them is 0 in its low 32 bits.
fn indices(n: u64) -> Vec<u64> {
    let mut indices = vec![0, n / 2, n.wrapping_sub(1), 1023, 1024, 2047, 2048];
    indices.retain(|&index| index < n);
    indices.sort_unstable();
    indices.dedup();
    indices.extend([n, 1 << 32, u64::MAX]);
    indices
}
