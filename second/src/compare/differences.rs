//! Mode 2: lists whose streams are written by hand, with the formula of source
//! document 001, and read back value by value.

use super::judge::Judge;
use super::known::KnownList;
use super::random::{XorShift, WIDTHS};
use super::streams::{stream_of_codes, Setting, SIZES, VALUES_IN_CHUNK};
use super::walks::some_walk;
use super::Extent;
use crate::numbers::Width;
use crate::stream::HIGHEST_LEVEL;

const CHUNK: usize = VALUES_IN_CHUNK as usize;

pub fn differences(judge: &mut Judge, rng: &mut XorShift, extent: Extent) {
    for width in WIDTHS {
        walks(judge, rng, extent, width);
        groups_of_no_bits(judge, rng, width);
        equal_across_chunks(judge, rng, width);
    }
}

/// Walks of every kind, each value of them probed.
fn walks(judge: &mut Judge, rng: &mut XorShift, extent: Extent, width: Width) {
    for n in [1, 2, 31, 32, 33, 100, 1000, 1024, 1025, 1100, 2100] {
        for _ in 0..extent.rounds(5) {
            let group = rng.one_of(&SIZES);
            let list = known_list(width, group, some_walk(rng, width, n));
            list.compare_whole(judge);
            list.compare_probes(judge, 0..n);
        }
    }
}

/// Groups of no bits between others: their values are those before them, and
/// what comes after goes on from there.
fn groups_of_no_bits(judge: &mut Judge, rng: &mut XorShift, width: Width) {
    let cases: [(u32, [usize; 4], &[usize]); 2] =
        [(32, [1, 31, 32, 64], &[1, 2, 3, 15, 29]), (128, [1, 32, 127, 128], &[1, 2, 3, 6])];
    for (group, firsts, counts) in cases {
        for first in firsts {
            for &groups in counts {
                let list = standing_still(rng, width, group, first, groups);
                let n = list.patterns.len();
                list.compare_whole(judge);
                list.compare_probes(judge, (0..n).step_by(11).chain(n - 45..n));
            }
        }
    }
}

/// Some random values, the last of them again through so many groups, and others.
fn standing_still(
    rng: &mut XorShift,
    width: Width,
    group: u32,
    first: usize,
    groups: usize,
) -> KnownList {
    let mut patterns = random_patterns(rng, width, first);
    let (last, size) = (patterns[first - 1], group as usize);
    patterns.resize(first.next_multiple_of(size) + size * groups, last);
    patterns.extend(random_patterns(rng, width, 40));
    known_list(width, group, patterns)
}

fn random_patterns(rng: &mut XorShift, width: Width, n: usize) -> Vec<u64> {
    (0..n).map(|_| rng.next() >> (64 - width.bits())).collect()
}

/// Each chunk begins with the value the one before ends with, and some hold
/// nothing else: a chunk begins anew with the difference from 0.
fn equal_across_chunks(judge: &mut Judge, rng: &mut XorShift, width: Width) {
    for n in [CHUNK + 1, 2 * CHUNK, 3 * CHUNK + 33] {
        for varied in [&[][..], &[0], &[1], &[0, 1, 2]] {
            let mut patterns = vec![rng.next() >> (64 - width.bits()); n];
            for &chunk in varied {
                let from = chunk * CHUNK + 500;
                for pattern in patterns.iter_mut().skip(from).take(20) {
                    *pattern = rng.next() >> (64 - width.bits());
                }
            }
            let list = known_list(width, rng.one_of(&SIZES), patterns);
            list.compare_whole(judge);
            let edges = (1..=n / CHUNK).flat_map(|chunk| CHUNK * chunk - 2..CHUNK * chunk + 2);
            list.compare_probes(judge, edges.filter(|&index| index < n).chain([0, n - 1]));
        }
    }
}

// ------------------------------------------------------------ the codes

/// A list in mode 2, and its stream written by hand.
pub fn known_list(width: Width, group: u32, patterns: Vec<u64>) -> KnownList {
    let setting = Setting { width, mode: 2, k: 0, group };
    let stream = stream_of_codes(setting, &difference_codes(width, &patterns));
    KnownList { setting, level: HIGHEST_LEVEL, patterns, stream }
}

/// The codes of a list, chunk by chunk.
fn difference_codes(width: Width, patterns: &[u64]) -> Vec<u64> {
    let of_chunk = |chunk: &[u64]| {
        let before = [&[0], &chunk[..chunk.len() - 1]].concat();
        let codes = chunk.iter().zip(before).map(|(&pattern, before)| {
            // The lowest W bits are the difference modulo 2^W.
            magnitude_sign(width, pattern.wrapping_sub(before))
        });
        codes.collect::<Vec<_>>()
    };
    patterns.chunks(CHUNK).flat_map(of_chunk).collect()
}

/// (data << 1) ^ (data >> (W-1)), where the right shift is a signed one.
fn magnitude_sign(width: Width, data: u64) -> u64 {
    let above = 64 - width.bits();
    let signed = (data << above) as i64 >> above;
    ((signed << 1 ^ signed >> 63) as u64) << above >> above
}
