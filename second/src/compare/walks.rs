//! Lists that suit mode 2: most patterns differ little from the one before, or
//! not at all, and some wrap around the ends.

use super::random::{pattern_of_kind, some_k, some_pattern, some_patterns, XorShift, KINDS};
use crate::numbers::Width;
use std::iter::repeat_n;

/// The patterns of a list for a mode; k says where threshold and halves lie.
pub fn some_patterns_of_mode(
    rng: &mut XorShift,
    width: Width,
    mode: u32,
    k: i32,
    n: usize,
) -> Vec<u64> {
    if mode == 2 && !rng.chance(3) {
        some_walk(rng, width, n)
    } else {
        some_patterns(rng, width, k, n)
    }
}

/// A k that is allowed in a mode.
pub fn some_k_of_mode(rng: &mut XorShift, width: Width, mode: u32) -> i32 {
    if mode == 1 {
        some_k(rng, width)
    } else {
        0
    }
}

/// A walk by steps of at most so many bits, which stands still after each, now
/// and then for several groups or a whole chunk, and in which others may lie.
pub fn some_walk(rng: &mut XorShift, width: Width, n: usize) -> Vec<u64> {
    let bits_of_step = rng.one_of(&[0, 1, 2, 4, 8, 20, width.bits() - 1, width.bits()]);
    let longest_stand = rng.one_of(&[1, 1, 1, 3, 50, 200, 1500]);
    let others = rng.chance(3);
    let mut pattern = start(rng, width);
    let mut walk = Vec::with_capacity(n);
    while walk.len() < n {
        let stand = 1 + rng.below(longest_stand) as usize;
        walk.extend(repeat_n(pattern, stand.min(n - walk.len())));
        if others && walk.len() < n && rng.chance(20) {
            walk.push(other(rng, width, pattern));
        }
        pattern = stepped(rng, width, pattern, bits_of_step);
    }
    walk
}

/// Any pattern, or one at an end: around 0 or around the sign alone.
fn start(rng: &mut XorShift, width: Width) -> u64 {
    let half = 1 << (width.bits() - 1);
    let any = some_pattern(rng, width, 0);
    let near = rng.below(5);
    rng.one_of(&[any, any, near, half + near, half - near, last(width) - near])
}

/// The last pattern, all of its bits set.
fn last(width: Width) -> u64 {
    u64::MAX >> (64 - width.bits())
}

/// A step up or down, modulo 2^W.
fn stepped(rng: &mut XorShift, width: Width, pattern: u64, bits: u32) -> u64 {
    let step = rng.next().checked_shr(64 - bits).unwrap_or(0);
    let moved = if rng.chance(2) { pattern.wrapping_add(step) } else { pattern.wrapping_sub(step) };
    moved & last(width)
}

/// A pattern far off: just half of all patterns away, or of any kind, often an
/// infinity or a not-a-number.
fn other(rng: &mut XorShift, width: Width, pattern: u64) -> u64 {
    let opposite = pattern ^ 1 << (width.bits() - 1);
    let any = rng.below(KINDS);
    let kind = rng.one_of(&[2, 3, 3, any]);
    let some = pattern_of_kind(rng, width, 0, kind);
    rng.one_of(&[opposite, some, some])
}
