//! Mode 2, with its faults.
//!
//! A fault of the packer is planted by packing other values, those whose right
//! stream is the faulty one; a fault of the readers, by changing the values
//! they have read.

use crate::faults::{planted, Fault};
use second::numbers::{difference_code, difference_pattern, Tolerance, Width, WIDTH_64};

/// The pattern a difference is taken from, told by the group size, the patterns
/// before in the list, and their codes.
type Before = fn(usize, &[u64], &[u64]) -> u64;

/// The code of a pattern, told by the one before it and itself.
type Code = fn(Width, u64, u64) -> u64;

/// Values whose right stream is the one a planted fault makes of these.
pub fn as_packed(width: Width, group: usize, patterns: &[u64]) -> Vec<u64> {
    let mut codes = coded(width, group, patterns, (packer_before(), packer_code));
    if planted(Fault::second_fold) {
        codes.chunks_mut(1024).for_each(|chunk| fold_again(width, chunk));
    }
    restored(width, group, &codes, before_in_chunk)
}

/// The values a planted fault reads where these are the right ones.
pub fn as_read(width: Width, group: usize, patterns: &[u64]) -> Vec<u64> {
    let codes = coded(width, group, patterns, (before_in_chunk, difference_code));
    let mut read = restored(width, group, &codes, reader_before());
    if planted(Fault::empty_group_is_zeros) {
        let groups = read.chunks_mut(group).zip(codes.chunks(group));
        groups.filter(|(_, codes)| is_empty(codes)).for_each(|(group, _)| group.fill(0));
    }
    read
}

/// The first value in mode 2 whose code a planted fault refuses.
pub fn first_refused(width: Width, group: usize, patterns: &[u64]) -> Option<usize> {
    let limit = Tolerance::allowed(width, 0)?.largest_magnitude_code();
    let codes = coded(width, group, patterns, (before_in_chunk, difference_code));
    codes.iter().position(|code| planted(Fault::largest_u_in_mode_2) && code / 2 > limit)
}

/// The need of mode 2.
pub fn need(width: Width) -> u32 {
    let of_width = planted(Fault::need_of_width_64_first) && width == WIDTH_64;
    if planted(Fault::difference_needs_10) || of_width {
        10
    } else {
        11
    }
}

// ------------------------------------------------------ patterns and codes

fn coded(width: Width, group: usize, patterns: &[u64], (before, code): (Before, Code)) -> Vec<u64> {
    let mut codes = Vec::with_capacity(patterns.len());
    for (index, &pattern) in patterns.iter().enumerate() {
        codes.push(code(width, before(group, &patterns[..index], &codes), pattern));
    }
    codes
}

fn restored(width: Width, group: usize, codes: &[u64], before: Before) -> Vec<u64> {
    let mut patterns = Vec::with_capacity(codes.len());
    for (index, &code) in codes.iter().enumerate() {
        patterns.push(difference_pattern(width, before(group, &patterns, &codes[..index]), code));
    }
    patterns
}

fn packer_code(width: Width, before: u64, pattern: u64) -> u64 {
    let half = 1i128 << (width.bits() - 1);
    let difference = pattern as i128 - before as i128;
    if planted(Fault::least_difference_is_0) && difference.abs() == half {
        return 0;
    }
    if planted(Fault::difference_saturates) && !(-half..half).contains(&difference) {
        let nearest = difference.clamp(-half, half - 1);
        return difference_code(width, 0, nearest as u64);
    }
    difference_code(width, before, pattern)
}

/// Source document 001 does this to a chunk whose largest code has W bits.
fn fold_again(width: Width, chunk: &mut [u64]) {
    let half = 1 << (width.bits() - 1);
    if chunk.iter().any(|&code| code >= half) {
        for code in chunk {
            *code = difference_code(width, 0, *code);
        }
    }
}

// ------------------------------------------------------- what is before

fn packer_before() -> Before {
    if planted(Fault::not_restarted_at_chunk) {
        before_in_list
    } else if planted(Fault::restarted_at_group) {
        before_in_group
    } else if planted(Fault::restarted_at_block) {
        before_in_block
    } else {
        before_in_chunk
    }
}

fn reader_before() -> Before {
    if planted(Fault::carry_lost_after_empty_group) {
        before_without_empty_group
    } else {
        packer_before()
    }
}

fn before_in_list(_: usize, patterns: &[u64], _: &[u64]) -> u64 {
    patterns.last().copied().unwrap_or(0)
}

/// The right rule.
fn before_in_chunk(_: usize, patterns: &[u64], _: &[u64]) -> u64 {
    restarting(1024, patterns)
}

fn before_in_group(group: usize, patterns: &[u64], _: &[u64]) -> u64 {
    restarting(group, patterns)
}

/// A block is 32 values of a group of 128.
fn before_in_block(group: usize, patterns: &[u64], _: &[u64]) -> u64 {
    restarting(if group == 128 { 32 } else { 1024 }, patterns)
}

fn restarting(after: usize, patterns: &[u64]) -> u64 {
    if patterns.len().is_multiple_of(after) {
        0
    } else {
        patterns.last().copied().unwrap_or(0)
    }
}

fn before_without_empty_group(group: usize, patterns: &[u64], codes: &[u64]) -> u64 {
    let at_group = codes.len().is_multiple_of(group);
    if at_group && codes.rchunks(group).next().is_some_and(is_empty) {
        0
    } else {
        restarting(1024, patterns)
    }
}

/// Whether a group has no bits.
fn is_empty(codes: &[u64]) -> bool {
    codes.iter().all(|&code| code == 0)
}
