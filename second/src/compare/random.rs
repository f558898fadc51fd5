//! A small seeded generator, and patterns and lists of every kind.

use crate::numbers::{Width, WIDTH_32, WIDTH_64};
use crate::{plain, stream};

/// What both implementations take, with names for the tests.
pub trait Bits: plain::Lane + stream::Pattern + Eq + std::fmt::Debug {}
impl Bits for u32 {}
impl Bits for u64 {}

pub const WIDTHS: [Width; 2] = [WIDTH_32, WIDTH_64];

/// The group sizes.
pub const SIZES: [u32; 2] = [32, 128];

pub fn other_width(width: Width) -> Width {
    if width == WIDTH_32 {
        WIDTH_64
    } else {
        WIDTH_32
    }
}

/// An xorshift generator. Its state must not be 0.
pub struct XorShift(pub u64);

impl XorShift {
    /// A generator for one use of a seed; different uses, different numbers.
    pub fn seeded(seed: u64, usage: u64) -> XorShift {
        let mixed = (seed ^ usage << 40).wrapping_mul(0x9E37_79B9_7F4A_7C15);
        let mut rng = XorShift((mixed ^ mixed >> 29) | 1 << 63);
        for _ in 0..16 {
            rng.next();
        }
        rng
    }

    #[allow(clippy::should_implement_trait)] // it never ends
    pub fn next(&mut self) -> u64 {
        self.0 ^= self.0 << 13;
        self.0 ^= self.0 >> 7;
        self.0 ^= self.0 << 17;
        self.0
    }

    pub fn below(&mut self, limit: u64) -> u64 {
        (self.next() >> 11) % limit
    }

    pub fn one_of<T: Copy>(&mut self, choices: &[T]) -> T {
        choices[self.below(choices.len() as u64) as usize]
    }

    pub fn chance(&mut self, one_in: u64) -> bool {
        self.below(one_in) == 0
    }
}

/// The allowed k, stated again from the document.
pub fn allowed_k(width: Width) -> std::ops::RangeInclusive<i32> {
    if width == WIDTH_32 {
        -150..=103
    } else {
        assert_eq!(width, WIDTH_64);
        -1075..=970
    }
}

/// An allowed k, the extremes and the usual ones often.
pub fn some_k(rng: &mut XorShift, width: Width) -> i32 {
    let (least, greatest) = (*allowed_k(width).start(), *allowed_k(width).end());
    match rng.below(6) {
        0 => least + rng.below(3) as i32,
        1 => greatest - rng.below(3) as i32,
        2 | 3 => -12 + rng.below(16) as i32,
        _ => least + rng.below((greatest - least + 1) as u64) as i32,
    }
}

pub const KINDS: u64 = 10;

/// A pattern of one of the kinds; k says where threshold and halves lie.
pub fn pattern_of_kind(rng: &mut XorShift, width: Width, k: i32, kind: u64) -> u64 {
    let (bits, m) = (width.bits(), width.fraction_bits());
    let all = u64::MAX >> (64 - bits);
    let fraction = rng.next() & ((1 << m) - 1);
    let infinity = width.greatest_field() << m;
    // Unit counts: E is 2^d smallest subnormals, field d+1 begins T.
    let d = bin_exponent(width, k);
    let nudge = rng.below(5).wrapping_sub(2);
    let ordinal = match kind {
        0 => 0,
        1 => {
            let small = fraction >> rng.below(m as u64);
            rng.one_of(&[1, (1 << m) - 1, fraction, small])
        }
        2 => infinity,
        3 => infinity + rng.one_of(&[1, 1 << (m - 1), fraction | 1, (1 << m) - 1]),
        4 => ((d + 1) << m).wrapping_add(nudge),
        // (2j+1)/2 bins: a half, and its neighbours.
        5 => {
            let odd = 2 * (fraction >> rng.below(m as u64 - 1) >> 1) + 1;
            half_bins(width, odd, d).wrapping_add(nudge)
        }
        6 => rng.next(),
        // Smooth values: near 1.0.
        7 => (((width.greatest_field() >> 1) << m) + (fraction >> (m / 2))).wrapping_add(nudge),
        8 => landmark(rng, width).wrapping_add(nudge),
        // Around the bin size, from far below to above the threshold.
        _ => {
            let field = (d + 4).saturating_sub(rng.below(2 * m as u64 + 8));
            (field.min(width.greatest_field()) << m) | fraction
        }
    };
    (ordinal & (all >> 1)) | (rng.below(2) << (bits - 1))
}

/// The ordinal of a power of two, those near 1.0 often, or of a number at an
/// edge of the normal ones.
fn landmark(rng: &mut XorShift, width: Width) -> u64 {
    let (greatest, m) = (width.greatest_field(), width.fraction_bits());
    let one = greatest >> 1;
    let any = rng.below(greatest + 1);
    rng.one_of(&[one - 1, one, one + 1, one + 2, 1, greatest, any]) << m
}

/// d, where E is 2^d of the smallest subnormals, for an allowed k.
pub fn bin_exponent(width: Width, k: i32) -> u64 {
    (k - allowed_k(width).start()) as u64
}

/// The ordinal of odd·E/2, where E is 2^d units (cut if it is not one).
pub fn half_bins(width: Width, odd: u64, d: u64) -> u64 {
    let m = width.fraction_bits() as u64;
    let length = 64 - odd.leading_zeros() as u64;
    let top = length + d; // one above the highest bit of odd·2^d
    if top < m + 2 {
        (odd as u128 * (1u128 << d) / 2) as u64
    } else {
        let significand = (odd as u128) << (m + 1) >> length;
        ((top - m - 1) << m) + significand as u64 - (1 << m)
    }
}

pub fn some_pattern(rng: &mut XorShift, width: Width, k: i32) -> u64 {
    let kind = rng.below(KINDS);
    pattern_of_kind(rng, width, k, kind)
}

/// The patterns of a list: of one kind, mostly zero, a smooth series,
/// constant, or mixed.
pub fn some_patterns(rng: &mut XorShift, width: Width, k: i32, n: usize) -> Vec<u64> {
    match rng.below(KINDS + 7) {
        kind @ 0..KINDS => (0..n).map(|_| pattern_of_kind(rng, width, k, kind)).collect(),
        10 => (0..n).map(|_| seldom_some_pattern(rng, width, k)).collect(),
        11 => smooth_series(rng, width, k, n),
        12 => vec![some_pattern(rng, width, k); n],
        _ => (0..n).map(|_| some_pattern(rng, width, k)).collect(),
    }
}

fn seldom_some_pattern(rng: &mut XorShift, width: Width, k: i32) -> u64 {
    if rng.chance(40) {
        some_pattern(rng, width, k)
    } else {
        0
    }
}

/// Values that rise in small even steps from a value near the bin size.
fn smooth_series(rng: &mut XorShift, width: Width, k: i32, n: usize) -> Vec<u64> {
    let first = pattern_of_kind(rng, width, k, KINDS - 1);
    let step = rng.below(1 << (width.fraction_bits() - 8));
    let sign = 1 << (width.bits() - 1);
    (0..n as u64)
        .map(|index| ((width.ordinal(first) + index * step) % sign) | (first & sign))
        .collect()
}

/// A list of one of the kinds of `some_patterns`.
pub fn some_list<P: Bits>(rng: &mut XorShift, k: i32, n: usize) -> Vec<P> {
    let width = <P as stream::Pattern>::WIDTH;
    let patterns = some_patterns(rng, width, k, n);
    patterns.into_iter().map(P::of_number).collect()
}

/// A list length, those at the edges of groups and chunks often.
pub fn some_length(rng: &mut XorShift) -> usize {
    match rng.below(8) {
        0..=2 => rng.below(70) as usize,
        3 => {
            let of_groups = rng.one_of(&[31, 32, 33, 64, 127, 128, 129, 160, 256, 896]);
            let of_chunks = rng.one_of(&[1023, 1024, 1025, 2047, 2048, 2049]);
            rng.one_of(&[0, 1, of_groups, of_groups, of_chunks, of_chunks])
        }
        4 => rng.below(3000) as usize,
        _ => rng.below(300) as usize,
    }
}
