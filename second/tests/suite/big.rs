//! Whole numbers of any size, just enough to state distances in units of the
//! smallest subnormal without trusting any narrower arithmetic.

use second::numbers::Width;
use std::cmp::Ordering;

#[derive(Clone, Debug)]
pub struct Big(Vec<u64>); // lowest limb first

impl Big {
    /// number·2^shift.
    pub fn shifted(number: u64, shift: u64) -> Big {
        let mut limbs = vec![0; (shift / 64) as usize];
        let wide = (number as u128) << (shift % 64);
        limbs.push(wide as u64);
        limbs.push((wide >> 64) as u64);
        Big(limbs)
    }

    fn limb(&self, index: usize) -> u64 {
        self.0.get(index).copied().unwrap_or(0)
    }

    pub fn plus(&self, other: &Big) -> Big {
        let mut carry = 0u128;
        let mut sum = Vec::new();
        for index in 0..self.0.len().max(other.0.len()) + 1 {
            carry += self.limb(index) as u128 + other.limb(index) as u128;
            sum.push(carry as u64);
            carry >>= 64;
        }
        Big(sum)
    }

    pub fn twice(&self) -> Big {
        self.plus(self)
    }

    /// Whether the number is a multiple of 2^d.
    pub fn multiple_of_power(&self, d: u64) -> bool {
        (0..d).all(|bit| self.limb((bit / 64) as usize) >> (bit % 64) & 1 == 0)
    }

    pub fn cmp(&self, other: &Big) -> Ordering {
        (0..self.0.len().max(other.0.len()))
            .rev()
            .map(|index| self.limb(index).cmp(&other.limb(index)))
            .find(|order| order.is_ne())
            .unwrap_or(Ordering::Equal)
    }
}

/// The magnitude of a finite ordinal in units of the smallest subnormal.
pub fn units(width: Width, ordinal: u64) -> Big {
    let m = width.fraction_bits();
    let (field, fraction) = (ordinal >> m, ordinal & ((1 << m) - 1));
    assert!(field < width.greatest_field());
    match field {
        0 => Big::shifted(fraction, 0),
        _ => Big::shifted(fraction | 1 << m, field - 1),
    }
}
