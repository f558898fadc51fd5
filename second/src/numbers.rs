//! The number rules: lossless code, tolerance code, difference code and bound.
//!
//! Patterns and codes of both widths travel as `u64`; inside, everything is
//! computed on `u128` and `i128`, where nothing below can overflow, and
//! "modulo 2^W" is written as a remainder.

use crate::Refusal;
use std::cmp::Ordering;

/// What the rules need to know of a width. The fields are private so that
/// only the two widths of the document exist.
#[derive(Clone, Copy, Debug, PartialEq, Eq)]
pub struct Width {
    bits: u32,
    fraction_bits: u32,
    least_k: i32,
    greatest_k: i32,
}

pub const WIDTH_32: Width = Width { bits: 32, fraction_bits: 23, least_k: -150, greatest_k: 103 };

pub const WIDTH_64: Width = Width { bits: 64, fraction_bits: 52, least_k: -1075, greatest_k: 970 };

impl Width {
    /// The width with this number, if it is 32 or 64.
    pub fn numbered(number: u32) -> Option<Width> {
        [WIDTH_32, WIDTH_64].into_iter().find(|width| width.bits == number)
    }

    /// W.
    pub fn bits(self) -> u32 {
        self.bits
    }

    /// m.
    pub fn fraction_bits(self) -> u32 {
        self.fraction_bits
    }

    /// 2^W.
    fn modulus(self) -> u128 {
        1 << self.bits
    }

    /// 2^(W-1): in a pattern the sign, in a rotated pattern the middle.
    fn half(self) -> u128 {
        1 << (self.bits - 1)
    }

    /// One unit of the exponent field after the rotation: 2^24 or 2^53.
    fn unit_of_field(self) -> u128 {
        1 << (self.fraction_bits + 1)
    }

    /// The exponent field of a rotated pattern, where it is highest.
    fn field(self, rotated: u128) -> u128 {
        rotated / self.unit_of_field()
    }

    fn add(self, a: u128, b: u128) -> u128 {
        (a + b) % self.modulus()
    }

    fn subtract(self, a: u128, b: u128) -> u128 {
        (a + self.modulus() - b) % self.modulus()
    }

    fn rotated_left_by_one(self, pattern: u128) -> u128 {
        (2 * pattern) % self.modulus() + pattern / self.half()
    }

    fn rotated_right_by_one(self, rotated: u128) -> u128 {
        rotated / 2 + (rotated % 2) * self.half()
    }

    /// The residue read as a signed whole number (two's complement).
    fn signed(self, residue: u128) -> i128 {
        if residue >= self.half() {
            residue as i128 - self.modulus() as i128
        } else {
            residue as i128
        }
    }

    /// The inverse of `signed`.
    fn residue(self, x: i128) -> u128 {
        x.rem_euclid(self.modulus() as i128) as u128
    }

    /// The largest exponent field, that of infinities and not-a-numbers.
    pub fn greatest_field(self) -> u64 {
        (1 << (self.bits - 1 - self.fraction_bits)) - 1
    }

    /// The ordinal: the pattern without its sign, as a whole number.
    pub fn ordinal(self, pattern: u64) -> u64 {
        (pattern as u128 % self.half()) as u64
    }

    /// The sign of a pattern, 0 or 1.
    pub fn sign(self, pattern: u64) -> u64 {
        (pattern as u128 / self.half() % 2) as u64
    }

    /// An ordinal with a sign put back.
    fn with_sign(self, ordinal: u64, sign: u64) -> u64 {
        (ordinal as u128 + sign as u128 * self.half()) as u64
    }
}

// ---------------------------------------------------------------- mode 0

/// The lossless code of a pattern (bits above W are not part of it).
pub fn lossless_code(width: Width, pattern: u64) -> u64 {
    let pattern = pattern as u128 % width.modulus();
    let mut rotated = width.rotated_left_by_one(pattern);
    if width.field(rotated) != 0 {
        rotated = width.subtract(rotated, width.half());
        if width.field(rotated) == 0 || rotated >= width.half() {
            rotated = width.subtract(rotated, width.unit_of_field());
        }
    }
    folded(width.signed(rotated)) as u64
}

/// The pattern of a lossless code (bits above W are not part of it).
///
/// It undoes the steps of `lossless_code` backwards. Which steps were taken
/// shows in the field: 0 came from exponent 0 alone, -128..-1 (the upper half)
/// had both subtractions, 1..127 only the first; likewise for doubles.
pub fn lossless_pattern(width: Width, code: u64) -> u64 {
    let code = code as u128 % width.modulus();
    let mut rotated = width.residue(unfolded(code));
    if width.field(rotated) != 0 {
        if rotated >= width.half() {
            rotated = width.add(rotated, width.unit_of_field());
        }
        rotated = width.add(rotated, width.half());
    }
    width.rotated_right_by_one(rotated) as u64
}

/// 2x when x is not negative, else -2x-1.
fn folded(x: i128) -> u128 {
    if x >= 0 {
        (2 * x) as u128
    } else {
        (-2 * x - 1) as u128
    }
}

/// The inverse of `folded`: even codes are 2x, odd ones -2x-1.
fn unfolded(code: u128) -> i128 {
    if code & 1 == 0 {
        (code / 2) as i128
    } else {
        -(code.div_ceil(2) as i128)
    }
}

// ---------------------------------------------------------------- mode 1

/// Where a half goes: a magnitude in the middle between two whole numbers of
/// bins.
#[derive(Clone, Copy, Debug, PartialEq, Eq)]
pub enum Halves {
    AwayFromZero,
    /// IEEE 754's ties to even.
    ToEven,
}

impl Halves {
    pub const BOTH: [Halves; 2] = [Halves::AwayFromZero, Halves::ToEven];

    /// The rule with this number in a call of the number rules, if it is 0 or 1.
    pub fn numbered(number: u32) -> Option<Halves> {
        Halves::BOTH.into_iter().find(|halves| halves.number() == number)
    }

    pub fn number(self) -> u32 {
        match self {
            Halves::AwayFromZero => 0,
            Halves::ToEven => 1,
        }
    }
}

/// A tolerance 2^k with an allowed k.
///
/// Magnitudes are counted in the document's unit, 2^-149 or 2^-1074. In it,
/// E = 2^(k+1) is 2^d with d = k+150 or k+1075, that is d = k - least k, and
/// T = E·2^m is 2^(d+m).
#[derive(Clone, Copy, Debug, PartialEq, Eq)]
pub struct Tolerance {
    width: Width,
    k: i32,
}

impl Tolerance {
    /// The tolerance of an allowed k, else nothing.
    pub fn allowed(width: Width, k: i32) -> Option<Tolerance> {
        (width.least_k..=width.greatest_k).contains(&k).then_some(Tolerance { width, k })
    }

    pub fn width(self) -> Width {
        self.width
    }

    pub fn k(self) -> i32 {
        self.k
    }

    /// d, where E is 2^d units. Not negative, since k is allowed.
    fn bin_exponent(self) -> u32 {
        (self.k - self.width.least_k) as u32
    }

    /// The ordinal of T. In units T is 2^(d+m), a normal number with fraction
    /// 0 and field d+1: the field 1 begins at 2^m units, each next one at
    /// twice that.
    pub fn threshold_ordinal(self) -> u64 {
        (self.bin_exponent() as u64 + 1) << self.width.fraction_bits
    }

    /// 2^31 - 1 - (k+150)·2^23, or 2^63 - 1 - (k+1075)·2^52.
    pub fn largest_magnitude_code(self) -> u64 {
        let largest_ordinal = self.width.half() as u64 - 1;
        largest_ordinal - ((self.bin_exponent() as u64) << self.width.fraction_bits)
    }

    /// The tolerance code of a pattern.
    pub fn code(self, halves: Halves, pattern: u64) -> u64 {
        let ordinal = self.width.ordinal(pattern);
        // Ordinals are in the order of magnitudes, with infinities and
        // not-a-numbers above all finite ones, T included.
        let u = if ordinal < self.threshold_ordinal() {
            self.bins_nearest(halves, ordinal)
        } else {
            ordinal - self.threshold_ordinal() + (1 << self.width.fraction_bits)
        };
        2 * u + self.width.sign(pattern)
    }

    /// The pattern restored from a code, or nothing if u is above its largest.
    pub fn restored(self, code: u64) -> Option<u64> {
        let (u, sign) = (code / 2, code % 2);
        if u > self.largest_magnitude_code() {
            return None;
        }
        let ordinal = if u < (1 << self.width.fraction_bits) {
            self.ordinal_of_bins(u)
        } else {
            u - (1 << self.width.fraction_bits) + self.threshold_ordinal()
        };
        Some(self.width.with_sign(ordinal, sign))
    }

    /// |v|/E for a magnitude below T, rounded to the nearest whole number.
    ///
    /// |v| is significand·2^scale units. Below T the field is at most d, and
    /// the scale is field-1 (0 for field 0), so scale <= d always, and
    /// |v|/E = significand / 2^shift with shift = d - scale.
    ///
    /// u128 is exact here: significand < 2^(m+1), so once shift exceeds m+2
    /// the quotient is below a half and rounds to 0; otherwise all numbers
    /// below are under 2^56.
    fn bins_nearest(self, halves: Halves, ordinal: u64) -> u64 {
        let m = self.width.fraction_bits;
        let field = ordinal >> m;
        let fraction = ordinal as u128 % (1 << m);
        let significand = if field == 0 { fraction } else { fraction + (1 << m) };
        let scale = field.saturating_sub(1) as u32;
        let shift = self.bin_exponent() - scale;
        if shift > m + 2 {
            return 0;
        }
        let bin = 1u128 << shift;
        let (whole, rest) = (significand / bin, significand % bin);
        let added = match (2 * rest).cmp(&bin) {
            Ordering::Less => 0,
            Ordering::Greater => 1,
            Ordering::Equal => match halves {
                Halves::AwayFromZero => 1,
                Halves::ToEven => whole % 2,
            },
        };
        (whole + added) as u64
    }

    /// The ordinal of u·E for u < 2^m: exact, u has at most m bits.
    ///
    /// In units the value is u·2^d, its highest bit at `top`.
    fn ordinal_of_bins(self, u: u64) -> u64 {
        let m = self.width.fraction_bits;
        let d = self.bin_exponent();
        if u == 0 {
            return 0;
        }
        let length = bit_length(u);
        let top = length - 1 + d;
        if top < m {
            // Subnormal: the ordinal is the number of units.
            return u << d;
        }
        // Normal: the significand is u with its highest bit moved to bit m.
        let significand = u << (m + 1 - length);
        let field = (top - m + 1) as u64;
        (field << m) + (significand - (1 << m))
    }
}

// ---------------------------------------------------------------- mode 2

/// The difference code of a pattern after the one before it (bits above W are
/// part of neither).
pub fn difference_code(width: Width, before: u64, pattern: u64) -> u64 {
    let [before, pattern] = [before, pattern].map(|p| p as u128 % width.modulus());
    folded(width.signed(width.subtract(pattern, before))) as u64
}

/// The pattern of a difference code after the pattern before it (bits above W
/// are part of neither).
pub fn difference_pattern(width: Width, before: u64, code: u64) -> u64 {
    let [before, code] = [before, code].map(|p| p as u128 % width.modulus());
    width.add(before, width.residue(unfolded(code))) as u64
}

// ------------------------------------------------------------ bit lengths

/// The number of bits up to the highest one set, 0 for 0.
pub fn bit_length(number: u64) -> u32 {
    u64::BITS - number.leading_zeros()
}

// ----------------------------------------------------------------- bound

/// The largest allowed k with 2^k not above the tolerance, a binary64 pattern.
/// Refusals in the order 2 12 13.
pub fn bound(width: u32, tolerance: u64) -> Result<i32, Refusal> {
    let width = Width::numbered(width).ok_or(Refusal::bare(2))?;
    let exponent = greatest_power_not_above(tolerance).ok_or(Refusal::bare(12))?;
    if exponent < width.least_k {
        return Err(Refusal::bare(13));
    }
    Ok(exponent.min(width.greatest_k))
}

/// The greatest e with 2^e not above the binary64 value; nothing unless that
/// value is a finite number above 0.
fn greatest_power_not_above(pattern: u64) -> Option<i32> {
    let ordinal = WIDTH_64.ordinal(pattern);
    let field = ordinal >> WIDTH_64.fraction_bits;
    if WIDTH_64.sign(pattern) == 1 || ordinal == 0 || field == WIDTH_64.greatest_field() {
        return None;
    }
    if field == 0 {
        // Subnormal: the ordinal counts units of 2^-1074.
        Some(bit_length(ordinal) as i32 - 1 - 1074)
    } else {
        Some(field as i32 - 1023)
    }
}
