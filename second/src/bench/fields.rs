//! The benchmark's fields: 1,024 by 1,024 cells of a model harbour, the same
//! at every run, and whatever a file holds. A model's value is made in
//! binary64; width 32 rounds it.

use crate::compare::random::XorShift;
use std::fs::File;
use std::io::Read;
use std::path::Path;

/// Cells along each side of the grid.
pub const SIDE: usize = 1024;
/// Values of a model's field: the most a stream holds.
pub const VALUES: usize = SIDE * SIDE;

#[derive(Clone, Copy, Debug, PartialEq, Eq)]
pub enum Field {
    Smooth,
    Calm,
    Noisy,
    HalfDry,
    Tide,
}

pub const FIELDS: [Field; 5] =
    [Field::Smooth, Field::Calm, Field::Noisy, Field::HalfDry, Field::Tide];

impl Field {
    pub const fn name(self) -> &'static str {
        match self {
            Field::Smooth => "smooth",
            Field::Calm => "calm",
            Field::Noisy => "noisy",
            Field::HalfDry => "half-dry",
            Field::Tide => "tide",
        }
    }

    pub fn sample<P: Cell>(self) -> Sample<P> {
        Sample { name: self.name().to_string(), values: self.values() }
    }

    /// The cells row by row.
    pub fn values<P: Cell>(self) -> Vec<P> {
        let mut rng = XorShift::seeded(1, self as u64);
        (0..VALUES).map(|cell| self.value(cell, &mut rng)).collect()
    }

    fn value<P: Cell>(self, cell: usize, rng: &mut XorShift) -> P {
        match self {
            Field::Smooth => P::of_float(current(cell, rng)),
            Field::Calm if still(cell) => P::of_float(0.0),
            Field::Calm => P::of_float(current(cell, rng) / 1024.0),
            Field::Noisy => P::finite(rng.next()),
            Field::HalfDry if dry(cell) => P::of_float(f64::NAN),
            Field::HalfDry => P::of_float(current(cell, rng)),
            Field::Tide => P::of_float(weaker_tide(cell)),
        }
    }
}

/// Values to be packed, and what the tables call them.
pub struct Sample<P> {
    pub name: String,
    pub values: Vec<P>,
}

impl<P: Cell> Sample<P> {
    /// The raw little-endian values of a file, no more of them than a stream
    /// holds; or what is wrong with the file, and what to do.
    pub fn of_file(path: &Path) -> Result<Sample<P>, String> {
        let (shown, size) = (path.display(), size_of::<P>());
        let mut bytes = Vec::new();
        File::open(path)
            .and_then(|file| file.take((VALUES * size) as u64).read_to_end(&mut bytes))
            .map_err(|error| format!("{shown}: {error}: name a file that can be read"))?;
        if bytes.is_empty() {
            return Err(format!("{shown} is empty: name a file of one value or more"));
        }
        if bytes.len() % size != 0 {
            return Err(format!(
                "{shown}: {} bytes are no whole number of values of {size} bytes: give the width \
                 that the file has (32 or 64), and a file of raw values alone, without a header",
                bytes.len()
            ));
        }
        Ok(Sample { name: name_of(path), values: bytes.chunks(size).map(P::of_bytes).collect() })
    }
}

/// The file's name, without what has a meaning in CSV, Markdown or SVG.
fn name_of(path: &Path) -> String {
    let name = path.file_name().unwrap_or_default().to_string_lossy();
    name.replace(|letter: char| !(letter.is_alphanumeric() || "._-+".contains(letter)), "_")
}

/// The half-dry field with every kind of special value on the dry land:
/// not-a-numbers of all fractions, infinities and -0.
pub fn special_values<P: Cell>() -> Vec<P> {
    let mut rng = XorShift::seeded(1, 4);
    let mut values = Field::HalfDry.values();
    for value in values.iter_mut().filter(|value: &&mut P| value.kind() != 0) {
        *value = match rng.below(4) {
            0 => P::of_float(f64::INFINITY),
            1 => P::of_float(f64::NEG_INFINITY),
            2 => P::of_float(-0.0),
            _ => P::not_a_number(rng.next()),
        };
    }
    values
}

/// A cell's place, each side of the grid being 1.
fn place(cell: usize) -> (f64, f64) {
    ((cell % SIDE) as f64 / SIDE as f64, (cell / SIDE) as f64 / SIDE as f64)
}

/// A tidal stream, in metres per second.
fn tide(x: f64, y: f64) -> f64 {
    0.9 * (2.1 * x + 0.4 * y).cos()
}

/// The tidal stream alone, weaker towards one shore, so that no row is like
/// another: as smooth as a current is, with no noise but that of rounding.
fn weaker_tide(cell: usize) -> f64 {
    let (x, y) = place(cell);
    tide(x, y) * (1.0 - 0.3 * y * y)
}

/// The tidal stream with eddies, and below a thousandth of it the noise that a
/// model's last bits hold.
fn current(cell: usize, rng: &mut XorShift) -> f64 {
    let (x, y) = place(cell);
    let large_eddies = 0.5 * (19.0 * x).sin() * (23.0 * y).cos();
    let small_eddies = 0.1 * (71.0 * x + 13.0 * y).sin() * (67.0 * y - 5.0 * x).sin();
    let noise = (rng.next() >> 11) as f64 / (1u64 << 53) as f64 - 0.5;
    tide(x, y) + large_eddies + small_eddies + noise * 1e-4
}

/// Still water: five of six stretches of 200 cells.
fn still(cell: usize) -> bool {
    cell / 200 % 6 != 5
}

/// Dry land: every second region of 90 by 90 cells.
fn dry(cell: usize) -> bool {
    (cell % SIDE / 90 + cell / SIDE / 90) % 2 == 1
}

/// A pattern of one width.
pub trait Cell: Copy {
    /// From as many little-endian bytes as the width has.
    fn of_bytes(bytes: &[u8]) -> Self;
    fn of_float(value: f64) -> Self;
    fn float(self) -> f64;
    /// Sign, exponent and fraction at random, but never infinite or
    /// not-a-number.
    fn finite(random: u64) -> Self;
    /// A not-a-number with its own fraction, quiet or not.
    fn not_a_number(random: u64) -> Self;

    /// As probe answers it: 0 finite, 1 infinite, 2 not-a-number.
    fn kind(self) -> u64 {
        let value = self.float();
        if value.is_nan() {
            2
        } else {
            value.is_infinite().into()
        }
    }
}

macro_rules! cell {
    ($word:ident, $float:ident) => {
        impl Cell for $word {
            fn of_bytes(bytes: &[u8]) -> $word {
                $word::from_le_bytes(bytes.try_into().expect("the bytes of one value"))
            }

            fn of_float(value: f64) -> $word {
                (value as $float).to_bits()
            }

            fn float(self) -> f64 {
                $float::from_bits(self).into()
            }

            fn finite(random: u64) -> $word {
                let pattern = (random >> (64 - $word::BITS)) as $word;
                let second_highest = 1 << ($word::BITS - 2);
                if pattern.kind() == 0 {
                    pattern
                } else {
                    pattern & !second_highest
                }
            }

            fn not_a_number(random: u64) -> $word {
                let pattern = (random >> (64 - $word::BITS)) as $word;
                pattern | $float::INFINITY.to_bits() | 1
            }
        }
    };
}

cell!(u32, f32);
cell!(u64, f64);
