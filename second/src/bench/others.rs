//! Compressors of other formats, and what they keep of special values.

use super::codec::{Setting, Value};
use super::fields::special_values;
use super::timing::Who;

/// A compressor. Answers are lengths in bytes, 0 where it fails.
pub struct Other<P> {
    pub who: Who,
    pub modes: &'static [u32],
    pub room: fn(usize) -> usize,
    pub pack: PackOther<P>,
    pub unpack: UnpackOther<P>,
}

pub type PackOther<P> = Box<dyn Fn(Setting, &[P], &mut [u8]) -> usize>;
pub type UnpackOther<P> = Box<dyn Fn(Setting, &[u8], &mut [P]) -> usize>;

impl<P: Value> Other<P> {
    /// It knows no group size and no rule for halves, so it runs once for each mode it
    /// has: beside groups of 32, and halves away from zero.
    pub fn runs_beside(&self, setting: Setting) -> bool {
        setting.group == 32 && setting.is_read() && self.modes.contains(&setting.mode)
    }

    pub fn packed(&self, setting: Setting, values: &[P]) -> Vec<u8> {
        let mut packed = vec![0; (self.room)(size_of_val(values))];
        let length = (self.pack)(setting, values, &mut packed);
        assert!(length > 0, "{} did not pack", self.who.name());
        packed.truncate(length);
        packed
    }

    pub fn restored(&self, setting: Setting, packed: &[u8], n: usize) -> Vec<P> {
        let mut restored = vec![P::default(); n];
        let length = (self.unpack)(setting, packed, &mut restored);
        assert!(length > 0, "{} did not unpack", self.who.name());
        restored
    }
}

/// How many of a field's values do not come back as they should.
#[derive(Clone, Copy, Debug, Default, PartialEq, Eq)]
pub struct Lost {
    /// Not-a-numbers with another pattern.
    pub not_a_numbers: usize,
    /// Infinities with another pattern.
    pub infinities: usize,
    /// Finite values with another pattern, or in mode 1 further off than the
    /// tolerance.
    pub finite: usize,
}

impl Lost {
    pub fn total(self) -> usize {
        self.not_a_numbers + self.infinities + self.finite
    }
}

/// What a compressor loses of the field with special values, and how many of
/// each kind the field has.
pub fn lost_by<P: Value>(other: &Other<P>, setting: Setting) -> (Lost, Lost) {
    let values = special_values::<P>();
    let count = |kind: u64| values.iter().filter(|value| value.kind() == kind).count();
    let all = Lost { not_a_numbers: count(2), infinities: count(1), finite: count(0) };
    let packed = other.packed(setting, &values);
    (lost(setting, &values, &other.restored(setting, &packed, values.len())), all)
}

pub fn lost<P: Value>(setting: Setting, values: &[P], restored: &[P]) -> Lost {
    let mut lost = Lost::default();
    for (&value, &back) in values.iter().zip(restored) {
        let kept = value == back || setting.mode == 1 && near(value, back, setting.k);
        match value.kind() {
            0 => lost.finite += usize::from(!kept),
            1 => lost.infinities += usize::from(value != back),
            _ => lost.not_a_numbers += usize::from(value != back),
        }
    }
    lost
}

/// Rounding cannot lift the distance above a power of two that it is not
/// above.
fn near<P: Value>(value: P, back: P, k: i32) -> bool {
    (value.float() - back.float()).abs() <= f64::powi(2.0, k)
}
