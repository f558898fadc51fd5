//! Pack and length, with their faults.

use crate::faults::{planted, Fault};
use crate::reading::numbers_of;
use crate::{codes, differences, halves, needs, sizes, tolerance, Word};
use second::numbers::{self, Halves, Tolerance};
use second::stream::{self, HIGHEST_LEVEL};
use second::{Answer, Refusal};

const MOST_VALUES: usize = 1 << 20;

/// What pack and length are asked besides the values.
#[derive(Clone, Copy)]
pub struct Asked {
    pub level: u32,
    pub mode: u32,
    pub k: i32,
    pub group: u32,
}

impl Asked {
    /// The right answer of length.
    fn length<P: Word>(self, values: &[P]) -> Answer {
        stream::length(self.level, self.mode, self.k, self.group, values)
    }

    /// The right stream, or refusals 1 2 3.
    fn packed<P: Word>(self, values: &[P]) -> Result<Vec<u8>, Refusal> {
        let mut stream = vec![0; self.length(values)? as usize];
        stream::pack(self.level, self.mode, self.k, self.group, values, &mut stream)?;
        Ok(stream)
    }
}

/// Refusals a planted fault gives before any other.
fn refused_early<P: Word>(asked: Asked, values: &[P]) -> Answer {
    let known = (8..=HIGHEST_LEVEL).contains(&asked.level);
    let n = values.len();
    if planted(Fault::order_3_before_2) && known && n > MOST_VALUES {
        return Err(Refusal::bare(3));
    }
    let of_32 = Asked { group: 32, ..asked }.length(&values[..n.min(1)]);
    if planted(Fault::order_3_before_size) && of_32.is_ok() && n > MOST_VALUES {
        return Err(Refusal::bare(3));
    }
    let admitted = asked.length(&values[..n.min(1)]);
    if planted(Fault::limit_one_less) && admitted.is_ok() && n == MOST_VALUES {
        return Err(Refusal::bare(3));
    }
    if asked.mode == 1 && admitted.is_ok() {
        tolerance(P::WIDTH, asked.k)?;
    }
    Ok(0)
}

/// Values whose codes are those a planted fault gives to these by a rule for halves.
fn as_coded<P: Word>(asked: Asked, rule: Halves, values: &[P]) -> Vec<P> {
    if asked.mode == 2 {
        let coded = differences::as_packed(P::WIDTH, asked.group as usize, &numbers_of(values));
        return coded.into_iter().map(P::of_number).collect();
    }
    let tolerance = Tolerance::allowed(P::WIDTH, asked.k).filter(|_| asked.mode == 1);
    let coded = |value: &P| match tolerance {
        None => {
            let code = codes::lossless_code(P::WIDTH, value.number());
            P::of_number(numbers::lossless_pattern(P::WIDTH, code))
        }
        Some(t) => {
            let code = codes::tolerance_code(t, rule, value.number());
            t.restored(code).map_or(*value, P::of_number)
        }
    };
    values.iter().map(coded).collect()
}

/// What is asked as a planted fault takes it.
fn faced<P: Word>(asked: Asked) -> Asked {
    let Asked { level, mode, k, group } = sizes::faced(asked);
    let at_10 = planted(Fault::difference_packed_at_10) || differences::need(P::WIDTH) == 10;
    let level = match level {
        10 if mode == 2 && at_10 => 11,
        _ => needs::faced_level(level),
    };
    let any_k = planted(Fault::any_k_packed) && mode == 2;
    Asked { level, mode, k: if any_k { 0 } else { k }, group }
}

pub fn length<P: Word>(asked: Asked, values: &[P]) -> Answer {
    let asked = faced::<P>(asked);
    refused_early(asked, values)?;
    let coded = as_coded(asked, halves::rule_of_length::<P>(asked), values);
    asked.length(&coded)?;
    Ok(sizes::length(asked.group, &asked.packed(&coded)?))
}

pub fn pack<P: Word>(asked: Asked, values: &[P], out: &mut [u8]) -> Answer {
    let faced = faced::<P>(asked);
    refused_early(faced, values)?;
    let coded = as_coded(faced, halves::rule_of_writer::<P>(faced), values);
    let stream = match faced.packed(&coded) {
        Err(Refusal { number: 3, .. }) if planted(Fault::order_4_before_3) && out.len() < 48 => {
            return Err(Refusal::with_detail(4, 48));
        }
        packed => sizes::as_packed(faced.group, packed?),
    };
    let length = stream.len();
    if out.len() < length {
        return Err(refused_room(out, length));
    }
    out[..length].copy_from_slice(&stream);
    let of_32 = faced.mode == 2 && faced.group == 32;
    let need = if of_32 { differences::need(P::WIDTH) } else { out[8] as u32 };
    touch_packed(asked.level, halves::stated_need(asked, need), out, length);
    Ok(length as u64)
}

/// Refusal 4, with what planted faults do at it.
fn refused_room(out: &mut [u8], length: usize) -> Refusal {
    if planted(Fault::output_touched_on_refusal) {
        out.fill(0);
    }
    let told = if planted(Fault::detail_of_4) { out.len() } else { length };
    Refusal::with_detail(4, told as u64)
}

/// What planted faults do to a packed stream and the room after it.
fn touch_packed(level: u32, need: u32, out: &mut [u8], length: usize) {
    out[4] = if planted(Fault::written_is_highest) { HIGHEST_LEVEL as u8 } else { level as u8 };
    out[8] = if planted(Fault::need_is_level) { level as u8 } else { need as u8 };
    if planted(Fault::past_n_written) && out.len() > length {
        out[length] = 0;
    }
}
