//! The need of a stream, and side parts that must be understood. The streams
//! are written out by hand.

use crate::random::*;
use second::listing::listing;
use second::stream::{self, Probed};
use second::{plain, Answer, Refusal};

const HIGH: u32 = 1 << 31;

/// A refusal's number and detail; 0 and n, or 0 and 0 of a probe.
type Told = (u32, u32);

/// A stream of three values at the width of `P`, with empty side parts. The mode is
/// as the header has it.
struct Sided {
    mode: u32,
    written: u32,
    needed: u32,
    ids: &'static [u32],
}

impl Sided {
    fn stream<P: Bits>(&self) -> Vec<u8> {
        let Sided { mode, written, needed, ids } = *self;
        let sides = ids.len() as u32;
        let k = if mode % 256 == 1 { -2i32 as u32 } else { 0 };
        let mut numbers = vec![1, written, needed, P::WIDTH.bits(), mode, k];
        numbers.extend([3, 1, 48, 52, sides, 53, 0]);
        let mut stream = bytes_of(&numbers);
        stream.push(0);
        stream.extend(ids.iter().flat_map(|&id| bytes_of(&[id, 53 + 12 * sides, 0])));
        stream
    }

    /// What check, unpack and probe answer at the highest level, all alike.
    fn told<P: Bits>(&self) -> Told {
        let stream = self.stream::<P>();
        let [checked, unpacked, probed, ..] = read::<P>(14, &stream, 3, 0);
        assert_eq!((unpacked, probed.0), (checked, checked.0));
        if checked.0 != 0 {
            let (number, detail) = checked;
            assert_eq!(probed, checked);
            assert_eq!(listing(&stream), format!("refused {number} detail {detail}\n"));
        }
        checked
    }
}

fn bytes_of(numbers: &[u32]) -> Vec<u8> {
    numbers.iter().flat_map(|number| number.to_le_bytes()).collect()
}

fn told(answer: Answer) -> Told {
    answer.map_or_else(|refusal| (refusal.number, refusal.detail), |n| (0, n as u32))
}

/// What the readers say of a stream: check, unpack and probe, those of the
/// other width last. The tuned version says the same.
fn read<P: Bits>(level: u32, stream: &[u8], room: usize, index: u64) -> [Told; 5] {
    let checked = stream::check(level, stream);
    assert_eq!(plain::check(level, stream), checked);
    let [unpacked_32, probed_32] = read_values::<u32>(level, stream, room, index);
    let [unpacked_64, probed_64] = read_values::<u64>(level, stream, room, index);
    if P::WIDTH.bits() == 32 {
        [told(checked), unpacked_32, probed_32, unpacked_64, probed_64]
    } else {
        [told(checked), unpacked_64, probed_64, unpacked_32, probed_32]
    }
}

fn read_values<P: Bits>(level: u32, stream: &[u8], room: usize, index: u64) -> [Told; 2] {
    let mut output = vec![P::of_number(7); room];
    let unpacked = stream::unpack(level, stream, &mut output);
    assert_eq!(plain::unpack(level, stream, &mut output.clone()), unpacked);
    let untouched = output.iter().all(|&element| element == P::of_number(7));
    assert_eq!(untouched, unpacked.is_err() || room == 0);
    let probed = match stream::probe::<P>(level, stream, index) {
        Probed::Refused(refusal) => Err(refusal),
        _ => Ok(0),
    };
    assert_eq!(plain::probe::<P>(level, stream, index).map(|_| 0), probed);
    [told(unpacked), told(probed)]
}

/// The mode numbers of a header and what they need at a width.
fn needs<P: Bits>() -> [(u32, u32); 6] {
    let of_width = if P::WIDTH.bits() == 64 { 10 } else { 8 };
    [(0, of_width), (1, of_width.max(9)), (2, 11), (256, 13), (257, 13), (258, 13)]
}

#[test]
fn the_need_is_exact() {
    fn exact<P: Bits>() {
        for (mode, need) in needs::<P>() {
            for needed in 0..=14 {
                let sided = |ids| Sided { mode, written: 20, needed, ids }.told::<P>();
                let skipped = if needed == need { (0, 3) } else { (8, 0) };
                assert_eq!(sided(&[]), skipped);
                assert_eq!(sided(&[0, HIGH - 1]), skipped);
                let understood = |id| if needed == need.max(12) { (15, id) } else { (8, 0) };
                assert_eq!(sided(&[HIGH]), understood(HIGH));
                assert_eq!(sided(&[HIGH - 1, HIGH + 7, u32::MAX]), understood(HIGH + 7));
                assert_eq!(sided(&[u32::MAX]), understood(u32::MAX));
            }
        }
    }
    exact::<u32>();
    exact::<u64>();
}

#[test]
fn older_levels_refuse_a_high_id_by_7() {
    let stream = Sided { mode: 0, written: 12, needed: 12, ids: &[HIGH] }.stream::<u32>();
    for (level, answer) in [(7, (1, 0)), (8, (7, 12)), (11, (7, 12)), (15, (1, 0))] {
        assert_eq!(read::<u32>(level, &stream, 3, 0), [answer; 5]);
    }
}

/// "width 32, mode 0, need 9 read at level 10 by the other width's reader was 8
/// and is 14", and so with what else stands between the two uses of 8.
#[test]
fn the_late_use_of_8_stands_after_the_tables() {
    let stream = |needed| Sided { mode: 0, written: 12, needed, ids: &[] }.stream::<u32>();
    assert_eq!(read::<u32>(10, &stream(9), 3, 0), [(8, 0), (8, 0), (8, 0), (14, 0), (14, 0)]);
    assert_eq!(read::<u32>(10, &stream(9), 2, 3), [(8, 0), (4, 3), (11, 0), (14, 0), (14, 0)]);
    let longer = [stream(9), vec![0]].concat();
    assert_eq!(read::<u32>(10, &longer, 3, 0), [(9, 0), (9, 0), (9, 0), (14, 0), (14, 0)]);
    // A need below the setting's is 8 before all of them.
    assert_eq!(read::<u32>(10, &stream(7), 2, 3), [(8, 0); 5]);
}

/// Level 14 is above every need, so groups of 128 can state too much, too.
#[test]
fn a_need_of_14_is_refused_by_7_below_and_late_by_8() {
    for mode in [0, 257] {
        let sided = Sided { mode, written: 14, needed: 14, ids: &[] };
        let stream = sided.stream::<u32>();
        assert_eq!(read::<u32>(13, &stream, 3, 0), [(7, 14); 5]);
        assert_eq!(read::<u32>(14, &stream, 3, 0), [(8, 0), (8, 0), (8, 0), (14, 0), (14, 0)]);
        assert_eq!(read::<u32>(14, &stream, 2, 3), [(8, 0), (4, 3), (11, 0), (14, 0), (14, 0)]);
        let longer = [stream, vec![0]].concat();
        assert_eq!(read::<u32>(14, &longer, 3, 0), [(9, 0), (9, 0), (9, 0), (14, 0), (14, 0)]);
    }
    let later = Sided { mode: 0, written: 15, needed: 15, ids: &[] }.stream::<u32>();
    assert_eq!(read::<u32>(14, &later, 3, 0), [(7, 15); 5]);
    assert_eq!(read::<u32>(15, &later, 3, 0), [(1, 0); 5]);
}

#[test]
fn an_id_stands_after_the_tables_and_before_the_chunks() {
    let mut stream = Sided { mode: 2, written: 12, needed: 12, ids: &[5, HIGH] }.stream::<u64>();
    let other = (14, 0);
    let id = (15, HIGH);
    stream[52] = 65;
    assert_eq!(read::<u64>(12, &stream, 3, 0), [id, id, id, other, other]);
    assert_eq!(read::<u64>(12, &stream, 0, 3), [id, (4, 3), (11, 0), other, other]);
    stream.push(0);
    assert_eq!(read::<u64>(12, &stream, 3, 0), [(9, 0), (9, 0), (9, 0), other, other]);
    // The late use of 8 stands before the chunks, too.
    stream.pop();
    stream[8] = 11;
    assert_eq!(read::<u64>(12, &stream, 3, 0), [(8, 0), (8, 0), (8, 0), other, other]);
    stream[64 + 4] = 0; // The second id is then below the first.
    assert_eq!(stream::check(12, &stream), Err(Refusal::bare(9)));
}

#[test]
fn level_14_packs_with_the_need_of_the_setting() {
    fn packs<P: Bits>() {
        for (mode, need) in needs::<P>() {
            let sided = Sided { mode, written: 14, needed: need, ids: &[] };
            let (mode, group) = if mode < 256 { (mode, 32) } else { (mode - 256, 128) };
            let k = if mode == 1 { -2 } else { 0 };
            let mut packed = [0; 60];
            let values = [P::of_number(0); 3];
            assert_eq!(stream::pack(14, mode, k, group, &values, &mut packed), Ok(53));
            assert_eq!(packed[..53], sided.stream::<P>());
            assert_eq!(stream::length(15, mode, k, group, &values), Err(Refusal::bare(1)));
        }
    }
    packs::<u32>();
    packs::<u64>();
}
