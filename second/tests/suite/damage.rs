//! Cut, damaged and hostile streams: both implementations answer alike,
//! outputs stay untouched on refusal, and what is accepted is canonical.

use crate::random::*;
use second::stream::{self, Probed};
use second::{listing, plain, Answer, Refusal};
use std::collections::BTreeMap;

/// How often each answer number was seen, so that a test can show it met all.
type Seen = BTreeMap<u32, u32>;

fn note(seen: &mut Seen, answer: Answer) {
    *seen.entry(answer.err().map_or(0, |r| r.number)).or_default() += 1;
}

fn stated_count(stream: &[u8]) -> usize {
    let bytes = stream.get(24..28).unwrap_or(&[0; 4]);
    u32::from_le_bytes(bytes.try_into().unwrap()).min(5_000) as usize
}

/// Unpacks with both into an output of the size; they must agree in every
/// element, and leave all past n, or all on refusal, as it was.
fn unpacked_by_both<P: Bits>(level: u32, stream: &[u8], size: usize) -> (Answer, Vec<P>) {
    let mark = P::of_number(0x1357_9BDF);
    let (mut first, mut second) = (vec![mark; size], vec![mark; size]);
    let answer = stream::unpack(level, stream, &mut first);
    assert_eq!(plain::unpack(level, stream, &mut second), answer);
    assert!(first == second);
    let n = answer.unwrap_or(0) as usize;
    assert!(first[n..].iter().all(|&element| element == mark));
    first.truncate(n);
    (answer, first)
}

/// Probe must agree with unpack wherever the rules tie them together.
fn probes_follow<P: Bits>(
    rng: &mut XorShift,
    level: u32,
    stream: &[u8],
    unpacked: Answer,
    values: &[P],
) {
    let n = stated_count(stream) as u64;
    for _ in 0..n.min(3) {
        let index = rng.below(n);
        let probed = stream::probe::<P>(level, stream, index);
        match (unpacked, probed) {
            (Ok(_), Probed::Finite(p) | Probed::NotANumber(p)) => {
                assert_eq!(p, values[index as usize]);
            }
            (Ok(_), Probed::Infinity { .. }) => {}
            (Ok(_), Probed::Refused(refusal)) => panic!("{refusal:?} after success"),
            // Chunks before the first bad one are sound; it is refused alike.
            (Err(first @ Refusal { number: 10, .. }), probed) => {
                let (chunk, first_bad) = (index as u32 / 1024, first.detail / 32);
                match probed {
                    Probed::Refused(r) if chunk == first_bad => assert_eq!(r, first),
                    Probed::Refused(r) => {
                        assert_eq!((r.number, r.detail / 32), (10, chunk));
                        assert!(chunk > first_bad);
                    }
                    _ => assert_ne!(chunk, first_bad),
                }
            }
            (Err(refusal), probed) => assert_eq!(probed, Probed::Refused(refusal)),
        }
    }
}

/// A stream without side parts that a reader accepts is the one pack makes of
/// its values, but for the written minor.
fn canonical<P: Bits>(stream: &[u8], values: &[P]) {
    let number =
        |index: usize| u32::from_le_bytes(stream[4 * index..4 * index + 4].try_into().unwrap());
    if number(10) != 0 {
        return;
    }
    let mut again = vec![0; stream.len()];
    let level = stream::HIGHEST_LEVEL;
    let (mode, group) = (number(4) % 256, if number(4) < 256 { 32 } else { 128 });
    let answer = stream::pack(level, mode, number(5) as i32, group, values, &mut again);
    assert_eq!(answer, Ok(stream.len() as u64));
    again[4..8].copy_from_slice(&stream[4..8]);
    assert!(again == stream);
}

fn judge_width<P: Bits>(rng: &mut XorShift, level: u32, stream: &[u8], seen: &mut Seen) {
    let n = stated_count(stream);
    let size = n + rng.below(3) as usize;
    let (answer, values) = unpacked_by_both::<P>(level, stream, size);
    note(seen, answer);
    probes_follow(rng, level, stream, answer, &values);
    if answer.is_ok() {
        canonical(stream, &values);
    }
    if n > 0 {
        let short = rng.below(n as u64) as usize;
        note(seen, unpacked_by_both::<P>(level, stream, short).0);
    }
}

/// Everything both implementations can say of a stream.
fn judge(rng: &mut XorShift, stream: &[u8], seen: &mut Seen) {
    let level = rng.one_of(&[14, 14, 14, 14, 14, 13, 12, 11, 10, 9, 8, 7, 15]);
    let answer = stream::check(level, stream);
    assert_eq!(plain::check(level, stream), answer);
    note(seen, answer);
    judge_width::<u32>(rng, level, stream, seen);
    judge_width::<u64>(rng, level, stream, seen);
    if stream.len() <= 65_536 {
        let text = listing::listing(stream);
        match stream::check(stream::HIGHEST_LEVEL, stream) {
            Ok(n) => assert!(text.contains(&format!("\nvalues {n} chunks "))),
            Err(r) => assert_eq!(text, format!("refused {} detail {}\n", r.number, r.detail)),
        }
    }
}

/// A stream, now and then with side parts; sound, but for ids that must be
/// understood.
fn some_stream(rng: &mut XorShift) -> Vec<u8> {
    fn packed<P: Bits>(rng: &mut XorShift) -> Vec<u8> {
        let (mode, n) = (rng.below(3) as u32, some_length(rng));
        let k = if mode == 1 { some_k(rng, P::WIDTH) } else { 0 };
        let values: Vec<P> = some_list(rng, k, n);
        let mut stream = vec![0; 30_000];
        let group = rng.one_of(&SIZES);
        let length = plain::pack(14, mode, k, group, &values, &mut stream).unwrap();
        stream.truncate(length as usize);
        stream
    }
    let mut stream = if rng.chance(2) { packed::<u32>(rng) } else { packed::<u64>(rng) };
    if rng.chance(3) {
        let high = (1 << 31) - rng.below(9) as u32;
        let first_id = rng.one_of(&[0, 0, high]);
        add_sides(rng, first_id, &mut stream);
    }
    stream
}

/// Adds well-formed side parts with ids above this one, and puts the need of
/// high ones.
fn add_sides(rng: &mut XorShift, mut id: u32, stream: &mut Vec<u8>) {
    let sides = rng.one_of(&[1, 2, 3, 64]);
    stream[40] = sides as u8;
    let lengths: Vec<u32> = (0..sides).map(|_| rng.below(4) as u32).collect();
    let mut place = stream.len() as u32 + 12 * sides as u32;
    for length in &lengths {
        id += 1 + rng.below(9) as u32;
        for number in [id, place, *length] {
            stream.extend(number.to_le_bytes());
        }
        place += length;
    }
    if id >= 1 << 31 {
        stream[8] = stream[8].max(12);
    }
    stream.resize(place as usize, 0xEE);
}

fn put_number(stream: &mut [u8], place: usize, number: u32) {
    if let Some(bytes) = stream.get_mut(place..place + 4) {
        bytes.copy_from_slice(&number.to_le_bytes());
    }
}

/// A number near the one that stands there, or one that is apt to overflow.
fn other_number(rng: &mut XorShift, stream: &[u8], place: usize) -> u32 {
    let old = stream
        .get(place..place + 4)
        .map_or(0, |bytes| u32::from_le_bytes(bytes.try_into().unwrap()));
    match rng.below(6) {
        0 => old.wrapping_add(1),
        1 => old.wrapping_sub(1),
        2 => old.wrapping_add(rng.below(64) as u32),
        3 => rng.one_of(&[0, 1, 32, 64, 1 << 20, (1 << 20) + 1, 1 << 31, u32::MAX]),
        4 => stream.len() as u32,
        _ => rng.next() as u32,
    }
}

fn damage(rng: &mut XorShift, stream: &mut Vec<u8>) {
    let data = 48 + 4 * stated_count(stream).div_ceil(1024);
    let end = stream.len();
    match rng.below(9) {
        0 => stream.truncate(rng.below(end as u64 + 1) as usize),
        1 => stream.push(rng.next() as u8),
        2 => {
            let place = 4 * rng.below(12) as usize;
            let number = other_number(rng, stream, place);
            put_number(stream, place, number);
        }
        3 => {
            let entry = rng.below((data as u64 - 48) / 4 + 1) as usize;
            let number = other_number(rng, stream, 48 + 4 * entry);
            put_number(stream, 48 + 4 * entry, number);
        }
        // A bit, a byte, or a run of bytes of the data.
        4 | 5 if end > data => {
            let place = data + rng.below((end - data) as u64) as usize;
            stream[place] ^= 1 << rng.below(8);
        }
        6 if end > data => {
            let place = data + rng.below((end - data) as u64) as usize;
            stream[place] = rng.one_of(&[0, 1, 32, 33, 64, 65, 255]);
        }
        // The first width byte, which changes where everything lies.
        7 if end > data => stream[data] = rng.below(70) as u8,
        // A number of the side table.
        _ if end > 48 => {
            let table = u32::from_le_bytes(stream[44..48].try_into().unwrap()) as u64;
            let place = table.min(end as u64) as usize + 4 * rng.below(6) as usize;
            let number = other_number(rng, stream, place);
            put_number(stream, place, number);
        }
        _ => {}
    }
}

#[test]
fn damaged_streams() {
    let rng = &mut XorShift(0x5EED_0000_DA3A_6ED1);
    let mut seen = Seen::new();
    for _ in 0..5_000 {
        let mut stream = some_stream(rng);
        for _ in 0..1 + rng.below(2) {
            damage(rng, &mut stream);
        }
        judge(rng, &stream, &mut seen);
    }
    for number in [0, 1, 4, 5, 6, 7, 8, 9, 10, 14, 15] {
        assert!(seen.get(&number).is_some_and(|&n| n >= 20), "{number}: {seen:?}");
    }
}

/// Small streams with one group in which single bits change often leave a
/// sound stream: the accepted ones must be canonical.
#[test]
fn every_bit_of_small_streams_flipped() {
    let rng = &mut XorShift(0x0DD_B175);
    let mut seen = Seen::new();
    for round in 0..60 {
        let (mode, n) = (round % 3, 1 + rng.below(6) as usize);
        let k = if mode == 1 { -2 } else { 0 };
        let group = rng.one_of(&SIZES);
        let mut stream = vec![0; 200];
        let length = if round % 6 < 3 {
            let values: Vec<u32> = some_list(rng, -2, n);
            stream::pack(14, mode, k, group, &values, &mut stream)
        } else {
            let values: Vec<u64> = some_list(rng, -2, n);
            stream::pack(14, mode, k, group, &values, &mut stream)
        };
        stream.truncate(length.unwrap() as usize);
        for bit in 0..8 * stream.len() {
            stream[bit / 8] ^= 1 << (bit % 8);
            judge(rng, &stream, &mut seen);
            stream[bit / 8] ^= 1 << (bit % 8);
        }
    }
    assert!(seen[&0] > 100 && seen[&10] > 100, "{seen:?}");
}

#[test]
fn every_cut_is_refused() {
    let rng = &mut XorShift(0xC07_C07_C07);
    for round in 0..30 {
        let n = if round == 0 { 1030 } else { 1 + rng.below(40) as usize };
        let values: Vec<u64> = some_list(rng, 0, n);
        let mut stream = vec![0; 10_000];
        let length = stream::pack(10, 0, 0, 32, &values, &mut stream).unwrap();
        stream.truncate(length as usize);
        if round % 2 == 1 {
            add_sides(rng, 0, &mut stream);
        }
        assert_eq!(stream::check(10, &stream), Ok(n as u64));
        let mut seen = Seen::new();
        for cut in 0..stream.len() {
            let answer = stream::check(10, &stream[..cut]);
            assert!(answer.is_err());
            assert_eq!(plain::check(10, &stream[..cut]), answer);
            if round > 0 {
                judge(rng, &stream[..cut], &mut seen);
            }
        }
    }
}

/// Data made up byte by byte under a sound header, so that the group rules
/// alone decide; small widths often pass.
#[test]
fn made_up_data() {
    let rng = &mut XorShift(0x0011_2233_4455_6677);
    let mut seen = Seen::new();
    for _ in 0..20_000 {
        let group = rng.one_of(&SIZES);
        let n = 1 + rng.below(group as u64 + 8) as u32;
        let (width, mode) = (rng.one_of(&[32u32, 64]), rng.below(3) as u32);
        let k = match (width, mode) {
            (_, 0 | 2) => 0,
            (32, _) => rng.one_of(&[-150, -2, 80, 100, 103]),
            _ => rng.one_of(&[-1075, -2, 900, 960, 970]),
        };
        let need = match (width, mode) {
            _ if group == 128 => 13,
            (_, 2) => 11,
            (64, _) => 10,
            _ => 8 + mode,
        };
        let mut data = Vec::new();
        for count in (0..n).step_by(group as usize).map(|at| (n - at).min(group)) {
            let w = rng.below(width as u64 + 2) as u32; // one too wide at most
            data.push(w as u8);
            let (bytes, bits_left) = ((count * w).div_ceil(8), count * w % 8);
            data.extend((0..bytes).map(|_| rng.next() as u8));
            // Mostly zero the padding, which random bytes seldom get right.
            if bits_left > 0 && !rng.chance(6) {
                *data.last_mut().unwrap() &= (1 << bits_left) - 1;
            }
        }
        if rng.chance(12) {
            data.push(0);
        }
        let end = 52 + data.len() as u32;
        let mode = mode + if group == 128 { 256 } else { 0 };
        let header = [1, 14, need, width, mode, k as u32, n, 1, 48, 52, 0, end, 0];
        let mut stream: Vec<u8> = header.iter().flat_map(|n| n.to_le_bytes()).collect();
        stream.extend(data);
        judge(rng, &stream, &mut seen);
    }
    assert!(seen[&0] > 1000 && seen[&10] > 1000, "{seen:?}");
}

#[test]
fn hostile_bytes() {
    let rng = &mut XorShift(0x9999_8888_7777_6666);
    let mut seen = Seen::new();
    for _ in 0..5_000 {
        let length = rng.below(120) as usize;
        let mut stream: Vec<u8> = (0..length).map(|_| rng.next() as u8).collect();
        // A believable start takes the rest further.
        for (index, number) in [1, 10, 8, 32, 0, 0].into_iter().enumerate() {
            if !rng.chance(30) {
                put_number(&mut stream, 4 * index, number);
            }
        }
        for place in (24..48).step_by(4) {
            let number = rng.one_of(&[0, 1, 2, 48, 52, 56, 64, 1025, u32::MAX]);
            put_number(&mut stream, place, number);
        }
        judge(rng, &stream, &mut seen);
    }
    // Lengths alone: all-zero and all-one inputs of every small size.
    for length in 0..200 {
        judge(rng, &vec![0; length], &mut seen);
        judge(rng, &vec![255; length], &mut seen);
    }
    assert!(seen[&5] > 0 && seen[&6] > 0 && seen[&8] > 0, "{seen:?}");
}
