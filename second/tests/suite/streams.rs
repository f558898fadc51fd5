//! Whole streams: round trips, levels, orders of refusals, untouched outputs.

use crate::random::*;
use second::numbers::{self, Halves};
use second::stream::{self, Probed};
use second::{plain, Answer, Refusal};

const LEVELS: [u32; 11] = [0, 7, 8, 9, 10, 11, 12, 13, 14, 15, u32::MAX];
const MARK: u8 = 0xA5;

/// The need, stated again.
fn need<P: Bits>(mode: u32, group: u32) -> u32 {
    match (P::WIDTH.bits(), mode) {
        _ if group == 128 => 13,
        (_, 2) => 11,
        (64, _) => 10,
        (_, 1) => 9,
        _ => 8,
    }
}

/// Packs with both implementations into outputs too short, exact and long,
/// and answers the stream.
fn packed_by_both<P: Bits>(level: u32, mode: u32, k: i32, group: u32, values: &[P]) -> Vec<u8> {
    let length = stream::length(level, mode, k, group, values).unwrap() as usize;
    assert_eq!(plain::length(level, mode, k, group, values), Ok(length as u64));
    let (n, c) = (values.len(), values.len().div_ceil(1024));
    let most = 48 + 4 * c + n.div_ceil(group as usize) + n * P::WIDTH.bits() as usize / 8;
    assert!(length <= most);

    let mut stream = Vec::new();
    for size in [0, length / 2, length - 1, length, length + 1, most + 20] {
        let mut by_reference = vec![MARK; size];
        let mut by_plain = vec![MARK; size];
        let answer = stream::pack(level, mode, k, group, values, &mut by_reference);
        assert_eq!(plain::pack(level, mode, k, group, values, &mut by_plain), answer);
        assert!(by_reference == by_plain);
        if size < length {
            assert_eq!(answer, Err(Refusal { number: 4, detail: length as u32 }));
            assert!(by_reference.iter().all(|&byte| byte == MARK));
        } else {
            assert_eq!(answer, Ok(length as u64));
            assert!(by_reference[length..].iter().all(|&byte| byte == MARK));
            stream = by_reference[..length].to_vec();
        }
    }
    stream
}

/// What each value must return as.
fn expected<P: Bits>(level: u32, mode: u32, k: i32, values: &[P]) -> Vec<P> {
    if mode != 1 {
        return values.to_vec();
    }
    let halves = if level < 14 { Halves::AwayFromZero } else { Halves::ToEven };
    let t = numbers::Tolerance::allowed(P::WIDTH, k).unwrap();
    let restored = |v: &P| P::of_number(t.restored(t.code(halves, v.number())).unwrap());
    values.iter().map(restored).collect()
}

fn unpacks_to<P: Bits>(level: u32, stream: &[u8], values: &[P]) {
    let n = values.len();
    let mark = P::of_number(0x5A5A_5A5A);
    type Unpack<P> = fn(u32, &[u8], &mut [P]) -> Answer;
    let both: [Unpack<P>; 2] = [stream::unpack::<P>, plain::unpack::<P>];
    for unpack in both {
        for size in [n, n + 3] {
            let mut output = vec![mark; size];
            assert_eq!(unpack(level, stream, &mut output), Ok(n as u64));
            assert!(output[..n] == *values);
            assert!(output[n..].iter().all(|&element| element == mark));
        }
        if n > 0 {
            let mut output = vec![mark; n - 1];
            let four = Refusal { number: 4, detail: n as u32 };
            assert_eq!(unpack(level, stream, &mut output), Err(four));
            assert!(output.iter().all(|&element| element == mark));
        }
    }
    assert_eq!(stream::check(level, stream), Ok(n as u64));
    assert_eq!(plain::check(level, stream), Ok(n as u64));
}

/// What probe must tell of a pattern, by the language's own floats.
fn told<P: Bits>(pattern: P) -> Probed<P> {
    let number = pattern.number();
    let (nan, infinite, negative) = if P::WIDTH.bits() == 32 {
        let float = f32::from_bits(number as u32);
        (float.is_nan(), float.is_infinite(), float.is_sign_negative())
    } else {
        let float = f64::from_bits(number);
        (float.is_nan(), float.is_infinite(), float.is_sign_negative())
    };
    match (nan, infinite) {
        (true, _) => Probed::NotANumber(pattern),
        (_, true) => Probed::Infinity { negative },
        _ => Probed::Finite(pattern),
    }
}

fn probes_as<P: Bits>(rng: &mut XorShift, level: u32, stream: &[u8], values: &[P]) {
    let n = values.len() as u64;
    for index in [n, n + 1, 1 << 32, u64::MAX] {
        let eleven = Probed::Refused(Refusal::bare(11));
        assert_eq!(stream::probe::<P>(level, stream, index), eleven);
    }
    for _ in 0..n.min(8) {
        let index = rng.below(n);
        let answer = stream::probe::<P>(level, stream, index);
        assert_eq!(answer, told(values[index as usize]));
    }
}

fn round_trips<P: Bits>(seed: u64, rounds: u32) {
    let rng = &mut XorShift(seed);
    for _ in 0..rounds {
        let (n, mode, group) = (some_length(rng), rng.below(3) as u32, rng.one_of(&SIZES));
        let k = if mode == 1 { some_k(rng, P::WIDTH) } else { 0 };
        let values: Vec<P> = some_list(rng, k, n);
        let need = need::<P>(mode, group);
        for level in need..=stream::HIGHEST_LEVEL {
            let restored = expected(level, mode, k, &values);
            let stream = packed_by_both(level, mode, k, group, &values);
            assert_eq!(stream[4..8], level.to_le_bytes());
            assert_eq!(stream[8..12], need.to_le_bytes());
            // The reader's level need only reach the need.
            for reader in need..=stream::HIGHEST_LEVEL {
                unpacks_to(reader, &stream, &restored);
                probes_as(rng, reader, &stream, &restored);
            }
        }
    }
}

#[test]
fn round_trips_of_width_32() {
    round_trips::<u32>(0x3232_3232_3232_3232, 300);
}

#[test]
fn round_trips_of_width_64() {
    round_trips::<u64>(0x6464_6464_6464_6464, 600);
}

#[test]
fn the_largest_lists() {
    fn one<P: Bits>(rng: &mut XorShift, mode: u32, k: i32, group: u32) {
        let values: Vec<P> =
            (0..1_048_576).map(|_| P::of_number(some_pattern(rng, P::WIDTH, k))).collect();
        // The first writer and the last: in mode 1 they have different rules.
        for level in [need::<P>(mode, group), stream::HIGHEST_LEVEL] {
            packs(level, mode, k, group, &values);
        }
    }
    fn packs<P: Bits>(level: u32, mode: u32, k: i32, group: u32, values: &[P]) {
        let length = stream::length(level, mode, k, group, values).unwrap() as usize;
        let (mut first, mut second) = (vec![MARK; length], vec![MARK; length]);
        assert_eq!(stream::pack(level, mode, k, group, values, &mut first), Ok(length as u64));
        assert_eq!(plain::pack(level, mode, k, group, values, &mut second), Ok(length as u64));
        assert!(first == second);
        let restored = expected(level, mode, k, values);
        let mut output = vec![P::of_number(1); values.len()];
        assert_eq!(plain::unpack(level, &first, &mut output), Ok(1_048_576));
        assert!(output == restored);
        output.fill(P::of_number(1));
        assert_eq!(stream::unpack(level, &first, &mut output), Ok(1_048_576));
        assert!(output == restored);
    }
    let rng = &mut XorShift(0xFEED_FACE_8BAD_F00D);
    for (mode, k) in [(0, 0), (1, -10), (2, 0)] {
        let sizes = if mode == 1 { [128, 32] } else { [32, 128] };
        one::<u32>(rng, mode, k, sizes[0]);
        one::<u64>(rng, mode, k, sizes[1]);
    }
}

/// Refusals 1 2 3 in their order, for every kind of level, mode, k and group size.
#[test]
fn pack_and_length_refuse_by_the_table() {
    fn expect<P: Bits>(level: u32, mode: u32, k: i32, group: u32, n: usize) -> Option<u32> {
        if ![8, 9, 10, 11, 12, 13, 14].contains(&level) {
            return Some(1);
        }
        let allowed = match mode {
            0 | 2 => k == 0,
            1 => allowed_k(P::WIDTH).contains(&k),
            _ => false,
        };
        if !allowed || !SIZES.contains(&group) || need::<P>(mode, group) > level {
            return Some(2);
        }
        (n > 1_048_576).then_some(3)
    }
    fn try_all<P: Bits>() {
        #[allow(clippy::useless_vec)] // too long for the stack
        let many = vec![P::of_number(0); 1_048_577];
        let ks = [i32::MIN, -1076, -1075, -151, -150, -1, 0, 1, 103, 104, 970, 971, i32::MAX];
        for level in LEVELS {
            for mode in [0, 1, 2, 3, 256, 258, u32::MAX] {
                for k in ks {
                    for group in [32, 128, 0, 31, 64, 129, 256, u32::MAX] {
                        for values in [&many[..2], &many[..]] {
                            try_one(level, mode, k, group, values);
                        }
                    }
                }
            }
        }
    }
    fn try_one<P: Bits>(level: u32, mode: u32, k: i32, group: u32, values: &[P]) {
        let mut output = [MARK; 70];
        let refusal = expect::<P>(level, mode, k, group, values.len());
        let packed = stream::pack(level, mode, k, group, values, &mut output);
        assert_eq!(packed.err(), refusal.map(Refusal::bare));
        let length = stream::length(level, mode, k, group, values);
        assert_eq!(length, packed);
        if refusal.is_some() {
            assert_eq!(output, [MARK; 70]);
        }
        assert_eq!(plain::length(level, mode, k, group, values), length);
        let mut again = [MARK; 70];
        assert_eq!(plain::pack(level, mode, k, group, values, &mut again), packed);
        assert_eq!(output, again);
    }
    try_all::<u32>();
    try_all::<u64>();
}

/// A stream that breaks every rule from some refusal on: whatever is mended
/// in the stated order, the next refusal shows.
#[test]
fn readers_refuse_in_their_orders() {
    let mut values = vec![1f32.to_bits(); 1100];
    values[1099] = 2f32.to_bits();
    let mut good = vec![0; 6000];
    let length = stream::pack(9, 1, -2, 32, &values, &mut good).unwrap() as usize;
    good.truncate(length);

    let set = |stream: &mut Vec<u8>, place: usize, number: u32| {
        stream[place..place + 4].copy_from_slice(&number.to_le_bytes());
    };
    let data = 48 + 8;
    let mut bad = good.clone();
    bad[data] = 33; // chunk 0 breaks its rule: 10
    set(&mut bad, 52, 0); // the second start is not greater: 9
    set(&mut bad, 32, 47); // the table's place: 8
    set(&mut bad, 8, 11); // the need: 7
    set(&mut bad, 0, 2); // the major: 6

    let try_all = |level: u32, stream: &[u8], index: u64, room: usize| {
        let number = |answer: Answer| answer.err().map_or(0, |refusal| refusal.number);
        let probed = |answer| match answer {
            Probed::Refused(refusal) => refusal.number,
            _ => 0,
        };
        let checked = stream::check(level, stream);
        assert_eq!(plain::check(level, stream), checked);
        let unpacked = stream::unpack(level, stream, &mut vec![0u32; room]);
        assert_eq!(plain::unpack(level, stream, &mut vec![0u32; room]), unpacked);
        let other = stream::unpack(level, stream, &mut [0u64; 0]);
        assert_eq!(plain::unpack(level, stream, &mut [0u64; 0]), other);
        [
            number(checked),
            number(unpacked),
            number(other),
            probed(stream::probe::<u32>(level, stream, index)),
            match stream::probe::<u64>(level, stream, index) {
                Probed::Refused(refusal) => refusal.number,
                _ => 0,
            },
        ]
    };
    assert_eq!(try_all(15, &bad[..47], 1100, 0), [1; 5]);
    assert_eq!(try_all(10, &bad[..47], 1100, 0), [5; 5]);
    assert_eq!(try_all(10, &bad, 1100, 0), [6; 5]);
    set(&mut bad, 0, 1);
    assert_eq!(try_all(10, &bad, 1100, 0), [7; 5]);
    set(&mut bad, 8, 9);
    assert_eq!(try_all(8, &bad, 1100, 0), [7; 5]);
    assert_eq!(try_all(10, &bad, 1100, 0), [8; 5]);
    set(&mut bad, 32, 48);
    assert_eq!(try_all(10, &bad, 1100, 0), [9, 4, 14, 11, 14]);
    assert_eq!(try_all(10, &bad, 0, 1100), [9, 9, 14, 9, 14]);
    bad[52..56].copy_from_slice(&good[52..56]);
    assert_eq!(try_all(10, &bad, 0, 1100), [10, 10, 14, 10, 14]);
    // The second chunk is sound, and probe looks at no other.
    assert_eq!(try_all(10, &bad, 1024, 1100), [10, 10, 14, 0, 14]);
    bad[data] = good[data];
    assert_eq!(try_all(10, &bad, 0, 1100), [0, 0, 14, 0, 14]);
    assert_eq!(bad, good);
}

/// Every single header number, changed to many others.
#[test]
fn header_rules() {
    let mut good = [0; 55];
    stream::pack(9, 0, 0, 32, &[0u32, 1 << 31, 1], &mut good).unwrap();
    let numbers: Vec<u32> = (0..12).map(|i| u32::from_le_bytes([good[4 * i], 0, 0, 0])).collect();
    let others = [
        0,
        1,
        2,
        3,
        4,
        5,
        6,
        7,
        8,
        9,
        10,
        11,
        12,
        31,
        32,
        33,
        47,
        48,
        49,
        51,
        52,
        53,
        54,
        55,
        56,
        64,
        65,
        255,
        256,
        257,
        258,
        259,
        512,
        1024,
        1025,
        1 << 20,
        (1 << 20) + 1,
        1 << 31,
        u32::MAX - 1,
        u32::MAX,
    ];
    for place in 0..12 {
        for other in others {
            let mut stream = good;
            stream[4 * place..4 * place + 4].copy_from_slice(&other.to_le_bytes());
            let answer = match (place, other) {
                (place, other) if other == numbers[place] => Ok(3),
                (0, _) => Err(Refusal::bare(6)),
                (1, 8..) => Ok(3), // any later minor
                (2, 11..) => Err(Refusal { number: 7, detail: other }),
                // The two bytes 10 01 also hold four or five codes of 3 bits.
                (6, 4 | 5) => Ok(other as u64),
                (6, 1..=1024) => Err(Refusal { number: 10, detail: 0 }),
                (10, 1..=64) => Err(Refusal::bare(9)), // no side table there
                // An earlier end leaves bytes behind the data; with none of
                // them the first start is not below the data's length.
                (11, 52..=54) => Err(Refusal::bare(9)),
                _ => Err(Refusal::bare(8)),
            };
            let found = stream::check(10, &stream);
            assert_eq!(plain::check(10, &stream), found);
            assert_eq!(found, answer, "number {place} set to {other}");
        }
    }
}

#[test]
fn side_parts() {
    let mut plain_stream = [0; 55];
    stream::pack(8, 0, 0, 32, &[0u32, 1 << 31, 1], &mut plain_stream).unwrap();
    // (id, place, length) of each part, then as many bytes.
    let sided = |entries: &[[u32; 3]], bytes: usize| {
        let mut stream = plain_stream.to_vec();
        stream[40..44].copy_from_slice(&(entries.len() as u32).to_le_bytes());
        for number in entries.iter().flatten() {
            stream.extend(number.to_le_bytes());
        }
        stream.resize(stream.len() + bytes, 0xEE);
        let answer = stream::check(8, &stream);
        assert_eq!(plain::check(8, &stream), answer);
        answer.map_err(|refusal| (refusal.number, refusal.detail))
    };
    let nine = Err((9, 0));
    assert_eq!(sided(&[[0, 67, 0]], 0), Ok(3));
    assert_eq!(sided(&[[(1 << 31) - 1, 67, 4]], 4), Ok(3));
    assert_eq!(sided(&[[1 << 31, 67, 4]], 4), Err((8, 0))); // which needs 12
    assert_eq!(sided(&[[1, 79, 4], [2, 83, 5]], 9), Ok(3));
    assert_eq!(sided(&[[1, 79, 0], [2, 79, 0]], 0), Ok(3));
    assert_eq!(sided(&[[1, 79, 4], [1, 83, 5]], 9), nine); // ids equal
    assert_eq!(sided(&[[2, 79, 4], [1, 83, 5]], 9), nine); // ids fall
    assert_eq!(sided(&[[1, 79, 4], [2, 84, 4]], 9), nine); // a gap
    assert_eq!(sided(&[[1, 79, 4], [2, 82, 6]], 9), nine); // an overlap
    assert_eq!(sided(&[[1, 78, 5], [2, 83, 5]], 9), nine); // not after the table
    assert_eq!(sided(&[[1, 79, 4], [2, 83, 5]], 8), nine); // past the stream
    assert_eq!(sided(&[[1, 79, 4], [2, 83, 5]], 10), nine); // before its end
                                                            // Places that only fit modulo 2^32.
    let wrap = u32::MAX - 78; // 79 + wrap = 2^32
    assert_eq!(sided(&[[1, 79, wrap], [2, 0, 79]], 0), nine);
    assert_eq!(sided(&[[1, 67, u32::MAX]], 1 << 10), nine);
    let full: Vec<[u32; 3]> = (0..64).map(|i| [3 * i, 55 + 768 + i, 1]).collect();
    assert_eq!(sided(&full, 64), Ok(3));
    let more: Vec<[u32; 3]> = (0..65).map(|i| [3 * i, 55 + 780 + i, 1]).collect();
    assert_eq!(sided(&more, 65), Err((8, 0)));
    // With no chunks the data is empty, and a lone byte of it is a table fault.
    let mut none = vec![0; 48];
    stream::pack::<u32>(8, 0, 0, 32, &[], &mut none).unwrap();
    none.push(0);
    none[44] = 49;
    assert_eq!(stream::check(8, &none), Err(Refusal::bare(9)));
    assert_eq!(plain::check(8, &none), Err(Refusal::bare(9)));
}

#[test]
fn chunk_table_rules() {
    let mut good = [0; 48 + 12 + 65];
    let length = good.len() as u64;
    assert_eq!(stream::pack(8, 0, 0, 32, &[0u32; 2049], &mut good), Ok(length));
    let checked = |starts: [u32; 3]| {
        let mut stream = good;
        for (place, start) in stream[48..60].chunks_exact_mut(4).zip(starts) {
            place.copy_from_slice(&start.to_le_bytes());
        }
        let answer = stream::check(8, &stream);
        assert_eq!(plain::check(8, &stream), answer);
        answer.map_err(|refusal| (refusal.number, refusal.detail))
    };
    let nine = Err((9, 0));
    assert_eq!(checked([0, 32, 64]), Ok(2049));
    assert_eq!(checked([0, 33, 64]), Err((10, 31))); // a byte left over
    assert_eq!(checked([0, 31, 64]), Err((10, 31))); // a byte missing
    assert_eq!(checked([0, 30, 64]), Err((10, 30)));
    assert_eq!(checked([0, 32, 63]), Err((10, 32 + 31)));
    assert_eq!(checked([1, 32, 64]), nine); // the first is not 0
    assert_eq!(checked([0, 0, 64]), nine);
    assert_eq!(checked([0, 32, 32]), nine);
    assert_eq!(checked([0, 64, 32]), nine);
    assert_eq!(checked([0, 32, 65]), nine); // at the data's length
    assert_eq!(checked([0, 32, u32::MAX]), nine);

    // One chunk and no data: its start, 0, is not below the length.
    let header = [1, 8, 8, 32, 0, 0, 1, 1, 48, 52, 0, 52, 0u32];
    let empty: Vec<u8> = header.iter().flat_map(|n| n.to_le_bytes()).collect();
    assert_eq!(stream::check(8, &empty), Err(Refusal::bare(9)));
    assert_eq!(plain::check(8, &empty), Err(Refusal::bare(9)));
}
