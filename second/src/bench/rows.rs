//! One row of the benchmark: a field at one width, mode, group size and rule for halves,
//! every operation of each version, memcpy and the other compressors. Results are verified
//! before anything is timed.

use super::codec::{most_bytes, tuned_codec, Codec, Setting, Value};
use super::fields::Sample;
use super::others::{lost, Lost, Other};
use super::timing::{timed, Contender, Operation, Space, Timing, Watch, Who};
use crate::compare::random::XorShift;

/// Probes of one timed run.
pub const PROBES: usize = 256;

/// The lent outputs hold these before anything is written.
const MARK: u8 = 0xA5;

pub struct Row {
    pub width: u32,
    pub mode: u32,
    pub group: u32,
    /// The rule for halves, as the tables call it.
    pub halves: &'static str,
    pub field: String,
    /// How many values the field has.
    pub n: usize,
    pub sizes: Vec<(Who, usize)>,
    /// How many values the other compressors do not bring back bit for bit or,
    /// if finite, in mode 1 within the tolerance.
    pub losses: Vec<(Who, usize)>,
    pub timings: Vec<Timing>,
}

/// What a row works on.
struct Case<'a, P> {
    setting: Setting,
    values: &'a [P],
    stream: Vec<u8>,
    /// What the stream's values are.
    restored: Vec<P>,
    places: Vec<u64>,
}

/// Another compressor, and what it made of the values.
struct Rival<'a, P> {
    other: &'a Other<P>,
    packed: Vec<u8>,
}

pub fn measure<P: Value>(
    sample: &Sample<P>,
    setting: Setting,
    codecs: &[Codec<P>],
    others: &[Other<P>],
    watch: Watch,
) -> Row {
    let (case, n) = (case_of(&sample.values, setting), sample.values.len());
    let mut space = Space { bytes: vec![MARK; most_bytes::<P>(n)], values: vec![P::default(); n] };
    for codec in codecs {
        verify(&case, codec, &mut space);
    }
    let rivals = rivals_of(&case, others);
    let room = rivals.iter().map(|rival| (rival.other.room)(size_of_val(case.values))).max();
    space.bytes.resize(room.unwrap_or(0).max(space.bytes.len()), MARK);

    let mut contenders = vec![copy(&case)];
    contenders.extend(codecs.iter().flat_map(|codec| contenders_of(&case, codec)));
    contenders.extend(rivals.iter().flat_map(|rival| contenders_of_rival(&case, rival)));
    let own = codecs.iter().map(|codec| (codec.who, case.stream.len()));
    let foreign = rivals.iter().map(|rival| (rival.other.who, rival.packed.len()));
    Row {
        width: P::W,
        mode: setting.mode,
        group: setting.group,
        halves: setting.halves(),
        field: sample.name.clone(),
        n,
        sizes: own.chain(foreign).collect(),
        losses: rivals.iter().map(|rival| (rival.other.who, count_lost(&case, rival))).collect(),
        timings: timed(&contenders, &mut space, watch),
    }
}

/// What the tuned version makes of the values; the others must do the same.
fn case_of<P: Value>(values: &[P], setting: Setting) -> Case<'_, P> {
    let (tuned, n) = (tuned_codec(), values.len());
    let mut stream = vec![0; most_bytes::<P>(n)];
    let length = (tuned.pack)(setting, values, &mut stream);
    stream.truncate(length as usize);
    let mut restored = vec![P::default(); n];
    (tuned.unpack)(&stream, &mut restored);
    let lost = lost(setting, values, &restored);
    assert!(lost == Lost::default(), "{}: {lost:?}", tuned.who.name());
    let mut rng = XorShift::seeded(1, 6);
    let places = (0..PROBES).map(|_| rng.below(n as u64)).collect();
    Case { setting, values, stream, restored, places }
}

/// Every operation gives what it must, the streams byte for byte the same.
fn verify<P: Value>(case: &Case<P>, codec: &Codec<P>, space: &mut Space<P>) {
    let (name, stream, length) = (codec.who.name(), &case.stream, case.stream.len());
    let n = case.values.len();
    for room in [most_bytes::<P>(n), length] {
        space.bytes.fill(MARK);
        let answer = (codec.pack)(case.setting, case.values, &mut space.bytes[..room]);
        assert!(answer == length as u64, "{name}: pack answers {answer}, not {length}");
        assert!(space.bytes[..length] == stream[..], "{name}: another stream");
        assert!(space.bytes[length..].iter().all(|&byte| byte == MARK), "{name}: bytes altered");
    }
    assert!((codec.length)(case.setting, case.values) == length as u64, "{name}: length");
    assert!((codec.check)(stream) == n as u64, "{name}: check");
    space.values.fill(P::default());
    assert!((codec.unpack)(stream, &mut space.values) == n as u64, "{name}: unpack");
    assert!(space.values == case.restored, "{name}: other values");
    for &place in &case.places {
        let (mut pattern, restored) = (P::default(), case.restored[place as usize]);
        let kind = (codec.probe)(stream, place, &mut pattern);
        assert!(kind == restored.kind() && pattern == restored, "{name}: probe {place}");
    }
}

fn rivals_of<'a, P: Value>(case: &Case<P>, others: &'a [Other<P>]) -> Vec<Rival<'a, P>> {
    let others = others.iter().filter(|other| other.runs_beside(case.setting));
    others.map(|other| Rival { other, packed: other.packed(case.setting, case.values) }).collect()
}

/// How many values do not come back.
fn count_lost<P: Value>(case: &Case<P>, rival: &Rival<P>) -> usize {
    let restored = rival.other.restored(case.setting, &rival.packed, case.values.len());
    lost(case.setting, case.values, &restored).total()
}

fn contenders_of<'a, P: Value>(case: &'a Case<P>, codec: &Codec<P>) -> Vec<Contender<'a, P>> {
    let mut contenders = Vec::from(writers_of(case, codec));
    if case.setting.is_read() {
        contenders.extend(readers_of(case, codec));
    }
    contenders
}

fn writers_of<'a, P: Value>(case: &'a Case<P>, codec: &Codec<P>) -> [Contender<'a, P>; 3] {
    let Case { setting, values, stream, .. } = case;
    let Codec { who, pack, length, .. } = *codec;
    [
        Contender::new(who, Operation::Pack, move |space: &mut Space<P>| {
            pack(*setting, values, &mut space.bytes)
        }),
        Contender::new(who, Operation::PackExact, move |space: &mut Space<P>| {
            pack(*setting, values, &mut space.bytes[..stream.len()])
        }),
        Contender::new(who, Operation::Length, move |_: &mut Space<P>| length(*setting, values)),
    ]
}

fn readers_of<'a, P: Value>(case: &'a Case<P>, codec: &Codec<P>) -> [Contender<'a, P>; 3] {
    let Case { stream, places, .. } = case;
    let Codec { who, check, unpack, probe, .. } = *codec;
    [
        Contender::new(who, Operation::Check, move |_: &mut Space<P>| check(stream)),
        Contender::new(who, Operation::Unpack, move |space: &mut Space<P>| {
            unpack(stream, &mut space.values)
        }),
        Contender::new(who, Operation::Probe, move |space: &mut Space<P>| {
            places.iter().map(|&place| probe(stream, place, &mut space.values[0])).sum()
        }),
    ]
}

fn copy<'a, P: Value>(case: &'a Case<P>) -> Contender<'a, P> {
    Contender::new(Who::Memcpy, Operation::Copy, |space: &mut Space<P>| {
        space.values.copy_from_slice(case.values);
        0
    })
}

fn contenders_of_rival<'a, P: Value>(
    case: &'a Case<P>,
    rival: &'a Rival<P>,
) -> [Contender<'a, P>; 2] {
    let other = rival.other;
    [
        Contender::new(other.who, Operation::Pack, |space: &mut Space<P>| {
            (other.pack)(case.setting, case.values, &mut space.bytes) as u64
        }),
        Contender::new(other.who, Operation::Unpack, |space: &mut Space<P>| {
            (other.unpack)(case.setting, &rival.packed, &mut space.values) as u64
        }),
    ]
}
