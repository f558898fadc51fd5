//! Time per value against the length of the list. The smooth field is cut into
//! lists of one length, and all of them are packed or unpacked, so that every
//! length works on the same values and as much memory.

use super::codec::{most_bytes, tuned_codec, Codec, Setting, Value};
use super::fields::{Field, VALUES};
use super::timing::{timed, Contender, Operation, Space, Timing, Watch};
use std::ops::Range;

pub const LENGTHS: [usize; 6] = [1 << 10, 1 << 12, 1 << 14, 1 << 16, 1 << 18, 1 << 20];

pub struct Growth {
    pub width: u32,
    pub mode: u32,
    pub group: u32,
    /// For each of the lengths, the timings of the whole field.
    pub by_length: Vec<Vec<Timing>>,
}

/// The field's lists of one length, packed one after the other.
struct Lists<'a, P> {
    setting: Setting,
    length: usize,
    values: &'a [P],
    streams: Vec<u8>,
    places: Vec<Range<usize>>,
}

pub fn measure<P: Value>(setting: Setting, ours: &Codec<P>, watch: Watch) -> Growth {
    let tuned = tuned_codec();
    let values: Vec<P> = Field::Smooth.values();
    let lists: Vec<_> =
        LENGTHS.iter().map(|&length| lists_of(setting, length, &values, &tuned)).collect();
    let room = LENGTHS.iter().map(|&length| VALUES / length * most_bytes::<P>(length)).max();
    let mut space = Space { bytes: vec![1; room.unwrap_or(0)], values: vec![P::default(); VALUES] };
    let mut contenders = Vec::new();
    for lists in &lists {
        verify(lists, ours, &mut space.bytes);
        contenders.extend(contenders_of(lists, ours));
        contenders.extend(contenders_of(lists, &tuned));
    }
    let timings = timed(&contenders, &mut space, watch);
    let by_length = timings.chunks(contenders.len() / LENGTHS.len()).map(<[_]>::to_vec).collect();
    Growth { width: P::W, mode: setting.mode, group: setting.group, by_length }
}

fn lists_of<'a, P: Value>(
    setting: Setting,
    length: usize,
    values: &'a [P],
    tuned: &Codec<P>,
) -> Lists<'a, P> {
    let mut lists = Lists { setting, length, values, streams: Vec::new(), places: Vec::new() };
    let mut packed = vec![0; most_bytes::<P>(length)];
    for list in values.chunks(length) {
        let used = (tuned.pack)(setting, list, &mut packed) as usize;
        let start = lists.streams.len();
        lists.streams.extend(&packed[..used]);
        lists.places.push(start..start + used);
    }
    lists
}

/// Every list becomes the same stream.
fn verify<P: Value>(lists: &Lists<P>, codec: &Codec<P>, room: &mut [u8]) {
    for (list, place) in lists.values.chunks(lists.length).zip(&lists.places) {
        let used = (codec.pack)(lists.setting, list, room);
        assert!(used == place.len() as u64, "{}: pack answers {used}", codec.who.name());
        assert!(room[..place.len()] == lists.streams[place.clone()], "another stream");
    }
}

fn contenders_of<'a, P: Value>(lists: &'a Lists<P>, codec: &Codec<P>) -> [Contender<'a, P>; 2] {
    let Codec { who, pack, unpack, .. } = *codec;
    let Lists { setting, length, values, streams, places } = lists;
    [
        Contender::new(who, Operation::Pack, move |space: &mut Space<P>| {
            let rooms = space.bytes.chunks_mut(most_bytes::<P>(*length));
            values.chunks(*length).zip(rooms).map(|(list, room)| pack(*setting, list, room)).sum()
        }),
        Contender::new(who, Operation::Unpack, move |space: &mut Space<P>| {
            let rooms = space.values.chunks_mut(*length);
            let streams = places.iter().map(|place| &streams[place.clone()]);
            streams.zip(rooms).map(|(stream, room)| unpack(stream, room)).sum()
        }),
    ]
}
