//! Summaries that are not there, not alone or not true, and streams with a
//! summary that are damaged elsewhere.

use super::call::Call;
use super::damage::{damage, other_bytes, other_numbers, small_streams, some_sides};
use super::judge::Judge;
use super::outcome::refused;
use super::random::{other_width, some_length, XorShift, WIDTHS};
use super::streams::*;
use super::summaries::*;
use super::Extent;
use crate::numbers::Width;
use crate::stream::HIGHEST_LEVEL;
use crate::Refusal;

// ------------------------------------------------- a stream with parts

/// A field with side parts of low ids, of which one may be the true summary.
struct Sided<'a> {
    field: &'a Field,
    holds: bool,
    stream: Vec<u8>,
}

impl<'a> Sided<'a> {
    fn new(field: &'a Field, sides: &[Side]) -> Sided<'a> {
        let holds = sides.contains(&(SUMMARY_ID, field.part()));
        Sided { field, holds, stream: field.with_parts(sides) }
    }

    /// Tests the summary and lists by it: 17 unless it holds.
    fn compare_truth(&self, judge: &mut Judge, x: u64) {
        let Sided { field, ref stream, .. } = *self;
        let level = HIGHEST_LEVEL;
        judge.compare_known(Call::TestSummary { level, stream }, self.told(field.n()), &[]);
        let listed = field.listed(x);
        let written = if self.holds { &listed[..] } else { &[] };
        let count = listed.len();
        judge.compare_known(self.list(x, count), self.told(count as u64), written);
    }

    /// The same, with a list that has too little room, which is 4 only behind 17;
    /// and adds another summary, which is 16.
    fn compare(&self, judge: &mut Judge, x: u64) {
        self.compare_truth(judge, x);
        if let count @ 1.. = self.field.listed(x).len() {
            let short = refused(Refusal::with_detail(4, count as u64));
            judge.compare_known(self.list(x, count - 1), self.told(short), &[]);
        }
        let (level, stream) = (HIGHEST_LEVEL, &self.stream);
        for room in [0, 2 * stream.len()] {
            let add = Call::AddSummary { level, stream, room };
            judge.compare_known(add, refused(Refusal::bare(16)), &[]);
        }
    }

    fn told(&self, success: u64) -> u64 {
        if self.holds {
            success
        } else {
            refused(Refusal::bare(17))
        }
    }

    fn list(&self, x: u64, room: usize) -> Call<'_> {
        let (width, stream) = (self.field.width, &self.stream);
        Call::ChunksFrom { width, level: HIGHEST_LEVEL, x, stream, room }
    }
}

fn compare_part(judge: &mut Judge, field: &Field, part: Vec<u8>) {
    Sided::new(field, &[(SUMMARY_ID, part)]).compare(judge, 0);
}

// ----------------------------------------------------- false summaries

pub fn falsified(judge: &mut Judge, rng: &mut XorShift, extent: Extent) {
    for setting in settings() {
        for n in [0, 3, 20, 33, 1025, 2100] {
            let patterns = some_chunks(rng, setting, n);
            let field = Field::packed(setting, HIGHEST_LEVEL, patterns);
            entries_altered(judge, rng, extent, &field);
            bits_flipped(judge, rng, extent, &field);
            bytes_moved(judge, &field);
            other_ids(judge, rng, &field);
            other_faults(judge, &field);
        }
    }
}

/// Fewer variants of long streams, which take longer, and of a quick run.
fn one_variant_in(extent: Extent, field: &Field) -> u64 {
    let of_length = if field.n() > VALUES_IN_CHUNK { 6 } else { 1 };
    of_length * if extent == Extent::Quick { 8 } else { 1 }
}

/// Every bit of the part, but for what is left out of long streams.
fn bits_flipped(judge: &mut Judge, rng: &mut XorShift, extent: Extent, field: &Field) {
    let part = field.part();
    for bit in 0..8 * part.len() {
        if rng.chance(one_variant_in(extent, field)) {
            let mut altered = part.clone();
            altered[bit / 8] ^= 1 << (bit % 8);
            Sided::new(field, &[(SUMMARY_ID, altered)]).compare_truth(judge, 0);
        }
    }
}

/// What the entry of a chunk may be taken for.
fn other_entries(width: Width, chunk: &[u64], entry: Entry) -> Vec<Entry> {
    let Entry { not_numbers: count, smallest, largest } = entry;
    let (infinity, sign) = infinity_and_sign(width);
    let all = sign | (sign - 1);
    let counts = [count.wrapping_add(1), count.wrapping_sub(1), 0, u32::MAX, chunk.len() as u32];
    let with_count = |not_numbers| Entry { not_numbers, ..entry };
    let mut others: Vec<Entry> = counts.map(with_count).into();
    others.push(Entry { smallest: largest, largest: smallest, ..entry });
    others.push(Entry { smallest: 0, largest: 0, ..entry });
    others.push(Entry { smallest: infinity, largest: sign | infinity, ..entry });
    let mut patterns = vec![0, sign, infinity, sign | infinity, chunk[0], chunk[chunk.len() - 1]];
    patterns.extend(not_numbers(width));
    for pattern in [smallest, largest] {
        patterns.extend([pattern.wrapping_add(1) & all, pattern.wrapping_sub(1) & all]);
        patterns.push(pattern ^ sign);
    }
    for pattern in patterns {
        others.push(Entry { smallest: pattern, ..entry });
        others.push(Entry { largest: pattern, ..entry });
    }
    others
}

/// Each entry taken for another, entries exchanged, left out and put in.
fn entries_altered(judge: &mut Judge, rng: &mut XorShift, extent: Extent, field: &Field) {
    let (width, entries) = (field.width, field.entries());
    let mut compare = |entries: &[Entry]| compare_part(judge, field, part_of(width, entries));
    compare(&entries);
    for (number, chunk) in field.chunks().enumerate() {
        for other in other_entries(width, chunk, entries[number]) {
            if rng.chance(one_variant_in(extent, field)) {
                let mut altered = entries.clone();
                altered[number] = other;
                compare(&altered);
            }
        }
        let mut exchanged = entries.clone();
        exchanged.swap(number, (number + 1) % entries.len());
        compare(&exchanged);
        let mut longer = entries.clone();
        longer.insert(number, entries[number]);
        compare(&longer);
        longer.drain(number..number + 2);
        compare(&longer);
    }
    let none = Entry { not_numbers: 0, smallest: 0, largest: 0 };
    compare(&[&entries[..], &[none]].concat());
    compare(&[&[none], &entries[..]].concat());
    compare(&vec![none; entries.len()]);
}

/// Bytes missing, left over or in another order, and entries of other sizes.
fn bytes_moved(judge: &mut Judge, field: &Field) {
    let (width, part, entries) = (field.width, field.part(), field.entries());
    let mut parts = vec![
        vec![],
        vec![0],
        [&part[..], &[0]].concat(),
        [&[0], &part[..]].concat(),
        [&part[..], &[0; 4]].concat(),
        part.repeat(2),
        part.iter().rev().copied().collect(),
        part_of(other_width(width), &entries),
    ];
    if !part.is_empty() {
        parts.push(part[1..].to_vec());
        parts.push(part[..part.len() - 1].to_vec());
        parts.push([&part[1..], &part[..1]].concat());
    }
    for part in parts {
        compare_part(judge, field, part);
    }
}

/// The true summary and a false one under ids that are, and are not, theirs,
/// among other parts; and no part at all.
fn other_ids(judge: &mut Judge, rng: &mut XorShift, field: &Field) {
    let (part, last) = (field.part(), FIRST_HIGH_ID - 1);
    let wrong = [&part[..], &[0]].concat();
    let side = |id: u32, bytes: &[u8]| (id, bytes.to_vec());
    let lists: [Vec<Side>; 13] = [
        vec![side(0, &part)],
        vec![side(2, &part)],
        vec![side(256 + 1, &part)],
        vec![side(last, &part)],
        vec![side(0, &part), side(2, &part)],
        vec![side(0, &part), side(1, &wrong), side(2, &part)],
        vec![side(0, &[]), side(1, &part)],
        vec![side(0, &wrong), side(1, &part)],
        vec![side(1, &part), side(2, &wrong)],
        vec![side(1, &part), side(77, &[1, 2, 3]), side(last, &[])],
        vec![side(0, &[9; 5]), side(1, &part), side(2, &[]), side(77, &part)],
        (0..64).map(|id| side(id, if id == 1 { &part } else { &[] })).collect(),
        (1..65).map(|id| side(id, if id == 1 { &part } else { &[7] })).collect(),
    ];
    for sides in lists {
        Sided::new(field, &sides).compare(judge, some_extreme(rng, field));
    }
    Sided::new(field, &[]).compare_truth(judge, 0);
}

/// The smallest or the largest value of some chunk, or 0 where there is none.
fn some_extreme(rng: &mut XorShift, field: &Field) -> u64 {
    match field.entries()[..] {
        [] => 0,
        ref entries => {
            let entry = rng.one_of(entries);
            rng.one_of(&[entry.smallest, entry.largest])
        }
    }
}

// ----------------------------------------- faults beside the summary's

/// A summary that is true, false, too short or not there, in a stream with
/// another fault: an id that must be understood, with its need or without, bytes
/// behind the last part, or a bad chunk. Each is refused before 16 and 17.
fn other_faults(judge: &mut Judge, field: &Field) {
    let part = field.part();
    let mut wrong = part.clone();
    wrong.iter_mut().take(1).for_each(|byte| *byte ^= 1);
    let summaries =
        [vec![(SUMMARY_ID, part)], vec![(SUMMARY_ID, wrong)], vec![(SUMMARY_ID, vec![0])], vec![]];
    for sides in summaries {
        let high: Vec<Side> = [&sides[..], &[(FIRST_HIGH_ID + 3, vec![1])]].concat();
        let understood = field.with_parts(&high);
        let id = Refusal::with_detail(15, FIRST_HIGH_ID as u64 + 3);
        compare_fault(judge, field.width, &understood, id);
        let needed = number_at(&field.plain, NEEDED).unwrap_or(0);
        if needed < NEED_OF_HIGH_ID {
            let need_kept = with(&understood, &[(NEEDED, needed)]);
            compare_fault(judge, field.width, &need_kept, Refusal::bare(8));
        }
        let sided = field.with_parts(&sides);
        compare_fault(judge, field.width, &[&sided[..], &[0]].concat(), Refusal::bare(9));
        if field.n() > 0 {
            let mut bad = sided;
            let place = number_at(&bad, DATA_PLACE).unwrap_or(0) as usize;
            bad[place] = 255; // too wide
            compare_fault(judge, field.width, &bad, Refusal::with_detail(10, 0));
        }
    }
}

/// A stream whose fault stands behind the header and before 16 and 17; before it
/// stand the other width, an x that is a not-a-number, and the level.
fn compare_fault(judge: &mut Judge, width: Width, stream: &[u8], fault: Refusal) {
    let (level, room) = (HIGHEST_LEVEL, 0);
    judge.compare_known(Call::AddSummary { level, stream, room }, refused(fault), &[]);
    judge.compare_known(Call::TestSummary { level, stream }, refused(fault), &[]);
    let other = other_width(width);
    for (level, asked, not_a_number, refusal) in [
        (level, width, false, fault),
        (level, other, false, Refusal::bare(14)),
        (level, width, true, Refusal::bare(2)),
        (level, other, true, Refusal::bare(2)),
        (level + 1, width, true, Refusal::bare(1)),
    ] {
        let x = if not_a_number { not_numbers(asked)[0] } else { 0 };
        let list = Call::ChunksFrom { width: asked, level, x, stream, room };
        judge.compare_known(list, refused(refusal), &[]);
    }
}

// ----------------------------------------------------- damaged streams

/// Sound streams of some hundred bytes, every byte and every header number of
/// them altered, cut and made longer; and random damage to any stream.
pub fn damaged(judge: &mut Judge, rng: &mut XorShift, extent: Extent) {
    for stream in small_streams() {
        if number_at(&stream, SIDES) == Some(0) {
            let field = Field::of_stream(stream);
            header_numbers(judge, rng, extent, &field);
            bytes_altered(judge, rng, extent, &field);
            cuts_and_additions(judge, &field);
        }
    }
    for _ in 0..extent.rounds(5000) {
        random_damage(judge, rng);
    }
}

/// More than the chunks of any stream here.
const ROOM_OF_LIST: usize = 8;

fn add(judge: &mut Judge, level: u32, stream: &[u8]) {
    judge.compare(Call::AddSummary { level, stream, room: stream.len() + 100 });
}

/// Tests the summary, and lists by it at the width that is stated.
fn test_and_list(judge: &mut Judge, level: u32, stream: &[u8]) {
    judge.compare(Call::TestSummary { level, stream });
    let stated = number_at(stream, WIDTH).and_then(Width::numbered);
    let width = stated.unwrap_or(WIDTHS[0]);
    judge.compare(Call::ChunksFrom { width, level, x: 0, stream, room: ROOM_OF_LIST });
}

fn header_numbers(judge: &mut Judge, rng: &mut XorShift, extent: Extent, field: &Field) {
    let one_in = if extent == Extent::Quick { 10 } else { 1 };
    let copy = field.with_summary();
    for order in MAJOR..=DATA_END {
        for number in other_numbers(&copy, order).into_iter().filter(|_| rng.chance(one_in)) {
            add(judge, HIGHEST_LEVEL, &with(&field.plain, &[(order, number)]));
            test_and_list(judge, HIGHEST_LEVEL, &with(&copy, &[(order, number)]));
        }
    }
}

fn bytes_altered(judge: &mut Judge, rng: &mut XorShift, extent: Extent, field: &Field) {
    let mut altered = |stream: Vec<u8>, then: fn(&mut Judge, u32, &[u8])| {
        for place in HEADER_BYTES..stream.len() {
            for other in other_bytes(rng, stream[place], extent) {
                let mut stream = stream.clone();
                stream[place] = other;
                then(judge, HIGHEST_LEVEL, &stream);
            }
        }
    };
    altered(field.plain.clone(), add);
    altered(field.with_summary(), test_and_list);
}

fn cuts_and_additions(judge: &mut Judge, field: &Field) {
    let copy = field.with_summary();
    for cut in (0..HEADER_BYTES).step_by(5).chain(HEADER_BYTES..copy.len()) {
        test_and_list(judge, HIGHEST_LEVEL, &copy[..cut]);
        // Behind the data of the copy lies what is no part of the plain stream.
        add(judge, HIGHEST_LEVEL, &with(&copy[..cut], &[(SIDES, 0)]));
    }
    for added in [1, 4, 12, 24] {
        for stream in [&copy, &field.plain] {
            let longer = [&stream[..], &vec![0; added]].concat();
            test_and_list(judge, HIGHEST_LEVEL, &longer);
            add(judge, HIGHEST_LEVEL, &longer);
        }
    }
}

/// A stream of any kind, with a summary, with other parts or with both, damaged
/// once or not at all.
fn random_damage(judge: &mut Judge, rng: &mut XorShift) {
    let (setting, n) = (rng.one_of(&settings()), some_length(rng));
    let patterns = some_chunks(rng, setting, n);
    let field = Field::packed(setting, HIGHEST_LEVEL, patterns);
    let mut sides = if rng.chance(3) { some_sides(rng) } else { vec![] };
    if rng.chance(2) {
        sides.retain(|(id, _)| *id != SUMMARY_ID);
        sides.truncate(63);
        let place = sides.partition_point(|(id, _)| *id < SUMMARY_ID);
        sides.insert(place, (SUMMARY_ID, field.part()));
    }
    let mut stream = field.with_parts(&sides);
    if !rng.chance(4) {
        damage(rng, &mut stream);
    }
    let level = rng.one_of(&[14, 14, 14, 14, 14, 13, 12, 11, 10, 9, 8, 7, 15]);
    add(judge, level, &stream);
    judge.compare(Call::TestSummary { level, stream: &stream });
    for width in WIDTHS {
        let x = some_value(rng, &field, width);
        let room = rng.one_of(&[0, 1, 2, 3, 4, 4]);
        judge.compare(Call::ChunksFrom { width, level, x, stream: &stream, room });
    }
}

/// A pattern of the field, where it has the width, and else any.
fn some_value(rng: &mut XorShift, field: &Field, width: Width) -> u64 {
    if width == field.width && field.n() > 0 {
        rng.one_of(&field.patterns)
    } else {
        rng.next() >> (64 - width.bits())
    }
}

// ------------------------------------------------------------ listings

/// Streams with a true summary, a false one, and one among other parts: a listing
/// tells none of these from other side parts.
pub fn streams_with_summary(rng: &mut XorShift) -> Vec<Vec<u8>> {
    let mut streams = Vec::new();
    for setting in settings() {
        for n in [0, 3, 1025] {
            let patterns = some_chunks(rng, setting, n);
            let field = Field::packed(setting, HIGHEST_LEVEL, patterns);
            let part = field.part();
            streams.push(field.with_summary());
            streams.push(field.with_parts(&[(SUMMARY_ID, vec![0; part.len() + 1])]));
            streams.push(field.with_parts(&[(0, vec![1]), (SUMMARY_ID, part), (77, vec![])]));
        }
    }
    streams
}
