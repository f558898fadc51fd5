//! The need of a stream, and the ids that must be understood: needs, levels,
//! side parts, tables and chunks, right and wrong, in every combination, with
//! the answer that each must have.

use super::call::Call;
use super::judge::Judge;
use super::outcome::{answered, refused};
use super::random::{XorShift, WIDTHS};
use super::streams::*;
use super::tables::{sided, sound_entries, Entry};
use super::Extent;
use crate::numbers::Width;
use crate::stream::HIGHEST_LEVEL;
use crate::Refusal;

pub fn needs(judge: &mut Judge, rng: &mut XorShift, extent: Extent) {
    let one_in = if extent == Extent::Quick { 10 } else { 1 };
    for setting in every_setting() {
        for ids in IDS {
            let bases = bases_of(setting, ids);
            let cases = [near_cases(&bases), far_cases(rng, &bases)].concat();
            for case in cases {
                if rng.chance(one_in) {
                    case.compare(judge, rng);
                }
            }
        }
    }
}

// ------------------------------------------------------------- streams

/// The ids of the side parts: none; some that may be skipped; after those the
/// first that may not, or several; high ones alone; and the last there is.
const IDS: [&[u32]; 6] = [
    &[],
    &[0, 5, FIRST_HIGH_ID - 1],
    &[FIRST_HIGH_ID - 1, FIRST_HIGH_ID],
    &[1, FIRST_HIGH_ID + 5, FIRST_HIGH_ID + 6, u32::MAX],
    &[FIRST_HIGH_ID, FIRST_HIGH_ID + 1],
    &[u32::MAX],
];

/// The lengths of the parts, of which there are at most four.
const LENGTHS: [u32; 4] = [3, 0, 1, 0];

/// The tables of a stream of one chunk, and the bytes behind them.
#[derive(Clone)]
struct Tables {
    start: u32,
    entries: Vec<Entry>,
    bytes: usize,
}

/// What breaks a rule of the tables, and how many side parts it takes.
type TableFault = (usize, fn(&mut Tables));

const TABLE_FAULTS: [TableFault; 6] = [
    (0, |tables| tables.start = 1),
    // Bytes behind the last part, and a part that runs past the end.
    (0, |tables| tables.bytes += 1),
    (1, |tables| tables.bytes -= 1),
    (1, |tables| tables.entries[0][1] += 1), // its place
    // Ids that stand still, and that fall.
    (2, |tables| tables.entries[1][0] = tables.entries[0][0]),
    (2, |tables| {
        let [first, second] = [0, 1].map(|entry| tables.entries[entry][0]);
        (tables.entries[0][0], tables.entries[1][0]) = (second, first);
    }),
];

/// Two groups, the second one of one value, and the same with that one too wide.
const SOUND_CHUNK: [u8; 3] = [0, 1, 1];
const BAD_CHUNK: [u8; 3] = [0, 65, 1];
const BAD_GROUP: u64 = 1;

/// A stream of which all but the two minors is settled.
struct Base {
    setting: Setting,
    sided: bool,
    high_id: Option<u32>,
    tables_hold: bool,
    chunk_holds: bool,
    stream: Vec<u8>,
}

/// The streams of some ids, with each fault of the tables and of the chunk; the
/// first has none.
fn bases_of(setting: Setting, ids: &[u32]) -> Vec<Base> {
    let high_id = ids.iter().copied().find(|&id| id >= FIRST_HIGH_ID);
    let mut bases = Vec::new();
    for (chunk, chunk_holds) in [(SOUND_CHUNK, true), (BAD_CHUNK, false)] {
        let plain = stream_without_sides(setting, &chunk);
        let sound = sound_tables(plain.len(), ids);
        let mut add = |tables: &Tables, tables_hold| {
            let stream = with_tables(&plain, tables);
            let sided = !ids.is_empty();
            bases.push(Base { setting, sided, high_id, tables_hold, chunk_holds, stream });
        };
        add(&sound, true);
        for (_, alter) in TABLE_FAULTS.iter().filter(|(sides, _)| *sides <= ids.len()) {
            let mut tables = sound.clone();
            alter(&mut tables);
            add(&tables, false);
        }
    }
    bases
}

fn stream_without_sides(setting: Setting, chunk: &[u8]) -> Vec<u8> {
    Draft { setting, n: setting.group + 1, chunks: vec![chunk.to_vec()], sides: vec![] }.stream()
}

fn sound_tables(side_table: usize, ids: &[u32]) -> Tables {
    let lengths = &LENGTHS[..ids.len()];
    let entries = sound_entries(side_table, ids.iter().copied(), lengths);
    Tables { start: 0, entries, bytes: lengths.iter().sum::<u32>() as usize }
}

fn with_tables(plain: &[u8], tables: &Tables) -> Vec<u8> {
    sided(&with(plain, &[(STARTS, tables.start)]), &tables.entries, tables.bytes)
}

impl Base {
    /// What the stream needs.
    fn need(&self) -> u32 {
        let of_setting = self.setting.need();
        self.high_id.map_or(of_setting, |_| of_setting.max(NEED_OF_HIGH_ID))
    }

    fn with_minors(&self, written: u32, needed: u32) -> Vec<u8> {
        with(&self.stream, &[(WRITTEN, written), (NEEDED, needed)])
    }
}

// --------------------------------------------------------------- cases

/// A stream with its minors, and the level it is read at.
#[derive(Clone, Copy)]
struct Case<'a> {
    base: &'a Base,
    written: u32,
    needed: u32,
    level: u32,
}

/// Each of the streams at every known level, with every need from one below
/// them to one above.
fn near_cases(bases: &[Base]) -> Vec<Case<'_>> {
    let mut cases = Vec::new();
    for base in bases {
        for needed in near_needs() {
            for written in written_minors(needed) {
                cases.extend(LEVELS.map(|level| Case { base, written, needed, level }));
            }
        }
    }
    cases
}

fn near_needs() -> impl Iterator<Item = u32> {
    7..=HIGHEST_LEVEL + 1
}

/// At every other level and need up to 20, and some that are near only by their
/// lowest digits, bits or bytes: one of the streams whose tables hold, and one of
/// the others.
fn far_cases<'a>(rng: &mut XorShift, bases: &'a [Base]) -> Vec<Case<'a>> {
    let numbers = || (0..=20).chain([112, 256 + 12, (1 << 31) + 12, u32::MAX]);
    let halves = [true, false].map(|hold| of_tables(bases, hold));
    let mut cases = Vec::new();
    for needed in numbers() {
        let near = near_needs().any(|near| near == needed);
        for level in numbers().filter(|level| !near || !LEVELS.contains(level)) {
            for half in &halves {
                let (base, written) = (rng.one_of(half), rng.one_of(&written_minors(needed)));
                cases.push(Case { base, written, needed, level });
            }
        }
    }
    cases
}

fn of_tables(bases: &[Base], hold: bool) -> Vec<&Base> {
    bases.iter().filter(|base| base.tables_hold == hold).collect()
}

/// The highest level, or a later minor if that is needed; the need; one below.
fn written_minors(needed: u32) -> [u32; 3] {
    [needed.max(HIGHEST_LEVEL), needed, needed.saturating_sub(1)]
}

impl Case<'_> {
    /// Puts the stream to check, and to one of each other kind of reader, with or
    /// without a fault of the call's own: the other width, too little room, an index
    /// that is too large.
    fn compare(&self, judge: &mut Judge, rng: &mut XorShift) {
        let Case { base, written, needed, level } = *self;
        let (stream, n) = (&base.with_minors(written, needed), base.setting.group as u64 + 1);
        let answer = |own: Option<Refusal>, success: u64| {
            let refusal = self.header_refusal().or(own).or(self.later_refusal());
            answered(refusal.map_or(Ok(success), Err))
        };
        judge.compare_known(Call::Check { level, stream }, answer(None, n), &[]);
        let other_of = |width: Width| (width != base.setting.width).then_some(Refusal::bare(14));

        let (width, short) = (rng.one_of(&WIDTHS), rng.below(2));
        let own = other_of(width).or((short == 1).then_some(Refusal::with_detail(4, n)));
        let unpack = Call::Unpack { width, level, stream, room: (n - short) as usize };
        judge.compare_known(unpack, answer(own, n), &[]);

        let (width, index) = (rng.one_of(&WIDTHS), rng.one_of(&[0, n]));
        let own = other_of(width).or((index == n).then_some(Refusal::bare(11)));
        let probe = Call::Probe { width, level, stream, index };
        judge.compare_known(probe, answer(own, 0), &[]);
        self.compare_summary(judge, rng, stream);
    }

    /// Puts the stream to one of the operations of a summary: it has none, and for
    /// one to be added there is no room.
    fn compare_summary(&self, judge: &mut Judge, rng: &mut XorShift, stream: &[u8]) {
        let Case { base: Base { setting, sided, .. }, level, .. } = *self;
        let refusal = |own: Option<Refusal>, last: Refusal| {
            let met = self.header_refusal().or(own).or(self.later_refusal());
            refused(met.unwrap_or(last))
        };
        let (no_summary, room) = (Refusal::bare(17), 0);
        match rng.below(3) {
            0 => {
                let part = 4 + setting.width.bits() as usize / 4; // the entry of one chunk
                let short = Refusal::with_detail(4, (stream.len() + 12 + part) as u64);
                let last = if *sided { Refusal::bare(16) } else { short };
                let add = Call::AddSummary { level, stream, room };
                judge.compare_known(add, refusal(None, last), &[]);
            }
            1 => {
                let test = Call::TestSummary { level, stream };
                judge.compare_known(test, refusal(None, no_summary), &[]);
            }
            _ => {
                let width = rng.one_of(&WIDTHS);
                let other = (width != setting.width).then_some(Refusal::bare(14));
                let list = Call::ChunksFrom { width, level, x: 0, stream, room };
                judge.compare_known(list, refusal(other, no_summary), &[]);
            }
        }
    }

    /// Refusals 1 7 8.
    fn header_refusal(&self) -> Option<Refusal> {
        let Case { base: Base { setting, .. }, written, needed, level } = *self;
        if !LEVELS.contains(&level) {
            Some(Refusal::bare(1))
        } else if needed > level {
            Some(Refusal::with_detail(7, needed as u64))
        } else if needed < setting.need() || written < needed {
            Some(Refusal::bare(8))
        } else {
            None
        }
    }

    /// Refusals 9 8 15 10.
    fn later_refusal(&self) -> Option<Refusal> {
        let base = self.base;
        if !base.tables_hold {
            Some(Refusal::bare(9))
        } else if self.needed != base.need() {
            Some(Refusal::bare(8))
        } else if let Some(id) = base.high_id {
            Some(Refusal::with_detail(15, id as u64))
        } else {
            (!base.chunk_holds).then_some(Refusal::with_detail(10, BAD_GROUP))
        }
    }
}

// ------------------------------------------------------------ listings

/// Each of the streams with the right need, and those without another fault
/// with every need around the levels.
pub fn streams_with_needs() -> Vec<Vec<u8>> {
    let mut streams = Vec::new();
    for setting in every_setting() {
        for bases in IDS.map(|ids| bases_of(setting, ids)) {
            let right = bases.iter().map(|base| (base, base.need()));
            let any = near_needs().map(|needed| (&bases[0], needed));
            let needing = right.chain(any);
            streams.extend(needing.map(|(base, needed)| base.with_minors(HIGHEST_LEVEL, needed)));
        }
    }
    streams
}
